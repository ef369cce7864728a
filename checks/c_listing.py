"""What the program prints of an image, as far as the library's answers about it say that: the lines of c_library.c."""
import re

from c_answers import NO_DIGEST, NO_PLATFORM, NUMBERS, OK, RULES
from listing import PLATFORM_KINDS
from records import PAGE, PARAMETERS, TYPES

WORDS = {"Policy": "policy", "Area": "area", "Required": "required", "ErrorRange": "error-range", "IdBlock": "id-block"}


class Told:
    """The library's answers about a file."""

    def __init__(self, lines):
        self.answers = {}
        for text in lines:
            word, status, *rest = text.split()
            self.answers.setdefault(word, []).append((int(status), rest) if status.isdecimal() else (None, rest))
        (self.status, rest), = self.answers["check"]
        self.fault = rest if self.status == 1 else None
        self.kinds = [PLATFORM_KINDS[int(rest[5])] for status, rest in self.answers["platform"] if status == OK]

    def refusal(self):
        """Status, output and error on a file that is refused."""
        at, rule, number = map(int, self.fault)
        text = list(RULES.values())[rule - 1]
        named = {"UnknownType": f"{number:08x}", "Flags": str(number)}
        named = next((spelled for name, spelled in named.items() if NUMBERS[name] == rule), "")
        return 1, "", f"igvm: file refused at {at}: {text}{named}\n"

    def measured(self, word, platform, options):
        """Status, output and error of a measurement of the platform of this number."""
        if self.fault:
            return self.refusal()
        asked = [str(platform)] + ([str(options)] if word == "measure" else [])
        status, answer = next((status, rest[len(asked):]) for status, rest in self.answers[word]
                              if rest[:len(asked)] == asked)
        errors = {NO_PLATFORM: f"igvm: no platform {platform}\n"}
        if status == NO_DIGEST:
            errors[NO_DIGEST] = f"igvm: no digest for {self.kinds[platform]}\n"
        return (0, answer[0] + "\n", "") if status == OK else (6, "", errors[status])

    def measured_first(self, word, kind):
        """The same of the first platform of this kind, as `snp`."""
        asked = str(PLATFORM_KINDS.index(kind))
        status, answer = next((status, rest[1]) for status, rest in self.answers["first"] if rest[0] == asked)
        return self.measured(word, int(answer), 0) if status == OK else (6, "", f"igvm: no platform {kind}\n")

    def headers(self):
        """(what was asked for, the answer's words) of each header, in the order of their numbers."""
        found = [(int(rest[0]), rest[1:]) for status, rest in self.answers["header"] if status == OK]
        return {answer[0]: (asked, answer) for asked, answer in found}.values()

    def runs(self):
        """The pages by the header's offset that was asked for: GPA, how many, where their bytes are and how many."""
        return {int(rest[0]): rest[2::2] for status, rest in self.answers["pages"] if status == OK}

    def rows(self):
        """A pattern for each header's line."""
        runs, platforms = self.runs(), (rest for status, rest in self.answers["platform"] if status == OK)
        for asked, (number, _, at, _, _, _, length, _, _, _, kind) in self.headers():
            yield f"{number} at {at} {self.row(int(kind, 16), length, runs.get(asked), platforms)}"

    def row(self, kind, length, run, platforms):
        name = "Carried" if kind >= 0x80000000 else TYPES[kind][0]
        if name == "Platform":
            _, number, *fields = next(platforms)
            fields[3] = PLATFORM_KINDS[int(fields[3])]
            return f"platform {number} {' '.join(fields)}"
        if name in ("Page", "Insert", "Context"):
            gpa, count, data_at, _ = run
            behind = {"Page": f" from {data_at} size {int(count) * PAGE} .*", "Context": f" from {data_at} vp .*",
                      "Insert": " area .*"}
            return f"{name.lower()} gpa {gpa} mask [0-9a-f]*{behind[name]}"
        if name == "Carried":
            return f"carried kind {kind:08x} length {length}"
        return f"param {PARAMETERS[kind]} .*" if name == "Param" else f"{WORDS[name]} .*"

    def insert_counts(self):
        """How many pages each insert has, in order."""
        runs = self.runs()
        return [int(runs[asked][1]) for asked, answer in self.headers() if int(answer[-1], 16) == 0x303]

    def listing_differs(self, listing):
        """How the program's listing of the image says otherwise."""
        rows, wanted = listing.splitlines()[1:], list(self.rows())
        for row, want in zip(rows, wanted):
            if not re.fullmatch(want, row):
                yield f"print lists {row!r}, the library has {want!r}"
        if len(rows) != len(wanted):
            yield f"print lists {len(rows)} headers, the library has {len(wanted)}"
        sizes = dict(re.findall(r"^\d+ at \d+ area (\d+) bytes (\d+) ", listing, re.M))
        counts = [int(sizes[area]) // PAGE for area in re.findall(r"^\d+ at \d+ insert .* area (\d+)$", listing, re.M)]
        if counts != self.insert_counts():
            yield f"by print the inserts have {counts} pages, by the library {self.insert_counts()}"
