"""What the C library answers about files, by include/igvm.h and the plain readers: the lines of c_library.c.

A line is a question: its word, the status, what was asked for, and the answer, or `kept` where there is none.
"""
import digests
import reader
from records import LARGE, PAGE, fixed, headers, platforms

OK, RULE, TOO_LONG, NO_PLATFORM, NO_DIGEST, OTHER_KIND, NO_HEADER, NO_PAGES, UNKNOWN = range(9)
LIMIT = 536870912                   # the bytes of the longest file
LAST = 2 ** 32 - 1
KINDS, OPTIONS, PAIRED, BESIDE = 7, 3, 3, 12
# The rules in the order of their numbers, from 1 on, each with its words.
RULES = {
    "TooShort": "too short", "Magic": "magic", "Version": "version", "Aarch64": "architecture aarch64",
    "Architecture": "architecture", "PageSize": "page size", "TotalSize": "total size", "Section": "section",
    "Checksum": "checksum", "HeaderCut": "header cut", "UnknownType": "unknown type ", "Length": "length",
    "Flags": "flag bit ", "DataType": "data type", "PlatformType": "platform type", "Order": "order", "Mask": "mask",
    "Align": "alignment", "AreaLimit": "too many areas", "AreaRepeated": "area repeated",
    "AreaUnknown": "area unknown", "AreaSize": "area size", "Wrap": "address wraps", "DataOutside": "data outside",
    "TooManyPages": "too many pages", "NoPlatform": "no platform",
}
NUMBERS = {name: number for number, name in enumerate(RULES, 1)}
MEASURED, SEV_MEASURED = (digests.SNP, digests.TDX), (digests.SEV, digests.SEV_ES)


def line(word, status, asked, answer=None):
    return f"{word} {status} {asked}{'kept' if answer is None else answer}"


class File:
    """What is known of a file; of one that is too long its size alone."""

    def __init__(self, image, size=None):
        self.image, self.size = image, len(image) if size is None else size
        self.fault = None if self.size > LIMIT else reader.first_fault(image)
        self.refused = TOO_LONG if self.size > LIMIT else RULE if self.fault else OK
        self.headers = headers(image) if self.refused == OK else []
        self.platforms = platforms(image) if self.refused == OK else []
        self.by_place = {header.place: k for k, header in enumerate(self.headers)}
        self.digests = {}

    def refusal(self, number):
        """Why there is no platform of this number, or OK."""
        return self.refused or (OK if number < len(self.platforms) else NO_PLATFORM)

    def no_digest(self, number, kinds):
        """Why there is no digest of these kinds for the platform of this number, or OK."""
        return self.refusal(number) or (OK if self.platforms[number].kind in kinds else NO_DIGEST)

    def digest(self, number, options):
        """The 48 bytes, which are computed once."""
        asked = number, options
        if asked not in self.digests:
            self.digests[asked] = digests.digest(self.image, self.platforms[number], options == 1)
        return self.digests[asked]


def texts():
    """The words in exact room, in more, in a byte less, in none; a number without a rule has no words."""
    for number, words in (*enumerate(("", *RULES.values(), "", "")), (LAST, "")):
        for room in (len(words) + 1, len(words) + 9, len(words), 0):
            yield f"text {len(words)} {number} {room} {words if len(words) < room else 'kept'}"


def check(file):
    if file.refused != RULE:
        return line("check", file.refused, "")
    name, at, text = file.fault
    named = text[len(RULES[name]):]
    number = int(named, 16) if name == "UnknownType" else int(named or 0)
    return line("check", RULE, "", f"{at} {NUMBERS[name]} {number}")


def platform(file, number):
    status = file.refusal(number)
    if status:
        return line("platform", status, f"{number} ")
    one = file.platforms[number]
    return line("platform", OK, f"{number} ", f"{number} mask {one.mask:08x} kind {one.kind} vtl {one.vtl} "
                                              f"version {one.version} shared {one.shared:016x}")


def first(file, kind):
    """An unknown kind is told before the file is looked at."""
    found = next((number for number, one in enumerate(file.platforms) if one.kind == kind), None)
    status = UNKNOWN if kind > 5 else file.refused or (NO_PLATFORM if found is None else OK)
    return line("first", status, f"{kind} ", None if status else found)


def measure(file, number, options):
    status = UNKNOWN if options > 1 else file.no_digest(number, MEASURED)
    return line("measure", status, f"{number} {options} ", None if status else file.digest(number, options).hex())


def sev(file, number):
    status = file.no_digest(number, SEV_MEASURED)
    return line("sev", status, f"{number} ",
                None if status else digests.sev_digest(file.image, file.platforms[number]).hex())


def found(file, at):
    """The number of the header at an offset, or None."""
    return file.by_place.get(at or file.headers[0].place) if file.headers else None


def header(file, at):
    number = found(file, at)
    if number is None:
        return line("header", file.refused or NO_HEADER, f"{at} ")
    one = file.headers[number]
    following = file.headers[number + 1].place if number + 1 < len(file.headers) else 0
    return line("header", OK, f"{at} ", f"{number} at {one.place} content {one.place + 8} length {len(one.content)} "
                                        f"next {following} kind {one.type:08x}")


def placed(file, number):
    """GPA, how many pages, their bytes' file offset and how many the image has; None where no page is placed."""
    one = file.headers[number]
    fields = one.fields
    if one.name == "Insert":
        area = next(other.fields for other in file.headers if other.name == "Area"
                    and other.fields.index == fields.index)
        return fields.gpa, area.size // PAGE, 0, 0
    if one.name not in ("Page", "Context"):
        return None
    size = LARGE if one.name == "Page" and fields.flags & 1 else PAGE
    within = min(size, fixed(file.image).total - fields.offset) if fields.offset else 0
    return fields.gpa, size // PAGE, fields.offset, within


def pages(file, at):
    number = found(file, at)
    if number is None:
        return line("pages", file.refused or NO_HEADER, f"{at} ")
    run = placed(file, number)
    if run is None:
        return line("pages", NO_PAGES, f"{at} ")
    return line("pages", OK, f"{at} ", "gpa {:016x} count {} from {} size {}".format(*run))


def section_at(file):
    """Where the fixed header says that the first header stands; 0 of a file that ends before."""
    return int.from_bytes(file.image[8:12], "little") if len(file.image) >= 12 else 0


def walk(file):
    """Each header, the first by 0 and then by its own offset; and offsets at which none stands."""
    places = [0, *(one.place for one in file.headers[1:])]
    beside = [place + 1 for place in places[:BESIDE]]
    for at in (*places, section_at(file), *beside, file.size, 2 ** 63, 2 ** 64 - 1):
        yield header(file, at)
        yield pages(file, at)


def alike(who, one, p, other, q, options):
    """As long as nobody knows two lists of records with one SHA-384, the digests say which lists are one."""
    status = UNKNOWN if options > 1 else one.refusal(p) or other.refusal(q)
    if not status and one.platforms[p].kind != other.platforms[q].kind:
        status = OTHER_KIND
    status = status or one.no_digest(p, MEASURED)
    same = None if status else int(one.digest(p, options) == other.digest(q, options))
    return line("alike", status, f"{who} {p} {q} {options} ", same)


def pair(who, one, other):
    for p in range(min(len(one.platforms) + 1, PAIRED)):
        for q in range(min(len(other.platforms) + 1, PAIRED)):
            for options in range(OPTIONS):
                yield alike(who, one, p, other, q, options)


def answers(file, before):
    """All lines about a file that is asked about behind another one."""
    yield check(file)
    yield line("count", file.refused, "", None if file.refused else len(file.platforms))
    for number in range(len(file.platforms) + 1):
        yield platform(file, number)
        for options in range(OPTIONS):
            yield measure(file, number, options)
        yield sev(file, number)
    yield platform(file, LAST)
    yield measure(file, 0, LAST)
    for kind in (*range(KINDS), LAST):
        yield first(file, kind)
    yield from walk(file)
    yield from pair("itself", file, file)
    yield from pair("forth", before, file)
    yield from pair("back", file, before)
