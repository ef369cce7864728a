#!/usr/bin/env -S python3 -B
"""The C library answers what the program and the plain readers do.

    c_library.py [FOLDER..]         the comparison; the images of these folders are asked about, too

The library is the one that `$LIBIGVM` names, or out/libigvm.a as `./libigvm` builds it. The driver c_library.c is
linked with it. It asks every function of include/igvm.h about the images of compare.py, of examples/ and of the folders
that are named, and its lines are compared with c_answers.py; those of some thousand images also with what the program
lists and measures, and examples/c/measure.c with the program. Valgrind watches the driver on images of each kind, and
the library's symbols say what it could call. Ends with 77 where a C compiler is missing, or the library and `rt` are.
"""
import glob
import multiprocessing
import os
import re
import shutil
import subprocess
import sys
import tempfile
from collections import Counter

import c_answers
import cases
import compare
import reader
from c_answers import File
from c_listing import Told
from listing import PLATFORM_KINDS
from program import ROOT, Program, is_built, shared_memory
from records import FIXED_SIZES, fixed

BATCH, SHOWN = 64, 10               # images in one process; differences that are printed
BY_PROGRAM, BY_EXAMPLE = 8, 64      # of the images that aren't thorough, every so many is tried by these, too
MEASURED = 3                        # the platforms that the program measures, at most, and one more
WATCHED, LARGEST = 2, 20_000        # of each rule valgrind sees so many images, of at most so many bytes
HEADER = os.path.join(ROOT, "include", "igvm.h")
DRIVER, EXAMPLE = (os.path.join(ROOT, *names) for names in (("checks", "c_library.c"), ("examples", "c", "measure.c")))
WARNINGS = "-Wall -Wextra -Wconversion -Wshadow -pedantic -Werror".split()
CALLED = {"memcpy", "memmove", "memset", "memcmp", "bcmp"}          # what is linked with the library, at most
STATUSES = {"check": (0, 1, 2), "count": (0, 1, 2), "platform": (0, 1, 2, 3), "first": (0, 1, 2, 3, 8),
            "measure": (0, 1, 2, 3, 4, 8), "sev": (0, 1, 2, 3, 4), "header": (0, 1, 2, 6), "pages": (0, 1, 2, 6, 7),
            "alike": (0, 1, 2, 3, 4, 5, 8)}
# What some image has to meet.
ASKED = (
    *(f"{word} {status}" for word, statuses in STATUSES.items() for status in statuses), *c_answers.RULES,
    *(f"platform of {kind}" for kind in PLATFORM_KINDS), *(f"digest of {kind}" for kind in PLATFORM_KINDS[2:]),
    "page", "page of zeros", "large page", "large page of zeros", "insert of a page", "insert of several pages",
    "context", "context of zeros", "cut context", "context at the end", "carried header", "option changes a digest",
    "option keeps a digest", "another image alike", "another image unlike",
)


# The library, and what is linked with it

def find_library():
    """Its path, or None; and then why, and the status of the check."""
    path = os.environ.get("LIBIGVM")
    if path is None and shutil.which("rt"):
        built = subprocess.run([os.path.join(ROOT, "libigvm")], stdin=subprocess.DEVNULL, capture_output=True,
                               text=True)
        if built.returncode:
            return None, built.stderr.strip(), 1
    path = os.path.abspath(path or os.path.join(ROOT, "out", "libigvm.a"))
    return (path, None, 0) if os.path.isfile(path) else (None, "skipped, the library isn't built", 77)


def compiled(words):
    """What is wrong where a compiler says a word."""
    done = subprocess.run(words, stdin=subprocess.DEVNULL, capture_output=True, text=True)
    return [f"{' '.join(words)}: status {done.returncode} {done.stderr}"] if done.returncode or done.stderr else []


def build(compiler, library, folder):
    """Puts the driver and the example into the folder, and looks at the header as C++, too."""
    c = [compiler, "-std=c11", "-O2", *WARNINGS, f"-I{os.path.dirname(HEADER)}"]
    faults = compiled([*c, DRIVER, library, "-pthread", "-o", os.path.join(folder, "driver")])
    faults += compiled([*c, EXAMPLE, library, "-o", os.path.join(folder, "example")])
    if shutil.which("c++"):
        faults += compiled(["c++", "-std=c++11", *WARNINGS, "-fsyntax-only", "-x", "c++", HEADER])
    return faults


def rule_faults():
    """Where the rules of the header aren't those that c_answers.py has, in their order."""
    with open(HEADER, encoding="utf-8") as file:
        names = re.findall(r"^ +IGVM_RULE_(\w+)", file.read(), re.M)
    wanted = [re.sub("(?<=[a-z])(?=[A-Z])", "_", name).upper() for name in c_answers.RULES]
    return [] if names == wanted else [f"the header has the rules {names}, expected {wanted}"]


def symbol_faults(library):
    """What the library calls beside CALLED, what it could keep a state in, and names that the header hasn't."""
    table = subprocess.run(["nm", library], capture_output=True, text=True).stdout
    found = re.findall(r"^[0-9a-f ]+ ([A-Za-z]) (\S+)$", table, re.M)
    with open(HEADER, encoding="utf-8") as file:
        offered = set(re.findall(r"^\w+ (igvm_\w+)\(", file.read(), re.M))
    yield from (f"the library calls {name}" for kind, name in found if kind in "Uw" and name not in CALLED)
    yield from (f"the library keeps a state in {name}" for kind, name in found if kind in "BbCDdGgSs")
    yield from (f"{name} is in the header or in the library alone"
                for name in sorted(offered ^ {name for kind, name in found if kind == "T"}))


# The images

def images(folders):
    """(what it is, the image, it is thorough) of each."""
    for folder in (os.path.join(ROOT, "examples"), *folders):
        for path in sorted(glob.glob(os.path.join(folder, "*.igvm"))):
            with open(path, "rb") as file:
                yield path, file.read(), True
    yield from compare.images()


def batches(folders):
    """(what it is, the image, the program tries it, and the example) of the images, so many at once."""
    batch = []
    for number, (name, image, is_thorough) in enumerate(images(folders)):
        batch.append((name, image, is_thorough or number % BY_PROGRAM == 0, is_thorough or number % BY_EXAMPLE == 0))
        if len(batch) == BATCH:
            yield batch
            batch = []
    if batch:
        yield batch


def watched_images():
    """Those of examples/, those with every kind of header, and some that break each rule."""
    for path in sorted(glob.glob(os.path.join(ROOT, "examples", "*.igvm"))):
        with open(path, "rb") as file:
            yield file.read()
    yield from (cases.every_kind(version) for version in FIXED_SIZES)
    met = Counter()
    for _, image, _ in compare.images():
        fault = reader.first_fault(image) if len(image) <= LARGEST else None
        if fault and met[fault[0]] < WATCHED:
            met[fault[0]] += 1
            yield image
        if met.total() == WATCHED * len(reader.NAMES):
            return


# The driver's lines

def write(folder, contents):
    """Writes the contents into files, and a list of these; the files' paths, and the list's."""
    paths = [os.path.join(folder, str(number)) for number in range(len(contents))]
    for path, content in zip(paths, contents):
        with open(path, "wb") as file:
            file.write(content)
    with open(os.path.join(folder, "list"), "w", encoding="utf-8") as file:
        file.writelines(f"{path}\n" for path in paths)
    return paths, file.name


def drive(words):
    """The driver's lines, the last of which is how it ended where it didn't end well; and its error output."""
    done = subprocess.run(words, stdin=subprocess.DEVNULL, capture_output=True, text=True)
    ending = [f"status {done.returncode} {done.stderr[:2000]}"] if done.returncode else []
    return done.stdout.splitlines() + ending, done.stderr


def parts(lines):
    """The lines before the first file, and those about each file; the last one is of none."""
    starts = [number for number, text in enumerate(lines) if text.startswith("file ")] + [len(lines) - 1]
    return lines[:starts[0]], [lines[at + 1:end] for at, end in zip(starts, starts[1:])]


def difference(got, want):
    """The first line that is another."""
    at = next((at for at, (one, other) in enumerate(zip(got, want)) if one != other), min(len(got), len(want)))
    return f"the library answers {got[at:at + 1]}, expected {want[at:at + 1]}"


def compared(lines, files, times=1, about_rules=True):
    """(the number of the file, what differs) where the lines aren't those of c_answers.py."""
    texts = list(c_answers.texts()) if about_rules else []
    before_files, about = parts(lines)
    if not lines[-1].startswith("taken ") or len(about) != len(files):
        yield 0, f"the driver ends with {lines[-1]!r} behind {len(about)} files of {len(files)}"
    if before_files != texts:
        yield 0, difference(before_files, texts)
    before = File(b"")
    for number, (file, got) in enumerate(zip(files, about)):
        want = times * list(c_answers.answers(file, before))
        if got != want:
            yield number, difference(got, want)
        before = file


# What the answers meet

def run_kinds(file, number):
    """What the pages of a header are."""
    header, run = file.headers[number], c_answers.placed(file, number)
    if header.name == "Insert":
        yield "insert of a page" if run[1] == 1 else "insert of several pages"
    elif header.name == "Page":
        yield f"{'large page' if run[1] > 1 else 'page'}{'' if run[2] else ' of zeros'}"
    elif header.name == "Context" and run[2] == fixed(file.image).total:
        yield "context at the end"
    elif header.name == "Context":
        yield "context of zeros" if run[2] == 0 else "cut context" if run[3] < 4096 else "context"
    elif header.name == "Carried":
        yield "carried header"


def kinds(file, lines):
    """The kinds of answers about a file, in the words of ASKED."""
    for text in lines:
        word, status, rest = text.split(" ", 2)
        yield f"{word} {status}"
        if word == "alike" and status == "0" and not rest.startswith("itself"):
            yield f"another image {'alike' if rest.endswith('1') else 'unlike'}"
    if file.fault:
        yield file.fault[0]
    for number, one in enumerate(file.platforms):
        kind = PLATFORM_KINDS[one.kind]
        yield f"platform of {kind}"
        if one.kind in c_answers.MEASURED and file.digest(number, 0).strip(b"\0"):
            yield f"digest of {kind}"
            yield f"option {'keeps' if file.digest(number, 0) == file.digest(number, 1) else 'changes'} a digest"
        elif one.kind in c_answers.SEV_MEASURED:
            yield f"digest of {kind}"
    for number in range(len(file.headers)):
        yield from run_kinds(file, number)


# One batch

def measurements(told):
    """(command, P, whether with the option, status and output and error by the library) of the program's."""
    for platform in range(min(len(told.kinds), MEASURED) + 1):
        for options in (0, 1):
            yield "measure", str(platform), options, told.measured("measure", platform, options)
        yield "sev-measure", str(platform), 0, told.measured("sev", platform, 0)
    for kind in ("snp", "tdx"):
        yield "measure", kind, 0, told.measured_first("measure", kind)
    for kind in ("sev", "sev_es"):
        yield "sev-measure", kind, 0, told.measured_first("sev", kind)


class Bench:
    """Asks about images in a folder of its own; there is one in each process."""

    def __init__(self, tools, has_program):
        self.tools, self.folder, self.has_program = tools, tempfile.mkdtemp(dir=tools), has_program
        self.program = Program(self.folder)

    def program_differs(self, told, path):
        """How the program says otherwise than the library."""
        status, output, error = self.program.run(["print", path])
        if told.fault:
            if (status, output, error) != told.refusal():
                yield f"print answers {status, output, error}, by the library {told.refusal()}"
            return
        yield from told.listing_differs(output)
        for job, wanted, options, want in measurements(told):
            got = self.program.run([job, path, "--platform", wanted, *["--native-zero"] * options])
            if got != want:
                yield f"{job} {wanted} {options}: the program answers {got}, by the library {want}"

    def example_differs(self, path):
        done = subprocess.run([os.path.join(self.tools, "example"), path], stdin=subprocess.DEVNULL,
                              capture_output=True, text=True)
        got = done.returncode, done.stdout, done.stderr
        want = self.program.run(["measure", path, "--platform", "snp"])
        if got != want:
            yield f"the example answers {got}, the program {want}"

    def ask(self, batch):
        """How many images there were, how many by the program and by the example, what differs, and what was met."""
        paths, names = write(self.folder, [image for _, image, _, _ in batch])
        files = [File(image) for _, image, _, _ in batch]
        lines, _ = drive([os.path.join(self.tools, "driver"), names])
        wrong = list(compared(lines, files))
        differing, wrong = [f"{batch[number][0]}: {text}" for number, text in wrong], {number for number, _ in wrong}
        tried, met = Counter(images=len(batch)), Counter()
        for number, about in enumerate(parts(lines)[1]):
            (name, _, by_program, by_example), path = batch[number], paths[number]
            met.update(set(kinds(files[number], about)))
            if by_program and self.has_program and number not in wrong:
                tried["program"] += 1
                differing += [f"{name}: {text}" for text in self.program_differs(Told(about), path)]
            if by_example and self.has_program:
                tried["example"] += 1
                differing += [f"{name}: {text}" for text in self.example_differs(path)]
        return tried, differing, met


def set_up(tools, has_program):
    """Makes this process's bench."""
    global bench
    bench = Bench(tools, has_program)


def ask(batch):
    return bench.ask(batch)


# What is asked once

def longest(tools):
    """A file of the limit's size, and one of a byte more: what differs, and what was met."""
    path, limit = os.path.join(ROOT, "examples", "guest.igvm"), c_answers.LIMIT
    lines, _ = drive([os.path.join(tools, "driver"), "--zeros", path, str(limit), str(limit + 1)])
    with open(path, "rb") as file:
        files = [File(file.read()), Zeros(limit), File(b"", limit + 1)]
    met = [kind for file, about in zip(files, parts(lines)[1]) for kind in kinds(file, about)]
    return [f"file {number} of the longest: {text}" for number, text in compared(lines, files, about_rules=False)], met


class Zeros(File):
    """So many zeros: no image, since it begins otherwise."""

    def __init__(self, size):
        super().__init__(bytes(24), size)
        self.size = size


def threads(tools):
    """What differs where two threads measure at once."""
    paths = [os.path.join(ROOT, "examples", name) for name in ("boot.igvm", "guest.igvm")]
    want = []
    for who, pair in (("one file", paths[:1] * 2), ("two files", paths)):
        want += [f"threads {who} 400 runs 0 unlike"]
        for path in pair:
            with open(path, "rb") as file:
                want.append(f"digest {File(file.read()).digest(0, 0).hex()}")
    lines, _ = drive([os.path.join(tools, "driver"), "--threads", *paths])
    return [] if lines[:-1] == want else [f"two threads: {difference(lines[:-1], want)}"]


def watched(tools):
    """What differs under valgrind: a word of its own, an answer, or memory that the library takes.

    All is asked once and then twice. Were the library to take memory, it would take more the second time than what the
    driver counts.
    """
    contents, faults, others = list(watched_images()), [], []
    with tempfile.TemporaryDirectory(dir=tools) as folder:
        _, names = write(folder, contents)
        for times in (1, 2):
            words = ["valgrind", "--error-exitcode=9", "--leak-check=full", "--errors-for-leak-kinds=all",
                     os.path.join(tools, "driver"), *["--twice"] * (times - 1), names]
            lines, said = drive(words)
            faults += [f"under valgrind, file {number}: {text}"
                       for number, text in compared(lines, [File(content) for content in contents], times)]
            found = re.search(r"total heap usage: ([\d,]+) allocs", said)
            if not found or "ERROR SUMMARY: 0 errors" not in said:
                return len(contents), [*faults, f"valgrind says {said[-2000:]}"]
            others.append(int(found[1].replace(",", "")) - int(lines[-1].split()[1]))
    if others[0] != others[1]:
        faults.append(f"the library takes memory: beside the driver's, {others[0]} places, asked twice {others[1]}")
    return len(contents), faults


# The check

def run(folders, library, tools):
    """What all find together, and the lines of counts."""
    faults, differing, tried, met, notes = [], [], Counter(), Counter(), []
    with multiprocessing.Pool(min(4, os.cpu_count() or 1), set_up, (tools, is_built())) as pool:
        watching = pool.apply_async(watched, (tools,)) if shutil.which("valgrind") else None
        for its_tried, its_differing, its_met in pool.imap(ask, batches(folders)):
            tried += its_tried
            differing += its_differing
            met += its_met
        under_valgrind = watching.get() if watching else None
    longest_differ, longest_met = longest(tools)
    met.update(longest_met)
    faults += differing[:SHOWN] + longest_differ + threads(tools) + rule_faults()
    if under_valgrind:
        faults += under_valgrind[1]
        notes.append(f"{under_valgrind[0]} images under valgrind")
    else:
        print("c_library: valgrind isn't there, and nobody watched the memory")
    if shutil.which("nm"):
        faults += symbol_faults(library)
    else:
        print("c_library: nm isn't there, and the library's symbols weren't looked at")
    if not is_built():
        print("c_library: the program isn't built, and only the plain readers were compared")
    faults += [f"no image has met: {kind}" for kind in ASKED if not met[kind]]
    for fault in faults:
        print(f"c_library: {fault}")
    counts = [f"{tried['images']} images", *(f"{tried[by]} by the {by}" for by in ("program", "example")), *notes]
    print(f"c_library: {', '.join(counts)}, {len(differing)} differ")
    return 1 if faults else 0


def main():
    compiler = next((name for name in ("cc", "gcc", "clang") if shutil.which(name)), None)
    none = None, "skipped, there is no C compiler", 77
    library, why, status = none if compiler is None else find_library()
    if library is None:
        print(f"c_library: {why}")
        return status
    with tempfile.TemporaryDirectory(dir=shared_memory()) as tools:
        faults = build(compiler, library, tools)
        for fault in faults:
            print(f"c_library: {fault}")
        return 1 if faults else run(sys.argv[1:], library, tools)


if __name__ == "__main__":
    sys.exit(main())
