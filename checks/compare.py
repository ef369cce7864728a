#!/usr/bin/env -S python3 -B
"""The program and a plain reader answer alike on many images.

    compare.py                      the comparison
    compare.py --by COMMAND         every image by this command alone, as print or "measure tdx"
    compare.py --write NUMBER FILE  writes the image of that number to FILE and runs nothing

The images are the vectors of docs/FORMAT.md, some at the edge of a limit, some that break several rules, one with
every kind of header whose bytes are changed one by one and whose end is cut at each length, all of these in both
versions of the format, tables on the fixed header and on pages of zeros, and random ones of either version; they are
the same in each run. Some hundred of them are listed, and measured for each platform with `--native-zero` and without;
all others are tried by one command in turn, and listed where they break no rule. Status, output and error are compared
with answers.py. Ends with 77 where the program isn't built.
"""
import argparse
import hashlib
import multiprocessing
import os
import random
import sys
import tempfile

import cases
import listing
import reader
import versions
import zero_pages
from answers import COMMANDS, OPTION, answer, words
from program import Program, is_built, shared_memory
from random_images import Maker, WholeMaker
from records import FIXED_SIZES, fixed, headers

RANDOM_IMAGES, WHOLE_IMAGES, SEED = 3000, 300, 20240229
SHOWN = 10          # differences that are printed
# What some run has to meet: a listing of each version, a header's line, a kind of platform with or without a digest, an
# option that changes a digest or doesn't, a platform that isn't there.
OUTCOMES = (
    *(f"version {version}" for version in FIXED_SIZES), *(f"a line on {name}" for name in listing.TEXTS),
    "digest of snp", "digest of tdx", *(f"{OPTION} {does}" for does in ("changes snp", "keeps snp", "keeps tdx")),
    *(f"igvm: no digest for {kind}" for kind in ("native", "vsm", "sev", "sev_es")),
    *(f"igvm: no platform {wanted}" for wanted in ("snp", "tdx", 1, 2, 3)),
)


def images():
    """(what it is, the image, it is tried by all commands) of each case, and no image twice."""
    met = set()
    for name, image, is_thorough in all_images():
        known = hashlib.sha256(image).digest()
        if known not in met:
            met.add(known)
            yield name, image, is_thorough


def all_images():
    for tables, is_thorough in ((vectors, True), (fixed_headers, False), (zeros, True)):
        for name, image, _ in tables():
            yield name, image, is_thorough
    for version in FIXED_SIZES:
        for at, image in enumerate(cases.edges(version)):
            yield f"edge {at} in version {version}", image, True
        yield f"every kind in version {version}", cases.every_kind(version), True
    for at in range(WHOLE_IMAGES):
        yield f"random whole {at}", WholeMaker(random.Random(SEED + at)).image(), True
    for at, image in enumerate(cases.broken_files()):
        yield f"broken file {at}", image, False
    for at, image in enumerate(cases.broken_headers()):
        yield f"broken header {at}", image, False
    for version in FIXED_SIZES:
        whole = cases.every_kind(version)
        for change, image in (*cases.changed_bytes(whole), *cases.cut_ends(whole)):
            yield f"every kind in version {version}, {change}", image, False
    for at in range(RANDOM_IMAGES):
        yield f"random {at}", Maker(random.Random(SEED + at)).image(), False


# What is known of the answers beforehand

def vectors():
    """(what it is, the image, its fault's name, offset and text, or None)."""
    for version in FIXED_SIZES:
        for at, (image, fault) in enumerate(cases.vectors(version)):
            yield f"vector {at} of docs/FORMAT.md in version {version}", image, fault


def fixed_headers():
    """(what it is, the image, its fault's name, offset and text, or None)."""
    for at, (image, fault) in enumerate(versions.answers()):
        yield f"fixed header {at}", image, fault


def zeros():
    """(what it is, the image, the digest by each command)."""
    for at, (image, digests) in enumerate(zero_pages.answers()):
        yield f"zero page {at}", image, digests


def wrong_answers():
    """Where the plain reader, or the digests beside it, answer otherwise than the tables."""
    for name, image, want in (*vectors(), *fixed_headers()):
        got = reader.first_fault(image)
        if got != want:
            yield f"{name}: reader.py answers {got}, the table {want}"
    for name, image, wanted in zeros():
        for command, digest in wanted.items():
            got, want = answer(command, image, reader.first_fault(image)), (0, digest + "\n", "")
            if got != want:
                yield f"{name}: {command}: answers.py gives {got}, the table {want}"


class Bench:
    """Tries images in a folder of its own; there is one in each process."""

    def __init__(self, folder, by):
        self.by, self.program, self.path = by, Program(folder), os.path.join(folder, "image")

    def commands(self, number, is_thorough, is_accepted):
        """Those that the image of this number is tried by. An accepted one is always listed, too."""
        if self.by is not None:
            return (self.by,)
        if is_thorough:
            return COMMANDS
        chosen = COMMANDS[number % len(COMMANDS)]
        return ("print", chosen) if is_accepted and chosen != "print" else (chosen,)

    def try_image(self, number, name, image, is_thorough):
        """How many runs there were, texts on those that differ, and what was met."""
        with open(self.path, "wb") as file:
            file.write(image)
        fault, differing, met = reader.first_fault(image), [], set()
        commands = self.commands(number, is_thorough, fault is None)
        for command in commands:
            want, got = answer(command, image, fault), self.program.run(words(command, self.path))
            met.update(outcomes(command, image, fault, want))
            if got != want:
                differing.append(f"{name}: {command}: the program answers {got}, expected {want}; "
                                 f"to have the image: checks/compare.py --write {number} FILE")
        return len(commands), differing, met


def outcomes(command, image, fault, want):
    """What kind of answer this is, in the words of OUTCOMES and of the faults' names."""
    status, output, error = want
    if status == 1:
        return {fault[0]}
    if status == 6:
        return {error.rstrip()}
    if command == "print":
        return {f"version {fixed(image).version}", *(f"a line on {header.name}" for header in headers(image))}
    _, wanted, *options = command.split()
    if options:
        is_kept = want == answer(f"measure {wanted}", image, fault)
        return {f"{OPTION} {'keeps' if is_kept else 'changes'} {wanted}"}
    return {f"digest of {wanted}"} if output.strip("0\n") else set()


def set_up(folder, by):
    """Makes this process's bench."""
    global bench
    bench = Bench(tempfile.mkdtemp(dir=folder), by)


def try_numbered(numbered):
    number, case = numbered
    return bench.try_image(number, *case)


def write(number, path):
    for count, (name, image, _) in enumerate(images()):
        if count == number:
            with open(path, "wb") as file:
                file.write(image)
            print(f"compare: {name}: {len(image)} bytes, by the reader {reader.first_fault(image)}")
            return 0
    print(f"compare: there is no image {number}")
    return 1


def compare(by):
    """What the processes find together, and the line of counts."""
    faults, differing, met, count, runs = list(wrong_answers()), [], set(), 0, 0
    with tempfile.TemporaryDirectory(dir=shared_memory()) as folder:
        with multiprocessing.Pool(min(4, os.cpu_count() or 1), set_up, (folder, by)) as pool:
            for its_runs, its_differing, its_met in pool.imap(try_numbered, enumerate(images()), chunksize=32):
                count, runs = count + 1, runs + its_runs
                differing += its_differing
                met |= its_met
    faults += differing[:SHOWN]
    faults += [f"no run has met: {name}" for name in (*reader.NAMES, *OUTCOMES) if name not in met and not by]
    for fault in faults:
        print(f"compare: {fault}")
    print(f"compare: {count} images, {runs} runs, {len(differing)} differ")
    return 1 if faults else 0


def main():
    arguments = argparse.ArgumentParser(description="the program and a plain reader on many images")
    arguments.add_argument("--by", choices=COMMANDS, metavar="COMMAND")
    arguments.add_argument("--write", nargs=2, metavar=("NUMBER", "FILE"))
    options = arguments.parse_args()
    if options.write:
        return write(int(options.write[0]), options.write[1])
    if not is_built():
        faults = list(wrong_answers())
        print("\n".join(f"compare: {text}" for text in (*faults, "skipped, the program isn't built")))
        return 1 if faults else 77
    return compare(options.by)


if __name__ == "__main__":
    sys.exit(main())
