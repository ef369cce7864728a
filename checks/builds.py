#!/usr/bin/env -S python3 -B
"""The program and a plain builder make the same images of many component lists.

    builds.py                      the comparison
    builds.py --write NUMBER FILE  writes the list of that number to FILE and runs nothing

The lists are random ones of either version, random ones of a wrong form or with a broken text, some at the edge of a
limit, and some that spell their version; they are the same in each run. Each is built in a folder with the files that
they name. Status, output, error and the image are compared with components.py; an image is then listed, and measured
for each platform with `--native-zero` and without, and that is compared with answers.py. Ends with 77 where the program
isn't built.
"""
import argparse
import json
import os
import random
import sys
import tempfile

import reader
import list_cases
from answers import OPTION, answer, words
from components import built
from lists import DIRECTIVES
from named_files import lay_out, read, write
from program import ROOT, Program, is_built, shared_memory
from random_lists import FormMaker, ListMaker, TextMaker
from records import FIXED_SIZES, LARGE, fixed, platforms

LISTS, FORMS, TEXTS, SEED = 400, 300, 200, 20240229
SHOWN = 10                          # differences that are printed
RULES = ("mask", "alignment", "too many areas", "area repeated", "area unknown", "area size", "address wraps",
         "too many pages", "data type", "length", "no platform")
# What some list has to meet: an answer's status, a word of the refusal, a directive in an image that is built.
OUTCOMES = (
    *(f"rule {text}" for text in RULES),
    *(f"form of {part}" for part in ("top", "platforms", "policies", "directives")), "no JSON",
    *(f"limit {what}" for what in ("list", "blob", "data", "image")), "shelf", "shared contents",
    *(f"built version {version}" for version in FIXED_SIZES), *(f"built {do}" for do in DIRECTIVES),
)


def texts():
    """(what it is, the list's text) of each case."""
    tables = {"edge": list_cases.edge_lists(), "version": (text for text, _ in list_cases.versions()),
              "edge text": list_cases.edge_texts()}
    for name, table in tables.items():
        for at, text in enumerate(table):
            yield f"{name} {at}", text
    for at in range(LISTS):
        chance = random.Random(SEED + at)
        maker = ListMaker(chance, chance.choice((0, 0, 0.02, 0.1)))
        yield f"random list {at}", maker.text(maker.whole())
    for kind, count in ((FormMaker, FORMS), (TextMaker, TEXTS)):
        for at in range(count):
            maker = kind(random.Random(SEED + at))
            yield f"{kind.__name__} {at}", maker.text(maker.whole())


def wrong_versions():
    """Where the plain builder answers otherwise than the table."""
    for text, known in list_cases.versions():
        want = (7, "", f"igvm: json refused{known}\n", None)
        if isinstance(known, bytes):
            want = 0, f"built {len(known)} bytes\n", "", known
        got = built(text, read)
        if got != want:
            yield f"{text}: components.py answers {got}, the table {want}"


# The runs

class Bench:
    """Builds lists in the working folder, each to a file that wasn't there."""

    def __init__(self):
        self.program, self.met, self.runs = Program("."), set(), 0

    def run(self, words):
        self.runs += 1
        return self.program.run(words)

    def differences(self, text):
        """What the program answers otherwise than components.py and answers.py."""
        *want, image = built(text, read)
        write("list", text)
        got = self.run(["build", "list", "out"])
        made = read("out")
        if made is not None:
            os.remove("out")
        self.met.update(outcomes(text, want, image))
        if got != tuple(want):
            yield f"the program answers {got}, expected {tuple(want)}"
        elif made != image:
            yield "the image is another" if image is not None else "an image is written"
        elif image is not None and len(image) < LARGE:
            yield from self.read_back(image)

    def read_back(self, image):
        """An image keeps the rules, and is listed and measured as answers.py says."""
        fault = reader.first_fault(image)
        if fault is not None:
            yield f"the plain reader refuses the image: {fault}"
        write("image", image)
        measuring = [f"measure {number}" for number in range(len(platforms(image)))]
        for command in ("print", *measuring, *(f"{measure} {OPTION}" for measure in measuring)):
            if self.run(words(command, "image")) != answer(command, image, fault):
                yield f"{command} of the image: the program answers otherwise than answers.py"


def outcomes(text, want, image):
    """What kind of answer this is, in the words of OUTCOMES."""
    status, _, error = want
    if status == 0:
        directives, version = json.loads(text)["directives"], f"built version {fixed(image).version}"
        names = [entry["file"] for entry in directives if entry["do"] == "pages"]
        shared = {"shared contents"} if "page" in names and "two pages" in names else set()
        return shared | {version, *(f"built {entry['do']}" for entry in directives)}
    if status == 4:
        return {"shelf"}
    if status == 8:
        return {f"limit {error.split()[-1]}"}
    parts = error.rstrip().split(": ")
    if len(parts) == 2:
        return {"no JSON"}
    return {f"rule {parts[3]}" if len(parts) == 4 else f"form of {parts[2].split()[0]}"}


def write_list(number, path):
    for count, (name, text) in enumerate(texts()):
        if count == number:
            write(path, text)
            print(f"builds: {name}: {len(text)} bytes")
            return 0
    print(f"builds: there is no list {number}")
    return 1


def compare():
    differing, count = list(wrong_versions()), 0
    with tempfile.TemporaryDirectory(dir=shared_memory()) as folder:
        os.chdir(folder)
        lay_out()
        bench = Bench()
        for count, (name, text) in enumerate(texts(), 1):
            differing += [f"{name}: {fault}; to have the list: checks/builds.py --write {count - 1} FILE"
                          for fault in bench.differences(text)]
        os.chdir(ROOT)
    faults = differing[:SHOWN] + [f"no list has met: {name}" for name in OUTCOMES if name not in bench.met]
    for fault in faults:
        print(f"builds: {fault}")
    print(f"builds: {count} lists, {bench.runs} runs, {len(differing)} differ")
    return 1 if faults else 0


def main():
    arguments = argparse.ArgumentParser(description="the program and a plain builder on many component lists")
    arguments.add_argument("--write", nargs=2, metavar=("NUMBER", "FILE"))
    options = arguments.parse_args()
    if options.write:
        return write_list(int(options.write[0]), options.write[1])
    if not is_built():
        faults = list(wrong_versions())
        print("\n".join(f"builds: {text}" for text in (*faults, "skipped, the program isn't built")))
        return 1 if faults else 77
    return compare()


if __name__ == "__main__":
    sys.exit(main())
