#!/usr/bin/env -S python3 -B
"""The program and a plain loader load the same on many pairs of an image and a host.

    loads.py                        the comparison
    loads.py --write NUMBER FOLDER  writes the pair of that number to FOLDER, with the plain loader's answers and pages
                                    files, and runs nothing

The pairs are those of a table, whose answers are known, and random ones, the same in each run: images that fit their
host, images and hosts that are broken in one or two ways, and others. Each random pair is loaded with `--native-zero`
and without, each time with `--image OUT` and without. Status, output and error are compared with loader.py, and so is
what the files hold then: OUT, which mostly was there before with other bytes and sometimes is FILE or HOST, has the
pages file after status 0 and is as it was after any other, and nothing else has changed. Ends with 77 where the program
isn't built; the plain loader is compared with the table before that.
"""
import argparse
import multiprocessing
import os
import random
import sys
import tempfile
from collections import Counter

import load_cases
import random_hosts
from answers import OPTION, platform
from loader import TAGS, Loaded, load
from program import Program, is_built, shared_memory
from random_hosts import LAUNCHED, WORDS, Pair, words_of
from records import FIXED_SIZES, fixed, headers

SEED, LEAST = 20240229, 20          # how many pairs have to meet each of OUTCOMES
SHOWN = 10                          # differences that are printed
RECORD = 4112                       # bytes of the pages file for a page
CASES = list(load_cases.answers())
COUNTS = ((random_hosts.crowded, 50), (random_hosts.fitting, 2200), (random_hosts.misfitting, 2000),
          (random_hosts.wrong_host, 600), (random_hosts.wrong_platform, 160), (random_hosts.wrong_file, 160),
          (random_hosts.any_image, 200))
MAKERS = [maker for maker, count in COUNTS for _ in range(count)]
OUTS = ("out", "out", "out", "new", "image", "host")        # by the pair's number; `new` isn't there before
OLD = (b"", b"old", b"old bytes " * 2000)                   # what `out` holds before, by the number
# The rows of docs/LOADING.md by the header, and its part 5
ROWS = {
    "Policy": ("policy repeated",), "Area": ("areas too large",), "Param": ("area gone", "value too long"),
    "Page": ("type not here", "outside", "repeated", "too many pages"),
    "Insert": ("area gone", "outside", "repeated", "too many pages"),
    "Context": ("context not here", "context repeated"), "Required": ("outside",), "ErrorRange": ("outside",),
    "IdBlock": ("id block not here", "id block repeated", "bad digest"),
}
# What pairs have to meet
OUTCOMES = (
    *(f"{name}: {text}" for name, texts in ROWS.items() for text in texts),
    "host: no JSON", *(f"host: {part}" for part in ("top", "memory", "values", "secrets", "cpuid")),
    "file refused", "no platform", "no digest",
    *(f"loaded {kind}{option}{image}" for kind in words_of(LAUNCHED) for option in ("", f" {OPTION}")
      for image in ("", " --image")),
    *(f"loaded version {version}" for version in FIXED_SIZES), *(f"loaded {tag}" for tag in TAGS),
    f"{OPTION} changes the digest", *(f"written to {out}" for out in sorted(set(OUTS))),
)


def known(case):
    """A case's pair, and its answer by its option."""
    wanted, *options = case.options.split()
    return Pair(case.image, case.host, wanted), {" ".join(options): Loaded(*case.answer, case.pages)}


def numbered(number):
    """(what it is, the pair, its answer by each option) of a number."""
    if number < len(CASES):
        return f"case {number}", *known(CASES[number])
    make = MAKERS[number - len(CASES)]
    pair = make(random.Random(SEED + number))
    return f"{make.__name__} {number}", pair, {option: load(*pair, option == OPTION) for option in ("", OPTION)}


def wrong_answer(number):
    """Where the plain loader answers a case otherwise than the table, or None."""
    pair, answers = known(CASES[number])
    for option, want in answers.items():
        got = load(*pair, option == OPTION)
        if got[:3] != want[:3]:
            return f"case {number}: loader.py answers {got[:3]}, the table {want[:3]}"
        if got.pages != want.pages:
            return f"case {number}: loader.py makes another pages file than the table"
    return None


class Bench:
    """Loads pairs in a folder of its own; there is one in each process."""

    def __init__(self, folder):
        self.program, self.folder = Program(folder), os.path.join(folder, "files")
        os.mkdir(self.folder)

    def path(self, name):
        return os.path.join(self.folder, name)

    def lay_out(self, files):
        for name in set(os.listdir(self.folder)) - files.keys():
            os.remove(self.path(name))
        for name, content in files.items():
            with open(self.path(name), "wb") as file:
                file.write(content)

    def found(self):
        """What the files hold, by their names."""
        found = {}
        for name in os.listdir(self.folder):
            with open(self.path(name), "rb") as file:
                found[name] = file.read()
        return found

    def differences(self, files, pair, option, out, want):
        """What the program answers or writes otherwise; OUT is None without `--image`."""
        self.lay_out(files)
        words = ["load", self.path("image"), self.path("host"), "--platform", pair.wanted, *option.split()]
        got = self.program.run(words + (["--image", self.path(out)] if out else []))
        if got != want[:3]:
            yield f"the program answers {got}, expected {want[:3]}"
        files = {**files, out: want.pages} if out and want.status == 0 else files
        found = self.found()
        for name in sorted(files.keys() | found.keys()):
            if files.get(name) != found.get(name):
                yield f"the file `{name}` differs: it has {size(found.get(name))}, expected {size(files.get(name))}"

    def try_pair(self, number):
        """How many runs there were, texts on those that differ, and what was met."""
        name, pair, answers = numbered(number)
        files = {"image": pair.image, "host": pair.host, "out": OLD[number // len(OUTS) % len(OLD)]}
        differing, met = [], changes(answers)
        for option, want in answers.items():
            for out in (None, OUTS[number % len(OUTS)]):
                met |= outcomes(pair, option, out, want)
                words = " ".join(filter(None, (pair.wanted, option, f"--image {out}" if out else "")))
                differing += [f"{name}: --platform {words}: {text}; to have the pair: checks/loads.py --write {number} "
                              "FOLDER" for text in self.differences(files, pair, option, out, want)]
        return 2 * len(answers), differing, met


def size(content):
    return "no name" if content is None else f"{len(content)} bytes"


def changes(answers):
    outputs = {want.output for want in answers.values() if want.status == 0}
    return {f"{OPTION} changes the digest"} if len(outputs) > 1 else set()


def outcomes(pair, option, out, want):
    """What kind of answer this is, in the words of OUTCOMES."""
    if want.status == 1:
        return {"file refused"}
    if want.status == 3:
        number, text = want.output.removeprefix("does not fit: header ").rstrip().split(": ")
        return {f"{headers(pair.image)[int(number)].name}: {text.split(' wanted ')[0]}"}
    if want.status == 6:
        return {" ".join(want.error.split()[1:3])}
    if want.status == 7:
        part = want.error.rstrip().removeprefix("igvm: json refused").removeprefix(": ").split(" ")[0]
        return {f"host: {part or 'no JSON'}"}
    return loaded_outcomes(pair, option, out, want.pages) if want.status == 0 else set()


def loaded_outcomes(pair, option, out, pages):
    met = {f"loaded version {fixed(pair.image).version}", *(f"loaded {TAGS[tag]}" for tag in pages[8::RECORD])}
    words = [WORDS[platform(pair.image, pair.wanted).kind], option, "--image" if out else ""]
    met.add("loaded " + " ".join(word for word in words if word))
    return met | {f"written to {out}"} if out else met


def set_up(folder):
    """Makes this process's bench."""
    global bench
    bench = Bench(tempfile.mkdtemp(dir=folder))


def try_pair(number):
    return bench.try_pair(number)


def write(number, folder):
    if number >= len(CASES) + len(MAKERS):
        print(f"loads: there is no pair {number}")
        return 1
    name, pair, answers = numbered(number)
    files = {"image": pair.image, "host": pair.host}
    for option, want in answers.items():
        print(f"loads: {name}: load image host --platform {pair.wanted} {option}: by the plain loader {want[:3]}")
        if want.status == 0:
            files[f"pages{option}"] = want.pages
    os.makedirs(folder, exist_ok=True)
    for name, content in files.items():
        with open(os.path.join(folder, name), "wb") as file:
            file.write(content)
    return 0


def compare():
    """What the processes find together, and the line of counts."""
    differing, met, runs, count = [], Counter(), 0, len(CASES) + len(MAKERS)
    with tempfile.TemporaryDirectory(dir=shared_memory()) as folder:
        with multiprocessing.Pool(min(4, os.cpu_count() or 1), set_up, (folder,)) as pool:
            faults = [fault for fault in pool.imap(wrong_answer, range(len(CASES))) if fault]
            for its_runs, its_differing, its_met in pool.imap(try_pair, range(count), chunksize=8):
                runs += its_runs
                differing += its_differing
                met.update(its_met)
    faults += differing[:SHOWN]
    faults += [f"{met[name]} pairs have met, of {LEAST}: {name}" for name in OUTCOMES if met[name] < LEAST]
    for fault in faults:
        print(f"loads: {fault}")
    print(f"loads: {count} pairs, {runs} runs, {len(differing)} differ")
    return 1 if faults else 0


def main():
    arguments = argparse.ArgumentParser(description="the program and a plain loader on many pairs of image and host")
    arguments.add_argument("--write", nargs=2, metavar=("NUMBER", "FOLDER"))
    options = arguments.parse_args()
    if options.write:
        return write(int(options.write[0]), options.write[1])
    if not is_built():
        faults = [fault for fault in map(wrong_answer, range(len(CASES))) if fault]
        print("\n".join(f"loads: {text}" for text in (*faults, "skipped, the program isn't built")))
        return 1 if faults else 77
    return compare()


if __name__ == "__main__":
    sys.exit(main())
