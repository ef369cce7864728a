#!/usr/bin/env -S python3 -B
"""The program and a plain loader load the same on many pairs of an image for SEV or SEV-ES and a host.

    sev_loads.py                        the comparison
    sev_loads.py --write NUMBER FOLDER  writes the pair of that number to FOLDER, with the plain loader's answer, and
                                        runs nothing

The pairs are those of a table, whose answers are known, and random ones, the same in each run: images that fit their
host, images and hosts that are broken in one or two ways, and others. Each is loaded by `sev-load`; status, output and
error are compared with loader.py, and no file may have changed. Where a pair is loaded, `sev-measure` of the same file
has to print that digest. Ends with 77 where the program isn't built; the plain loader is compared with the table before
that.
"""
import argparse
import multiprocessing
import os
import random
import sys
import tempfile
from collections import Counter

import random_hosts
import sev_load_cases
from answers import platform
from digests import places
from loader import sev_load
from program import Program, is_built, shared_memory
from random_hosts import SEV_LAUNCHED, WORDS, Pair, words_of
from records import FIXED_SIZES, fixed, headers

SEED, LEAST = 20240302, 20          # how many pairs have to meet each of OUTCOMES
SHOWN = 10                          # differences that are printed
CASES = list(sev_load_cases.answers())
COUNTS = ((random_hosts.crowded, 60), (random_hosts.fitting, 1700), (random_hosts.misfitting, 1700),
          (random_hosts.wrong_host, 400), (random_hosts.wrong_platform, 160), (random_hosts.wrong_file, 120),
          (random_hosts.any_image, 200))
MAKERS = [maker for maker, count in COUNTS for _ in range(count)]
# The rows of docs/LOADING.md by the header, on both kinds and on one of them
ROWS = {
    "Policy": ("policy repeated",), "Area": ("areas too large",), "Param": ("area gone", "value too long"),
    "Page": ("outside", "repeated", "too many pages"), "Insert": ("area gone", "outside", "repeated", "too many pages"),
    "Required": ("outside",), "ErrorRange": ("outside",),
}
ROWS_OF_KINDS = ("sev: Page: type not here", "sev_es: Page: type not here", "sev: Context: context not here",
                 "sev_es: Context: context repeated", "sev: IdBlock: id block not here",
                 "sev_es: IdBlock: id block not here")
PLACED = ("a page is measured", "a page isn't measured", "a page of 2 MB", "an insert", "a context",
          "a page behind a context", "nothing is placed")
# What pairs have to meet
OUTCOMES = (
    *(f"{name}: {text}" for name, texts in ROWS.items() for text in texts), *ROWS_OF_KINDS,
    "host: no JSON", *(f"host: {part}" for part in ("top", "memory", "values", "secrets", "cpuid")),
    "file refused", "no platform", "no digest",
    *(f"loaded {kind} in version {version}" for kind in words_of(SEV_LAUNCHED) for version in FIXED_SIZES),
    *(f"loaded, {what}" for what in PLACED),
)


def numbered(number):
    """(what it is, the pair, its answer) of a number."""
    if number < len(CASES):
        case = CASES[number]
        return f"case {number}", Pair(case.image, case.host, case.options), case.answer
    make = MAKERS[number - len(CASES)]
    pair = make(random.Random(SEED + number), SEV_LAUNCHED)
    return f"{make.__name__} {number}", pair, sev_load(*pair)[:3]


def wrong_answer(number):
    """Where the plain loader answers a case otherwise than the table, or None."""
    _, pair, want = numbered(number)
    got = sev_load(*pair)[:3]
    return None if got == want else f"case {number}: loader.py answers {got}, the table {want}"


class Bench:
    """Loads pairs in a folder of its own; there is one in each process."""

    def __init__(self, folder):
        self.program, self.folder = Program(folder), os.path.join(folder, "files")
        os.mkdir(self.folder)

    def path(self, name):
        return os.path.join(self.folder, name)

    def held(self):
        """What the files hold, by their names."""
        found = {}
        for name in os.listdir(self.folder):
            with open(self.path(name), "rb") as file:
                found[name] = file.read()
        return found

    def differences(self, pair, want):
        """How many runs there were, and what the program does otherwise."""
        files, behind = {"image": pair.image, "host": pair.host}, ["--platform", pair.wanted]
        for name, content in files.items():
            with open(self.path(name), "wb") as file:
                file.write(content)
        runs, differing = 1, []
        got = self.program.run(["sev-load", self.path("image"), self.path("host"), *behind])
        if got != want:
            differing.append(f"the program answers {got}, expected {want}")
        if want[0] == 0:
            # The digest stands alone in the output of `sev-measure`.
            runs, digest = 2, want[1].split()[-1]
            got = self.program.run(["sev-measure", self.path("image"), *behind])
            if got != (0, f"{digest}\n", ""):
                differing.append(f"sev-measure answers {got}, expected {digest}")
        if self.held() != files:
            differing.append("files have changed")
        return runs, differing

    def try_pair(self, number):
        """How many runs there were, texts on those that differ, and what was met."""
        name, pair, want = numbered(number)
        runs, differing = self.differences(pair, want)
        texts = [f"{name}: --platform {pair.wanted}: {text}; to have the pair: checks/sev_loads.py --write {number} "
                 "FOLDER" for text in differing]
        return runs, texts, outcomes(pair, want)


def outcomes(pair, want):
    """What kind of answer this is, in the words of OUTCOMES."""
    status, output, error = want
    if status == 1:
        return {"file refused"}
    if status == 3:
        number, text = output.removeprefix("does not fit: header ").rstrip().split(": ")
        row = f"{headers(pair.image)[int(number)].name}: {text}"
        return {row, f"{WORDS[platform(pair.image, pair.wanted).kind]}: {row}"}
    if status == 6:
        return {" ".join(error.split()[1:3])}
    if status == 7:
        part = error.rstrip().removeprefix("igvm: json refused").removeprefix(": ").split(" ")[0]
        return {f"host: {part or 'no JSON'}"}
    return loaded_outcomes(pair) if status == 0 else set()


def loaded_outcomes(pair):
    one = platform(pair.image, pair.wanted)
    found = [(name, what) for name, what, _, _ in places(pair.image, one.mask, native_zero=False)]
    names, normal = [name for name, _ in found], ("Page", "normal")
    met = {what for what, is_met in zip(PLACED, (
        normal in found, ("Page", "unmeasured") in found, names.count("Page") >= 512, "Insert" in names,
        "Context" in names, "Context" in names and normal in found[names.index("Context"):], not found)) if is_met}
    return {f"loaded {WORDS[one.kind]} in version {fixed(pair.image).version}", *(f"loaded, {what}" for what in met)}


def set_up(folder):
    """Makes this process's bench."""
    global bench
    bench = Bench(tempfile.mkdtemp(dir=folder))


def try_pair(number):
    return bench.try_pair(number)


def write(number, folder):
    if number >= len(CASES) + len(MAKERS):
        print(f"sev loads: there is no pair {number}")
        return 1
    name, pair, want = numbered(number)
    print(f"sev loads: {name}: sev-load image host --platform {pair.wanted}: by the plain loader {want}")
    os.makedirs(folder, exist_ok=True)
    for file_name, content in (("image", pair.image), ("host", pair.host)):
        with open(os.path.join(folder, file_name), "wb") as file:
            file.write(content)
    return 0


def compare():
    """What the processes find together, and the line of counts."""
    differing, met, runs, count = [], Counter(), 0, len(CASES) + len(MAKERS)
    with tempfile.TemporaryDirectory(dir=shared_memory()) as folder:
        with multiprocessing.Pool(min(4, os.cpu_count() or 1), set_up, (folder,)) as pool:
            faults = [fault for fault in pool.imap(wrong_answer, range(len(CASES))) if fault]
            for its_runs, its_differing, its_met in pool.imap(try_pair, range(count), chunksize=8):
                runs += its_runs
                differing += its_differing
                met.update(its_met)
    faults += differing[:SHOWN]
    faults += [f"{met[name]} pairs have met, of {LEAST}: {name}" for name in OUTCOMES if met[name] < LEAST]
    for fault in faults:
        print(f"sev loads: {fault}")
    print(f"sev loads: {count} pairs, {runs} runs, {len(differing)} differ")
    return 1 if faults else 0


def main():
    arguments = argparse.ArgumentParser(description="the program and a plain loader on many pairs for SEV and SEV-ES")
    arguments.add_argument("--write", nargs=2, metavar=("NUMBER", "FOLDER"))
    options = arguments.parse_args()
    if options.write:
        return write(int(options.write[0]), options.write[1])
    if not is_built():
        faults = [fault for fault in map(wrong_answer, range(len(CASES))) if fault]
        print("\n".join(f"sev loads: {text}" for text in (*faults, "skipped, the program isn't built")))
        return 1 if faults else 77
    return compare()


if __name__ == "__main__":
    sys.exit(main())
