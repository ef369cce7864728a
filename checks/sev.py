#!/usr/bin/env -S python3 -B
"""The program and a plain reader answer alike on images for SEV and SEV-ES.

    sev.py                      the comparison
    sev.py --write NUMBER FILE  writes the image of that number to FILE and runs nothing

The images are those of a table, in both versions of the format, and random ones of either version, right and wrong,
most of whose platforms are SEV or SEV-ES; they are the same in each run. Each is measured by `sev-measure` for every P
of SEV_COMMANDS. Status, output and error are compared with answers.py, which is compared with the table before that:
there the bytes that are hashed are told one by one. Ends with 77 where the program isn't built.
"""
import argparse
import hashlib
import multiprocessing
import os
import random
import sys
import tempfile
from collections import Counter
from functools import partial

import images
import reader
from answers import SEV_COMMANDS, answer, platform, words
from digests import SEV, SEV_ES, SNP, places
from program import Program, is_built, shared_memory
from random_images import SevMaker, WholeSevMaker
from records import FIXED_SIZES, LARGE, PAGE, fixed

RANDOM_IMAGES, WHOLE_IMAGES, SEED = 2400, 900, 20240301
LEAST, SHOWN = 20, 10               # how often each of OUTCOMES is met, at least; differences that are printed
IS_LARGE, IS_UNMEASURED = 1, 2      # a page's flags
ZEROS, CODE, STATE = bytes(PAGE), bytes(range(256)) * 16, b"\xf0\xff\0\0" * 1024
# What the runs have to meet.
OUTCOMES = (
    "file refused", "no byte is hashed", "a page is hashed", "a page of 2 MB is hashed", "a context is hashed",
    "a context of SEV isn't hashed", "a page behind a context", "what is unmeasured isn't hashed",
    *(f"digest of {kind} in version {version}" for kind in ("sev", "sev_es") for version in FIXED_SIZES),
    *(f"igvm: no digest for {kind}" for kind in ("native", "vsm", "snp", "tdx")),
    *(f"igvm: no platform {wanted}" for wanted in ("sev", "sev_es", 1, 2, 3)),
)


# Images that are known

def told():
    """(directives, the bytes that are hashed for SEV, and those for SEV-ES, by page) of images with the data `CODE` and
    `STATE` at these offsets."""
    page, context, insert = (partial(spelled, mask=3) for spelled in (images.page, images.context, images.insert))
    yield lambda code, state: [], [], []
    yield lambda code, state: [page(0x1000)], [ZEROS], [ZEROS]
    yield lambda code, state: [page(0x1000, code)], [CODE], [CODE]
    for flags in (0, IS_UNMEASURED):
        for data_type in (1, 2, 3):
            yield partial(lambda f, d, code, state: [page(0x1000, code, f, d)], flags, data_type), [], []
    yield lambda code, state: [page(0x1000, code, IS_UNMEASURED)], [], []
    yield lambda code, state: [context(0x1000, state)], [], [STATE]
    yield lambda code, state: [context(0x1000)], [], [ZEROS]
    yield lambda code, state: [context(0x1000, state + 4), page(0x2000)], [ZEROS], [STATE[4:] + bytes(4), ZEROS]
    yield lambda code, state: [context(0x1000, state + PAGE)], [], [ZEROS]
    yield (lambda code, state: [page(0x2000, code), context(0x1000, state), page(0x1000), page(0x2000, state)],
           [CODE, ZEROS, STATE], [CODE, STATE, ZEROS, STATE])
    yield lambda code, state: [page(LARGE, 0, IS_LARGE)], [ZEROS] * 512, [ZEROS] * 512
    yield lambda code, state: [page(LARGE, 0, IS_LARGE | IS_UNMEASURED), page(0, code)], [CODE], [CODE]
    yield lambda code, state: [images.area(0, 2 * PAGE), insert(0x1000, 0), page(0x1000, code)], [CODE], [CODE]
    yield (lambda code, state: [images.page(0, code, mask=1), images.page(0, state, mask=2), images.page(0, mask=4)],
           [CODE], [STATE])
    yield (lambda code, state: [images.context(0, state, mask=1), images.context(0, mask=2), images.context(0, mask=4)],
           [], [ZEROS])
    yield (lambda code, state: [images.policy(3), images.required(0x1000, PAGE, mask=3), page(0, state),
                                images.error_range(0x2000, PAGE, mask=3)], [STATE], [STATE])


def image_of_told(directives, version):
    """The image of these directives, behind a SEV, a SEV-ES and a SEV-SNP platform of masks 1, 2 and 4."""
    platforms = [images.platform(1, SEV), images.platform(2, SEV_ES), images.platform(4, SNP)]
    front = FIXED_SIZES[version] + len(images.row([*platforms, *directives(0, 0)]))
    return images.image_of(images.row([*platforms, *directives(front, front + PAGE)]), CODE + STATE, version=version)


def known():
    """(the image, its answer by each command)."""
    for version in FIXED_SIZES:
        for directives, on_sev, on_sev_es in told():
            done = {kind: (0, hashlib.sha256(b"".join(pages)).hexdigest() + "\n", "")
                    for kind, pages in (("sev", on_sev), ("sev_es", on_sev_es))}
            yield image_of_told(directives, version), {
                "sev-measure sev": done["sev"], "sev-measure sev_es": done["sev_es"], "sev-measure 0": done["sev"],
                "sev-measure 1": done["sev_es"], "sev-measure 2": (6, "", "igvm: no digest for snp\n"),
                "sev-measure 3": (6, "", "igvm: no platform 3\n")}


def wrong_answers():
    """Where the plain reader answers otherwise than the table."""
    for at, (image, wanted) in enumerate(known()):
        for command, want in wanted.items():
            got = answer(command, image, reader.first_fault(image))
            if got != want:
                yield f"known {at}: {command}: answers.py gives {got}, the table {want}"


# Images that are tried

def all_images():
    """(what it is, the image)."""
    for at, (image, _) in enumerate(known()):
        yield f"known {at}", image
    for at in range(WHOLE_IMAGES):
        yield f"random whole {at}", WholeSevMaker(random.Random(SEED + at)).image()
    for at in range(RANDOM_IMAGES):
        yield f"random {at}", SevMaker(random.Random(SEED + at)).image()


class Bench:
    """Tries images in a folder of its own; there is one in each process."""

    def __init__(self, folder):
        self.program, self.path = Program(folder), os.path.join(folder, "image")

    def try_image(self, number, name, image):
        """Texts on the runs that differ, and how often each kind of answer was met."""
        with open(self.path, "wb") as file:
            file.write(image)
        fault, differing, met = reader.first_fault(image), [], Counter()
        for command in SEV_COMMANDS:
            want, got = answer(command, image, fault), self.program.run(words(command, self.path))
            met.update(outcomes(command, image, want))
            if got != want:
                differing.append(f"{name}: {command}: the program answers {got}, expected {want}; "
                                 f"to have the image: checks/sev.py --write {number} FILE")
        return differing, met


def outcomes(command, image, want):
    """What kind of answer this is, in the words of OUTCOMES."""
    status, _, error = want
    if status == 1:
        return {"file refused"}
    if status == 6:
        return {error.rstrip()}
    one = platform(image, command.split()[1])
    found = [what for _, what, _, _ in places(image, one.mask, native_zero=False)]
    on_sev_es = one.kind == SEV_ES
    hashed = [what for what in found if what == "normal" or what == "vmsa" and on_sev_es]
    return {name for name, is_met in (
        (f"digest of {'sev_es' if on_sev_es else 'sev'} in version {fixed(image).version}", True),
        ("no byte is hashed", not hashed), ("a page is hashed", "normal" in hashed),
        ("a page of 2 MB is hashed", hashed.count("normal") >= 512), ("a context is hashed", "vmsa" in hashed),
        ("a context of SEV isn't hashed", "vmsa" in found and not on_sev_es),
        ("a page behind a context", "vmsa" in hashed and "normal" in hashed[hashed.index("vmsa"):]),
        ("what is unmeasured isn't hashed", bool({"unmeasured", "secrets", "cpuid"} & set(found))),
    ) if is_met}


def set_up(folder):
    """Makes this process's bench."""
    global bench
    bench = Bench(tempfile.mkdtemp(dir=folder))


def try_numbered(numbered):
    number, case = numbered
    return bench.try_image(number, *case)


def write(number, path):
    for count, (name, image) in enumerate(all_images()):
        if count == number:
            with open(path, "wb") as file:
                file.write(image)
            print(f"sev: {name}: {len(image)} bytes, by the reader {reader.first_fault(image)}")
            return 0
    print(f"sev: there is no image {number}")
    return 1


def compare():
    """What the processes find together, and the line of counts."""
    faults, differing, met, count = list(wrong_answers()), [], Counter(), 0
    with tempfile.TemporaryDirectory(dir=shared_memory()) as folder:
        with multiprocessing.Pool(min(4, os.cpu_count() or 1), set_up, (folder,)) as pool:
            for its_differing, its_met in pool.imap(try_numbered, enumerate(all_images()), chunksize=32):
                count += 1
                differing += its_differing
                met += its_met
    faults += differing[:SHOWN]
    faults += [f"fewer than {LEAST} runs have met: {name}" for name in OUTCOMES if met[name] < LEAST]
    for fault in faults:
        print(f"sev: {fault}")
    print(f"sev: {count} images, {count * len(SEV_COMMANDS)} runs, {len(differing)} differ")
    return 1 if faults else 0


def main():
    arguments = argparse.ArgumentParser(description="the program and a plain reader on images for SEV and SEV-ES")
    arguments.add_argument("--write", nargs=2, metavar=("NUMBER", "FILE"))
    options = arguments.parse_args()
    if options.write:
        return write(int(options.write[0]), options.write[1])
    if not is_built():
        faults = list(wrong_answers())
        print("\n".join(f"sev: {text}" for text in (*faults, "skipped, the program isn't built")))
        return 1 if faults else 77
    return compare()


if __name__ == "__main__":
    sys.exit(main())
