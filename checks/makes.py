#!/usr/bin/env -S python3 -B
"""The program and a plain maker make the same images: `make N OUT` for N from 1 to 12, for 100 and for 1,000.

Status, output, error and OUT are compared with maker.py; OUT is there before, longer or shorter, or isn't. What `make`
says of OUT the program is then asked once more, by `print`, by `measure` for both kinds, and by `load` on the host that
docs/PROGRAM.md describes, whose pages file is compared, too. Ends with 77 where the program isn't built. Before that
maker.py is compared with what the page says of the image, and with the plain builder on a list of the same headers.
"""
import json
import os
import sys
import tempfile

import maker
import reader
from answers import answer, words
from components import built
from loader import load
from program import ROOT, Program, is_built, shared_memory
from records import PAGE, data_page, headers

NUMBERS = (*range(1, 13), 100, 1000)
OLD = (None, b"", b"old", bytes(1 << 23))       # what OUT holds before, in turn; None where it isn't there
SHOWN = 10                          # differences that are printed


def list_of(pages):
    """The text of a component list with the headers of docs/PROGRAM.md; page k is the file `k`."""
    directives = [
        {"do": "area", "index": 0, "bytes": PAGE},
        {"do": "param", "kind": "command_line", "area": 0, "offset": 0},
        {"do": "required", "mask": 7, "gpa": "0x100000", "bytes": PAGE * pages, "flags": 0},
        *({"do": "pages", "mask": 7, "gpa": hex(0x100000 + PAGE * k), "file": str(k), "unmeasured": k % 5 == 4}
          for k in range(pages)),
        {"do": "zero", "mask": 1, "gpa": "0xF1000", "count": 1, "kind": "secrets"},
        {"do": "zero", "mask": 1, "gpa": "0xF2000", "count": 1, "kind": "cpuid"},
        {"do": "insert", "mask": 3, "gpa": "0xF0000", "area": 0},
        {"do": "context", "mask": 1, "gpa": "0xFFFFFFFFF000", "vp": 0, "file": "context"},
    ]
    kinds = (("snp", 1), ("tdx", 2), ("native", 4))
    return json.dumps({"platforms": [{"kind": kind, "mask": mask} for kind, mask in kinds],
                       "policies": [{"mask": 1, "policy": "0x30000"}], "directives": directives}).encode()


def named(name):
    """The file of this name in such a list."""
    return maker.context_bytes() if name == "context" else maker.page_bytes(int(name))


def maker_faults(pages, want):
    """Where the plain maker's image isn't what the page says, or what the plain builder makes."""
    fault = reader.first_fault(want.image)
    if fault is not None:
        yield f"the plain reader refuses the image: {fault}"
        return
    if len(want.image) != 4408 + 4128 * pages:
        yield f"the image has {len(want.image)} bytes"
    data = [data_page(want.image, one.fields.offset) for one in headers(want.image)
            if one.name in ("Page", "Context") and one.fields.offset]
    if len(data) != pages + 1 or len(set(data)) != len(data) or bytes(PAGE) in data:
        yield "the pages and the context aren't all different"
    if f" loaded {pages + 3} pages, 1 contexts\n" not in want.output:
        yield f"maker.py answers {want.output}"
    if built(list_of(pages), named)[3] != want.image:
        yield "the plain builder makes another image"


# The runs

def read(path):
    """The bytes of a file, or None."""
    if not os.path.exists(path):
        return None
    with open(path, "rb") as file:
        return file.read()


def write(path, content):
    with open(path, "wb") as file:
        file.write(content)


class Bench:
    """Makes images in a folder."""

    def __init__(self, folder):
        self.program, self.runs = Program(folder), 0
        self.out, self.host, self.pages = (os.path.join(folder, name) for name in ("out", "host", "pages"))
        write(self.host, maker.HOST)

    def run(self, command):
        self.runs += 1
        return self.program.run(command)

    def differences(self, pages, want, old):
        """What the program answers or writes otherwise, where OUT holds these bytes before."""
        if os.path.exists(self.out):
            os.remove(self.out)
        if old is not None:
            write(self.out, old)
        got = self.run(["make", str(pages), self.out])
        if got != want[:3]:
            yield f"the program answers {got}, expected {want[:3]}"
        if read(self.out) != want.image:
            yield "OUT holds another image"
        else:
            yield from self.read_back(want.image)

    def read_back(self, image):
        """What the program says of OUT otherwise than the plain reader and the plain loader."""
        for command in ("print", "measure snp", "measure tdx"):
            got, want = self.run(words(command, self.out)), answer(command, image, None)
            if got != want:
                yield f"{command} of OUT: the program answers {got}, expected {want}"
        want = load(image, maker.HOST, "snp", False)
        for image_words in ([], ["--image", self.pages]):
            got = self.run(["load", self.out, self.host, "--platform", "snp", *image_words])
            if got != want[:3]:
                yield f"load of OUT: the program answers {got}, expected {want[:3]}"
        if read(self.pages) != want.pages:
            yield "load of OUT: the program writes another pages file"


def main():
    wanted = {pages: maker.made(pages) for pages in NUMBERS}
    faults = [f"{pages} pages: {fault}" for pages, want in wanted.items() for fault in maker_faults(pages, want)]
    if not is_built():
        print("\n".join(f"makes: {text}" for text in (*faults, "skipped, the program isn't built")))
        return 1 if faults else 77
    with tempfile.TemporaryDirectory(dir=shared_memory()) as folder:
        bench = Bench(folder)
        for at, (pages, want) in enumerate(wanted.items()):
            faults += [f"make {pages} OUT: {text}" for text in bench.differences(pages, want, OLD[at % len(OLD)])]
    for fault in faults[:SHOWN]:
        print(f"makes: {fault}")
    print(f"makes: {len(wanted)} images, {bench.runs} runs, {len(faults)} differ")
    return 1 if faults else 0


if __name__ == "__main__":
    sys.exit(main())
