#!/usr/bin/env -S python3 -B
"""The crate elf_pages and a plain reader answer the same of real ELF files, and of files with a few bytes changed.

    elf_files.py          the comparison
    elf_files.py FILE     what the plain reader answers of a file

The reader was written from docs/ELF.md alone, and is compared with known answers first. The files are executables,
libraries and objects of this machine, one that `gcc -static` makes where it is there, those with known answers, and
broken copies of small ones, the same in each run. A program over the crate, made for this check alone, puts a line a
page: its address, whether it is filled, and the CRC-32 of its bytes; or the fault. Ends with 77 where `rt` is missing.
"""
import collections
import glob
import os
import random
import shutil
import subprocess
import sys
import tempfile
import zlib

import crate_program
from elf_cases import known
from elves import TEXTS, judged, page_bytes
from random_elves import broken
from records import PAGE

FILES, BROKEN, SEED = 24, 120, 20240229
LARGEST = 2 << 20                   # bytes of a file

PROGRAM = '''//! The pages of the ELF file on standard input, a line each, or its fault.
#![tactic(auto)]

use elf_pages::open_elf;
use igvm_headers::crc32;
use std::io::{self, Read};

fn main(rt: HostRuntime) -> io::Result<()> {
    let mut file = Vec::new(rt.alloc());
    rt.stdin().read_to_end(&mut file)?;
    let view = match open_elf(&file) {
        Ok(view) => view,
        Err(fault) => return println!(rt; "{} {:?}", fault.item, fault.what),
    };
    let mut page = [1; 4096];
    for k in 0..view.pages() {
        view.fill(k, &mut page);
        println!(rt; "{:x} {} {:08x}", view.gpa(k), view.filled(k), crc32(&page))?;
    }
    Ok(())
}
'''


def page_line(page, memory, filled):
    return f"{page * PAGE:x} {str(filled).lower()} {zlib.crc32(memory):08x}\n"


def lines_of(found):
    """What the program has to put of a file's pages, or of the item and the answer of its fault."""
    if isinstance(found, tuple):
        return "{} {}\n".format(*found)
    return "".join(page_line(*page) for page in found)


def answer(file):
    """The same by the plain reader."""
    accepted, fault = judged(file)
    if fault:
        return lines_of(fault)
    segments, pages = accepted
    return lines_of([(page, *page_bytes(file, segments, page)) for page in pages])


# Files

def static_program():
    """A statically linked program, or none where no compiler makes one."""
    with tempfile.TemporaryDirectory() as folder:
        source, made = os.path.join(folder, "made.c"), os.path.join(folder, "made")
        with open(source, "w", encoding="utf-8") as text:
            text.write("static char zeros[100000];\nint main(void) { return zeros[7]; }\n")
        try:
            subprocess.run(["gcc", "-static", "-o", made, source], check=True, capture_output=True)
        except (OSError, subprocess.CalledProcessError):
            return []
        with open(made, "rb") as file:
            return [file.read()]


def real_files():
    """Some executables, libraries and objects of this machine."""
    found = {}
    rt = shutil.which("rt")
    places = [os.path.join(os.path.dirname(os.path.realpath(rt)), "*")] if rt else []
    for place in (*places, "/usr/bin/*", "/usr/lib/x86_64-linux-gnu/*.so*", "/usr/lib/x86_64-linux-gnu/*.o"):
        paths = [path for path in sorted(glob.glob(place)) if os.path.isfile(path) and os.path.getsize(path) <= LARGEST]
        for path in paths[::max(1, len(paths) // (FILES // 3))][:FILES // 3]:
            with open(path, "rb") as file:
                found[os.path.basename(path)] = file.read()
    return [file for file in found.values() if file[:4] == b"\x7fELF"]


def main():
    if sys.argv[1:]:
        with open(sys.argv[1], "rb") as file:
            print(answer(file.read()), end="")
        return 0
    chance = random.Random(SEED)
    told = known()
    groups = {"known": [file for file, _ in told], "real": real_files(), "static": static_program(),
              "broken": [broken(chance) for _ in range(BROKEN)]}
    cases = {f"{name}_{n}": (file, answer(file)) for name, files in groups.items() for n, file in enumerate(files)}
    faults = [f"known_{n}: the reader says {answer(file)[:60]!r}" for n, (file, found) in enumerate(told)
              if answer(file) != lines_of(found)]
    answers = collections.Counter(wanted.split()[1] for _, wanted in cases.values())
    faults += [f"no file is answered {fault}" for fault in TEXTS if not answers[fault]]
    status, lines = (1, faults) if faults else crate_program.run(PROGRAM, ["elf_pages", "igvm_headers"], cases)
    for line in lines:
        print(f"elf files: {line}")
    if not status:
        accepted = len(cases) - sum(answers[fault] for fault in TEXTS)
        print(f"elf files: {len(cases)} files agree, {accepted} accepted, {len(groups['real'])} of this machine")
    return status


if __name__ == "__main__":
    sys.exit(main())
