#!/usr/bin/env -S python3 -B
"""Times `igvm_measure` of the C library on a file in memory beside `igvm measure` of the same file.

    c_measure.py [--program PATH] [--library PATH] [--mb N] [--times N]

The image has N megabytes of pages that all differ, for SEV-SNP and TDX. The program's time is that of its process, which
reads the file besides. Under valgrind, where it is there, the instructions of both are counted on an image of 4 MB, too:
they don't depend on what else the machine does.
"""
import os
import re
import shutil
import subprocess
import sys
import tempfile

from measure import PAGE, measure, write_image
from timing import ROOT, arguments, best, need

KINDS = ("snp", "tdx")
COUNTED_MB = 4


def build(library, folder):
    path = os.path.join(folder, "c_measure")
    subprocess.run(["cc", "-O2", "-std=c11", "-I", os.path.join(ROOT, "include"),
                    os.path.join(ROOT, "bench", "c_measure.c"), library, "-o", path], check=True)
    return path


def instructions(words):
    """How many instructions a command takes."""
    done = subprocess.run(["valgrind", "--tool=callgrind", "--callgrind-out-file=/dev/null", *words],
                          capture_output=True, text=True)
    return int(re.search(r"Collected : (\d+)", done.stderr)[1])


def report_times(options, ours, folder):
    path = os.path.join(folder, "image.igvm")
    size = write_image(path, options.mb * 1_000_000 // PAGE, True)
    print(f"{size / 1e6:.1f} MB of distinct pages")
    for number, kind in enumerate(KINDS):
        words = measure(options.program, path, kind)
        seconds, = best([(words, os.devnull)], options.times)
        digest, call = subprocess.run([ours, path, str(number), str(options.times)], capture_output=True, text=True,
                                      check=True).stdout.split()
        if subprocess.run(words, capture_output=True, text=True).stdout.strip() != digest:
            sys.exit(f"{kind}: the library and the program have two digests")
        print(f"  {kind}: igvm_measure {float(call):.3f} s  igvm measure {seconds:.3f} s  "
              f"library / program {float(call) / seconds:.3f}")


def report_instructions(options, ours, folder):
    path = os.path.join(folder, "small.igvm")
    write_image(path, COUNTED_MB * 1_000_000 // PAGE, True)
    for number, kind in enumerate(KINDS):
        library, program = instructions([ours, path, str(number), "1"]), instructions(measure(options.program, path, kind))
        print(f"  {kind}: {library:,} instructions with the library, {program:,} of the program  "
              f"library / program {library / program:.3f}")


def main():
    parser = arguments("igvm_measure beside igvm measure")
    parser.add_argument("--library", default=os.environ.get("LIBIGVM") or os.path.join(ROOT, "out", "libigvm.a"))
    parser.add_argument("--mb", type=int, default=128, help="megabytes of distinct pages, 1 to 500")
    options = parser.parse_args()
    need(options.program, "cc")
    if not os.path.exists(options.library):
        sys.exit(f"{options.library} isn't built: run ./libigvm once")
    with tempfile.TemporaryDirectory() as folder:
        ours = build(options.library, folder)
        report_times(options, ours, folder)
        if shutil.which("valgrind"):
            report_instructions(options, ours, folder)


if __name__ == "__main__":
    main()
