#!/usr/bin/env -S python3 -B
"""Times `igvm build` beside `cp` and `cat` of the same pages, in one run.

    build.py [--program PATH] [--pages N] [--times N]

Three files of pages are made, each named by a list with one platform: N pages of random bytes, N pages that are equal
but for their last eight bytes, and 20,000 pages that are all equal. A line says how fast each went, best of so many
times, and how much memory `igvm` took at most beside the size of the pages. `cp` writes them to another file, `cat`
only reads them.
"""
import json
import os
import struct
import sys
import tempfile

from timing import arguments, best, need, peak, run

PAGE = 4096
EQUAL_PAGES = 20_000


def random_pages(pages):
    return (os.urandom(PAGE) for _ in range(pages))


def late_pages(pages):
    """They differ in their last bytes alone."""
    front = os.urandom(PAGE - 8)
    return (front + struct.pack(">Q", k) for k in range(pages))


def equal_pages(pages):
    page = os.urandom(PAGE)
    return (page for _ in range(pages))


def write_pages(folder, pages):
    with open(os.path.join(folder, "pages"), "wb") as out:
        for page in pages:
            out.write(page)
    entry = {"do": "pages", "mask": 1, "gpa": "0x100000", "file": os.path.join(folder, "pages")}
    with open(os.path.join(folder, "list"), "w", encoding="ascii") as out:
        json.dump({"platforms": [{"kind": "snp", "mask": 1}], "directives": [entry]}, out)


def report(name, program, folder, pages, distinct, times):
    """Prints the times of the three commands, once what was built has the size that it must have."""
    names, image, copy, text = (os.path.join(folder, name) for name in ("pages", "image", "copy", "text"))
    words = [program, "build", os.path.join(folder, "list"), image]
    run(words, text)
    want = 24 + 24 + 32 * pages + PAGE * distinct
    with open(text, encoding="ascii") as line:
        if line.read() != f"built {want} bytes\n" or os.path.getsize(image) != want:
            sys.exit(f"{name}: the image hasn't {want} bytes")
    commands = [(words, text), (["cp", names, copy], text), (["cat", names], os.devnull)]
    ours, cp, cat = best(commands, times, (image, copy))
    size = PAGE * pages
    print(f"{name}: {pages:,} pages, {size / 1e6:.1f} MB, image of {want / 1e6:.1f} MB")
    print(f"  igvm build  {ours:8.3f} s  {size / ours / 1e6:8.1f} MB/s  peak memory: {memory(words, size)}")
    print(f"  cp          {cp:8.3f} s  {size / cp / 1e6:8.1f} MB/s  cp / igvm  {cp / ours:5.2f}")
    print(f"  cat         {cat:8.3f} s  {size / cat / 1e6:8.1f} MB/s  cat / igvm {cat / ours:5.2f}")


def memory(words, size):
    most = peak(words, os.devnull)
    return "unknown" if most is None else f"{most / 1e6:.1f} MB, {most / size:.2f} times the pages"


def main():
    parser = arguments("igvm build beside cp and cat")
    parser.add_argument("--pages", type=int, default=65536, help="distinct pages, 1 to 130,000")
    options = parser.parse_args()
    if not 1 <= options.pages <= 130_000:
        parser.error("--pages is 1 to 130,000")
    need(options.program, "cp", "cat")
    cases = (("random pages", random_pages, options.pages, options.pages),
             ("pages that differ late", late_pages, options.pages, options.pages),
             ("equal pages", equal_pages, EQUAL_PAGES, 1))
    with tempfile.TemporaryDirectory() as folder:
        for name, made, pages, distinct in cases:
            write_pages(folder, made(pages))
            report(name, options.program, folder, pages, distinct, options.times)


if __name__ == "__main__":
    main()
