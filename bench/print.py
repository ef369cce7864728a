#!/usr/bin/env -S python3 -B
"""Times `igvm print` into a file beside `cat` of the same text into a file, in one run.

    print.py [--program PATH] [--headers N] [--content N] [--times N]

The image has one platform and 1,048,576 headers of a carried type, each with a content of 4 bytes. A line says how
many megabytes of text a second each of the two wrote, best of so many times, and how much memory `igvm` took at most
beside the file's size. The last line of the listing is compared with what it must be.
"""
import os
import struct
import sys
import tempfile

from timing import arguments, best, front, need, over_the_file, platform

CARRIED = 0x80000399


def write_image(path, headers, content):
    """The image's size and the last line of its listing."""
    part = struct.pack("<II", CARRIED, content) + b"\xA5" * content + bytes(-content % 8)
    section = platform(1, 2) + part * headers
    total = 24 + len(section)
    with open(path, "wb") as out:
        out.write(front(section, total) + section)
    return total, f"{headers} at {total - len(part)} carried kind {CARRIED:08x} length {content}\n"


def text_of(path, last):
    """The listing's size, where it ends with the line that it must end with."""
    with open(path, "rb") as text:
        size = text.seek(0, os.SEEK_END)
        text.seek(max(0, size - len(last)))
        if text.read() != last.encode():
            sys.exit(f"the listing doesn't end with {last!r}")
    return size


def main():
    parser = arguments("igvm print beside cat")
    parser.add_argument("--headers", type=int, default=1 << 20, help="carried headers, from 1 on")
    parser.add_argument("--content", type=int, default=4, help="bytes of each header's content")
    options = parser.parse_args()
    if options.headers < 1 or options.content < 0 or options.headers * (options.content + 15) > 500_000_000:
        parser.error("the image must have a header and at most 500 MB")
    need(options.program, "cat")
    with tempfile.TemporaryDirectory() as folder:
        image, text, copy = (os.path.join(folder, name) for name in ("image.igvm", "text", "copy"))
        size, last = write_image(image, options.headers, options.content)
        words = [options.program, "print", image]
        ours, cat = best([(words, text), (["cat", text], copy)], options.times)
        put = text_of(text, last)
        memory = over_the_file(words, text, size)
    print(f"{options.headers:,} carried headers: {size / 1e6:.1f} MB, listing of {put / 1e6:.1f} MB")
    print(f"  igvm print  {ours:8.3f} s  {put / ours / 1e6:8.1f} MB/s  peak memory: {memory}")
    print(f"  cat         {cat:8.3f} s  {put / cat / 1e6:8.1f} MB/s")
    print(f"  cat / igvm  {cat / ours:8.2f}")


if __name__ == "__main__":
    main()
