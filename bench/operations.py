#!/usr/bin/env -S python3 -B
"""Times `igvm strip`, `join` and `seal` of large images beside `cp` of what they write, in one run.

    operations.py [--program PATH] [--mib N] [--times N]

Two images are made, each of N MiB of pages that all differ, for SEV-SNP and TDX, and with an ID block. One is stripped,
joined with the other and with itself, and sealed. A line says how fast each went, best of so many times, and how much
memory `igvm` took at most beside the files that it reads. A seal measures the image, so that is timed, too.
"""
import os
import struct
import sys
import tempfile

from load import seconds
from measure import PAGE, measure, write_image
from timing import arguments, best, need, peak, run

HEADERS = 24 + 48                   # bytes of the fixed header and two platforms
BLOCK = struct.pack("<III", 0x30B, 696, 1).ljust(704, b"\0")


def write_copy(words, made, path, want):
    """Keeps what a job makes under another name, once it has the size that it must have."""
    run(words)
    if os.path.getsize(made) != want:
        sys.exit(f"{' '.join(words)}: what was made hasn't {want} bytes")
    os.rename(made, path)


def memory(words, size):
    most = peak(words, os.devnull)
    return "unknown" if most is None else f"{(most - size) / 1e6:.1f} MB over the files, {most / size:.2f} times these"


def report(name, words, copied, read, given, times, made):
    """Prints the time of a job, in turn with `cp` of what it makes and further commands, and gives those of all."""
    commands = [words, ["cp", copied, made], *given]
    ours, cp, *others = best([(one, os.devnull) for one in commands], times, (made,))
    size = os.path.getsize(copied)
    seconds(name, ours, f"{size / ours / 1e6:8.1f} MB/s  cp {cp:6.3f} s  cp / igvm {cp / ours:5.2f}  "
            f"peak memory: {memory(words, read)}")
    return ours, *others


def main():
    parser = arguments("igvm strip, join and seal beside cp")
    parser.add_argument("--mib", type=int, default=128, help="MiB of distinct pages of an image, 1 to 240")
    options = parser.parse_args()
    if not 1 <= options.mib <= 240:
        parser.error("--mib is 1 to 240")
    need(options.program, "cp")
    pages = options.mib * 256
    data, headers = PAGE * pages, 32 * pages + len(BLOCK)
    with tempfile.TemporaryDirectory() as folder:
        one, other, made, copied = (os.path.join(folder, name) for name in ("one", "other", "made", "copied"))
        size = write_image(one, pages, True, behind=BLOCK)
        write_image(other, pages, True, behind=BLOCK)
        print(f"images of {pages} pages that differ, {size / 1e6:.1f} MB each")
        on_snp = ["--platform", "snp"]
        for name, words, want, read, given in (
                ("strip", ["strip", one, made, *on_snp], size - 24, size, []),
                ("join", ["join", one, other, made], HEADERS + 48 + 2 * headers + 2 * data, 2 * size, []),
                ("join with itself", ["join", one, one, made], HEADERS + 48 + 2 * headers + data, 2 * size, []),
                ("seal", ["seal", one, made, *on_snp], size, size, [measure(options.program, one, "snp")])):
            words = [options.program, *words]
            write_copy(words, made, copied, want)
            ours, *others = report(name, words, copied, read, given, options.times, made)
            for measured in others:
                seconds("measure snp", measured, f"seal / measure {ours / measured:5.2f}")


if __name__ == "__main__":
    main()
