#!/usr/bin/env -S python3 -B
"""Times `igvm measure` beside `openssl dgst -sha384` of the same file, in one run.

    measure.py [--program PATH] [--mb N] [--times N]

Two images are made, each for SEV-SNP and TDX: N megabytes of pages that all differ, and 100,000 pages at file offset
0, so of zeros. The second is measured with `--native-zero`, too. A line says how fast each went, best of so many times,
and how much memory `igvm` took at most beside the file's size.
"""
import os
import struct
import tempfile

from timing import arguments, best, front, need, over_the_file, platform

PAGE = 4096
ZERO_PAGES = 100_000
KINDS = ("snp", "tdx")
OPTION = "--native-zero"


def section(pages, distinct, kinds, behind):
    """Two platforms of these types, the pages of both, their data behind the section in order, and further headers."""
    parts = [platform(mask, kind) for mask, kind in zip((1, 2), kinds)]
    data = 24 + 48 + 32 * pages + len(behind)
    for k in range(pages):
        offset = data + PAGE * k if distinct else 0
        parts.append(struct.pack("<IIQIIIHH", 0x302, 24, PAGE * k, 3, offset, 0, 0, 0))
    return b"".join(parts) + behind


def write_image(path, pages, distinct, kinds=(2, 3), behind=b""):
    """An image of so many pages for two platforms, which are SEV-SNP and TDX unless named; its size."""
    headers = section(pages, distinct, kinds, behind)
    total = 24 + len(headers) + (PAGE * pages if distinct else 0)
    rest = os.urandom(PAGE - 8)
    with open(path, "wb") as out:
        out.write(front(headers, total) + headers)
        for k in range(pages if distinct else 0):
            out.write(struct.pack("<Q", k) + rest)
    return total


def measure(program, path, wanted, command="measure"):
    """The words that measure an image for a platform, the option behind its kind where wanted."""
    return [program, command, path, "--platform", *wanted.split()]


def report(name, program, path, size, times, wanted):
    """Prints the times of each platform and of `openssl`, all in turn, and gives those of the platforms."""
    commands = [measure(program, path, one) for one in wanted] + [["openssl", "dgst", "-sha384", path]]
    *ours, openssl = best([(words, os.devnull) for words in commands], times)
    print(f"{name}: {size / 1e6:.1f} MB")
    for one, seconds in zip(wanted, ours):
        memory = over_the_file(measure(program, path, one), os.devnull, size)
        print(f"  igvm measure {one:<17}  {seconds:8.3f} s  {size / seconds / 1e6:8.1f} MB/s  "
              f"openssl / igvm {openssl / seconds:6.2f}  peak memory: {memory}")
    print(f"  {'openssl sha384':<30}  {openssl:8.3f} s  {size / openssl / 1e6:8.1f} MB/s")
    return dict(zip(wanted, ours))


def report_zeros(seconds):
    """Prints the pages a second of each platform, and what the option takes beside none."""
    for wanted, taken in seconds.items():
        print(f"  {wanted}: {ZERO_PAGES / taken:,.0f} pages a second")
    for kind in KINDS:
        ratio = seconds[kind] / seconds[f"{kind} {OPTION}"]
        print(f"  {kind} without the option / with it {ratio:6.2f}")


def main():
    parser = arguments("igvm measure beside openssl")
    parser.add_argument("--mb", type=int, default=256, help="megabytes of distinct pages, 1 to 500")
    options = parser.parse_args()
    if not 1 <= options.mb <= 500:
        parser.error("--mb is 1 to 500")
    need(options.program, "openssl")
    with tempfile.TemporaryDirectory() as folder:
        path = os.path.join(folder, "image.igvm")
        size = write_image(path, options.mb * 1_000_000 // PAGE, True)
        report("distinct pages", options.program, path, size, options.times, KINDS)
        size = write_image(path, ZERO_PAGES, False)
        wanted = [f"{kind}{option}" for kind in KINDS for option in ("", f" {OPTION}")]
        report_zeros(report("pages of zeros", options.program, path, size, options.times, wanted))


if __name__ == "__main__":
    main()
