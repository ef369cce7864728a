#!/usr/bin/env -S python3 -B
"""Times `igvm load` beside `igvm measure` of the same file, and `igvm make` beside its parts, in one run.

    load.py [--program PATH] [--pages N] [--made N] [--times N]

An image of N pages that all differ, for SEV-SNP and TDX, is measured and loaded, and loaded with its pages file beside
`cp` of that file. An image of 524,288 pages of zeros in falling order, and the first once more, is refused. At last an image of so many pages is
made, beside a build of that size, two measurements and a load of what was made. A line says how fast each went, best of
so many times, and how much memory a load took at most beside the file and the pages.
"""
import json
import os
import struct
import subprocess
import tempfile

from measure import KINDS, PAGE, measure, write_image
from timing import arguments, best, front, need, peak, platform

MOST = 524_288


def write_host(path):
    with open(path, "w", encoding="ascii") as out:
        json.dump({"memory": [{"start": "0x0", "bytes": "0x100000000"}]}, out)


def load(program, image, host, kind, *option, command="load"):
    return [program, command, image, host, "--platform", kind, *option]


def seconds(name, taken, beside=""):
    print(f"  {name:<28}  {taken:8.3f} s  {beside}")


def report_loads(program, folder, pages, times):
    """The image loaded for each platform, without a pages file and with one."""
    image, host, out, copy = (os.path.join(folder, name) for name in ("image", "host", "out", "copy"))
    size = write_image(image, pages, True)
    print(f"{pages} pages that differ, a file of {size / 1e6:.1f} MB")
    for kind in KINDS:
        subprocess.run(load(program, image, host, kind, "--image", out), check=True, stdout=subprocess.DEVNULL)
        kept = os.path.join(folder, "kept")
        os.rename(out, kept)
        commands = [measure(program, image, kind), load(program, image, host, kind),
                    load(program, image, host, kind, "--image", out), ["cp", kept, copy]]
        measured, loaded, written, copied = best([(words, os.devnull) for words in commands], times, (out, copy))
        most = peak(load(program, image, host, kind), os.devnull)
        memory = "unknown" if most is None else f"{(most - size - PAGE * pages) / 1e6:.1f} MB over the file and its pages"
        seconds(f"measure {kind}", measured)
        seconds(f"load {kind}", loaded, f"load / measure {loaded / measured:5.2f}  peak memory: {memory}")
        seconds(f"load {kind} --image", written, f"cp {copied:6.3f} s  over load, beside twice cp "
                f"{(written - loaded) / (2 * copied):5.2f}")


def report_refusal(program, folder, times):
    """As many pages as an image may place, in falling order, and the first once more."""
    image, host = os.path.join(folder, "zeros"), os.path.join(folder, "host")
    parts = [platform(1, 2)]
    places = [*range(MOST - 1, -1, -1), MOST - 1]
    parts += [struct.pack("<IIQIIIHH", 0x302, 24, PAGE * k, 1, 0, 0, 0, 0) for k in places]
    section = b"".join(parts)
    with open(image, "wb") as out:
        out.write(front(section, 24 + len(section)) + section)
    words = load(program, image, host, "snp")
    least = float("inf")
    for _ in range(times):
        start = os.times().elapsed
        done = subprocess.run(words, stdout=subprocess.PIPE, text=True)
        least = min(least, os.times().elapsed - start)
    seconds(f"{MOST + 1} pages refused", least, f"status {done.returncode}: {done.stdout.strip()}")


def report_make(program, folder, pages, times):
    """An image of so many pages made, beside a build of as many pages, two measurements and a load of it."""
    made, host, data, built = (os.path.join(folder, name) for name in ("made", "host", "data", "built"))
    subprocess.run([program, "make", str(pages), made], check=True, stdout=subprocess.DEVNULL)
    kept = os.path.join(folder, "kept")
    os.replace(made, kept)
    with open(data, "wb") as out:
        for k in range(pages):
            out.write(struct.pack("<I", k) + os.urandom(16) * 255 + bytes(12))
    listed = os.path.join(folder, "list")
    entry = {"do": "pages", "mask": 1, "gpa": "0x100000", "file": data}
    with open(listed, "w", encoding="ascii") as out:
        json.dump({"platforms": [{"kind": "snp", "mask": 1}], "directives": [entry]}, out)
    commands = [[program, "make", str(pages), made], [program, "build", listed, built],
                measure(program, kept, "snp"), measure(program, kept, "tdx"), load(program, kept, host, "snp")]
    whole, *parts = best([(words, os.devnull) for words in commands], times, (made, built))
    seconds(f"make {pages}", whole, f"build {parts[0]:.3f} s, measure {parts[1]:.3f} s and {parts[2]:.3f} s, "
            f"load {parts[3]:.3f} s: make / these {whole / sum(parts):5.2f}")


def main():
    parser = arguments("igvm load beside igvm measure")
    parser.add_argument("--pages", type=int, default=32_768, help="pages that differ, 1 to 100,000")
    parser.add_argument("--made", type=int, default=20_000, help="pages that are made, 1 to 100,000")
    options = parser.parse_args()
    if not (1 <= options.pages <= 100_000 and 1 <= options.made <= 100_000):
        parser.error("--pages and --made are 1 to 100,000")
    need(options.program)
    with tempfile.TemporaryDirectory() as folder:
        write_host(os.path.join(folder, "host"))
        report_loads(options.program, folder, options.pages, options.times)
        report_refusal(options.program, folder, options.times)
        report_make(options.program, folder, options.made, options.times)


if __name__ == "__main__":
    main()
