#!/usr/bin/env -S python3 -B
"""Times `igvm sev-measure` beside `openssl dgst -sha256` of the same bytes, and `igvm sev-load` beside it, in one run.

    sev.py [--program PATH] [--mib N] [--times N]

An image of N MiB of pages that all differ, for SEV and SEV-ES, is measured and loaded for each of them; `openssl`
hashes a file of the same pages and nothing else. A line says how fast each went, best of so many times, and how much
memory `igvm` took at most beside the file and, of a load, the pages. The digests have to be one.
"""
import os
import subprocess
import sys
import tempfile

from load import load, seconds, write_host
from measure import PAGE, measure, write_image
from timing import arguments, best, need, peak

KINDS = {"sev": 4, "sev_es": 5}     # the word of each platform, and its type


def write_pages(image, pages, path):
    """The bytes of the image's pages, which are its last ones."""
    with open(image, "rb") as file, open(path, "wb") as out:
        file.seek(-PAGE * pages, os.SEEK_END)
        out.write(file.read())


def last_word(words):
    """The last word that a command puts."""
    return subprocess.run(words, check=True, stdout=subprocess.PIPE, text=True).stdout.split()[-1]


def over(words, size):
    """A text on the most memory that a command takes, beside this size."""
    most = peak(words, os.devnull)
    return "peak memory: " + ("unknown" if most is None else f"{(most - size) / 1e6:.1f} MB over")


def main():
    parser = arguments("igvm sev-measure beside openssl, and igvm sev-load beside it")
    parser.add_argument("--mib", type=int, default=128, help="MiB of distinct pages, 1 to 500")
    options = parser.parse_args()
    if not 1 <= options.mib <= 500:
        parser.error("--mib is 1 to 500")
    need(options.program, "openssl")
    pages = options.mib * 256
    with tempfile.TemporaryDirectory() as folder:
        image, host, hashed = (os.path.join(folder, name) for name in ("image", "host", "hashed"))
        size = write_image(image, pages, True, tuple(KINDS.values()))
        write_pages(image, pages, hashed)
        write_host(host)
        openssl = ["openssl", "dgst", "-sha256", "-r", hashed]
        digest = subprocess.run(openssl, check=True, stdout=subprocess.PIPE, text=True).stdout.split()[0]
        print(f"{pages} pages that differ, a file of {size / 1e6:.1f} MB")
        for kind in KINDS:
            words = [measure(options.program, image, kind, "sev-measure"),
                     load(options.program, image, host, kind, command="sev-load")]
            if [last_word(one) for one in words] != [digest, digest]:
                sys.exit(f"{kind}: the digests aren't one")
            measured, loaded, plain = best([(one, os.devnull) for one in (*words, openssl)], options.times)
            seconds(f"sev-measure {kind}", measured, f"openssl {plain:6.3f} s  openssl / igvm {plain / measured:5.2f}  "
                    f"{over(words[0], size)} the file")
            seconds(f"sev-load {kind}", loaded, f"sev-load / sev-measure {loaded / measured:5.2f}  "
                    f"{over(words[1], size + PAGE * pages)} the file and its pages")


if __name__ == "__main__":
    main()
