"""The image of `make N`, and what the program answers, written from docs/PROGRAM.md alone.

The image's digests, and what a machine holds of it, are those of answers.py and loader.py.
"""
import struct
from collections import namedtuple

import images
from answers import measured
from loader import load
from records import FIXED_SIZES, PAGE

FIRST_GPA, SECRETS_GPA, CPUID_GPA, INSERT_GPA, CONTEXT_GPA = 0x100000, 0xF1000, 0xF2000, 0xF0000, 0xFFFFFFFFF000
SNP, TDX, NATIVE = 1, 2, 4                      # the platforms' masks
EVERY = SNP | TDX | NATIVE
UNMEASURED, SECRETS, CPUID = 2, 1, 2            # a flag, and two data types
# What `make` launches the image on
HOST = b'{"memory": [{"start": "0x0", "bytes": "0x100000000"}], "values": {"command_line": "%s"}}' % (
    b"console=ttyS0".hex().encode())

Made = namedtuple("Made", "status output error image")


def page_bytes(k):
    return struct.pack("<I", k) + bytes((k + j) % 251 for j in range(4, PAGE))


def context_bytes():
    return bytes(j % 256 for j in range(PAGE))


def headers(pages, place):
    """The headers; the data of the pages, and those of the context behind them, stand in the file from a place on."""
    yield from (images.platform(SNP, 2), images.platform(TDX, 3), images.platform(NATIVE, 0))
    yield images.policy(SNP)                    # its value is 0x30000
    yield images.area(0)
    yield images.param("command_line", 0, 0)
    yield images.required(FIRST_GPA, PAGE * pages, EVERY)
    for k in range(pages):
        flags = UNMEASURED if k % 5 == 4 else 0
        yield images.page(FIRST_GPA + PAGE * k, place + PAGE * k, flags, mask=EVERY)
    yield images.page(SECRETS_GPA, kind=SECRETS, mask=SNP)
    yield images.page(CPUID_GPA, kind=CPUID, mask=SNP)
    yield images.insert(INSERT_GPA, 0, SNP | TDX)
    yield images.context(CONTEXT_GPA, place + PAGE * pages, SNP, length=20)


def image(pages):
    """The image of so many pages. How long its headers are doesn't depend on where the data stand."""
    place = FIXED_SIZES[1] + len(images.row(headers(pages, 0)))
    data = b"".join(map(page_bytes, range(pages))) + context_bytes()
    return images.image_of(images.row(headers(pages, place)), data)


def made(pages):
    """What the program answers to `make`, and the file OUT."""
    whole = image(pages)
    snp, tdx = (measured(whole, wanted, False)[1] for wanted in ("snp", "tdx"))
    loaded = load(whole, HOST, "snp", False).output.splitlines()[0]
    text = f"made {pages} pages, {len(whole)} bytes\nsnp {snp.strip()} {loaded}\ntdx {tdx}"
    return Made(0, text, "", whole)
