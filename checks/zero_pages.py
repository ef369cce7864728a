"""Images with pages at file offset 0 and elsewhere, and their digests with `--native-zero` and without.

The records of each are told one by one, as docs/DIGESTS.md has them, and hashed here.
"""
import hashlib
import struct
from functools import partial

import images
from records import FIXED_SIZES, LARGE, PAGE

NORMAL, VMSA, ZERO, UNMEASURED, SECRETS, CPUID = 1, 2, 3, 4, 5, 6
IS_LARGE, IS_UNMEASURED = 1, 2      # a page's flags
ZEROS, CODE = bytes(PAGE), bytes(range(256)) * 16
# All headers count for both platforms, the one of mask 1 for SEV-SNP and the one of mask 2 for TDX.
PLATFORMS = [images.platform(1, 2), images.platform(2, 3)]
page, insert, context = (partial(spelled, mask=3) for spelled in (images.page, images.insert, images.context))


def sha384(message):
    return hashlib.sha384(message).digest()


def folded(records):
    """The SEV-SNP digest of records: (page type, GPA, the page where its bytes are measured)."""
    digest = bytes(48)
    for kind, gpa, data in records:
        contents = bytes(48) if data is None else sha384(data)
        digest = sha384(digest + contents + b"\x70\0" + bytes([kind]) + bytes(5) + struct.pack("<Q", gpa))
    return digest.hex()


def joined(pages):
    """MRTD of pages: (GPA, the page where its bytes are measured)."""
    records = []
    for gpa, data in pages:
        records.append(b"MEM.PAGE.ADD\0\0\0\0" + struct.pack("<Q", gpa) + bytes(104))
        for at in range(0, 0 if data is None else PAGE, 256):
            records.append(b"MR.EXTEND" + bytes(7) + struct.pack("<Q", gpa + at) + bytes(104) + data[at:at + 256])
    return sha384(b"".join(records)).hex()


def without(records):
    """The records without the option: the pages without data are NORMAL ones of zeros."""
    return [(NORMAL, gpa, ZEROS) if kind == ZERO else (kind, gpa, data) for kind, gpa, data in records]


def single_pages(zeros, code):
    """One page each, at no place in the file, at one with zeros and at one with code."""
    yield [page(0x1000)], [(ZERO, 0x1000, None)], [(0x1000, ZEROS)]
    yield [page(0x1000, zeros)], [(NORMAL, 0x1000, ZEROS)], [(0x1000, ZEROS)]
    yield [page(0x1000, code)], [(NORMAL, 0x1000, CODE)], [(0x1000, CODE)]
    for offset in (0, zeros, code):
        yield [page(0x1000, offset, IS_UNMEASURED)], [(UNMEASURED, 0x1000, None)], [(0x1000, None)]
        for flags in (0, IS_UNMEASURED):
            for data_type, kind in enumerate((SECRETS, CPUID, CPUID), 1):
                yield [page(0x1000, offset, flags, data_type)], [(kind, 0x1000, None)], [(0x1000, None)]


def large_pages(zeros):
    """The 512 pages of a page of 2 MB."""
    gpas = range(LARGE, 2 * LARGE, PAGE)
    measured, added = [(gpa, ZEROS) for gpa in gpas], [(gpa, None) for gpa in gpas]
    yield [page(LARGE, 0, IS_LARGE)], [(ZERO, gpa, None) for gpa in gpas], measured
    yield [page(LARGE, zeros, IS_LARGE)], [(NORMAL, gpa, ZEROS) for gpa in gpas], measured
    yield [page(LARGE, 0, IS_LARGE | IS_UNMEASURED)], [(UNMEASURED, gpa, None) for gpa in gpas], added


def rows_of_headers(code):
    """Headers that are no pages stay as they are, and a ZERO record stands between others like any."""
    yield ([images.area(0, 2 * PAGE), insert(0x1000, 0)], [(UNMEASURED, 0x1000, None), (UNMEASURED, 0x2000, None)],
           [(0x1000, None), (0x2000, None)])
    yield [context(0x1000)], [(VMSA, 0x1000, ZEROS)], []
    yield ([page(0x1000), page(0x2000, code), context(0x3000), page(0x4000), page(0x5000, mask=0), page(0x1000)],
           [(ZERO, 0x1000, None), (NORMAL, 0x2000, CODE), (VMSA, 0x3000, ZEROS), (ZERO, 0x4000, None),
            (ZERO, 0x1000, None)],
           [(0x1000, ZEROS), (0x2000, CODE), (0x4000, ZEROS), (0x1000, ZEROS)])
    yield ([page(0x1000, mask=1), page(0x1000, mask=2), page(0x2000, mask=4)], [(ZERO, 0x1000, None)],
           [(0x1000, ZEROS)])


def answers():
    """(image, the digest of each command), in both versions. Before the section lie 2 MB of zeros, then code."""
    for version, zeros in FIXED_SIZES.items():
        code = zeros + LARGE
        for headers, records, pages in (*single_pages(zeros, code), *large_pages(zeros), *rows_of_headers(code)):
            section = images.row(PLATFORMS + headers)
            image = images.image_of(section, gap=bytes(LARGE) + CODE, version=version)
            snp, tdx = folded(records), joined(pages)
            yield image, {"measure snp --native-zero": snp, "measure snp": folded(without(records)),
                          "measure tdx --native-zero": tdx, "measure tdx": tdx}
