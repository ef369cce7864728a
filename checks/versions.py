"""Images of version 2 and of versions that there aren't, with what the rules on the fixed header answer.

The vectors of docs/FORMAT.md on version 2 are among them. Its fixed header has 32 bytes; at the end stand the
architecture and the page size.
"""
import struct
import zlib

from cases import SMALLEST, TOP
from images import context, image_of, mended, page, platform, row, stating
from records import FIXED_SIZES, PAGE

ONE, TWO = SMALLEST[1], SMALLEST[2]
ARCHITECTURE, PAGE_SIZE = ("Architecture", 24, "architecture"), ("PageSize", 28, "page size")
AARCH64, VERSION = ("Aarch64", 24, "architecture aarch64"), ("Version", 4, "version")
TOTAL_SIZE, SECTION, CHECKSUM = ("TotalSize", 16, "total size"), ("Section", 8, "section"), ("Checksum", 20, "checksum")


def too_short(length):
    return "TooShort", length, "too short"


def put(image, at, *values):
    """The image with these u32 numbers from a place on, and the checksum that fits."""
    numbers = struct.pack(f"<{len(values)}I", *values)
    return mended(image[:at] + numbers + image[at + len(numbers):])


def machines():
    """Architectures and page sizes, the architecture judged first."""
    for size in (PAGE, 65536):
        yield put(TWO, 24, 1, size), AARCH64
        for architecture in (2, 256, 0x10000, 0x01000000, 0x01000001, TOP):
            yield put(TWO, 24, architecture, size), ARCHITECTURE
    for size in (0, 1, PAGE - 1, PAGE + 1, PAGE // 256, PAGE * 256, 65536, 0x10001000, TOP):
        yield put(TWO, 28, size), PAGE_SIZE
    # Not mended: the rules on both come before the checksum's.
    yield TWO[:24] + b"\1" + TWO[25:], AARCH64
    yield TWO[:24] + b"\2" + TWO[25:], ARCHITECTURE
    yield TWO[:28] + b"\1" + TWO[29:], PAGE_SIZE


def other_versions():
    """Numbers that are no version, before fixed headers of 24 and of 32 bytes; they come before all but the letters."""
    for version in (0, 3, 9, 0x102, 0x201, 0x10001, 0x20000, 0x01000000, 0x02000000, TOP):
        yield put(ONE, 4, version), VERSION
        yield put(TWO, 4, version), VERSION
        yield put(TWO, 4, version)[:24], VERSION
        yield b"IGVm" + put(TWO, 4, version)[4:], ("Magic", 0, "magic")
    # Each of the two versions before the fixed header of the other one.
    yield put(TWO, 4, 1), None
    yield put(ONE, 4, 2), AARCH64
    yield put(put(ONE, 4, 2), 24, 0, PAGE), SECTION


def short_files():
    """Files that end in the fixed header, and totals that do."""
    for length in range(24, 32):
        yield TWO[:length], too_short(length)
        yield put(TWO, 16, length)[:length], too_short(length)
        yield put(TWO, 24, 1, 1)[:length], too_short(length)
        yield put(TWO, 16, length), TOTAL_SIZE
    for total in (0, 1, 23, len(TWO) + 1, TOP):
        yield put(TWO, 16, total), TOTAL_SIZE
    yield put(TWO, 12, 0, 32), ("NoPlatform", 32, "no platform")
    yield put(TWO, 12, 0, 32)[:32], ("NoPlatform", 32, "no platform")
    yield put(TWO, 24, 0, 1), PAGE_SIZE


def sections():
    """Where the section begins and ends."""
    for offset in (0, 1, *range(23, 32)):
        yield put(TWO, 8, offset), SECTION
        yield put(TWO, 8, offset, 0), SECTION
    yield put(TWO, 8, 32, 25), SECTION
    yield put(TWO, 8, 33), SECTION
    yield put(TWO, 8, 57, 0), SECTION
    yield put(TWO, 8, TOP - 23), SECTION
    yield put(TWO, 8, 56, 0), ("NoPlatform", 56, "no platform")
    yield image_of(platform(), gap=b"a gap", version=2), None
    # The section of version 1 may begin in what version 2 has as its fixed header.
    for size in range(1, 9):
        yield image_of(platform(), gap=struct.pack("<II", 1, 65536)[:size]), None


def checksums():
    """The checksum covers all 32 bytes and the section."""
    for end in (20, 24, 28):
        yield stating(TWO, zlib.crc32(TWO[:20] + bytes(4) + TWO[24:end] + TWO[32:])), CHECKSUM
    yield stating(TWO, zlib.crc32(TWO[:20] + TWO[24:])), CHECKSUM
    yield stating(TWO, zlib.crc32(TWO[:20] + bytes(4) + TWO[24:32])), CHECKSUM
    yield stating(TWO, 0), CHECKSUM
    gap = image_of(platform(), gap=b"a gap", version=2)
    yield gap[:34] + b"x" + gap[35:], None
    yield stating(gap, zlib.crc32(gap[:20] + bytes(4) + gap[24:])), CHECKSUM


def places():
    """Data may lie in the fixed header, also in its last 8 bytes."""
    data = bytes(PAGE)
    for offset in (1, 24, 31, 32, 33):
        yield image_of(row([platform(), page(0x1000, offset)]), data, version=2), None
    yield image_of(row([platform(), page(0x1000, 88)]), data, version=2), None
    yield image_of(row([platform(), page(0x1000, 89)]), data, version=2), ("DataOutside", 56, "data outside")


def truncations():
    """An image of each version, cut at each byte before its end: it is too short, or its total size is wrong."""
    for version, start in FIXED_SIZES.items():
        section = row([platform(), page(0x1000), context(0x2000, start + 88)])
        whole = image_of(section, bytes(range(1, 30)), version=version)
        yield whole, None
        for length in range(len(whole)):
            yield whole[:length], too_short(length) if length < start else TOTAL_SIZE


def answers():
    """(image, its fault's name, offset and text, or None) of all tables."""
    for table in (machines, other_versions, short_files, sections, checksums, places, truncations):
        yield from table()
