"""Images whose answers are worth comparing: vectors, limits, broken rules, and one image changed byte by byte.

Those of version 1 come again with the fixed header of version 2; what only that one has stands in versions.py.
"""
import struct
from functools import partial
from itertools import cycle, product

from images import (area, context, error_range, fixed_header, header, id_block, image_of, insert, mended, page,
                    platform, policy, required, row, stating)
from records import FIXED_SIZES, LARGE, PAGE, PARAMETERS, fixed, fixed_size

TOP = 2 ** 32 - 1
BYTES = (0x00, 0x01, 0x7F, 0x80, 0xFF)
SNP_PLATFORM = "010000001000000001000000000201000000000000000000"
SMALLEST = {1: bytes.fromhex("4947564d01000000180000001800000030000000e5d3ab67" + SNP_PLATFORM),
            2: bytes.fromhex("4947564d020000002000000018000000380000003f263afa0000000000100000" + SNP_PLATFORM)}


# The vectors of docs/FORMAT.md, with its answers; in version 2 all but the fixed header's fields lies 8 bytes further

def vectors(version):
    """(image, its fault's name, offset and text, or None)."""
    made, one, crooked = partial(image_of, version=version), platform(), header(0x304, bytes(20))
    first = FIXED_SIZES[version]
    second, third, smallest = first + 24, first + 48, SMALLEST[version]
    wrapping = 0xFFFFFFFFFFFFF000
    yield smallest, None
    yield smallest + b"extra", None
    yield stating(smallest, 0), ("Checksum", 20, "checksum")
    yield made(one, total=second + 1), ("TotalSize", 16, "total size")
    yield made(one, size=25), ("Section", 8, "section")
    for size in (52, 54, 56):
        yield made(row([one, crooked])[:size]), None
    yield made(row([one, crooked])[:51]), ("HeaderCut", second, "header cut")
    yield made(row([one, page(0x1001)])), ("Align", second, "alignment")
    yield made(row([one, page(0, flags=4)])), ("Flags", second, "flag bit 2")
    yield made(row([one, page(0, offset=second + 32)])), ("DataOutside", second, "data outside")
    yield made(row([one, one])), ("Mask", second, "mask")
    yield made(platform(3)), ("Mask", first, "mask")
    yield made(row([one, policy(), platform(2)])), ("Order", third, "order")
    yield made(row([one, insert(0, 5)])), ("AreaUnknown", second, "area unknown")
    yield made(row([one, area(0, 8192), insert(wrapping, 0)])), ("Wrap", third, "address wraps")
    yield made(row([one, area(0, 4096), insert(wrapping, 0)])), None
    yield made(row([one] + [area(i) for i in range(257)])), ("AreaLimit", second + 6144, "too many areas")
    yield made(row([one] + [page(0, flags=1)] * 8193)), ("TooManyPages", second + 262144, "too many pages")
    yield made(row([one, header(0x399, b"")])), ("UnknownType", second, "unknown type 00000399")
    yield made(row([one, header(0x80000399, b"four")])), None
    yield made(b""), ("NoPlatform", first, "no platform")
    yield b"any", ("TooShort", 3, "too short")


def edges(version):
    """Images at the edge of a limit, beside those of the vectors."""
    made, one, end = partial(image_of, version=version), platform(), FIXED_SIZES[version]
    areas = [area(index) for index in range(256)]
    yield made(row([one] + areas + [insert(0, 255)]))
    yield made(row([one] + areas + [area(7, size=5)]))
    full = [one, area(0, 67108864)] + [insert(0, 0, mask=2)] * 256
    yield made(row(full))
    yield made(row(full + [page(0)]))
    yield made(row(full + [page(0, offset=TOP)]))
    yield made(row(full + [insert(PAGE, 0)]))
    yield made(row([one] + [page(0, flags=1, mask=0)] * 8192 + [context(0)]))
    yield made(row([one, area(0, 67108864), insert(2 ** 64 - 67108864, 0)]))
    yield made(row([one, area(0, 67108864 + PAGE)]))
    yield made(row([platform(1 << bit, bit % 6) for bit in range(32)] + [page(0, mask=4)]))
    yield made(row([platform(1 << bit) for bit in range(32)] + [platform(0)]))
    large = bytes(range(251)) * (LARGE // 251 + 1)
    yield made(row([one, page(LARGE, offset=end + 57, flags=1)]), large)
    yield made(row([one, page(LARGE, offset=end + 56, flags=1)]), large[:LARGE])
    yield made(row([one, page(LARGE, offset=end + 57, flags=1)]), large[:LARGE])
    yield made(row([one, area(1, LARGE, offset=end + 48), insert(0, 1)]), large[:LARGE])


# Several rules broken at once

def broken_files():
    """Each choice of what the rules on the file look at, right or wrong."""
    section = platform()
    machines = tuple(product((0, 1, 2), (PAGE, 65536)))
    for magic, version in product((b"IGVM", b"IGVm"), (1, 2, 3)):
        at = FIXED_SIZES.get(version, 24)
        totals, offsets = (at + 24, at + 25, 24), (at, at + 1, 24, 8)
        for total, offset, machine, off_by in product(totals, offsets, machines[:6 if version == 2 else 1], (0, 1)):
            image = mended(fixed_header(version, offset, len(section), total, magic, machine) + section)
            image = image[:20] + bytes([image[20] ^ off_by]) + image[21:]
            yield image
            yield image[:28]


def broken_headers():
    """Rows of headers whose last one breaks none, one or several of the rules, in either version."""
    few = [platform(), area(0)]
    many = few + [area(index) for index in range(1, 256)]
    full = [platform(), area(0, 67108864)] + [insert(0, 0, mask=2)] * 256
    last = {
        0x001: [platform(*fields) for fields in product((1, 2, 3), (2, 6))],
        0x101: [policy()],
        0x301: [area(*fields) for fields in product((0, 999), (PAGE, 0, PAGE + 1), (0, TOP))],
        0x302: [page(*fields) for fields in product((0, 0x1000, 0x1001), (0, TOP), (0, 1, 4, 5), (0, 1, 4))],
        0x303: [insert(*fields) for fields in product((0, 0x800, 2 ** 64 - PAGE, 2 ** 64 - 1), (0, 5))],
        0x304: [context(*fields) for fields in product((0, 0x800), (0, TOP))],
        0x307: [header(0x307, struct.pack("<II", index, 0)) for index in (0, 5)],
    }
    versions = cycle((1, 2))
    for before, kinds in (([], last), (few[:1], last), (few, last), (many, (0x301,)), (full, (0x302, 0x303))):
        for part in (part for kind in kinds for part in last[kind]):
            yield image_of(row(before + [part]), version=next(versions))
            yield image_of(row(before + [part, header(0x306, b"")]) + b"rest", version=next(versions))
            cut = header(int.from_bytes(part[:4], "little"), part[8:-1])
            yield image_of(row(before + [cut]), version=next(versions))


# An image with every kind of header, its bytes changed, its end cut

def every_kind(version):
    """Each type once; the data of page, area and context overlap, and the context's reach past the end."""
    at = FIXED_SIZES[version] + 5           # where the section begins
    section = row([
        platform(), policy(), header(0x102, b"relocatable"), header(0x103, b""), area(7, 4096, at + 200),
        page(0x200000, at + 100), insert(0x5000, 7), context(0x6000, at + 2000), required(0x1000, 0x2000),
        *(header(kind, struct.pack("<II", 7, 8)) for kind in PARAMETERS), id_block(), error_range(0x7000, 0x1000),
        header(0x311, b"carried"), header(0x80000001, b"any bytes"),
    ], fill=b"\xA5")
    data = bytes(place * 7 % 256 for place in range(200 + PAGE - len(section)))
    return image_of(section, data, b"a gap", version=version)


def changed_bytes(whole):
    """Each byte of the fixed header and the section set to each of the values, checksum as it was and mended."""
    _, offset, size, _, _ = fixed(whole)
    for place in (*range(fixed_size(whole)), *range(offset, offset + size)):
        for value in BYTES:
            changed = whole[:place] + bytes([value]) + whole[place + 1:]
            yield f"byte {place} is {value}", changed
            yield f"byte {place} is {value}, checksum mended", mended(changed)


def cut_ends(whole):
    """Each length; then each again with the total size, and the section size where it must be, made to fit."""
    _, offset, size, _, _ = fixed(whole)
    for length in range(len(whole)):
        yield f"first {length} bytes", whole[:length]
    for length in range(24, len(whole)):
        within = min(size, max(0, length - offset))
        fitting = whole[:12] + struct.pack("<II", within, length) + whole[20:length]
        yield f"cut to an image of {length} bytes", mended(fitting)
