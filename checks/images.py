"""Images spelled by hand: headers, sections and whole files, right ones and wrong ones."""
import struct
import zlib

import records
from lists import PARAMETER_KINDS
from records import FIXED_SIZES, PAGE


def header(kind, content, length=None):
    return struct.pack("<II", kind, len(content) if length is None else length) + content


def platform(mask=1, kind=2):
    return header(0x001, struct.pack("<IBBHQ", mask, 0, kind, 1, 0))


def policy(mask=1):
    return header(0x101, struct.pack("<QII", 0x30000, mask, 0))


def area(index, size=PAGE, offset=0):
    return header(0x301, struct.pack("<QII", size, index, offset))


def page(gpa, offset=0, flags=0, kind=0, mask=1):
    return header(0x302, struct.pack("<QIIIHH", gpa, mask, offset, flags, kind, 0))


def insert(gpa, index, mask=1):
    return header(0x303, struct.pack("<QII", gpa, mask, index))


def param(name, index, offset):
    return header(PARAMETER_KINDS[name], struct.pack("<II", index, offset))


def context(gpa, offset=0, mask=1, length=24, vp=0):
    return header(0x304, struct.pack("<QIIHHI", gpa, mask, offset, vp, 0, 0)[:length])


def required(gpa, size, mask=1):
    return header(0x305, struct.pack("<QIIII", gpa, mask, size, 0, 0))


def error_range(gpa, size, mask=1):
    return header(0x30D, struct.pack("<QII", gpa, mask, size))


def id_block(digest=bytes(48), mask=1):
    return header(0x30B, struct.pack("<I4x48s", mask, digest) + bytes(640))


def row(parts, fill=b"\0"):
    """A section of these headers, each padded to the section's next multiple of 8."""
    return b"".join(part + fill * (-len(part) % 8) for part in parts)


def fixed_header(version, offset, size, total, magic=b"IGVM", machine=(0, PAGE)):
    """A fixed header whose checksum is 0; that of version 2 ends with the architecture and the page size."""
    front = struct.pack("<4s5I", magic, version, offset, size, total, 0)
    return front + struct.pack("<II", *machine) if version == 2 else front


def stating(image, checksum):
    """The image with this checksum."""
    return image[:20] + struct.pack("<I", checksum) + image[24:]


def mended(image):
    """The image with the checksum that fits, as far as it can have one."""
    if len(image) < 24:
        return image
    return stating(image, zlib.crc32(records.covered(image)))


def image_of(section, data=b"", gap=b"", size=None, total=None, version=1, machine=(0, PAGE)):
    """Fixed header, gap, section, data; section size and total size as they are unless named."""
    offset = FIXED_SIZES[version] + len(gap)
    whole = offset + len(section) + len(data) if total is None else total
    fixed = fixed_header(version, offset, len(section) if size is None else size, whole, machine=machine)
    return mended(fixed + gap + section + data)


def spelled(parts, contents=(), version=1):
    """An image of these headers, and the contents behind them.

    A header that is a pair is made with the place of the content of that number.
    """
    first = FIXED_SIZES[version] + len(row([part if isinstance(part, bytes) else part[0](0) for part in parts]))
    places = [first + sum(map(len, contents[:k])) for k in range(len(contents))]
    section = row([part if isinstance(part, bytes) else part[0](places[part[1]]) for part in parts])
    return image_of(section, b"".join(contents), version=version)
