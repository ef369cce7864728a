"""The parts of an IGVM file by docs/FORMAT.md: the fixed header, the row of headers, their fields and their data.

Nothing here judges: what a broken file gives is any answer, or an exception. The rules stand in reader.py.
"""
import struct
from collections import namedtuple
from functools import cached_property, lru_cache

PAGE, LARGE = 4096, 2097152
FIXED_SIZES = {1: 24, 2: 32}        # by the version, how many bytes the fixed header has

# type: (header, class)
TYPES = {
    0x001: ("Platform", 1),
    0x101: ("Policy", 2), 0x102: ("Carried", 2), 0x103: ("Carried", 2),
    0x301: ("Area", 3), 0x302: ("Page", 3), 0x303: ("Insert", 3), 0x304: ("Context", 3), 0x305: ("Required", 3),
    0x307: ("Param", 3), 0x308: ("Param", 3), 0x309: ("Param", 3), 0x30A: ("Param", 3), 0x30B: ("IdBlock", 3),
    0x30C: ("Param", 3), 0x30D: ("ErrorRange", 3), 0x30E: ("Param", 3), 0x30F: ("Param", 3), 0x310: ("Param", 3),
    0x311: ("Carried", 3), 0x312: ("Param", 3), 0x313: ("Param", 3),
}
PARAMETERS = {0x307: "vp_count", 0x308: "srat", 0x309: "madt", 0x30A: "mmio_ranges", 0x30C: "memory_map",
              0x30E: "command_line", 0x30F: "slit", 0x310: "pptt", 0x312: "device_tree", 0x313: "environment_info"}
LENGTHS = {"Platform": (16,), "Policy": (16,), "Area": (16,), "Page": (24,), "Insert": (16,), "Param": (8,),
           "Context": (20, 24), "Required": (24,), "ErrorRange": (16,), "IdBlock": (696,)}
# The fields of a header, but for reserved and carried bytes at its end.
LAYOUTS = {
    "Platform": ("<IBBHQ", namedtuple("Platform", "mask vtl kind version shared")),
    "Policy": ("<QI", namedtuple("Policy", "policy mask")),
    "Area": ("<QII", namedtuple("Area", "size index offset")),
    "Page": ("<QIIIH", namedtuple("Page", "gpa mask offset flags data_type")),
    "Insert": ("<QII", namedtuple("Insert", "gpa mask index")),
    "Param": ("<II", namedtuple("Param", "index byte_offset")),
    "Context": ("<QIIH", namedtuple("Context", "gpa mask offset vp")),
    "Required": ("<QIII", namedtuple("Required", "gpa mask size flags")),
    "ErrorRange": ("<QII", namedtuple("ErrorRange", "gpa mask size")),
    "IdBlock": ("<IB3x48s16s16sIIII", namedtuple("IdBlock", "mask author digest family image version svn "
                                                            "id_algorithm author_algorithm")),
}

Fixed = namedtuple("Fixed", "version offset size total checksum")


class Header(namedtuple("Header", "place type content")):
    """One variable header: its file offset, its type and its content."""

    @cached_property
    def name(self):
        """Which header it is, or None for an unknown type."""
        return "Carried" if self.type >= 0x80000000 else TYPES.get(self.type, (None, None))[0]

    @property
    def order(self):
        """The class that the rule Order goes by, or None where the type has none."""
        return TYPES.get(self.type, (None, None))[1]

    @cached_property
    def fields(self):
        """The fields by name; None for a carried header. The length must be one that the type allows."""
        if self.name not in LAYOUTS:
            return None
        layout, kind = LAYOUTS[self.name]
        return kind._make(struct.unpack_from(layout, self.content))


def fixed(file):
    return Fixed._make(struct.unpack_from("<5I", file, 4))


def fixed_size(file):
    """How many bytes the fixed header has; 24, where no rule allows the version."""
    return FIXED_SIZES.get(fixed(file).version, 24)


def machine(file):
    """The architecture and the page size, at the end of a fixed header of version 2."""
    return struct.unpack_from("<II", file, 24)


def covered(file):
    """The bytes that the checksum covers."""
    _, offset, size, _, _ = fixed(file)
    return file[:20] + bytes(4) + file[24:fixed_size(file)] + file[offset:offset + size]


@lru_cache(maxsize=4)
def split(file):
    """The section's headers in file order, and the place of its cut rest or None.

    It is asked again and again of a file, so those of the last few are kept.
    """
    _, at, size, _, _ = fixed(file)
    end, found = at + size, []
    while end - at:
        left = end - at
        if left < 8:
            return found, at
        kind, length = struct.unpack_from("<II", file, at)
        if left < 8 + length:
            return found, at
        found.append(Header(at, kind, file[at + 8:at + 8 + length]))
        row = (8 + length + 7) // 8 * 8
        if left <= row:
            break
        at += row
    return found, None


def headers(file):
    """The headers of a file that keeps the rules."""
    return split(file)[0]


def platforms(file):
    """The fields of each platform, in the order of their numbers."""
    return [header.fields for header in headers(file) if header.name == "Platform"]


def data_page(file, offset, k=0):
    """Page k of the data at a file offset."""
    if offset == 0:
        return bytes(PAGE)
    start = offset + PAGE * k
    return file[start:min(fixed(file).total, start + PAGE)].ljust(PAGE, b"\0")
