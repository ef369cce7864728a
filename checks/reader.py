"""A plain and slow reader of IGVM files, written from docs/FORMAT.md alone.

It shares no code with the toolset. Rules are judged in the page's order, each spelled as the page spells it, so
that a difference from the program is a fault of one of the three.
"""
from records import LARGE, LENGTHS, PAGE, covered, fixed, fixed_size, machine, split

NAMES = ("TooShort", "Magic", "Version", "Aarch64", "Architecture", "PageSize", "TotalSize", "Section", "Checksum",
         "UnknownType", "Length", "Flags", "DataType", "PlatformType",
         "Order", "Mask", "Align", "AreaLimit", "AreaRepeated", "AreaUnknown", "AreaSize", "Wrap", "DataOutside",
         "TooManyPages", "HeaderCut", "NoPlatform")


def low_bit_out(state):
    return state >> 1 ^ 0xEDB88320 if state & 1 else state >> 1


def eight_times(state):
    for _ in range(8):
        state = low_bit_out(state)
    return state


BYTE_STEPS = [eight_times(byte) for byte in range(256)]


def checksum(message):
    """The page's steps, bit by bit; those of one byte are looked up, since they only shift the bits above it."""
    state = 0xFFFFFFFF
    for byte in message:
        state = state >> 8 ^ BYTE_STEPS[(state ^ byte) & 0xFF]
    return state ^ 0xFFFFFFFF


class Before:
    """What the rules need of the headers before one; all of those kept every rule."""

    def __init__(self):
        self.highest_class, self.masks, self.areas, self.pages = 0, [], {}, 0

    def pages_with(self, name, field):
        if name == "Page":
            return self.pages + (512 if field.flags & 1 else 1)
        if name == "Insert":
            return self.pages + self.areas[field.index] // PAGE
        return self.pages

    def add(self, header):
        field = header.fields
        self.highest_class = max(self.highest_class, header.order or 0)
        self.pages = self.pages_with(header.name, field)
        if header.name == "Platform":
            self.masks.append(field.mask)
        if header.name == "Area":
            self.areas[field.index] = field.size


def fixed_faults(file):
    """Rules 1 to 3c."""
    if len(file) < 24:
        yield "TooShort", len(file), "too short"
    if file[:4] != b"IGVM":
        yield "Magic", 0, "magic"
    if fixed(file).version not in (1, 2):
        yield "Version", 4, "version"
    if fixed(file).version == 2:
        yield from machine_faults(file)


def machine_faults(file):
    """Rules 3a to 3c, which look at version 2 alone."""
    if len(file) < 32:
        yield "TooShort", len(file), "too short"
    architecture, page_size = machine(file)
    if architecture == 1:
        yield "Aarch64", 24, "architecture aarch64"
    if architecture > 1:
        yield "Architecture", 24, "architecture"
    if page_size != 4096:
        yield "PageSize", 28, "page size"


def file_faults(file):
    """Rules 1 to 6."""
    yield from fixed_faults(file)
    _, offset, size, total, stated = fixed(file)
    if total < fixed_size(file) or total > len(file):
        yield "TotalSize", 16, "total size"
    if offset < fixed_size(file) or offset + size > total:
        yield "Section", 8, "section"
    if stated != checksum(covered(file)):
        yield "Checksum", 20, "checksum"


def own_faults(header):
    """Rules 7 to 11: what a header's own type and bytes break."""
    name = header.name
    if name is None:
        yield "UnknownType", f"unknown type {header.type:08x}"
    if name != "Carried" and len(header.content) not in LENGTHS[name]:
        yield "Length", "length"
    field = header.fields
    if name == "Page":
        others = [bit for bit in range(2, 32) if field.flags >> bit & 1]
        if others:
            yield "Flags", f"flag bit {others[0]}"
        if field.data_type > 3 or field.flags & 1 and field.data_type != 0:
            yield "DataType", "data type"
    if name == "Platform" and field.kind > 5:
        yield "PlatformType", "platform type"


def row_faults(header, before, total):
    """Rules 12 to 21."""
    name, field = header.name, header.fields
    if header.order is not None and before.highest_class > header.order:
        yield "Order", "order"
    if name == "Platform" and (bin(field.mask).count("1") != 1 or field.mask in before.masks):
        yield "Mask", "mask"
    large = name == "Page" and field.flags & 1 == 1
    if name in ("Page", "Insert", "Context") and field.gpa % (LARGE if large else PAGE):
        yield "Align", "alignment"
    if name == "Area" and len(before.areas) >= 256:
        yield "AreaLimit", "too many areas"
    if name == "Area" and field.index in before.areas:
        yield "AreaRepeated", "area repeated"
    if name in ("Insert", "Param") and field.index not in before.areas:
        yield "AreaUnknown", "area unknown"
    if name == "Area" and (field.size == 0 or field.size % PAGE or field.size > 67108864):
        yield "AreaSize", "area size"
    if name == "Insert" and field.gpa + before.areas[field.index] > 2 ** 64:
        yield "Wrap", "address wraps"
    if name in ("Page", "Area"):
        size = field.size if name == "Area" else LARGE if large else PAGE
        if field.offset != 0 and field.offset + size > total:
            yield "DataOutside", "data outside"
    if name == "Context" and field.offset > total:
        yield "DataOutside", "data outside"
    if before.pages_with(name, field) > 4194304:
        yield "TooManyPages", "too many pages"


def faults(file):
    """All faults in the order in which they are judged. Behind the first the rest means nothing, and may raise."""
    yield from file_faults(file)
    _, offset, _, total, _ = fixed(file)
    found, rest = split(file)
    before = Before()
    for header in found:
        for fault, text in own_faults(header):
            yield fault, header.place, text
        for fault, text in row_faults(header, before, total):
            yield fault, header.place, text
        before.add(header)
    if rest is not None:
        yield "HeaderCut", rest, "header cut"
    if not before.masks:
        yield "NoPlatform", offset, "no platform"


def first_fault(file):
    """None where the file is accepted, else its fault: name, offset and text."""
    return next(faults(file), None)
