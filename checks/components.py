"""The image of a component list, or why there is none, written from docs/LIST.md and docs/FORMAT.md alone.

The rules on headers are those of reader.py, over headers at file offset 0.
"""
import struct
import zlib
from collections import namedtuple

import reader
from lists import Refused, read_list
from records import FIXED_SIZES, LARGE, PAGE, Header

LIST_MOST, FILE_MOST, DATA_MOST, IMAGE_MOST = 16777216, 536870912, 1073741824, 536870912
PAGES_MOST, SPACE = 4194304, 1 << 64
LENGTH, WRAP, TOO_MANY = "length", "address wraps", "too many pages"
# The type and the whole content of a header; a letter x is a reserved byte
SPELLINGS = {"platform": (0x001, "<IBBHQ"), "policy": (0x101, "<QI4x"), "area": (0x301, "<QII"),
             "page": (0x302, "<QIIIH2x"), "insert": (0x303, "<QII"), "context": (0x304, "<QIIH2x"),
             "required": (0x305, "<QIII4x"), "error_range": (0x30D, "<QII"),
             "id_block": (0x30B, "<IB3x48s16s16sIIII592s")}
# The keys of an entry whose header has no data, in the order of its fields
FIELDS = {"platform": "mask vtl kind version shared_gpa", "policy": "policy mask", "insert": "gpa mask area",
          "required": "gpa mask bytes flags", "error_range": "gpa mask bytes",
          "id_block": "mask author_enabled ld family_id image_id version guest_svn id_algorithm author_algorithm keys"}

# Among the values of a header None stands for the file offset; data that are None are zeros, or there are none.
Component = namedtuple("Component", "entry type layout values data")


class Ended(Exception):
    """The job ends with this status and this line."""

    def __init__(self, status, line):
        super().__init__()
        self.status, self.error = status, f"igvm: {line}\n"


def component(entry, name, *values, data=None):
    kind, layout = SPELLINGS[name]
    return Component(entry, kind, layout, values, data)


def spelled(part, offset):
    """A component's header with this file offset, without padding."""
    values = [offset if value is None else value for value in part.values]
    content = struct.pack(part.layout, *values)
    return struct.pack("<II", part.type, len(content)) + content


def rule(entry, text):
    return Ended(7, f"json refused: {entry.part} {entry.item}: {text}")


def page(entry, k, data=None):
    v = entry.values
    flags = v["large"] | v["unmeasured"] << 1
    return component(entry, "page", v["gpa"] + k * page_size(v), v["mask"], None, flags, v["kind"], data=data)


def page_size(values):
    return LARGE if values["large"] else PAGE


class Expansion:
    """The components of a list's entries; `read` gives the bytes of a file, or None where that fails."""

    def __init__(self, read):
        self.read, self.pages, self.size = read, 0, 0

    def file_of(self, entry):
        name = entry.values.get("file")
        if name is None:
            return None
        data = self.read(name)
        if data is None:
            raise Ended(4, "outside fault: shelf")
        if len(data) > FILE_MOST:
            raise Ended(8, "limit: blob")
        return data

    def check(self, entry, pages, size):
        """Wrap, TooManyPages and the size of the contents, in this order."""
        v = entry.values
        if pages:
            if v["gpa"] + pages * page_size(v) > SPACE:
                raise rule(entry, WRAP)
            self.pages += pages * page_size(v) // PAGE
            if self.pages > PAGES_MOST:
                raise rule(entry, TOO_MANY)
        self.size += size
        if self.size > DATA_MOST:
            raise Ended(8, "limit: data")

    def pages_of(self, entry):
        data, size = self.file_of(entry), page_size(entry.values)
        count = (len(data) + size - 1) // size
        self.check(entry, count, count * size)
        return [page(entry, k, data[k * size:(k + 1) * size].ljust(size, b"\0")) for k in range(count)]

    def zeros_of(self, entry):
        self.check(entry, entry.values["count"], 0)
        return [page(entry, k) for k in range(entry.values["count"])]

    def filled(self, entry, size):
        """The data of an area or a context."""
        data = self.file_of(entry)
        if data is None:
            return None
        if len(data) > size:
            raise rule(entry, LENGTH)
        self.check(entry, 0, size)
        return data.ljust(size, b"\0")

    def components(self, entry):
        v = entry.values
        if entry.do == "pages":
            return self.pages_of(entry)
        if entry.do == "zero":
            return self.zeros_of(entry)
        if entry.do == "area":
            data = self.filled(entry, v["bytes"])
            return [component(entry, "area", v["bytes"], v["index"], None, data=data)]
        if entry.do == "context":
            data = self.filled(entry, PAGE)
            return [component(entry, "context", v["gpa"], v["mask"], None, v["vp"], data=data)]
        return [plain(entry)]


def plain(entry):
    """The component of an entry that is one header without data."""
    v = entry.values
    if entry.do == "param":
        return Component(entry, v["kind"], "<II", (v["area"], v["offset"]), None)
    return component(entry, entry.do, *(v[key] for key in FIELDS[entry.do].split()))


def check_rules(parts):
    """The rules on the components, each behind those before it; how many pages they name together."""
    before = reader.Before()
    for part in parts:
        header = Header(0, part.type, spelled(part, 0)[8:])
        fault = next((text for faults in (reader.own_faults(header), reader.row_faults(header, before, 0))
                      for _, text in faults), None)
        if fault is not None:
            raise rule(part.entry, fault)
        before.add(header)
    if not before.masks:
        raise Ended(7, "json refused: platforms 0: no platform")
    return before.pages


def layout(version, parts):
    """The file of these components: fixed header, section, each content once."""
    rows = [len(spelled(part, 0)) for part in parts]
    end = FIXED_SIZES[version] + sum(row + -row % 8 for row in rows)
    places, contents = {}, []
    for part in parts:
        if part.data is not None and part.data not in places:
            places[part.data] = end
            contents.append(part.data)
            end += len(part.data)
    if end > IMAGE_MOST:
        raise Ended(8, "limit: image")
    headers = (spelled(part, 0 if part.data is None else places[part.data]) for part in parts)
    section = b"".join(header + bytes(-len(header) % 8) for header in headers)
    front = b"IGVM" + struct.pack("<IIII", version, FIXED_SIZES[version], len(section), end)
    machine = struct.pack("<II", 0, PAGE) if version == 2 else b""
    checksum = zlib.crc32(front + bytes(4) + machine + section)
    return front + struct.pack("<I", checksum) + machine + section + b"".join(contents)


def checked_list(text, read):
    """The version and the components of a list that keeps the rules, and how many pages they name; else an answer."""
    if len(text) > LIST_MOST:
        raise Ended(8, "limit: list")
    source, expansion = read_list(text), Expansion(read)
    parts = [part for entry in source.entries for part in expansion.components(entry)]
    return source.version, parts, check_rules(parts)


def image_of_list(text, read):
    version, parts, _ = checked_list(text, read)
    return layout(version, parts)


def answered(make, *given):
    """(status, output, error, file) of a job that makes a file of what is given; the file is None where it doesn't."""
    try:
        made = make(*given)
    except Refused as refused:
        return 7, "", refused.error, None
    except Ended as ended:
        return ended.status, "", ended.error, None
    return 0, f"built {len(made)} bytes\n", "", made


def built(text, read):
    """(status, output, error, image) of building a list of this text; the image is None where there is none."""
    return answered(image_of_list, text, read)
