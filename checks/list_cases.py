"""Component lists whose answers are worth comparing: at the edge of a limit, and with each way to spell a version."""
import json

from cases import SMALLEST
from components import DATA_MOST, LIST_MOST
from lists import DEEPEST
from random_lists import AREA_MOST, FILES, TOP
from records import LARGE, PAGE

HUGE = "huge"                       # a file of one byte more than is read; it takes no room on the disk
ONE = {"kind": "snp", "mask": 1}
LEAST = json.dumps({"platforms": [ONE], "directives": []}).encode()
TOP_0, NO_JSON = ": top 0", ""
# How a list of one platform spells its version, and the image or what is behind `igvm: json refused`.
VERSIONS = (
    ("1", SMALLEST[1]), ("2", SMALLEST[2]),
    *((spelled, TOP_0) for spelled in (
        "0", "3", "2.0", "1.0", '"2"', '"1"', "null", "true", "false", "[]", "[2]", "{}", '""', "-0", "-1", "-2", "2e0",
        "1E0", "20e-1", "0.2e1", "1.5", "257", "258", "65538", "4294967297", "4294967298", "18446744073709551618")),
    *((spelled, NO_JSON) for spelled in ("02", "+2", "2.", "2e", "0x2", "1e400", "2" * 400, "two", "'2'", "", "2 2")),
    ('3,"version":2', SMALLEST[2]), ('null,"version":1', SMALLEST[1]), ('2,"version":1', SMALLEST[1]),
    ('2,"version":3', TOP_0), ('1,"version":"1"', TOP_0), ('1e400,"version":2', NO_JSON),
    ('2,"Version":2', TOP_0), ('2,"version ":2', TOP_0),
)


# Lists at the edge of a limit

def area(index, size=PAGE, **others):
    return {"do": "area", "index": index, "bytes": size, **others}


def pages(gpa, count, do="zero", **others):
    return {"do": do, "mask": 1, "gpa": hex(gpa), "count": count, **others}


def insert(gpa, index):
    """An insert that counts on no platform, so that no digest has its pages."""
    return {"do": "insert", "mask": 2, "gpa": hex(gpa), "area": index}


def named(gpa, name, **others):
    return {"do": "pages", "mask": 1, "gpa": hex(gpa), "file": name, **others}


def edges():
    """The directives behind one platform."""
    full = area(0, AREA_MOST)
    yield [area(index) for index in range(256)]
    yield [area(index) for index in range(257)]
    yield [area(7), area(8), area(7, 5)]
    yield [area(0), area(1, PAGE + 1, file="missing"), insert(0, 1)]
    yield [area(0), insert(0x800, 5), insert(0, 1)]
    yield [area(0), insert(0, 1), area(1)]
    yield [pages(0, 8192, large=True), pages(0, 1)]
    yield [pages(0, 8193, large=True)]
    yield [pages(0, 8191, large=True), pages(0, 512), named(0, "empty"), named(0, "byte")]
    yield [full] + [insert(0, 0)] * 256 + [area(1)]
    yield [full] + [insert(0, 0)] * 256 + [pages(0, 1)]
    yield [full, insert(2 ** 64 - AREA_MOST, 0)]
    yield [full, insert(2 ** 64 - AREA_MOST + PAGE, 0)]
    for count in (0, 524288, 524289):
        yield [pages(0, count, large=True)]
    for vp in (65535, 65536):
        yield [{"do": "context", "mask": 1, "gpa": "0x0", "vp": vp}]
    yield [pages(2 ** 64 - 3 * PAGE, 3)]
    yield [pages(2 ** 64 - 3 * PAGE, 4)]
    yield [pages(2 ** 64 - 1, 1)]
    yield [named(2 ** 64 - PAGE, "page"), named(2 ** 64 - PAGE, "page and one")]
    yield [named(2 ** 64 - 1, "empty")]
    yield [named(2 ** 64 - LARGE, "byte", large=True), named(2 ** 64 - LARGE, "large", large=True)]
    yield [named(0, "byte", kind="cpuid", large=True)]
    yield [area(0, 0, file="empty")]
    yield [area(0, 0, file="byte")]
    yield [area(0, DATA_MOST, file="byte")]
    yield [area(0, TOP, file="byte")]
    yield [area(0, AREA_MOST, file="byte"), area(1, DATA_MOST - AREA_MOST + PAGE, file="byte")]
    yield [named(0, HUGE), named(0, "missing")]
    yield [area(index, AREA_MOST, file=name) for index, name in enumerate(("byte", "same byte", "short") * 4)]
    yield [area(index, AREA_MOST, file=f"byte {index}") for index in range(8)]
    yield [named(0, "missing"), area(0, 1), {"do": "required", "mask": 1, "gpa": "0x0", "bytes": 0, "flags": TOP}]
    yield [area(0, 1), named(0, "missing")]
    yield [named(0, name) for name in FILES] + [{"do": "context", "mask": 1, "gpa": "0x0", "vp": 65535, "file": "page"}]
    yield [{"do": "context", "mask": 1, "gpa": "0x0", "vp": 0, "file": "page and one"}]


def past_the_limit():
    """The directives of an image that in version 1 is as large as one may be."""
    params = [{"do": "param", "kind": "madt", "area": 0, "offset": 0}] * 241
    sizes = [AREA_MOST] * 7 + [AREA_MOST - PAGE]
    return [area(index, size, file=f"byte {index}") for index, size in enumerate(sizes)] + params


def edge_lists():
    """The texts of the lists at an edge, each in both versions; the largest image is not made in version 1."""
    for version, lists in ((1, edges()), (2, [*edges(), past_the_limit()])):
        for directives in lists:
            yield json.dumps({"version": version, "platforms": [ONE], "directives": directives}).encode()


def edge_texts():
    """Texts at the edge of what is JSON, or of how long it may be."""
    yield from (b"", b"[", b"[]", b"{}", b"null", b'"a"', LEAST + b"\n", LEAST + b"x", b"\xEF\xBB\xBF" + LEAST)
    yield LEAST.ljust(LIST_MOST)
    yield LEAST.ljust(LIST_MOST + 1)
    yield b"[".ljust(LIST_MOST + 1)
    for masks in ((1, 2, 1), (1, 3), (1, 0), ()):
        yield json.dumps({"platforms": [{**ONE, "mask": mask} for mask in masks], "directives": [area(0)]}).encode()
    for found in (b'"\\ud800"', b'"\\ud83d\\ude00"', b"1e400", b"-1e400", b"1e308", b'{"a":[1e999]}', b'"\t"', b"[1,]"):
        yield b'{"platforms":%s,' % found + LEAST[1:]
    for deep in (DEEPEST - 1, DEEPEST):
        yield b'{"platforms":%s,' % (b"[" * deep + b"]" * deep) + LEAST[1:]
    for key, value in (("vtl", 255), ("vtl", 256), ("version", 65535), ("version", 65536), ("mask", 1 << 31),
                       ("mask", 1 << 32), ("shared_gpa", "0x" + 16 * "f"), ("shared_gpa", "0x" + 17 * "0")):
        yield json.dumps({"platforms": [{**ONE, key: value}], "directives": []}).encode()
    yield LEAST[:-1] + b',"policies":[],"policies":null}'
    yield LEAST[:-1] + b',"policies":null,"policies":[]}'
    yield b'{"directives":[],"platforms":[{"mask":0,"mask":1,"kind":5,"kind":"tdx"}]}'


# The version

def versions():
    """(a list's text, its image or what is behind `igvm: json refused`) of each way to spell a version."""
    for spelled, answer in VERSIONS:
        yield b'{"version":%s,' % spelled.encode() + LEAST[1:], answer
    for entries in ([{}], []):
        yield json.dumps({"directives": [named(0, "missing")], "platforms": entries, "version": 3}).encode(), TOP_0
    yield json.dumps({"directives": [], "platforms": [ONE, {}], "version": 2}).encode(), ": platforms 1"
    yield json.dumps({"directives": [], "platforms": [], "version": 2}).encode(), ": platforms 0: no platform"
    yield b'{"version":2,"directives":[]}', TOP_0
    yield b'[{"version":2}]', TOP_0
