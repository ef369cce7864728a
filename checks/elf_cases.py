"""ELF files whose pages or faults are known, and pairs of a list and an ELF file with what becomes of them.

A page is told by its number, its bytes and whether it is filled. The images are spelled here.
"""
import json
from collections import namedtuple
from functools import partial

import images
from elves import ADDRESS_LIMIT, PAGE_LIMIT, TEXTS
from images import platform
from list_cases import ONE, named, pages
from records import FIXED_SIZES, LARGE, PAGE

ALL_BITS = 2 ** 32 - 1
ZEROS, BYTE = bytes(PAGE), b"\1".ljust(PAGE, b"\0")
SAME = b"\xAA" * PAGE               # what the file `page` holds that lists name
TOP = ADDRESS_LIMIT - 1
IS_LARGE = 1                        # a page's flag

# The answer is status, output and error; the image is None where there is none.
Case = namedtuple("Case", "text file mask answer image")


def elf(headers, start=64, size=1024, **changed):
    """A file of these program headers: type, offset, address, bytes in the file and in memory."""
    file = bytearray(b"\x7fELF\x02\x01\x01".ljust(64, b"\0"))
    fields = {16: 2, 18: 62, 20: 1, 32: start, 52: 64, 54: 56, 56: len(headers)}
    fields.update({int(at[1:]): value for at, value in changed.items()})
    for at, value in fields.items():
        file[at:at + 2] = value.to_bytes(2, "little")
    file += bytes(start - 64)
    for kind, offset, address, in_file, in_memory in headers:
        file += b"".join(field.to_bytes(8, "little") for field in (kind, offset, 0, address, in_file, in_memory, PAGE))
    return bytes(file.ljust(size, b"\0"))


def with_end(file, end):
    return file[:-len(end)] + end


# The example of docs/ELF.md

THREE = with_end(elf([(1, 120, 0x100FFE, 4, 0x1004)], size=124), bytes.fromhex("deadbeef"))
THREE_PAGES = [(0x100, bytes(4094) + b"\xde\xad", True), (0x101, b"\xbe\xef" + bytes(4094), True),
               (0x102, ZEROS, False)]


def known():
    """(a file, its pages or the item and the answer of its fault): the example, and each rule at its limit."""
    apart = [(1, 0, 0x10000 + 2 * k, 0, 1) for k in range(65)]
    return (
        (THREE, THREE_PAGES), (THREE[:63], (0, "TooShort")), (b"\x7fELG" + THREE[4:], (0, "Magic")),
        (elf([], size=64, _4=1), (0, "Class")), (elf([], size=64, _18=183), (0, "Machine")),
        (elf([], size=64, _32=65535, _54=55), (0, "Empty")), (elf([(1, 0, 0, 0, 1)], _54=55), (0, "Table")),
        (elf([(1, 0, 0, 0, 1)], size=120), [(0, ZEROS, False)]), (elf([(1, 0, 0, 0, 1)], size=120)[:119], (0, "Table")),
        (elf(apart[:64], size=4096), [(0x10, ZEROS, False)]), (elf(apart, size=4096), (64, "TooMany")),
        (elf([(6, 0, 0, 0, 9), (1, 0, 0, 2, 1)]), (1, "Sizes")), (elf([(1, 1 << 63, 0, 1, 1)]), (0, "Outside")),
        (elf([(1, 121, 0x100FFE, 4, 0x1004)], size=124), (0, "Outside")),
        (elf([(1, (1 << 64) - 1, 0, 0, 1)]), [(0, ZEROS, False)]), (elf([(1, 0, TOP, 0, 2)]), (0, "Wrap")),
        (elf([(1, 0, TOP, 0, 1)]), [(TOP // PAGE, ZEROS, False)]),
        (elf([(1, 0, 8, 0, 4), (1, 0, 0, 0, 9)]), (1, "Overlap")),
        (elf([(1, 0, 8, 0, 4), (1, 0, 0, 0, 8)]), [(0, ZEROS, False)]),
        (elf([(1, 1, 8, 3, 3), (1, 0, 0, 4, 6)]), [(0, b"\x7fELF\0\0\0\0ELF" + bytes(4085), True)]),
        (elf([(1, 2000, TOP, 9, 0)]), (0, "Empty")), (elf([(1, 0, 1, 0, PAGE * PAGE_LIMIT)]), (0, "TooLarge")),
    )


# Pairs with their images

def list_of(*directives, **others):
    """The text of a list of one SEV-SNP platform and these directives."""
    return json.dumps({"platforms": [ONE], **others, "directives": directives}).encode()


def refused(status, error):
    return (status, "", f"igvm: {error}\n"), None


def made(image):
    return (0, f"built {len(image)} bytes\n", ""), image


def image_behind(headers, contents, version):
    """An image of these headers behind a platform, each made at the place of the content of its number, or at 0."""
    parts = [make(0) if k is None else (make, k) for make, k in headers]
    return images.spelled([platform(), *parts], contents, version)


def page(gpa, k=None, mask=1, flags=0):
    """A page's header at the content of number k."""
    return partial(images.page, gpa, flags=flags, mask=mask), k


def of_pages(found, mask, version):
    """The image of one platform and the pages of a file, of which no two that are filled are equal."""
    contents = [memory for _, memory, filled in found if filled]
    headers = [page(number * PAGE, contents.index(memory) if filled else None, mask)
               for number, memory, filled in found]
    return image_behind(headers, contents, version)


def alone(version):
    """Files behind one platform: the example under several masks, and all others that are known."""
    text = list_of(version=version)
    for mask in (1, 2, 6, 0, ALL_BITS):
        yield text, THREE, mask, made(of_pages(THREE_PAGES, mask, version))
    for file, found in known():
        is_refused = isinstance(found, tuple)
        yield text, file, 1, refused(1, f"elf refused at {found[0]}: {TEXTS[found[1]]}") if is_refused else made(
            of_pages(found, 1, version))
    mixed = elf([(1, 500, 0x9000, 1, 1), (1, 0, 0, 0, 2 * PAGE + 1), (1, 501, 0xA000, 1, 1)])
    empty = [page(gpa) for gpa in (0, 0x1000, 0x2000)]
    yield text, mixed, 1, made(image_behind([*empty, page(0x9000, 0), page(0xA000, 0)], [ZEROS], version))


def behind_lists(version):
    """Files behind directives: what both hold alike lies in the image once, but for pages that aren't filled."""
    same, zeros, byte = (elf([(1, 120, 0x3000, PAGE, PAGE)], size=120) + data for data in (SAME, ZEROS, BYTE))
    two = elf([(1, 176, 0x3000, PAGE, PAGE), (1, 176, 0x1000, PAGE, PAGE + 1)], size=176) + SAME
    in_version = partial(list_of, version=version)
    yield in_version(named(0x5000, "page")), same, 4, made(
        image_behind([page(0x5000, 0), page(0x3000, 0, 4)], [SAME], version))
    yield in_version(named(0x5000, "byte")), two, 1, made(
        image_behind([page(0x5000, 0), page(0x1000, 1), page(0x2000), page(0x3000, 1)], [BYTE, SAME], version))
    yield in_version(pages(0x5000, 1)), zeros, 1, made(image_behind([page(0x5000), page(0x3000, 0)], [ZEROS], version))
    yield in_version(named(0x3000, "zeros")), zeros, 1, made(
        image_behind([page(0x3000, 0), page(0x3000, 0)], [ZEROS], version))
    yield in_version(named(0, "byte", large=True)), byte, 1, made(
        image_behind([page(0, 0, flags=IS_LARGE), page(0x3000, 1)], [BYTE.ljust(LARGE, b"\0"), BYTE], version))
    area = {"do": "area", "index": 7, "bytes": PAGE, "file": "page"}
    context = {"do": "context", "mask": 1, "gpa": "0x7000", "vp": 0, "file": "page"}
    headers = [(lambda place: images.policy(), None), (partial(images.area, 7, PAGE), 0),
               (partial(images.context, 0x7000, length=20), 0), page(0x3000, 0)]
    text = in_version(area, context, policies=[{"mask": 1, "policy": "0x30000"}])
    yield text, same, 1, made(image_behind(headers, [SAME], version))


def at_the_limit(version):
    """Lists that name all the pages that there may be, or nearly all, before the three of the example."""
    for large, small, answer in ((8192, 0, refused(8, "limit: pages")), (8191, 510, refused(8, "limit: pages")),
                                 (8193, 0, refused(7, "json refused: directives 0: too many pages"))):
        directives = [pages(0, large, large=True), *([pages(0, small)] if small else [])]
        yield list_of(*directives, version=version), THREE, 1, answer
    headers = [page(LARGE * k, flags=IS_LARGE) for k in range(8191)] + [page(PAGE * k) for k in range(509)]
    headers += [page(PAGE * number, at if filled else None) for at, (number, _, filled) in enumerate(THREE_PAGES)]
    contents = [memory for _, memory, filled in THREE_PAGES if filled]
    yield list_of(pages(0, 8191, large=True), pages(0, 509), version=version), THREE, 1, made(
        image_behind(headers, contents, version))


def cases():
    for version in FIXED_SIZES:
        for make in (alone, behind_lists, at_the_limit):
            for text, file, mask, (answer, image) in make(version):
                yield Case(text, file, mask, answer, image)
