"""Images made of images, written from docs/OPERATIONS.md, docs/PROGRAM.md and docs/FORMAT.md alone: strip, join, seal.

An image that the plain reader accepts is taken apart into a list; what comes of the operation is laid out by
components.py.
"""
from collections import namedtuple

import digests
from answers import platform
from components import DATA_MOST, FILE_MOST, PAGES_MOST, SPELLINGS, Component, Ended, answered, layout
from digests import SNP
from listing import PLATFORM_KINDS
from reader import first_fault
from records import LARGE, PAGE, fixed, headers, platforms

AREAS_MOST = 256
UNMASKED = ("Area", "Param", "Carried")
SECOND_PART = (0x101, 0x102, 0x103)     # the types that end at the last of them
KEYS_AT = 104                           # in an ID block, where what is carried and not read begins

# The header's name, its type and its fields, which are None where it is carried; what is carried unread; the data, None
# where they are zeros that the file does not hold, or there are none.
Part = namedtuple("Part", "name type fields rest data")
List = namedtuple("List", "version parts")


# From an image to a list and back

def data_size(header):
    """How many bytes of data a header has at its file offset, or None where it has no data."""
    if header.name == "Page":
        return LARGE if header.fields.flags & 1 else PAGE
    return header.fields.size if header.name == "Area" else PAGE if header.name == "Context" else None


def stored(header):
    """How many bytes of a header's data the file holds."""
    return data_size(header) if data_size(header) is not None and header.fields.offset else 0


def list_of(image):
    """The list of an image. Equal places give one object, so that bytes that are named often take no more room."""
    total, held, parts = fixed(image).total, {}, []
    for header in headers(image):
        data, rest = None, b""
        if stored(header):
            place = header.fields.offset, data_size(header)
            if place not in held:
                start, size = place
                held[place] = image[start:min(total, start + size)].ljust(size, b"\0")
            data = held[place]
        if header.name == "Carried":
            rest = header.content
        if header.name == "IdBlock":
            rest = header.content[KEYS_AT:]
        parts.append(Part(header.name, header.type, header.fields, rest, data))
    return List(fixed(image).version, parts)


def component(part):
    """A part as components.py lays it out."""
    if part.name == "Carried":
        return Component(None, part.type, f"{len(part.rest)}s", (part.rest,), None)
    values = [None if name == "offset" and part.data is not None else 0 if name == "offset" else value
              for name, value in zip(part.fields._fields, part.fields)]
    if part.name == "Param":
        return Component(None, part.type, "<II", values, None)
    spelling = {kind: layout_of for kind, layout_of in SPELLINGS.values()}[part.type]
    return Component(None, part.type, spelling, [*values, *([part.rest] if part.rest else [])], part.data)


def image_of(whole):
    return layout(whole.version, [component(part) for part in whole.parts])


# The operations

def of(whole, name):
    return [part for part in whole.parts if part.name == name]


def masks(whole):
    """Those of the platforms, by their numbers."""
    return [part.fields.mask for part in of(whole, "Platform")]


def indices(whole):
    """Those of the areas, in their order."""
    return [part.fields.index for part in of(whole, "Area")]


def changed(part, **fields):
    return part._replace(fields=part.fields._replace(**fields))


def stripped(whole, number):
    mask, kept = masks(whole)[number], []
    for part in whole.parts:
        if part.name in UNMASKED or part.name == "Platform" and part.fields.mask == mask:
            kept.append(part)
        elif part.name != "Platform" and part.fields.mask & mask:
            kept.append(changed(part, mask=mask))
    return List(whole.version, kept)


def least_free(used, count, values):
    """So many of these values, in their order, that aren't used."""
    free = (value for value in values if value not in used)
    return [next(free) for _ in range(count)]


def masked(part, bits):
    """The part with its mask by these bits: for each old one that counts the new one."""
    if part.name in UNMASKED:
        return part
    return changed(part, mask=sum(new for old, new in bits if part.fields.mask & old))


def renamed(part, names):
    """The part with the new index of the area that it is or names."""
    return changed(part, index=names[part.fields.index]) if part.name in ("Area", "Param", "Insert") else part


def thirds(whole):
    """The three parts of a list."""
    ends = [at + 1 for at, part in enumerate(whole.parts) if part.name == "Platform"]
    first = ends[-1]
    second = max([first, *(at + 1 for at, part in enumerate(whole.parts) if part.type in SECOND_PART)])
    return whole.parts[:first], whole.parts[first:second], whole.parts[second:]


def pages(whole):
    """How many pages the Page and Insert headers name together."""
    sizes = {part.fields.index: part.fields.size for part in of(whole, "Area")}
    return (sum(data_size(part) // PAGE for part in of(whole, "Page"))
            + sum(sizes[part.fields.index] // PAGE for part in of(whole, "Insert")))


# What is counted of both lists together, and how many there may be, in the order in which they are tried
LIMITS = {"platforms": (lambda whole: len(masks(whole)), 32), "areas": (lambda whole: len(indices(whole)), AREAS_MOST),
          "pages": (pages, PAGES_MOST)}


def joined(first, second):
    for what, (count, most) in LIMITS.items():
        if count(first) + count(second) > most:
            raise Ended(8, f"limit: {what}")
    own = [(mask, mask) for mask in masks(first)]
    new = list(zip(masks(second), least_free(masks(first), len(masks(second)), (1 << bit for bit in range(32)))))
    names = dict(zip(indices(second), least_free(set(indices(first)), len(indices(second)), range(2 * AREAS_MOST))))
    return List(first.version, [part for a, b in zip(thirds(first), thirds(second)) for part in (
        *(masked(one, own) for one in a), *(renamed(masked(one, new), names) for one in b))])


def sealed(whole, number, native_zero):
    mask = masks(whole)[number]
    if not any(part.fields.mask & mask for part in of(whole, "IdBlock")):
        raise Ended(6, "no id block")
    image = image_of(whole)
    digest = digests.digest(image, platforms(image)[number], native_zero)
    return List(whole.version, [changed(part, digest=digest) if part.name == "IdBlock" and part.fields.mask & mask
                                else part for part in whole.parts])


# The jobs: (status, output, error, image), the image None where there is none

def judged(file):
    """The bytes of a file, where it can be read and keeps the rules; a file that can't be read is None."""
    if file is None:
        raise Ended(4, "outside fault: shelf")
    if len(file) > FILE_MOST:
        raise Ended(8, "limit: file")
    fault = first_fault(file)
    if fault is not None:
        raise Ended(1, f"file refused at {fault[1]}: {fault[2]}")
    return file


def number_of(image, wanted):
    one = platform(image, wanted)
    if one is None:
        raise Ended(6, f"no platform {wanted}")
    return platforms(image).index(one)


def copied(image):
    """The list of an image whose data aren't too many."""
    if sum(map(stored, headers(image))) > DATA_MOST:
        raise Ended(8, "limit: data")
    return list_of(image)


def strip(file, wanted):
    def make():
        number = number_of(judged(file), wanted)
        return image_of(stripped(copied(file), number))
    return answered(make)


def join(first, second):
    def make():
        judged(first)
        judged(second)
        return image_of(joined(copied(first), copied(second)))
    return answered(make)


def seal(file, wanted, native_zero):
    def make():
        number = number_of(judged(file), wanted)
        kind = platforms(file)[number].kind
        if kind != SNP:
            raise Ended(6, f"no seal for {PLATFORM_KINDS[kind]}")
        return image_of(sealed(copied(file), number, native_zero))
    return answered(make)
