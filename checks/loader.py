"""What `load` and `sev-load` answer for an image and a host, written from docs/LOADING.md and docs/PROGRAM.md alone.

The image's parts and rules, and its digests, are those of records.py, reader.py and digests.py, and the host is that of
hosts.py. Nothing is launched: pages and contexts are laid out as the page says that a machine holds them.
"""
import struct
from collections import Counter, namedtuple

import digests
from answers import answer, no_digest, platform
from digests import SEV_ES, SNP, kind_of
from hosts import read_host
from lists import Refused
from reader import first_fault
from records import LARGE, PAGE, PARAMETERS, data_page, headers

HOST_MOST, AREAS_MOST, PAGES_MOST = 16777216, 67108864, 524288
TAGS = ("normal", "unmeasured", "secrets", "cpuid", "zero", "context")      # by their numbers in the pages file

# The pages file is None where none is written.
Loaded = namedtuple("Loaded", "status output error pages")


def counting(image, one):
    """(number, header) of those that count for this platform."""
    for number, header in enumerate(headers(image)):
        if header.name in ("Area", "Param"):
            yield number, header
        elif header.name not in ("Platform", "Carried") and header.fields.mask & one.mask:
            yield number, header


# What fits

def size_of(header, areas):
    """How many bytes of guest memory a header speaks of."""
    if header.name == "Page":
        return LARGE if header.fields.flags & 1 else PAGE
    return areas[header.fields.index] if header.name == "Insert" else header.fields.size


def pages_of(header, areas):
    """The addresses of the pages that a header places."""
    if header.name not in ("Page", "Insert"):
        return range(0)
    return range(header.fields.gpa, header.fields.gpa + size_of(header, areas), PAGE)


class Before:
    """What the rows need of the headers before one: those that count, each of which fits."""

    def __init__(self):
        self.names, self.areas, self.gone, self.pages, self.vps = set(), {}, set(), set(), set()

    def add(self, header):
        field = header.fields
        self.names.add(header.name)
        self.pages.update(pages_of(header, self.areas))
        if header.name == "Area":
            self.areas[field.index] = field.size
        if header.name == "Insert":
            self.gone.add(field.index)
        if header.name == "Context":
            self.vps.add(field.vp)


def rows(header, before, kind, host):
    """The texts of the rows that hold for a header on this kind of platform, in the page's order. Behind the first the
    rest means nothing."""
    name, field = header.name, header.fields
    if name == "Policy" and name in before.names:
        yield "policy repeated"
    if name == "Area" and sum(before.areas.values()) + field.size > AREAS_MOST:
        yield "areas too large"
    if name in ("Param", "Insert") and field.index in before.gone:
        yield "area gone"
    if name == "Param":
        if field.byte_offset + len(host.value(PARAMETERS[header.type])) > before.areas[field.index]:
            yield "value too long"
    if name == "Page" and kind != SNP and field.data_type != 0:
        yield "type not here"
    if name in ("Page", "Insert", "Required", "ErrorRange"):
        if not host.covers(field.gpa, size_of(header, before.areas)):
            yield "outside"
    if name in ("Page", "Insert"):
        own = pages_of(header, before.areas)
        if not before.pages.isdisjoint(own):
            yield "repeated"
        if len(before.pages) + len(own) > PAGES_MOST:
            yield "too many pages"
    if name == "Context" and kind not in (SNP, SEV_ES):
        yield "context not here"
    if name == "Context" and field.vp in before.vps:
        yield "context repeated"
    if name == "IdBlock" and kind != SNP:
        yield "id block not here"
    if name == "IdBlock" and name in before.names:
        yield "id block repeated"


def first_misfit(image, one, host):
    """The number and the text of the first header that doesn't fit, but for the digest of an ID block, or None."""
    before = Before()
    for number, header in counting(image, one):
        for text in rows(header, before, one.kind, host):
            return number, text
        before.add(header)
    return None


def wrong_digest(image, one, digest):
    """The number and the text of the ID block that wants another digest, or None."""
    for number, header in counting(image, one):
        if header.name == "IdBlock" and header.fields.digest != digest:
            return number, f"bad digest wanted {header.fields.digest.hex()} found {digest.hex()}"
    return None


# What is placed

def record(gpa, tag, page, vp=0):
    """One of the pages file."""
    return struct.pack("<QBBHI", gpa, TAGS.index(tag), 0, vp, 0) + page


def page_bytes(image, field, k, host):
    """The bytes of page k of a Page header."""
    handed = {1: host.secrets, 2: host.cpuid, 3: host.cpuid}
    if field.data_type in handed:
        return handed[field.data_type].ljust(PAGE, b"\0")
    return data_page(image, field.offset, k)


def placed(image, one, native_zero, host):
    """The records of the pages, and those of the contexts, of an image that fits."""
    areas, pages, contexts = {}, [], []
    for _, header in counting(image, one):
        name, field = header.name, header.fields
        if name == "Area":
            data = [data_page(image, field.offset, k) for k in range(field.size // PAGE)]
            areas[field.index] = bytearray(b"".join(data))
        if name == "Param":
            value = host.value(PARAMETERS[header.type])
            areas[field.index][field.byte_offset:field.byte_offset + len(value)] = value
        if name == "Page":
            tag = kind_of(field, native_zero and one.kind == SNP)
            for k in range(512 if field.flags & 1 else 1):
                pages.append(record(field.gpa + PAGE * k, tag, page_bytes(image, field, k, host)))
        if name == "Insert":
            for at in range(0, len(areas[field.index]), PAGE):
                pages.append(record(field.gpa + at, "unmeasured", areas[field.index][at:at + PAGE]))
        if name == "Context":
            contexts.append(record(field.gpa, "context", data_page(image, field.offset), field.vp))
    return pages, contexts


# The answer

def refused(status, error):
    return Loaded(status, "", error, None)


def does_not_fit(number, text):
    return Loaded(3, f"does not fit: header {number}: {text}\n", "", None)


def answered(image, text, wanted, kinds, launched):
    """What is answered for a file FILE, a file HOST and the word P: that of `launched`, for the platform and the host,
    where the platform is of these kinds and its headers fit."""
    fault = first_fault(image)
    if fault is not None:
        return Loaded(*answer("load", image, fault), None)
    one = platform(image, wanted)
    error = no_digest(one, wanted, kinds)
    if error is not None:
        return refused(6, error)
    if len(text) > HOST_MOST:
        return refused(8, "igvm: limit: host\n")
    try:
        host = read_host(text)
    except Refused as refusal:
        return refused(7, refusal.error)
    misfit = first_misfit(image, one, host)
    return launched(one, host) if misfit is None else does_not_fit(*misfit)


def loaded_text(pages, contexts, digest):
    return f"loaded {pages} pages, {contexts} contexts\ndigest {digest.hex()}\n"


def load(image, text, wanted, native_zero):
    """What `load` answers, and the pages file."""
    def launched(one, host):
        digest = digests.digest(image, one, native_zero)
        misfit = wrong_digest(image, one, digest)
        if misfit is not None:
            return does_not_fit(*misfit)
        pages, contexts = placed(image, one, native_zero, host)
        return Loaded(0, loaded_text(len(pages), len(contexts), digest), "", b"".join(pages + contexts))

    return answered(image, text, wanted, ("snp", "tdx"), launched)


def sev_load(image, text, wanted):
    """What `sev-load` answers, which has no pages file."""
    def launched(one, _):
        names = Counter(name for name, *_ in digests.places(image, one.mask, native_zero=False))
        text = loaded_text(names["Page"] + names["Insert"], names["Context"], digests.sev_digest(image, one))
        return Loaded(0, text, "", None)

    return answered(image, text, wanted, ("sev", "sev_es"), launched)
