"""The VMSA page of a JSON text, and the text of a page, written from docs/VMSA.md alone."""
import json

from components import Ended, answered
from lists import BYTE, NOTHING, SHORT, WORD, Refused, address, value_of

SIZE, TEXT_MOST = 4096, 16777216
LIMIT = "limit: vmsa"
SEGMENTS = ("es", "cs", "ss", "ds", "fs", "gs", "gdtr", "ldtr", "idtr", "tr")
NUMBERS = (("efer", 0x0D0), ("cr4", 0x148), ("cr3", 0x150), ("cr0", 0x158), ("dr7", 0x160), ("dr6", 0x168),
           ("rflags", 0x170), ("rip", 0x178), ("rsp", 0x1D8), ("rax", 0x1F8), ("g_pat", 0x268), ("sev_features", 0x3B0),
           ("xcr0", 0x3E8))
# name, offset and width, in the order of the places
FIELDS = [(name, 16 * k, 16) for k, name in enumerate(SEGMENTS)] + [(name, offset, 8) for name, offset in NUMBERS]
NAMED = {at for _, offset, width in FIELDS for at in range(offset, offset + width)}
PARTS = {"selector": (0, 2, SHORT), "attributes": (2, 2, SHORT), "limit": (4, 4, WORD), "base": (8, 8, address)}
OTHER = "other"
KEYS = (*(name for name, _, _ in FIELDS), OTHER)        # in the order of the places, from 1 on


# The text of a page

def number(page, at, size):
    return int.from_bytes(page[at:at + size], "little")


def field_value(page, offset, width):
    if width == 8:
        return hex(number(page, offset, 8))
    values = {part: number(page, offset + at, size) for part, (at, size, _) in PARTS.items()}
    return {**values, "base": hex(values["base"])}


def text_of(page):
    """What is printed of a page."""
    page = page.ljust(SIZE, b"\0")
    whole = {name: field_value(page, *at) for name, *at in FIELDS if any(page[at[0]:sum(at)])}
    other = [{"at": at, "byte": byte} for at, byte in enumerate(page) if byte and at not in NAMED]
    if other:
        whole[OTHER] = other
    return json.dumps(whole, sort_keys=True, separators=(",", ":"))


# The page of a text

def segment(value):
    if not isinstance(value, dict) or value.keys() - PARTS.keys():
        return NOTHING
    numbers = [form(value[part]) if part in value else 0 for part, (_, _, form) in PARTS.items()]
    if NOTHING in numbers:
        return NOTHING
    return b"".join(one.to_bytes(size, "little") for one, (_, size, _) in zip(numbers, PARTS.values()))


def register(value):
    found = address(value)
    return NOTHING if found is NOTHING else found.to_bytes(8, "little")


def other_bytes(entries):
    """(place, byte) of each entry, or NOTHING where one breaks a rule."""
    found, last = [], -1
    for entry in entries if isinstance(entries, list) else (None,):
        if not isinstance(entry, dict) or entry.keys() != {"at", "byte"}:
            return NOTHING
        at, byte = SHORT(entry["at"]), BYTE(entry["byte"])
        if NOTHING in (at, byte) or not last < at < SIZE or at in NAMED or byte == 0:
            return NOTHING
        found.append((at, byte))
        last = at
    return found


def refused(place):
    return Refused(f": vmsa {place}")


def page_of(data):
    """The page that a text stands for; else Refused."""
    whole = value_of(data)
    if not isinstance(whole, dict) or whole.keys() - set(KEYS):
        raise refused(0)
    page = bytearray(SIZE)
    for place, (name, offset, width) in enumerate(FIELDS, 1):
        found = (segment if width == 16 else register)(whole[name]) if name in whole else bytes(width)
        if found is NOTHING:
            raise refused(place)
        page[offset:offset + width] = found
    others = other_bytes(whole.get(OTHER, []))
    if others is NOTHING:
        raise refused(len(KEYS))
    for at, byte in others:
        page[at] = byte
    return bytes(page)


# What the program answers

def page_of_file(data):
    if len(data) > TEXT_MOST:
        raise Ended(8, LIMIT)
    return page_of(data)


def built(data):
    """(status, output, error, page) of `vmsa-build` over a file of this text; the page is None where there is none."""
    return answered(page_of_file, data)


def printed(data):
    """(status, output, error) of `vmsa-print` over a file of these bytes."""
    if len(data) > SIZE:
        return 8, "", f"igvm: {LIMIT}\n"
    return 0, text_of(data), ""
