"""What a component list in JSON says, or the entry that is refused, written from docs/LIST.md alone."""
import json
import math
import re
from collections import namedtuple

from listing import PAGE_KINDS, PLATFORM_KINDS
from records import PARAMETERS

DEEPEST = 127                       # arrays and objects in one another; deeper is taken as no JSON
BRACKETS = re.compile(r'"(?:[^"\\]|\\.)*"|[\[{]|[\]}]', re.DOTALL)
NOTHING = object()                  # what a value of another form is, and a number written otherwise
PARAMETER_KINDS = {name: kind for kind, name in PARAMETERS.items()}

List = namedtuple("List", "version entries")
Entry = namedtuple("Entry", "part item do values")


class Refused(Exception):
    """The text is no JSON, or an entry has not its form, or what is behind `igvm: json refused`."""

    def __init__(self, where=""):
        super().__init__()
        self.where, self.error = where, f"igvm: json refused{where}\n"


# JSON, as far as it differs from Python's: what has another form is NOTHING, what is no JSON is refused

def integer(text):
    if math.isinf(float(text)):
        raise ValueError(text)
    return NOTHING if text.startswith("-") else int(text)


def fraction(text):
    if math.isinf(float(text)):
        raise ValueError(text)
    return NOTHING


def no_constant(text):
    raise ValueError(text)


def whole_texts(value):
    """Half a pair of surrogates is no text."""
    for text in [value] if isinstance(value, str) else value if isinstance(value, list) else ():
        if isinstance(text, str):
            text.encode("utf-8")
        else:
            whole_texts(text)
    return value


def last_values(pairs):
    return {whole_texts(key): whole_texts(value) for key, value in pairs}


def depth(text):
    """How many arrays and objects stand in one another."""
    most = now = 0
    for found in BRACKETS.findall(text):
        now += (found in "[{") - (found in "]}")
        most = max(most, now)
    return most


def value_of(data):
    try:
        text = data.decode("utf-8")
        if depth(text) > DEEPEST:
            raise ValueError
        value = json.loads(text, parse_int=integer, parse_float=fraction, parse_constant=no_constant,
                           object_pairs_hook=last_values)
        return whole_texts(value)
    except ValueError:
        raise Refused from None


# Forms: a value's meaning, or NOTHING

def number(bits):
    return lambda value: value if type(value) is int and value < 1 << bits else NOTHING


def list_version(value):
    return value if type(value) is int and value in (1, 2) else NOTHING


def count(value):
    return value if type(value) is int and 1 <= value <= 524288 else NOTHING


def address(value):
    fits = isinstance(value, str) and re.fullmatch("0x[0-9a-fA-F]{1,16}", value, re.ASCII)
    return int(value, 16) if fits else NOTHING


def digits(size):
    def form(value):
        fits = isinstance(value, str) and re.fullmatch("[0-9a-fA-F]*", value) and len(value) == 2 * size
        return bytes.fromhex(value) if fits else NOTHING
    return form


def file(value):
    return value if isinstance(value, str) and value else NOTHING


def truth(value):
    return value if isinstance(value, bool) else NOTHING


def one_of(names):
    """One of these names, as the number that it stands for."""
    return lambda value: names.get(value, NOTHING) if isinstance(value, str) else NOTHING


def numbered(names):
    return one_of({name: at for at, name in enumerate(names)})


BYTE, SHORT, WORD = number(8), number(16), number(32)
KEPT = object()                     # the default of a key that must be there
PLATFORM = {"kind": (numbered(PLATFORM_KINDS), KEPT), "mask": (WORD, KEPT), "vtl": (BYTE, 0), "version": (SHORT, 1),
            "shared_gpa": (address, 0)}
POLICY = {"mask": (WORD, KEPT), "policy": (address, KEPT)}
PLACED = {"mask": (WORD, KEPT), "gpa": (address, KEPT)}
PAGES = {"kind": (numbered(PAGE_KINDS), 0), "large": (truth, False), "unmeasured": (truth, False)}
DIRECTIVES = {
    "pages": {**PLACED, "file": (file, KEPT), **PAGES},
    "zero": {**PLACED, "count": (count, KEPT), **PAGES},
    "area": {"index": (WORD, KEPT), "bytes": (WORD, KEPT), "file": (file, None)},
    "param": {"kind": (one_of(PARAMETER_KINDS), KEPT), "area": (WORD, KEPT), "offset": (WORD, KEPT)},
    "insert": {**PLACED, "area": (WORD, KEPT)},
    "context": {**PLACED, "vp": (SHORT, KEPT), "file": (file, None)},
    "required": {**PLACED, "bytes": (WORD, KEPT), "flags": (WORD, 0)},
    "error_range": {**PLACED, "bytes": (WORD, KEPT)},
    "id_block": {"mask": (WORD, KEPT), "ld": (digits(48), KEPT), "family_id": (digits(16), bytes(16)),
                 "image_id": (digits(16), bytes(16)), "version": (WORD, 0), "guest_svn": (WORD, 0),
                 "id_algorithm": (WORD, 0), "author_algorithm": (WORD, 0), "author_enabled": (BYTE, 0),
                 "keys": (digits(592), bytes(592))},
}


def read_entry(value, form):
    """The values of an entry's keys, or NOTHING where it has not this form."""
    if not isinstance(value, dict) or value.keys() - form.keys():
        return NOTHING
    values = {key: read(value[key]) if key in value else default for key, (read, default) in form.items()}
    return NOTHING if any(one is NOTHING or one is KEPT for one in values.values()) else values


def read_directive(value):
    """(the word at `do`, the values of the other keys), or NOTHING."""
    if not isinstance(value, dict) or not isinstance(value.get("do"), str) or value["do"] not in DIRECTIVES:
        return "", NOTHING
    others = {key: one for key, one in value.items() if key != "do"}
    return value["do"], read_entry(others, DIRECTIVES[value["do"]])


READERS = {"platforms": lambda value: ("platform", read_entry(value, PLATFORM)),
           "policies": lambda value: ("policy", read_entry(value, POLICY)), "directives": read_directive}


TOP_KEYS = {"version", *READERS}


def has_top_form(whole):
    """The keys are known ones, those that must be there are, and each value has its form."""
    if not isinstance(whole, dict) or whole.keys() - TOP_KEYS or not {"platforms", "directives"} <= whole.keys():
        return False
    if list_version(whole.get("version", 1)) is NOTHING:
        return False
    return all(isinstance(whole[part], list) for part in READERS if part in whole)


def read_list(data):
    """The version and the entries of a list's text, these in the order of their components; else Refused."""
    whole = value_of(data)
    if not has_top_form(whole):
        raise Refused(": top 0")
    entries = []
    for part, reader in READERS.items():
        for item, value in enumerate(whole.get(part, [])):
            do, values = reader(value)
            if values is NOTHING:
                raise Refused(f": {part} {item}")
            entries.append(Entry(part, item, do, values))
    return List(whole.get("version", 1), entries)
