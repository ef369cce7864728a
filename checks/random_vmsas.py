"""Random VMSA pages and texts of them, the same for each seed: in many spellings, and wrong in some way."""
import json
import re

from vmsas import FIELDS, KEYS, NAMED, OTHER, PARTS, SEGMENTS, SIZE, TEXT_MOST, text_of

# Values at some keys that are right at one and wrong at another
VALUES = (0, None, "0x1", "1", "0x", "0xfffffffffffffffff", {}, {"selector": 65536}, {"base": 0}, {"limit": 4294967295},
          {"limit": 4294967296}, {"attributes": "0x1"}, [], [{"at": 784, "byte": 1}], [{"at": 16, "byte": 1}],
          [{"at": 784, "byte": 0}], [{"at": 784, "byte": 256}], [{"at": 4096, "byte": 1}], [{"at": 4095, "byte": 1}],
          [{"at": 785, "byte": 1}, {"at": 784, "byte": 1}], [{"at": 784}], [{"at": 784, "byte": 1, "x": 0}], 1.5, True)
# What follows is spelled as JSON. Values of no form that a key has, by what stands at that key
NO_NUMBERS = ("null", "true", "-1", "-0", "1.0", "1e0", "0.5", '"1"', '"0x1"', "[]", "{}", "[1]",
              "18446744073709551616")
NO_ADDRESSES = ("null", "0", "1", "true", "[]", "{}", '""', '"0x"', '"0X1"', '"1"', '"fff0"', '"0xg"', '"0x 1"',
                '" 0x1"', '"0x1 "', '"-0x1"', '"+0x1"', '"0x+1"', '"0x1_0"', '"0x00000000000000000"',
                '"0x10000000000000000"', '"0x1\\n"', '"0x\\u0661"', '"\\u0030\\u0058\\u0031"', '["0x1"]')
NO_SEGMENTS = ("null", "0", "[]", '""', '"0x0"', "true", "[{}]", '{"":0}', '{"Base":"0x0"}', '{"x":0}',
               '{"selector":0,"attributes":0,"limit":0,"base":"0x0","rights":0}')
NO_OTHERS = ("null", "{}", "0", "true", '""', '"0x1"', '{"at":784,"byte":1}', '{"784":1}')
NO_ENTRIES = ("null", "0", "[]", "[784,1]", "{}", '{"at":4095}', '{"byte":1}', '{"at":4095,"byte":1,"x":0}',
              '{"at":4095,"Byte":1}', '{"at":"0xfff","byte":1}', '{"at":4095,"byte":"1"}', '{"at":4095,"byte":0}',
              '{"at":4095,"byte":256}', '{"at":4095,"byte":257}', '{"at":4096,"byte":1}', '{"at":65535,"byte":1}',
              '{"at":65536,"byte":1}', '{"at":69631,"byte":1}', '{"at":4095.0,"byte":1}', '{"at":4095,"byte":1e0}',
              '{"at":-1,"byte":1}', '{"at":4095,"byte":-1}', '{"at":null,"byte":1}', '{"at":4095,"byte":null}')
NO_KEYS = ("", "RIP", "rip ", " rip", "Es", "eip", "x", "selector", "base", "at", "byte", "others", "cr2", "rdx",
           "es\\u0000", "\\u0435s")
NO_TEXTS = ("null", "true", "0", '"rip"', '"{}"', "[]", "[{}]", '[["rip","0x1"]]')
# Values that are JSON but count nowhere, and those that are none
ANY_VALUES = ("null", "0", "-0", "1.5e3", "1e308", "1e-400", "[]", "{}", '""', '"0x"', '"\\u0041"', '"\\ud83d\\ude00"',
              "[[[]]]", '{"":{"":[null]}}', "[" * 124 + "]" * 124)
NO_VALUES = ("", "1e400", "-1e400", "1" * 400, "01", "-01", "+1", ".5", "1.", "1e", "0x1", "NaN", "Infinity",
             "-Infinity", "'a'", "tru", "nul", "None", "True", "[1,]", "[,1]", "[1 2]", '{"a":1,}', "{a:1}", '{"a" 1}',
             '"', '"\\x41"', '"\\u12"', '"\\ud800"', '"\\udc00"', '"\\udc00\\ud800"', '"\\ud800\\u0041"', '["\\ud83d"]',
             '{"\\ud83d":0}', '"\t"', '"\n"', "[" * 127 + "]" * 127, '{"a":' * 127 + "0" + "}" * 127, "[]]", "[",
             "/**/0", "\x0b0", "\xa00")
NO_BYTES = (b"\xff", b"\x80", b"\xc0\x80", b"\xed\xa0\x80", b"\xf5\x80\x80\x80", b"\xe2\x82", b"\0", b"\x1f")
SPACES = " \t\n\r"


# Pages

def random_page(chance):
    """Bytes in many places or in few, in fields or at their edges; some pages end early."""
    size = chance.choice((SIZE, SIZE, SIZE, chance.randrange(SIZE + 1)))
    page = bytearray(SIZE)
    for _ in range(chance.choice((0, 5, 60))):
        page[chance.randrange(chance.choice((1024, SIZE)))] = chance.randrange(256)
    for _, offset, width in FIELDS:
        inside, edges = range(offset, offset + width), (max(offset - 1, 0), offset, offset + width - 1, offset + width)
        for at in chance.choice(((), (), inside, edges)):
            page[at] = chance.choice((0, 0, 1, 255, chance.randrange(256)))
    return bytes(page[:size])


def dense_page(chance):
    """Random bytes at every place; many pages end early."""
    return chance.randbytes(chance.choice((SIZE, SIZE - 1, chance.randrange(SIZE + 1), chance.randrange(0x400))))


def sparse_page(chance):
    """At most two bytes that aren't 0."""
    page = bytearray(chance.choice((SIZE, SIZE, SIZE - 1, chance.randrange(1, SIZE))))
    for _ in range(chance.choice((0, 1, 1, 2))):
        page[chance.randrange(chance.choice((0x400, SIZE))) % len(page)] = chance.choice((1, 16, 128, 255))
    return bytes(page)


def long_page(chance):
    """More bytes than a page has."""
    over = chance.choice((1, 1, 1, 2, 100, SIZE, 100000))
    return random_page(chance).ljust(SIZE, b"\0") + chance.choice((bytes(over), chance.randbytes(over)))


# Other spellings

def other_digits(chance, text):
    """The same address with other letters, and zeros in front."""
    return "0x" + chance.choice((text[2:], text[2:].upper())).zfill(chance.randrange(1, 17))


def shuffled(chance, pairs):
    return dict(chance.sample([*pairs], len(pairs)))


def spelled(chance, text):
    """The same values in another spelling."""
    whole = shuffled(chance, json.loads(text).items())
    for name, value in whole.items():
        if isinstance(value, str):
            whole[name] = other_digits(chance, value)
        elif isinstance(value, dict):
            value["base"] = other_digits(chance, value["base"])
            whole[name] = shuffled(chance, [pair for pair in value.items() if pair[1] != 0 or chance.random() < 0.5])
    return json.dumps(whole, separators=chance.choice(((",", ":"), (", ", ": "), (" , ", "\t:\t"))))


def zeros_told(chance, text):
    """The same with some keys that could be missing."""
    zeros = {name: chance.choice(({}, {"limit": 0}, {"base": "0x0", "attributes": 0})) for name in SEGMENTS}
    zeros.update({name: chance.choice(("0x0", "0x00", "0x" + "0" * 16)) for name in KEYS[len(SEGMENTS):-1]})
    some = {**dict(chance.sample([*zeros.items()], 3)), **chance.choice(({}, {OTHER: []}))}
    return json.dumps(shuffled(chance, {**some, **json.loads(text)}.items()))


def told_twice(chance, text):
    """The same with any other value before that of some key."""
    names = re.findall('"(?:%s)"' % "|".join((*KEYS, *PARTS, "at", "byte")), text)
    if not names:
        return text
    name = chance.choice(names)
    return text.replace(name, f"{name}:{chance.choice(ANY_VALUES)},{name}", 1)


def escaped(chance, text):
    """The same with the first letters of some keys as escapes."""
    return re.sub('"([a-z])', lambda found: f'"\\u{ord(found[1]):04x}', text, count=chance.randrange(1, 4))


def spaced(chance, text):
    """The same with white space around it and in it."""
    front, inside, behind = ("".join(chance.choices(SPACES, k=chance.randrange(4))) for _ in range(3))
    return front + text.replace("{", "{" + inside, 1) + behind


def right(chance):
    """A text in some spelling."""
    text = spelled(chance, text_of(chance.choice((random_page, random_page, sparse_page))(chance)))
    for change in (zeros_told, told_twice, escaped, spaced):
        if chance.random() < 0.3:
            text = change(chance, text)
    return text.encode()


# Wrong texts

def broken(chance, text):
    """A text with other values at some keys, or with one or two characters put in, taken out or changed."""
    if chance.random() < 0.6:
        whole = json.loads(text)
        for _ in range(chance.randrange(1, 4)):
            whole[chance.choice([*sorted(KEYS), "xss", OTHER])] = chance.choice(VALUES)
        return json.dumps(whole)
    text = spelled(chance, text)
    for _ in range(chance.randrange(1, 3)):
        at = chance.randrange(len(text) + 1)
        text = text[:at] + chance.choice(("", *'0123456789abxX{}[],:"-.e ')) + text[at + chance.randrange(2):]
    return text


def any_text(chance):
    """A text with a change somewhere, which may be right."""
    return broken(chance, text_of(random_page(chance))).encode()


def wrong_segment(chance):
    """A segment with a part of another form, or none at all."""
    part = chance.choice([*PARTS, None])
    if part is None:
        return chance.choice(NO_SEGMENTS)
    over = {"limit": "4294967296", "base": "0"}.get(part, "65536")
    value = chance.choice((over, *(NO_ADDRESSES if part == "base" else NO_NUMBERS)))
    others = [f'"{name}":{chance.choice(("0", "1", "255"))}' for name in PARTS if name not in (part, "base")]
    return "{%s}" % ",".join(chance.sample([*others, f'"{part}":{value}'], len(others) + 1))


def wrong_other(chance):
    """Other bytes of which one breaks a rule."""
    if chance.random() < 0.2:
        return chance.choice(NO_OTHERS)
    places = sorted(chance.sample([at for at in range(SIZE - 1) if at not in NAMED], chance.choice((0, 1, 2, 5))))
    entries = [f'{{"at":{at},"byte":{chance.randrange(1, 256)}}}' for at in places]
    edges = [at for _, offset, width in FIELDS for at in (offset, offset + width - 1)]
    named = [f'{{"at":{chance.choice(some)},"byte":1}}' for some in (edges, edges, edges, [*NAMED])]
    back = [f'{{"byte":1,"at":{places[-1] - back}}}' for back in (0, 0, 0, 1, 1, 7)] if places else []
    wrong = chance.choice((*NO_ENTRIES, *named, *back))
    return "[%s]" % ",".join([*entries, wrong, *chance.choice(([], ['{"at":4095,"byte":1}'], ["null"]))])


def wrong_value(chance, place):
    if place == len(KEYS):
        return wrong_other(chance)
    return wrong_segment(chance) if place <= len(SEGMENTS) else chance.choice(NO_ADDRESSES)


def refused_at(place):
    """A maker of texts that are refused at this place, and often would be at later ones."""
    def make(chance):
        whole = {key: json.dumps(value) for key, value in json.loads(text_of(random_page(chance))).items()}
        later = range(place + 1, len(KEYS) + 1)
        for at in (*((place,) if place else ()), *chance.sample(later, min(len(later), chance.choice((0, 0, 1, 3))))):
            whole[KEYS[at - 1]] = wrong_value(chance, at)
        if place == 0:
            if chance.random() < 0.3:
                return chance.choice(NO_TEXTS).encode()
            whole[chance.choice(NO_KEYS)] = chance.choice(("0", "null", '"0x0"', "{}"))
        text = ",".join(f'"{key}":{value}' for key, value in shuffled(chance, whole.items()).items())
        return b"{%s}" % text.encode()
    return make


def no_json(chance):
    """A text with a value that is none at a key which often stands again, or broken by a byte or at its end."""
    text, way = right(chance), chance.randrange(5)
    if way == 0:
        return text[:chance.randrange(len(text.rstrip()))]
    if way == 1:
        at = chance.randrange(len(text) + 1)
        return text[:at] + chance.choice(NO_BYTES) + text[at:]
    if way == 2:
        front = chance.choice((b"\xEF\xBB\xBF", b"", b"", b"", b""))
        return front + text + (b"" if front else chance.choice((b"{}", b",", b"}", b"x", b"\0")))
    key, value = chance.choice((*KEYS, "x")), chance.choice(NO_VALUES).encode()
    first = b'{"%s":%s' % (key.encode(), value)
    return first + b"," + text.lstrip()[1:] if way == 3 else first + b"}"


def padded(size, make=right):
    """A maker of texts of so many bytes, most of them white space."""
    def long_text(chance):
        text = make(chance)
        spaces = chance.choice((b" ", b"\n")) * (size - len(text))
        return chance.choice((spaces + text, text + spaces, text.replace(b"{", b"{" + spaces, 1)))
    return long_text


def unclosed(chance):
    return right(chance).rstrip()[:-1]


longest, too_long = padded(TEXT_MOST), padded(TEXT_MOST + 1)
broken_longest, broken_too_long = padded(TEXT_MOST, unclosed), padded(TEXT_MOST + 1, unclosed)
