"""Random component lists, the same for each seed, and lists whose JSON or whose entries are wrong in one place.

Half of them are of version 2, and some of the others say that theirs is 1.
"""
import json
import re

from listing import PAGE_KINDS, PLATFORM_KINDS
from lists import DIRECTIVES, PARAMETER_KINDS
from records import LARGE, PAGE

TOP = 2 ** 32 - 1
AREA_MOST = 67108864
# The files that lists name, some of equal bytes; the name `missing` is no file, and `folder` is a folder.
FILES = {"empty": b"", "byte": b"\x01", "same byte": b"\x01", "zeros": bytes(PAGE), "page": b"\xAA" * PAGE,
         "page and one": b"\xAA" * (PAGE + 1), "two pages": b"\xAA" * 2 * PAGE, "short": bytes(range(200)),
         "counted": b"".join(k.to_bytes(2, "little") for k in range(3 * PAGE)),
         "large": b"\x07" * LARGE + b"\x08", "-dash": b"dash", "\u00e9": b"not ASCII"}
SMALL = tuple(name for name, data in FILES.items() if len(data) <= PAGE)
NO_FILES = ("missing", "folder", "folder/none", "nul\0", "x" * 300)
# Values of no form that a key has
WRONG_VALUES = (None, -1, 1.5, "", "0x", "0X1", "0x00000000000000001", "0xg", "12", "x", [], {}, 2 ** 8, 2 ** 16,
                2 ** 32, 2 ** 64, True, False, 0, "snp ", "ff", "\u0661", [1])
KEYS_OF_NONE = ("", "Mask", "mask ", "gpa", "vtl", "file", "do", "count", "large", "policy", "Version", "versions")
WRONG_VERSIONS = (0, 3, 2.0, 1.0, "2", "1", None, True, [2], {"version": 2}, -1, -2, 2 ** 32 + 2, 2 ** 64 + 1)


class ListMaker:
    """One random list: mostly of fitting values, each of which is at the edge or wrong now and then."""

    def __init__(self, chance, wrong):
        self.chance, self.wrong = chance, wrong
        self.areas, self.masks = {}, []
        self.makers = {do: getattr(self, do) for do in DIRECTIVES}

    def pick(self, right, wrong):
        return self.chance.choice(wrong if self.chance.random() < self.wrong else right)

    def maybe(self, values):
        """Some of these keys, the others missing."""
        return {key: value for key, value in values.items() if self.chance.random() < 0.5}

    def address(self, number):
        digits = f"{number:x}"
        return "0x" + self.chance.choice((digits, digits.upper(), digits.rjust(16, "0")))

    def mask(self):
        return self.chance.choice((1, 1, 2, 3, 7, 0, TOP, sum(self.masks) & TOP, self.chance.getrandbits(32)))

    def gpa(self, unit=PAGE):
        some = self.chance.randrange(2 ** 20) * unit
        return self.address(self.pick((some, some, some, 0), (some + 1, some + unit // 2, 2 ** 64 - unit, 2 ** 64 - 1)))

    def file(self, names):
        return self.pick(names, NO_FILES + tuple(FILES))

    def digits(self, size):
        text = self.chance.randbytes(size).hex()
        return self.chance.choice((text, text.upper()))

    def platform(self):
        free = [1 << bit for bit in range(32) if 1 << bit not in self.masks]
        mask = self.pick((free[0], self.chance.choice(free)), (0, 3, TOP, *self.masks))
        self.masks.append(mask)
        others = {"vtl": self.chance.randrange(256), "version": self.chance.choice((0, 1, 65535)),
                  "shared_gpa": self.address(self.chance.getrandbits(64))}
        return {"kind": self.chance.choice(PLATFORM_KINDS), "mask": mask, **self.maybe(others)}

    def policy(self):
        return {"mask": self.mask(), "policy": self.address(self.chance.getrandbits(64))}

    def page_like(self):
        large = self.chance.random() < 0.1
        kind = self.pick(("normal",) if large else PAGE_KINDS, PAGE_KINDS)
        others = self.maybe({"kind": kind, "unmeasured": self.chance.random() < 0.5})
        size = {"large": True} if large else {}
        return {"mask": self.mask(), "gpa": self.gpa(LARGE if large else PAGE), **others, **size}

    def pages(self):
        return {**self.page_like(), "file": self.file(tuple(FILES))}

    def zero(self):
        return {**self.page_like(), "count": self.pick((1, 1, 2, 5), (3, 300))}

    def area(self):
        index = self.pick((len(self.areas), self.chance.getrandbits(32)), tuple(self.areas) or (0,))
        size = self.pick((PAGE, PAGE, 2 * PAGE, 5 * PAGE), (0, 1, PAGE + 1, AREA_MOST, AREA_MOST + PAGE, TOP))
        self.areas[index] = size
        return {"index": index, "bytes": size, **self.maybe({"file": self.file(SMALL)})}

    def area_index(self):
        return self.pick(tuple(self.areas) or (0,), (9, TOP))

    def param(self):
        return {"kind": self.chance.choice(tuple(PARAMETER_KINDS)), "area": self.area_index(),
                "offset": self.chance.getrandbits(32)}

    def insert(self):
        return {"mask": self.mask(), "gpa": self.gpa(), "area": self.area_index()}

    def context(self):
        return {"mask": self.mask(), "gpa": self.gpa(), "vp": self.chance.randrange(65536),
                **self.maybe({"file": self.file(SMALL)})}

    def required(self):
        return {**self.error_range(), **self.maybe({"flags": self.chance.getrandbits(32)})}

    def error_range(self):
        gpa, size = self.address(self.chance.getrandbits(64)), self.chance.getrandbits(32)
        return {"mask": self.mask(), "gpa": gpa, "bytes": size}

    def id_block(self):
        words = ("version", "guest_svn", "id_algorithm", "author_algorithm")
        others = {"family_id": self.digits(16), "image_id": self.digits(16), "keys": self.digits(592),
                  "author_enabled": self.chance.randrange(256), **{key: self.chance.getrandbits(32) for key in words}}
        return {"mask": self.mask(), "ld": self.digits(48), **self.maybe(others)}

    def directive(self):
        do = self.chance.choice(tuple(self.makers) + ("pages", "pages", "area", "insert"))
        if do in ("param", "insert") and not self.areas and self.chance.random() >= self.wrong:
            do = "area"
        return self.shuffled({"do": do, **self.makers[do]()})

    def version(self):
        """The key of a list's version, or nothing."""
        if self.chance.random() < 0.5:
            return {"version": self.pick((2,), WRONG_VERSIONS)}
        return self.maybe({"version": self.pick((1,), WRONG_VERSIONS)})

    def shuffled(self, entry):
        items = list(entry.items())
        self.chance.shuffle(items)
        return dict(items)

    def whole(self):
        chance = self.chance
        value = {"platforms": [self.shuffled(self.platform()) for _ in range(self.pick((1, 2, 3), (0,)))]}
        value.update(self.version())
        if chance.random() < 0.7:
            value["policies"] = [self.policy() for _ in range(chance.choice((0, 1, 2)))]
        value["directives"] = [self.directive() for _ in range(chance.choice((0, 3, 6, 12)))]
        return self.shuffled(value)

    def text(self, value):
        return json.dumps(value, indent=self.chance.choice((None, 1)), ensure_ascii=self.chance.random() < 0.5).encode()


class FormMaker(ListMaker):
    """One random list with one entry, or the whole, of another form."""

    def __init__(self, chance):
        super().__init__(chance, 0)

    def broken(self, entry):
        """A key more, a key less, or another value at one."""
        chance, key = self.chance, self.chance.choice(tuple(entry))
        way = chance.randrange(4)
        if way == 0:
            return {**entry, chance.choice(KEYS_OF_NONE): chance.choice((0, 1, "0x0", "byte", True))}
        if way == 1:
            return {name: value for name, value in entry.items() if name != key}
        return {**entry, key: chance.choice(WRONG_VALUES)}

    def whole(self):
        value, chance = super().whole(), self.chance
        for _ in range(chance.choice((1, 1, 2))):
            parts = [part for part, entries in value.items() if isinstance(entries, list) and entries]
            part = chance.choice(parts + ["top"])
            if part == "top":
                value = self.broken(value)
                break
            item = chance.randrange(len(value[part]))
            entry, other = value[part][item], chance.choice((None, 0, [], "entry", {}))
            if isinstance(entry, dict) and entry and chance.random() >= 0.1:
                other = self.broken(entry)
            value[part] = [*value[part][:item], other, *value[part][item + 1:]]
        return value


class TextMaker(ListMaker):
    """One random list whose text is changed in one place."""

    def __init__(self, chance):
        super().__init__(chance, 0)

    def text(self, value):
        text, chance = super().text(value), self.chance
        way = chance.randrange(4)
        if way == 0:
            found = chance.choice(list(re.finditer(rb"(?<=: )\d+", text)))
            written = found[0] + chance.choice((b".0", b"e0", b"E400", b"e-400", b"0" * 400, b".", b"x", b"e"))
            deep = b"[" * 140 + b"]" * 140
            other = chance.choice((written, b"-0", b"0" + found[0], b"+1", b"NaN", b"-Infinity", deep))
            return text[:found.start()] + other + text[found.end():]
        at = chance.randrange(len(text))
        if way == 1:
            return text[:at] + text[at + 1:]
        if way == 2:
            return text[:at] + chance.choice((b",", b" ", b"\xff", b"\0", b'"', b"\\", b"}", b"\n", b"0")) + text[at:]
        return text[:at]
