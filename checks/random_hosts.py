"""Random pairs of a host description and an image that is made to meet it, the same for each seed.

Most fit. Others are broken in one or two ways: the image by the rows of docs/LOADING.md, the host by the refusals of
docs/HOST.md, the file by any byte, and P by naming another platform.
"""
import json
from collections import namedtuple

import digests
from digests import SEV, SEV_ES, SNP, TDX
from hosts import NAMES
from images import (area, context, error_range, header, id_block, image_of, insert, mended, page, param, platform,
                    policy, required, row)
from random_images import Maker, SevMaker, WholeMaker, WholeSevMaker
from records import FIXED_SIZES, LARGE, PAGE, platforms

TOP, AREA_MOST, MEMORY_END = 2 ** 32 - 1, 67108864, 2 ** 52
WORDS = {SNP: "snp", TDX: "tdx", SEV: "sev", SEV_ES: "sev_es"}
# The kinds that `load` and `sev-load` launch, each as often as it comes in random pairs
LAUNCHED, SEV_LAUNCHED = (SNP, SNP, TDX), (SEV, SEV_ES)
NO_BYTES = ("0", "0x00", "0g", " 00", "00 ", None, 0, 1.5, True, [], {}, ["00"], "\u0660\u0660")
NO_RANGES = (None, [], {}, "0x0", {"start": "0x0"}, {"bytes": "0x1000"}, {"start": 0, "bytes": 4096})
NO_ADDRESSES = ("0x1", "0x800", "4096", "0X1000", "0x", "0x00000000000001000", None, 4096, "0xfffffffffffff000")
NO_NAMES = ("", "vp", "VP_COUNT", "srat ", "dsdt")
NO_JSON = (b"\xff", b"\0", b",", b"]", b"}", b'"', b"\\", b"1e400", b"[" * 128)

Pair = namedtuple("Pair", "image host wanted")


class HostMaker:
    """One random host description of the right form."""

    def __init__(self, chance):
        self.chance = chance
        self.memory = self.plan()
        self.values = {name: self.some_bytes((0, 1, 2, 4, 24, 100, 500)) for name in NAMES if chance.random() < 0.6}
        self.secrets, self.cpuid = (self.some_bytes((0, 1, 16, 100, 100, PAGE - 1, PAGE)) for _ in range(2))

    def some_bytes(self, sizes):
        return self.chance.randbytes(self.chance.choice(sizes))

    def plan(self):
        """(start, end) of ranges, of which some touch and the first has room."""
        chance, ranges = self.chance, []
        at, size = chance.choice((0, 0, PAGE, chance.randrange(2 ** 20) * PAGE)), chance.choice((64, 500, 5000)) * PAGE
        for _ in range(chance.choice((1, 1, 2, 3, 6))):
            ranges.append((at, at + size))
            at += size + chance.choice((0, 0, PAGE, 16 * PAGE, LARGE))
            size = chance.choice((1, 2, 8, 512, 1024)) * PAGE
        if chance.random() < 0.1:
            ranges.append((MEMORY_END - 8 * PAGE, MEMORY_END))
        return ranges

    def runs(self):
        """The ranges, those that touch joined."""
        joined = []
        for start, end in self.memory:
            if joined and joined[-1][1] == start:
                start = joined.pop()[0]
            joined.append((start, end))
        return joined

    def address(self, number):
        digits = f"{number:x}"
        return "0x" + self.chance.choice((digits, digits.upper(), digits.rjust(16, "0")))

    def digits(self, content):
        return self.chance.choice((content.hex(), content.hex().upper()))

    def shuffled(self, entry):
        items = list(entry.items())
        self.chance.shuffle(items)
        return dict(items)

    def whole(self):
        value = {"memory": [self.shuffled({"start": self.address(start), "bytes": self.address(end - start)})
                            for start, end in self.memory]}
        if self.values or self.chance.random() < 0.5:
            value["values"] = self.shuffled({name: self.digits(content) for name, content in self.values.items()})
        for key, content in (("secrets", self.secrets), ("cpuid", self.cpuid)):
            if content or self.chance.random() < 0.5:
                value[key] = self.digits(content)
        return self.shuffled(value)

    def text(self):
        return json.dumps(self.whole(), indent=self.chance.choice((None, None, 1))).encode()


class WrongHostMaker(HostMaker):
    """One random host description with one or two parts of another form, or a text that is hardly JSON."""

    def broken_top(self, value):
        way = self.chance.randrange(3)
        if way == 0:
            return {**value, self.chance.choice(("Memory", "vp_count", "", "secret")): ""}
        if way == 1:
            return {key: one for key, one in value.items() if key != "memory"}
        return self.chance.choice(([], None, [value], "memory", 0))

    def broken_range(self, entry):
        way = self.chance.randrange(3)
        if way == 0:
            return self.chance.choice(NO_RANGES)
        if way == 1:
            return {**entry, self.chance.choice(("end", "size", "Start")): "0x1000"}
        return {**entry, self.chance.choice(("start", "bytes")): self.chance.choice((*NO_ADDRESSES, "0x0"))}

    def broken_memory(self, value):
        ranges, chance = value["memory"], self.chance
        item, way = chance.randrange(len(ranges)), chance.randrange(6)
        if way == 0:
            other = chance.choice((None, {}, [], "0x0", 0, ranges[0]))
        elif way == 1:
            other = ranges + [ranges[item]]
        elif way == 2:
            # One more than there may be, and then perhaps a wrong one.
            start = 2 ** 50
            many = [{"start": hex(start + PAGE * at), "bytes": "0x1000"} for at in range(65 - len(ranges))]
            other = ranges + many + chance.choice(([], [None]))
        else:
            other = [*ranges[:item], self.broken_range(ranges[item]), *ranges[item + 1:]]
        return {**value, "memory": other}

    def broken_values(self, value):
        chance, found = self.chance, value.get("values", {})
        if chance.random() < 0.2:
            return {**value, "values": chance.choice((None, [], "00", 0, [found]))}
        wrong = {chance.choice(NAMES): chance.choice(NO_BYTES) for _ in range(chance.choice((0, 1, 2)))}
        if not wrong or chance.random() < 0.3:
            wrong[chance.choice(NO_NAMES)] = chance.choice(("00", "0"))
        if chance.random() < 0.03:
            wrong[chance.choice(NAMES)] = "00" * 1048577
        return {**value, "values": self.shuffled({**found, **wrong})}

    def broken_page(self, key):
        return lambda value: {**value, key: self.chance.choice((*NO_BYTES, "00" * (PAGE + 1)))}

    def whole(self):
        value = super().whole()
        ways = (self.broken_top, self.broken_memory, self.broken_values, self.broken_page("secrets"),
                self.broken_page("cpuid"))
        for way in self.chance.sample(ways, self.chance.choice((1, 1, 2))):
            if isinstance(value, dict) and "memory" in value:
                value = way(value)
        return value

    def text(self):
        chance = self.chance
        if chance.random() < 0.75:
            return super().text()
        text = HostMaker.text(self) if chance.random() < 0.5 else super().text()
        at = chance.randrange(len(text))
        return chance.choice((text[:at], text[:at] + text[at + 1:], text[:at] + chance.choice(NO_JSON) + text[at:]))


class ImageMaker:
    """One random image that fits a host for one of its platforms, but for the headers that `wrong` names."""

    # The headers that fit, and how often each comes
    right = {"area": 2, "param": 4, "insert": 2, "page": 5, "context": 2, "required": 1, "error_range": 1,
             "id_block": 1, "carried": 1, "other_platform": 3}

    def __init__(self, chance, host, kind, wrong=()):
        self.chance, self.host, self.kind, self.wrong = chance, host, kind, wrong
        self.version = chance.choice(tuple(FIXED_SIZES))
        self.front = FIXED_SIZES[self.version]
        self.data = b"".join(chance.choice((chance.randbytes(PAGE), bytes(PAGE))) for _ in range(chance.choice((2, 3))))
        if chance.random() < 0.01:
            self.data += chance.randbytes(LARGE)
        self.areas, self.live, self.values = {}, [], host.values
        self.taken, self.vps, self.mark = set(), [], None
        self.make_platforms()

    def make_platforms(self):
        """One to four of them; `number` is that of the load's, and `bit` its mask."""
        chance, count = self.chance, self.chance.choice((1, 2, 2, 3, 4))
        self.masks = chance.choice(([1, 2, 4, 8][:count], [1 << bit for bit in chance.sample(range(32), count)]))
        self.kinds = [chance.choice((0, 1, 2, 2, 3, 3, 4, 5)) for _ in range(count)]
        self.number = chance.randrange(count)
        self.kinds[self.number], self.bit = self.kind, self.masks[self.number]

    def wanted(self):
        """The word P that means the load's platform."""
        is_first = self.kinds.index(self.kind) == self.number
        return self.chance.choice((WORDS[self.kind], str(self.number))) if is_first else str(self.number)

    def mask(self):
        """A mask that counts for the platform."""
        some = self.chance.choice((0, sum(self.masks), TOP, self.chance.getrandbits(32)))
        return self.bit | some

    def other_mask(self):
        return self.chance.choice((0, sum(self.masks), TOP, self.chance.getrandbits(32))) & ~self.bit

    # Addresses and places

    def is_covered(self, at, size):
        return any(start <= at and at + size <= end for start, end in self.host.runs())

    def spot(self, pages, unit=PAGE):
        """An address for so many pages in the plan, where none was placed, or None; mostly at an edge."""
        size = pages * PAGE
        for _ in range(12):
            start, end = self.chance.choice(self.host.runs())
            first, last = -(-start // unit), (end - size) // unit
            if first <= last:
                at = unit * self.chance.choice((first, last, self.chance.randint(first, last)))
                if self.taken.isdisjoint(range(at, at + size, PAGE)):
                    self.taken.update(range(at, at + size, PAGE))
                    return at
        return None

    def outside(self, pages):
        """An address for so many pages of which some byte isn't in the plan."""
        size = pages * PAGE
        for _ in range(12):
            start, end = self.chance.choice(self.host.runs())
            at = self.chance.choice((start - PAGE, end - size + PAGE, end, 2 ** 64 - size, MEMORY_END, 2 ** 48))
            if 0 <= at and not self.is_covered(at, size):
                return at
        return 2 ** 64 - size

    def offset(self, size):
        """A place in the data, or none."""
        last = len(self.data) - size
        if last < 0 or self.chance.random() < 0.3:
            return 0
        return self.chance.choice((self.front, self.front + last, self.front + self.chance.randint(0, last), 1))

    # Headers that fit; each is a list, and an empty one where there is no room

    def area(self, size=None):
        index = self.chance.choice((len(self.areas), self.chance.getrandbits(32)))
        if index in self.areas:
            return []
        self.areas[index] = size or self.chance.choice((1, 1, 1, 2, 5)) * PAGE
        self.live.append(index)
        return [area(index, self.areas[index], self.offset(self.areas[index]))]

    def with_area(self):
        """The headers up to an area that is not gone, and its index."""
        before = [] if self.live else self.area(PAGE)
        return before, self.chance.choice(self.live)

    def param(self):
        before, index = self.with_area()
        name = self.chance.choice(NAMES)
        last = self.areas[index] - len(self.values.get(name, b""))
        at = self.chance.choice((0, last, self.chance.randint(0, last), self.chance.randint(0, 300)))
        return [*before, param(name, index, at)]

    def insert(self):
        before, index = self.with_area()
        gpa = self.spot(self.areas[index] // PAGE)
        if gpa is None:
            return before
        self.live.remove(index)
        return [*before, insert(gpa, index, self.mask())]

    def page(self):
        is_large = self.chance.random() < 0.03
        gpa = self.spot(512, LARGE) if is_large else self.spot(1)
        if gpa is None:
            return []
        kind = self.chance.choice((0, 0, 0, 1, 2, 3)) if self.kind == SNP and not is_large else 0
        flags = is_large + self.chance.choice((0, 0, 2))
        return [page(gpa, self.offset(LARGE if is_large else PAGE), flags, kind, self.mask())]

    def any_context(self, mask, vp):
        gpa = self.chance.choice((0xFFFFFFFFF000, 0, self.chance.randrange(2 ** 52) * PAGE))
        end = self.front + len(self.data)
        offset = self.chance.choice((self.offset(PAGE), self.offset(PAGE), self.chance.randint(end - PAGE, end + 24)))
        return context(gpa, offset, mask, self.chance.choice((20, 24)), vp)

    def context(self):
        vp = self.chance.choice((len(self.vps), self.chance.randrange(65536)))
        if self.kind not in (SNP, SEV_ES) or vp in self.vps:
            return []
        self.vps.append(vp)
        return [self.any_context(self.mask(), vp)]

    def needed(self, spelled):
        """Some bytes in the plan, also where pages lie, or none at any address."""
        start, end = self.chance.choice(self.host.runs())
        first = self.chance.randint(start, end - 1)
        size = min(self.chance.choice((1, PAGE, self.chance.getrandbits(32), end - first)), end - first, TOP)
        anywhere = self.chance.getrandbits(64)
        gpa, size = self.chance.choice(((first, size), (anywhere, 0), (start, min(end - start, TOP))))
        return [spelled(gpa, size, self.mask())]

    def required(self):
        return self.needed(required)

    def error_range(self):
        return self.needed(error_range)

    def id_block(self):
        """One that states `mark`, which becomes a digest once the image is there."""
        if self.kind != SNP or self.mark is not None or self.chance.random() < 0.5:
            return []
        self.mark = self.chance.randbytes(48)
        return [id_block(self.mark, self.mask())]

    def carried(self):
        return [header(self.chance.choice((0x311, 0x80000001)), self.chance.randbytes(self.chance.choice((0, 5, 16))))]

    def other_platform(self):
        """A header that doesn't count, whatever is wrong with it here."""
        chance, mask = self.chance, self.other_mask()
        gpa = chance.choice((chance.choice([0, *self.taken]), self.outside(1), chance.randrange(2 ** 20) * PAGE))
        made = [page(gpa, 0, 0, chance.choice((0, 1, 2, 3)), mask), required(gpa, chance.getrandbits(32), mask),
                self.any_context(mask, chance.choice([0, *self.vps])), error_range(gpa, 1, mask),
                id_block(bytes(48), mask)]
        if self.areas:
            made.append(insert(chance.choice((0x1000, 2 ** 40)), chance.choice(tuple(self.areas)), mask))
        return [chance.choice(made)]

    # Headers that don't fit, by the texts of their rows

    def wrong_area(self):
        """areas too large"""
        sizes = self.chance.choice(((AREA_MOST, PAGE), (PAGE, AREA_MOST), (AREA_MOST, AREA_MOST)))
        new = [TOP - 300 - 2 * len(self.areas) - k for k in range(2)]
        self.areas.update(zip(new, sizes))
        return [area(index, self.areas[index]) for index in new]

    def wrong_gone(self):
        """area gone"""
        before, gone = self.insert(), [index for index in self.areas if index not in self.live]
        index = self.chance.choice(gone or list(self.areas))
        gpa = self.chance.choice((0, self.outside(1), self.spot(1) or 0))
        return before + [self.chance.choice((param("slit", index, 0), insert(gpa, index, self.mask())))]

    def wrong_value(self):
        """value too long"""
        before, index = self.with_area()
        name = self.chance.choice(NAMES)
        first = self.areas[index] - len(self.values.get(name, b"")) + 1
        return [*before, param(name, index, self.chance.choice((first, first, self.areas[index] + 1, TOP)))]

    def wrong_type(self):
        """type not here"""
        gpa = self.chance.choice((self.spot(1) or 0, self.outside(1)))
        return [page(gpa, 0, self.chance.choice((0, 2)), self.chance.choice((1, 2, 3)), self.mask())]

    def wrong_address(self):
        """outside"""
        before, index = self.with_area()
        size = self.chance.choice((1, PAGE, self.chance.randint(1, TOP)))
        start, end = self.chance.choice(self.host.runs())
        at = self.chance.choice((start - 1, end, end - size + 1, 2 ** 64 - size, 2 ** 64 - 1, self.outside(1)))
        spelled = self.chance.choice((required, error_range))
        return [*before, self.chance.choice((
            page(self.outside(1), self.offset(PAGE), 0, 0, self.mask()), spelled(at % 2 ** 64, size, self.mask()),
            insert(self.outside(self.areas[index] // PAGE), index, self.mask())))]

    def wrong_page(self):
        """repeated"""
        front = [] if self.taken else self.page()
        gpa = self.chance.choice(sorted(self.taken) or [0])
        before, index = self.with_area()
        under = max(0, gpa - self.chance.randrange(self.areas[index] // PAGE) * PAGE)
        return [*front, *before, self.chance.choice((
            page(gpa, self.offset(PAGE), self.chance.choice((0, 2)), 0, self.mask()),
            page(gpa // LARGE * LARGE, 0, 1, 0, self.mask()), insert(under, index, self.mask())))]

    def wrong_context(self):
        """context not here, context repeated"""
        first = [] if self.vps else self.context()
        return first + [self.any_context(self.mask(), self.chance.choice(self.vps or [0]))]

    def wrong_id_block(self):
        """id block not here, id block repeated"""
        blocks = [id_block(self.chance.randbytes(48), self.mask())]
        return blocks if self.kind != SNP or self.mark is not None else blocks * 2

    def wrong_digest(self):
        """bad digest"""
        if self.kind != SNP or self.mark is not None:
            return []
        self.mark = self.chance.randbytes(48)
        return [id_block(self.mark, self.mask())]

    # The image

    def policies(self):
        """Policies, of which mostly one counts, or two where that is to be wrong."""
        count = 2 if "wrong_policy" in self.wrong else self.chance.choice((0, 1, 1))
        made = [policy(self.mask()) for _ in range(count)] + [policy(self.other_mask()) for _ in range(2 - count)]
        self.chance.shuffle(made)
        return made

    def directives(self):
        """Those that fit, and at some places one that doesn't."""
        count = self.chance.choice((0, 3, 8, 16, 30))
        steps = self.chance.choices(tuple(self.right), self.right.values(), k=count)
        for name in self.wrong:
            if name != "wrong_policy":
                steps.insert(self.chance.randint(0, len(steps)), name)
        return [part for name in steps for part in getattr(self, name)()]

    def image(self):
        chance = self.chance
        parts = [platform(mask, kind) for mask, kind in zip(self.masks, self.kinds)]
        parts += self.policies() + self.directives()
        whole = image_of(row(parts, fill=chance.randbytes(1)), gap=self.data, version=self.version)
        if self.mark is not None:
            whole = mended(whole.replace(self.mark, self.stated(whole)))
        return whole + chance.choice((b"", b"", b"", chance.randbytes(50), chance.randbytes(PAGE)))

    def stated(self, whole):
        """The digest that the ID block states: with `--native-zero` or without, or a bit beside it."""
        digest = digests.digest(whole, platforms(whole)[self.number], self.chance.random() < 0.4)
        if "wrong_digest" not in self.wrong:
            return digest
        at = self.chance.randrange(48)
        return digest[:at] + bytes([digest[at] ^ 1 << self.chance.randrange(8)]) + digest[at + 1:]


# What may be wrong of an image, by the platform's kind
WRONG = {SNP: ("policy", "area", "gone", "value", "address", "page", "context", "id_block", "digest"),
         **dict.fromkeys((TDX, SEV, SEV_ES), (
             "policy", "area", "gone", "value", "address", "page", "context", "id_block", "type"))}


def words_of(kinds):
    """The words P that mean one of these kinds."""
    return [WORDS[kind] for kind in dict.fromkeys(kinds)]


def fitting(chance, kinds=LAUNCHED):
    """A host, and an image that fits it."""
    host = HostMaker(chance)
    made = ImageMaker(chance, host, chance.choice(kinds))
    return Pair(made.image(), host.text(), made.wanted())


def misfitting(chance, kinds=LAUNCHED):
    """A host, and an image of which one or two headers don't fit it."""
    host, kind = HostMaker(chance), chance.choice(kinds)
    wrong = chance.sample(WRONG[kind], chance.choice((1, 1, 2)))
    made = ImageMaker(chance, host, kind, [f"wrong_{name}" for name in wrong])
    return Pair(made.image(), host.text(), made.wanted())


def wrong_host(chance, kinds=LAUNCHED):
    """A host description that is refused, mostly, and an image that fits it or not."""
    host, kind = WrongHostMaker(chance), chance.choice(kinds)
    made = ImageMaker(chance, host, kind, chance.choice(((), (), ("wrong_address",))))
    return Pair(made.image(), host.text(), made.wanted())


def wrong_platform(chance, kinds=LAUNCHED):
    """Any word P, for a host that may be refused."""
    host = chance.choice((HostMaker, WrongHostMaker))(chance)
    made = ImageMaker(chance, host, chance.choice(kinds))
    return Pair(made.image(), host.text(), chance.choice((*words_of(kinds), *map(str, range(6)), "4294967295")))


def wrong_file(chance, kinds=LAUNCHED):
    """An image that is cut or has another byte, or a random one, for a host that may be refused."""
    host = chance.choice((HostMaker, WrongHostMaker))(chance)
    made = ImageMaker(chance, host, chance.choice(kinds))
    image = made.image()
    at = chance.randrange(chance.choice((32, len(image))))
    other = chance.choice((image[:at], image[:at] + chance.randbytes(1) + image[at + 1:], Maker(chance, 0.1).image()))
    return Pair(other, host.text(), made.wanted())


def any_image(chance, kinds=LAUNCHED):
    """An image that knows nothing of its host, of one platform with a few headers or of all kinds of headers."""
    host = HostMaker(chance)
    host.memory = chance.choice((host.memory, [(0, MEMORY_END)]))
    makers = (SevMaker, WholeSevMaker) if SEV in kinds else (Maker, WholeMaker)
    made = chance.choice((makers[0](chance, 0), makers[1](chance)))
    return Pair(made.image(), host.text(), chance.choice((*words_of(kinds), "0")))


def crowded(chance, kinds=LAUNCHED):
    """Large pages of zeros up to the limit, and one header more that places pages."""
    host, kind = HostMaker(chance), chance.choice(kinds)
    host.memory = [(0, chance.choice((2 ** 32, MEMORY_END)))]
    rest = chance.choice((1024, 1024 - AREA_MOST // LARGE, 1024 - AREA_MOST // LARGE))
    parts = [page(LARGE * at, flags=1 + chance.choice((0, 2))) for at in range(rest)]
    for _ in range(3):
        parts.insert(chance.randint(0, rest), page(0, flags=chance.choice((0, 1)), mask=2))
    big, more = LARGE * rest, page(2 ** 31 + LARGE, flags=chance.choice((0, 1)))
    if rest == 1024:
        parts += chance.choice(([area(0), insert(2 ** 31, 0)], [page(2 ** 31)], [more]))
    else:
        parts = [area(0, AREA_MOST), *parts, *chance.choice(([insert(big, 0), more], [more, insert(big, 0)]))]
    image = image_of(row([platform(1, kind), *parts]), version=chance.choice(tuple(FIXED_SIZES)))
    return Pair(image, host.text(), chance.choice(("0", WORDS[kind])))
