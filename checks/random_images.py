"""Random images, the same for each seed; half of them are of version 2."""
import struct

from images import header, image_of, mended
from records import FIXED_SIZES, LARGE, PAGE, PARAMETERS

TOP = 2 ** 32 - 1
AREA_MOST = 67108864
PARAMS = tuple(PARAMETERS)
CARRIED = (0x80000000, 0x80000399, TOP)
UNKNOWN = (0, 2, 0x100, 0x104, 0x300, 0x306, 0x314, 0x10000001, 0x7FFFFFFF)
INITIAL = (0x101, 0x102, 0x103)
DIRECTIVES = (0x301, 0x301, 0x302, 0x302, 0x302, 0x303, 0x303, 0x304, 0x304, 0x305, 0x30B, 0x30D, 0x311,
              *PARAMS[::3])


class Maker:
    """One random image: mostly of fitting values, each of which is at the edge or wrong now and then."""

    large_pages = 0.03              # the share of pages that are large

    def __init__(self, chance, wrong=None):
        self.chance = chance
        # how often a value is a wrong one
        self.wrong = chance.choice((0, 0.01, 0.03, 0.1)) if wrong is None else wrong
        self.version = chance.choice(tuple(FIXED_SIZES))
        self.areas, self.masks, self.total = [], [], 0
        self.makers = {0x001: self.platform, 0x101: self.policy, 0x301: self.area, 0x302: self.page,
                       0x303: self.insert, 0x304: self.context, 0x305: lambda: chance.randbytes(24),
                       0x30B: lambda: chance.randbytes(696), 0x30D: lambda: chance.randbytes(16),
                       **{kind: self.param for kind in PARAMS}}

    def goes_wrong(self, part=1.0):
        return self.chance.random() < self.wrong * part

    def pick(self, right, wrong):
        """One of the right values, and now and then one of the wrong ones."""
        return self.chance.choice(wrong if self.goes_wrong() else right)

    def mask(self):
        return self.chance.choice((1, 1, 1, 2, 3, 4, 0x80000000, 0, TOP, self.chance.getrandbits(32)))

    def gpa(self, unit=PAGE):
        some = self.chance.randrange(2 ** 20) * unit
        return self.pick((some, some, some, 0, 2 ** 64 - unit), (some + 1, some + unit // 2, 2 ** 64 - 1, 0x800))

    def index(self):
        return self.pick(self.areas or [0], (0, 9, TOP))

    def offset(self, size):
        """Mostly a place with room for this many bytes, where the image is that long."""
        last = self.total - size
        right = (0, last, self.chance.randint(1, last), 1, 24, 32) if last > 32 else (0,)
        wrong = (last + 1 & TOP, self.total, self.total - 1, self.total + 1, 1, TOP, TOP - 4095)
        return self.pick(right, wrong)

    def platform(self):
        free = [1 << bit for bit in range(32) if 1 << bit not in self.masks] or [1]
        mask = self.pick((free[0], free[0], self.chance.choice(free)), (0, 3, TOP, 1, 0x80000001))
        self.masks.append(mask)
        vtl, version = self.chance.randrange(256), self.chance.choice((1, 1, 0, 0xFFFF))
        return struct.pack("<IBBHQ", mask, vtl, self.platform_kind(), version, self.chance.getrandbits(64))

    def platform_kind(self):
        return self.pick((2, 2, 2, 3, 3, 0, 1, 4, 5), (6, 255))

    def policy(self):
        return struct.pack("<QII", self.chance.getrandbits(64), self.mask(), self.chance.getrandbits(32))

    def area(self):
        wrong = (0, 1, PAGE - 1, PAGE + 1, AREA_MOST, AREA_MOST + PAGE, 2 ** 63, 2 ** 64 - PAGE)
        size = self.pick((PAGE, PAGE, 2 * PAGE, 5 * PAGE), wrong)
        index = self.pick((len(self.areas), self.chance.getrandbits(32)), self.areas or (0, TOP))
        self.areas.append(index)
        return struct.pack("<QII", size, index, self.offset(size))

    def page(self):
        large = self.chance.random() < self.large_pages
        size = LARGE if large else PAGE
        flags = self.pick((large + 0, large + 0, large + 2), (4, 1, 5, 0x80000000, 0xC0, TOP))
        data_type = self.pick((0,) if large else (0, 0, 0, 0, 1, 2, 3), (4, 5, 256, 0xFFFF, 1))
        rest = self.chance.getrandbits(16)
        return struct.pack("<QIIIHH", self.gpa(size), self.mask(), self.offset(size), flags, data_type, rest)

    def insert(self):
        return struct.pack("<QII", self.gpa(), self.mask(), self.index())

    def context(self):
        inside = self.chance.randint(0, self.total)
        offset = self.pick((self.offset(PAGE), inside, self.total), (self.total + 1, TOP))
        rest = self.chance.randbytes(self.chance.choice((4, 8)))
        return struct.pack("<QII", self.gpa(), self.mask(), offset) + rest

    def param(self):
        return struct.pack("<II", self.index(), self.chance.getrandbits(32))

    def carried(self):
        return self.chance.randbytes(self.chance.choice((0, 1, 7, 8, 9, 30)))

    def kinds(self):
        """The types of the headers, mostly in an order that fits."""
        chance = self.chance
        kinds = [0x001] * self.pick((1, 1, 2, 3), (0, 33))
        kinds += chance.choices(INITIAL, k=chance.choice((0, 0, 1, 2)))
        kinds += chance.choices(DIRECTIVES, k=chance.choice((0, 2, 4, 6, 9, 14)))
        for at in range(len(kinds)):
            if chance.random() < 0.04:
                kinds[at] = chance.choice(CARRIED)
            if self.goes_wrong(0.25):
                kinds[at] = chance.choice(UNKNOWN)
        if self.goes_wrong(2):
            chance.shuffle(kinds)
        return kinds

    def part(self, kind):
        """A header without its padding."""
        if (kind == 0x303 or kind in PARAMS) and not self.areas and not self.goes_wrong():
            kind = 0x301
        content, length = self.makers.get(kind, self.carried)(), None
        if self.goes_wrong(0.3):
            size = len(content) + self.chance.choice((-8, -4, -1, 1, 4, 8))
            content = content.ljust(max(0, size), b"\1")[:max(0, size)]
        if self.goes_wrong(0.1):
            length = self.chance.choice((0, len(content) + 1, len(content) + 64, TOP, TOP - 7, 0x80000000))
        return header(kind, content, length)

    def section(self, kinds):
        """The headers, each padded with anything; the last one's padding may be missing."""
        parts = [self.part(kind) for kind in kinds]
        padded = [part + self.chance.randbytes(-len(part) % 8) for part in parts]
        missing = self.chance.randint(0, len(padded[-1]) - len(parts[-1])) if parts else 0
        whole = b"".join(padded)
        return whole[:len(whole) - missing] + self.chance.randbytes(self.pick((0,), (1, 4, 7, 8, 12)))

    def data(self, size):
        """Mostly any bytes, else zeros."""
        return bytes(size) if self.chance.random() < 0.2 else self.chance.randbytes(size)

    def machine(self):
        """The architecture and the page size of version 2."""
        return self.pick((0,), (1, 2, TOP)), self.pick((PAGE,), (0, PAGE + 1, 65536))

    def image(self):
        chance, kinds = self.chance, self.kinds()
        gap = bytes(chance.choice((0, 0, 0, 3, 8, 17)))
        # File offsets are chosen before the section's length is known, so the total comes first, with room.
        room = chance.choice((0, 100, PAGE, 9000)) + (LARGE if chance.random() < 0.005 else 0)
        front = FIXED_SIZES[self.version]
        self.total = front + len(gap) + sum(736 if kind == 0x30B else 48 for kind in kinds) + room
        section = self.section(kinds)
        data = self.data(max(0, self.total - front - len(gap) - len(section)))
        whole, size = front + len(gap) + len(section) + len(data), len(section)
        total = self.pick((whole,), (whole - 1, whole + 1, front - 1, 0, TOP, whole // 2, front, 24))
        size = self.pick((size,), (max(0, size - 1), size + 1, size + len(data), size + len(data) + 1, 0, TOP))
        image = image_of(section, data, gap, size, total, self.version, self.machine())
        image += chance.randbytes(chance.choice((0, 0, 0, 0, 1, 50)))
        return self.spoilt(image, front + len(section))

    def spoilt(self, image, end):
        """Now and then one byte of the fixed header or the section is changed, or the section begins elsewhere."""
        if self.goes_wrong(0.3):
            place = self.chance.randrange(end)
            image = image[:place] + self.chance.randbytes(1) + image[place + 1:]
        if self.goes_wrong(0.3):
            offset = self.chance.choice((0, 23, 24, 25, 31, 32, 33, TOP))
            image = mended(image[:8] + struct.pack("<I", offset) + image[12:])
        return image


class WholeMaker(Maker):
    """One random image that breaks no rule: every kind of header, under platforms of any kind."""

    large_pages = 0.15

    def __init__(self, chance):
        super().__init__(chance, wrong=0)

    def platform_kind(self):
        return self.chance.choice((0, 1, 2, 2, 3, 3, 4, 5))

    def mask(self):
        """Mostly that of some of the image's platforms."""
        some = sum(mask for mask in self.masks if self.chance.random() < 0.6)
        return self.chance.choice((some, some, some, some, TOP, 0, self.chance.getrandbits(32)))

    def insert(self):
        """No area reaches past the last address."""
        gpa = self.chance.choice((self.chance.randrange(2 ** 40), 2 ** 52 - 8)) * PAGE
        return struct.pack("<QII", gpa, self.mask(), self.index())

    def kinds(self):
        chance = self.chance
        directives = [0x301, *[0x302] * 6, *[0x303] * 2, *[0x304] * 2, 0x305, 0x30B, 0x30D, 0x311, *PARAMS]
        chance.shuffle(directives)
        kinds = [0x001] * chance.choice((1, 2, 3, 4, 6)) + chance.sample(INITIAL, 3) + [0x301] * 2 + directives
        for kind in CARRIED:
            kinds.insert(chance.randint(0, len(kinds)), kind)
        return kinds


class SevMaker(Maker):
    """One random image, most of whose platforms are SEV or SEV-ES."""

    def platform_kind(self):
        return self.pick((4, 4, 4, 5, 5, 5, 0, 1, 2, 3), (6, 255))


class WholeSevMaker(WholeMaker):
    """One that breaks no rule."""

    def platform_kind(self):
        return self.chance.choice((4, 4, 5, 5, 5, 0, 1, 2, 3))
