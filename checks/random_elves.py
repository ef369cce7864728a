"""Random ELF files, the same for each seed: sound ones, and ones that break a rule of docs/ELF.md, or two.

A sound file has segments in any order, that touch, share pages or lie apart, over bytes of all kinds; among headers
that are passed over, and with any numbers in the fields that nothing looks at.
"""
import struct

from elf_cases import elf
from elves import ADDRESS, ADDRESS_LIMIT, IN_FILE, IN_MEMORY, OFFSET, PAGE_LIMIT, SEGMENT_LIMIT, TEXTS
from records import PAGE

SPACE = 1 << 64
OTHER_KINDS = (0, 2, 3, 4, 6, 7, 0x101, 0x10001, 0x1000000, 0x6474E551, 0x70000001, 0xFFFFFFFF)
OTHER_MACHINES = (0, 3, 40, 61, 63, 183, 243, 62 << 8, 62 + 256)
OTHER_ENTRIES = (0, 1, 32, 55, 57, 64, 56 << 8, 56 + 256, 65535)
GAPS = (0, 0, 0, 1, 7, 100, PAGE - 1, PAGE, PAGE + 1, 3 * PAGE, 1 << 20, 1 << 30)
SIZES = (0, 0, 1, 4, 100, 255, PAGE - 1, PAGE, PAGE + 1, 3 * PAGE)
FURTHER = (0, 0, 0, 1, 9, PAGE - 1, PAGE, 5 * PAGE)     # bytes in memory that aren't in the file
APART = 1 << 50                     # an address that no other segment comes near to
PROGRAM_HEADER = struct.Struct("<IIQQQQQQ")


class Segment:
    """A loadable segment. Its bytes are counted from the content's first one, or end so far past the file's end."""

    def __init__(self, address, in_file, in_memory):
        self.address, self.in_file, self.in_memory = address, in_file, in_memory
        self.at, self.past = 0, None

    @property
    def end(self):
        return self.address + self.in_memory


class ElfMaker:
    """One random file, which is sound until a method that is named as a fault breaks its rule."""

    def __init__(self, chance, count=None):
        self.chance, self.front = chance, bytearray(b"\x7fELF\x02\x01") + chance.randbytes(10)
        self.machine, self.entry, self.length = 62, 56, None
        self.more, self.table_past = 0, None            # headers that aren't there, and bytes of them past the end
        self.segments = self.some_segments(count or chance.choice((1, 1, 2, 3, 5, 8)))
        self.others = [self.passed_over() for _ in range(chance.choice((0, 0, 1, 3)))]
        most = max(segment.in_file for segment in self.segments)
        self.content = self.some_content(most + chance.choice((0, 1, 50, PAGE)))
        for segment in self.segments:
            segment.at = chance.randrange(len(self.content) - segment.in_file + 1)
        self.is_first, self.gap = chance.random() < 0.6, chance.choice((0, 0, 0, 1, 8, 100))    # the table, and a gap

    def some_segments(self, count):
        """Segments apart from one another, from address 0 on, from any other on, or up to the last one."""
        chance, at, found = self.chance, 0, []
        for _ in range(count):
            at += chance.choice(GAPS)
            in_file = chance.choice((*SIZES, chance.randrange(2 * PAGE)))
            found.append(Segment(at, in_file, in_file + chance.choice(FURTHER) or 1))
            at = found[-1].end
        first = chance.choice((0, 0, 0x100000, 0xFFE, chance.randrange(1 << 48), ADDRESS_LIMIT - at))
        for segment in found:
            segment.address += first
        chance.shuffle(found)
        return found

    def passed_over(self):
        """A header of another kind or without memory, whose other fields mean nothing."""
        chance = self.chance
        fields = [chance.choice((0, 1, 64, PAGE, SPACE - 1, chance.getrandbits(64))) for _ in range(6)]
        if chance.random() < 0.5:
            return PROGRAM_HEADER.pack(1, chance.getrandbits(32), *fields[:4], 0, fields[5])
        return PROGRAM_HEADER.pack(chance.choice(OTHER_KINDS), chance.getrandbits(32), *fields)

    def some_content(self, size):
        """Bytes of any value, zeros, those of a file that lists name, or zeros with few others between."""
        chance = self.chance
        few = bytearray(size)
        for _ in range(min(size, 3)):
            few[chance.randrange(size)] = chance.randrange(256)
        return chance.choice((chance.randbytes(size), chance.randbytes(size), bytes(size), b"\xAA" * size, bytes(few)))

    # Faults

    def too_short(self):
        self.length = self.chance.choice((0, 4, 63, self.chance.randrange(64)))

    def magic(self):
        self.front[self.chance.randrange(4)] ^= self.chance.randrange(1, 256)

    def other_class(self):
        self.front[self.chance.choice((4, 5))] = self.chance.choice((0, 3, 255))
        if self.chance.random() < 0.3:
            self.front[4:6] = self.chance.choice((b"\1\1", b"\2\2", b"\1\2"))

    def other_machine(self):
        self.machine = self.chance.choice(OTHER_MACHINES)

    def table(self):
        way = self.chance.randrange(3)
        if way == 0:
            self.entry = self.chance.choice(OTHER_ENTRIES)
        elif way == 1:
            self.table_past = self.chance.choice((1, 1, 55, 56, 1 << 32, 1 << 63, SPACE, SPACE))
        else:
            self.is_first, self.more = False, self.chance.choice((1, 2, 1000, 65400))

    def too_many(self):
        """65 segments or more, of which the last ones often break another rule."""
        count = SEGMENT_LIMIT + self.chance.choice((0, 0, 0, 5)) - len(self.segments)
        self.segments += [Segment(APART + 3 * at, 0, 1) for at in range(count)]
        self.segments.append(self.chance.choice((Segment(0, 2, 1), Segment(ADDRESS_LIMIT, 0, 1), Segment(0, 0, 1))))

    def sizes(self):
        found = self.chance.choice(self.segments)
        found.in_file = max(found.in_file, 2)
        found.in_memory = self.chance.choice((1, found.in_file - 1))

    def outside(self):
        found = self.chance.choice(self.segments)
        found.in_file = max(found.in_file, 1)
        found.in_memory = max(found.in_memory, found.in_file)
        found.past = self.chance.choice((1, 1, 2, PAGE, 1 << 32, 1 << 63, SPACE, SPACE))

    def wrap(self):
        found = self.chance.choice(self.segments)
        first = ADDRESS_LIMIT - found.in_memory
        found.address = self.chance.choice((first + 1, first + PAGE, ADDRESS_LIMIT, 1 << 63, SPACE - found.in_memory,
                                            SPACE - 1))

    def overlap(self):
        """A segment more, with a byte of another one or several."""
        found, in_memory = self.chance.choice(self.segments), self.chance.choice((1, 1, 2, PAGE, 1 << 40))
        first = self.chance.choice((found.address - in_memory + 1, found.end - 1, found.address))
        self.segments.insert(self.chance.randrange(len(self.segments) + 1), Segment(max(first, 0), 0, in_memory))

    def empty(self):
        self.segments = []

    def too_large(self):
        """Segments more, that are too large together with the others, or one of them alone."""
        whole = PAGE * PAGE_LIMIT
        sizes = self.chance.choice(((whole + 1,), (1 << 51,), (whole,), (whole // 2, whole // 2), (whole - 1, 1)))
        at = APART + self.chance.choice((0, 0, 1))
        for size in sizes:
            self.segments.append(Segment(at, 0, size))
            at += size

    # The bytes

    def header(self, segment, content_at, length):
        any_number, at = self.chance.getrandbits, content_at + segment.at
        if segment.past is not None:
            at = min(length - segment.in_file + segment.past, SPACE - 1)
        elif segment.in_file == 0:
            at = self.chance.choice((0, at, SPACE - 1, any_number(64)))
        return PROGRAM_HEADER.pack(1, any_number(32), at, any_number(64), segment.address, segment.in_file,
                                   segment.in_memory, any_number(64))

    def file(self):
        """File header, content, and the program headers before it or behind it."""
        chance, any_number = self.chance, self.chance.getrandbits
        table = PROGRAM_HEADER.size * (len(self.segments) + len(self.others))
        length = 64 + self.gap + table + len(self.content)
        content_at = length - len(self.content) if self.is_first else 64
        headers = [self.header(segment, content_at, length) for segment in self.segments]
        for other in self.others:
            headers.insert(chance.randrange(len(headers) + 1), other)
        start = 64 + self.gap if self.is_first else length - table
        if self.table_past is not None:
            start = min(length - table + self.table_past, SPACE - 1)
        front = self.front + struct.pack("<HHIQQQIHHH6x", any_number(16), self.machine, any_number(32), any_number(64),
                                         start, any_number(64), any_number(32), any_number(16), self.entry,
                                         min(len(headers) + self.more, 65535))
        parts = [bytes(self.gap), b"".join(headers), self.content]
        return bytes(front + b"".join(parts if self.is_first else parts[2:] + parts[:2]))[:self.length]


BREAKING = dict(zip(TEXTS, (
    ElfMaker.too_short, ElfMaker.magic, ElfMaker.other_class, ElfMaker.other_machine, ElfMaker.table, ElfMaker.too_many,
    ElfMaker.sizes, ElfMaker.outside, ElfMaker.wrap, ElfMaker.overlap, ElfMaker.empty, ElfMaker.too_large)))


def sound(chance):
    return ElfMaker(chance).file()


def many_segments(chance):
    """As many segments as there may be, or some less."""
    return ElfMaker(chance, SEGMENT_LIMIT - chance.choice((0, 0, 1, 20))).file()


def many_pages(chance):
    """As many pages as there may be, of which few are filled."""
    maker = ElfMaker(chance, 1)
    first = maker.segments[0]
    first.address = 0
    others = PAGE_LIMIT - (first.end + PAGE - 1) // PAGE
    maker.segments.append(Segment(APART, 0, PAGE * others - chance.choice((0, 1, PAGE - 1))))
    return maker.file()


def broken_by(*faults):
    """A maker of files that break these rules."""
    def make(chance):
        maker = ElfMaker(chance)
        for fault in faults:
            BREAKING[fault](maker)
        return maker.file()
    return make


def broken_twice(chance):
    first, second = chance.sample([*TEXTS], 2)
    # What breaks a segment's rule needs a segment.
    return broken_by(*((first, second) if second == "Empty" else (second, first)))(chance)


# Small files, some of their bytes others

def small(chance):
    """A file of some loadable segments, most of them sound."""
    headers = []
    for _ in range(chance.randrange(1, 6)):
        address = chance.randrange(0x3000) << chance.choice((0, 0, 0, 0, 38))
        in_file = chance.randrange(300)
        in_memory = in_file + chance.choice((0, 0, 9, 5000))
        headers.append((chance.choice((1, 1, 1, 6)), chance.randrange(64, 700), address, in_file, in_memory))
    file = elf(headers, start=chance.choice((64, 65, 72)), size=0)
    return bytearray(file + chance.randbytes(1024 - len(file)))


def broken(chance):
    """Such a file, of which a few bytes that are read may be others, or the end may be gone."""
    file = small(chance)
    heads = [0, 3, 4, 5, 18, 19, 32, 33, 39, 54, 55, 56, 57]
    fields = [64 + 56 * k + at + byte for k in range(3) for at in (0, OFFSET, ADDRESS, IN_FILE, IN_MEMORY)
              for byte in (0, 1, 4, 6, 7)]
    for _ in range(chance.choice((0, 0, 1, 1, 2, 4))):
        file[chance.choice(heads + fields)] = chance.choice((0, 1, 2, 16, 64, 255))
    return bytes(file[:chance.choice((1024,) * 9 + (700, 200, 63))])
