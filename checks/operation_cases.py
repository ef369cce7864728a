"""Jobs of `strip`, `join` and `seal` whose answers are known: what is made is spelled header by header.

And jobs whose steps fail one behind the other, with every file, every P and every OUT.
"""
import struct
from functools import partial
from itertools import product

from cases import SMALLEST
from digests import SEV, SNP, TDX
from images import (area, context, error_range, header, id_block, image_of, insert, page, param, platform, policy,
                    required, row, spelled)
from jobs import FOLDER, NEW, NO_FILES, OLD, OUT, OUTS, Job, ended, size_line, told
from list_cases import HUGE
from listing import PLATFORM_KINDS
from load_cases import NO_PAGES, ONE_PAGE, ONE_ZERO
from random_lists import AREA_MOST, TOP
from records import FIXED_SIZES, LARGE, PAGE

FIRST, SECOND = (f"{FOLDER}/{name}" for name in ("first", "second"))
NATIVE = 0                                                  # a platform type
IS_LARGE, IS_UNMEASURED = 1, 2                              # a page's flags
X, Y, Z = (bytes([one]) * PAGE for one in (0xA1, 0xB2, 0xC3))
ZEROS, NO_BYTES = bytes(PAGE), "/dev/null"
OTHER = "11" * 48                                           # a digest that no image here has
OPTION = "--native-zero"
WORDS_OF_P = ("snp", "tdx", "0", "1", "31", "32", "4294967295")

short = partial(context, length=20)                         # as the builder writes it


def at(k, make, *given, **others):
    """A header that is made at the place of the content of this number."""
    return (lambda place: make(*given, offset=place, **others)), k


def carried(content, kind=0x80000001):
    return header(kind, content)


# Jobs: the answer is None where the image is made

def strip(file, wanted, answer, image=None, out=OUT):
    return job(["strip", FIRST, out, "--platform", wanted], {FIRST: file}, answer, image, out)


def join(first, second, answer, image=None, out=OUT):
    return job(["join", FIRST, SECOND, out], {FIRST: first, SECOND: second}, answer, image, out)


def seal(file, wanted, answer, image=None, *option, out=OUT):
    return job(["seal", FIRST, out, "--platform", wanted, *option], {FIRST: file}, answer, image, out)


def job(words, files, answer, image, out):
    files = {OUT: OLD, **files}
    if answer is not None:
        return Job(words, files, answer, None, None)
    return Job(words, files, size_line(image), out, image)


# Strip

def guest(version):
    """An image with headers of every kind for four platforms; its data lie before the section, and bytes behind it."""
    start = FIXED_SIZES[version]
    x, y, x_again, zeros = (start + PAGE * k for k in range(4))
    parts = [
        carried(b"before"), platform(8, NATIVE), platform(1, TDX), carried(b"between", TOP), platform(0x40, SNP),
        platform(2, SNP), with_reserved(policy(0x42), -4), header(0x102, b"region"), carried(b"among"),
        header(0x103, b""), policy(9), area(9, 2 * PAGE, y), area(TOP, PAGE), param("srat", TOP, 7),
        with_reserved(page(0x1000, x, mask=TOP), -2), page(0x2000, y, mask=8),
        page(0x3000, x_again, IS_UNMEASURED, mask=0x4B), page(0x4000, zeros, 0, 1, mask=0x42), page(0x5000, mask=1),
        page(0x6000, x, mask=0xFFFFFFB4), insert(0x7000, 9, mask=9), insert(0x9000, TOP, mask=2),
        with_reserved(context(0xA000, y, mask=0x40), -6), context(0xB000, mask=3, vp=5),
        with_reserved(required(0xC000, 77, mask=0xA), -4), error_range(0xD000, 78, mask=0x41), header(0x311, b"vbs"),
        with_reserved(id_block(bytes([1] * 48), mask=0x41), 13, 16), page(LARGE, 0, IS_LARGE, mask=TOP)]
    return image_of(row(parts, fill=b"\xEE"), gap=X + Y + X + ZEROS, version=version) + b"behind"


def with_reserved(part, first, last=None):
    """The header with other bytes from one place up to another, where bytes are reserved."""
    end = len(part) if last is None else last
    start = first % len(part)
    return part[:start] + b"\xEE" * (end - start) + part[end:]


def guest_stripped():
    """What is left of it for each platform: its headers, and the contents that they have."""
    front, region, among, last = carried(b"before"), header(0x102, b"region"), carried(b"among"), header(0x103, b"")
    between, vbs = carried(b"between", TOP), header(0x311, b"vbs")
    regions = [region, among, last]
    areas = [at(0, area, 9, 2 * PAGE), area(TOP), param("srat", TOP, 7)]
    unmeasured, large = partial(page, 0x3000, flags=IS_UNMEASURED), partial(page, LARGE, 0, IS_LARGE)
    block = partial(id_block, bytes([1] * 48))
    yield ([front, platform(8, NATIVE), between, *regions, policy(8), *areas, at(1, page, 0x1000, mask=8),
            at(2, page, 0x2000, mask=8), at(1, unmeasured, mask=8), insert(0x7000, 9, mask=8),
            required(0xC000, 77, mask=8), vbs, large(mask=8)], [Y + X, X, Y])
    yield ([front, platform(1, TDX), between, *regions, policy(1), *areas, at(1, page, 0x1000, mask=1),
            at(1, unmeasured, mask=1), page(0x5000, mask=1), insert(0x7000, 9, mask=1), short(0xB000, mask=1, vp=5),
            error_range(0xD000, 78, mask=1), vbs, block(mask=1), large(mask=1)], [Y + X, X])
    yield ([front, between, platform(0x40, SNP), policy(0x40), *regions, *areas, at(1, page, 0x1000, mask=0x40),
            at(1, unmeasured, mask=0x40), at(2, page, 0x4000, kind=1, mask=0x40), at(3, short, 0xA000, mask=0x40),
            error_range(0xD000, 78, mask=0x40), vbs, block(mask=0x40), large(mask=0x40)], [Y + X, X, ZEROS, Y])
    yield ([front, between, platform(2, SNP), policy(2), *regions, *areas, at(1, page, 0x1000, mask=2),
            at(1, unmeasured, mask=2), at(2, page, 0x4000, kind=1, mask=2), insert(0x9000, TOP, mask=2),
            short(0xB000, mask=2, vp=5), required(0xC000, 77, mask=2), vbs, large(mask=2)], [Y + X, X, ZEROS])


def strips():
    for version in FIXED_SIZES:
        smallest = SMALLEST[version]
        for wanted in ("snp", "0"):
            yield strip(smallest, wanted, None, smallest)
            yield strip(smallest + b"behind", wanted, None, smallest, out=FIRST)
        yield strip(image_of(row([platform()]), gap=b"gap", version=version), "0", None, smallest, out=NEW)
        left = list(guest_stripped())
        for wanted, number in (("tdx", 1), ("snp", 2), *((str(number), number) for number in range(4))):
            yield strip(guest(version), wanted, None, spelled(*left[number], version))
        for wanted in ("4", "4294967295"):
            yield strip(guest(version), wanted, ended(6, f"no platform {wanted}"))
        many = [platform(1 << bit, kind=bit % 6) for bit in range(31, -1, -1)]
        whole = spelled([*many, page(0, mask=0x55555555), page(0x1000, mask=0xAAAAAAAA)], version=version)
        for number, kept in ((0, page(0x1000, mask=1 << 31)), (5, page(0, mask=1 << 26)), (30, page(0x1000, mask=2)),
                             (31, page(0, mask=1))):
            yield strip(whole, str(number), None, spelled([many[number], kept], version=version))
        yield from strips_of_places(version)


def strips_of_places(version):
    """Data that overlap, and those that end behind the image."""
    start = FIXED_SIZES[version]
    parts = [platform(), page(0, start), page(0x1000, start + 1), page(0x2000, start + PAGE), page(0x3000, start)]
    yield strip(image_of(row(parts), gap=X + Y, version=version), "0", None, spelled(
        [platform(), at(0, page, 0), at(1, page, 0x1000), at(2, page, 0x2000), at(0, page, 0x3000)],
        [X, X[1:] + Y[:1], Y], version))
    # The image itself as data: the section's end, and zeros behind it; a context may begin where the image ends.
    end = start + len(row([platform(), short(0), short(0)]))
    section = row([platform(), short(0, end - 32), short(0x1000, end)])
    yield strip(image_of(section, version=version) + b"behind", "0", None, spelled(
        [platform(), at(0, short, 0), at(1, short, 0x1000)], [section[-32:].ljust(PAGE, b"\0"), ZEROS], version))


# Join: each maker gives (headers and contents) of the first image, of the second and of what comes out

def joins():
    for version in FIXED_SIZES:
        smallest = SMALLEST[version]
        yield join(smallest, smallest, None, spelled([platform(1), platform(2)], version=version))
        for other in FIXED_SIZES:
            one = spelled([platform(), page(0x1000)], version=other)
            front = [platform(1), platform(2)]
            yield join(smallest, one, None, spelled([*front, page(0x1000, mask=2)], version=version))
            yield join(one, smallest, None, spelled([*front, page(0x1000)], version=other), out=SECOND)
            for make in (joined_masks, joined_areas, joined_order, joined_regions, joined_contents):
                first, second, made = make()
                yield join(spelled(*first, version=version), spelled(*second, version=other), None,
                           spelled(*made, version=version), out=FIRST)
        yield join_of_one(version)
        yield from joins_at_limits(partial(spelled, version=version))


def joined_masks():
    """Bits that no platform has are dropped, those of the second platforms are new."""
    yield [[platform(2), platform(0x80000000, TDX), policy(TOP), page(0, mask=1), page(0x1000, mask=5),
            page(0x2000, mask=0x80000001), id_block(mask=0x7FFFFFFF)]]
    yield [[platform(8), platform(1, TDX), platform(2, SEV), policy(9), policy(4), area(0), page(0, mask=TOP),
            page(0x1000, mask=0xFFFFFFF8), insert(0x2000, 0, mask=3), short(0, mask=2),
            required(0, 1, mask=0x80000008), error_range(0, 1, mask=0), id_block(mask=6)]]
    yield [[platform(2), platform(0x80000000, TDX), platform(1), platform(4, TDX), platform(8, SEV),
            policy(0x80000002), policy(5), policy(0), page(0, mask=0), page(0x1000, mask=0),
            page(0x2000, mask=0x80000000), id_block(mask=2),
            area(0), page(0, mask=0xD), page(0x1000, mask=1), insert(0x2000, 0, mask=0xC), short(0, mask=8),
            required(0, 1, mask=1), error_range(0, 1, mask=0), id_block(mask=8)]]


def joined_areas():
    """The second areas take the indices that are free, from the least on, whether theirs clash or not."""
    yield [[platform(), area(0), area(5), area(2), area(TOP), param("madt", 5, 1), insert(0, 5)]]
    yield [[platform(), area(5), area(0, 2 * PAGE), param("srat", 0, 2), area(7), area(TOP - 1), param("slit", 7, 3),
            insert(0x1000, 5), insert(0x2000, TOP - 1), param("srat", TOP - 1, 4)]]
    yield [[platform(1), platform(2), area(0), area(5), area(2), area(TOP), param("madt", 5, 1), insert(0, 5),
            area(1), area(3, 2 * PAGE), param("srat", 3, 2), area(4), area(6), param("slit", 4, 3),
            insert(0x1000, 1, mask=2), insert(0x2000, 6, mask=2), param("srat", 6, 4)]]


def joined_order():
    """Each third of the first before that of the second, whatever is carried between."""
    yield [[carried(b"a1"), platform(), carried(b"a2"), policy(), header(0x103, b"a3"), carried(b"a4"), page(0),
            carried(b"a5")]]
    yield [[platform(1), carried(b"b1"), platform(2, TDX), carried(b"b2"), required(0, 5), header(0x311, b"b3")]]
    yield [[carried(b"a1"), platform(1), platform(2), carried(b"b1"), platform(4, TDX),
            carried(b"a2"), policy(), header(0x103, b"a3"), carried(b"a4"), page(0), carried(b"a5"),
            carried(b"b2"), required(0, 5, mask=2), header(0x311, b"b3")]]


def joined_regions():
    """What ends the second third may be a relocation of either kind."""
    yield [[platform(), carried(b"a1"), header(0x103, b"a2"), carried(b"a3"), page(0)]]
    yield [[platform(), policy(), carried(b"b1"), header(0x102, b"b2"), carried(b"b3"), page(0)]]
    yield [[platform(1), platform(2), carried(b"a1"), header(0x103, b"a2"), policy(2), carried(b"b1"),
            header(0x102, b"b2"), carried(b"a3"), page(0), carried(b"b3"), page(0, mask=2)]]


def joined_contents():
    """What both hold alike stands once, in the order of what comes out."""
    yield [platform(), at(0, area, 0), at(1, page, 0), page(0x1000)], [X, Y]
    yield [platform(), at(0, short, 0), at(1, page, 0x1000), at(2, page, 0x2000), page(0x3000)], [Y, Z, ZEROS]
    yield [platform(1), platform(2), at(0, area, 0), at(1, page, 0), page(0x1000),
           at(1, short, 0, mask=2), at(2, page, 0x1000, mask=2), at(3, page, 0x2000, mask=2), page(0x3000, mask=2)
           ], [X, Y, Z, ZEROS]


def join_of_one(version):
    """An image with itself."""
    whole = spelled([platform(4), platform(0x10, TDX), policy(0x14), area(3), param("srat", 3, 0),
                     at(0, page, 0, mask=0x1C), insert(0x1000, 3, mask=0x10)], [X], version)
    return join(whole, whole, None, spelled(
        [platform(4), platform(0x10, TDX), platform(1), platform(2, TDX), policy(0x14), policy(3), area(3),
         param("srat", 3, 0), at(0, page, 0, mask=0x14), insert(0x1000, 3, mask=0x10), area(0), param("srat", 0, 0),
         at(0, page, 0, mask=3), insert(0x1000, 0, mask=2)], [X], version))


def platforms(count):
    return [platform(1 << bit) for bit in range(count)]


def areas(count, front=0):
    return [area(index) for index in range(front, front + count)]


def inserts(count, index=0, mask=2):
    """Of the largest area, which has 16,384 pages."""
    return [area(index, AREA_MOST), *[insert(0, index, mask=mask)] * count]


def joins_at_limits(image):
    """As many platforms, areas and pages as there may be, and one more of each."""
    limits = [ended(8, f"limit: {what}") for what in ("platforms", "areas", "pages")]
    for first, second in ((16, 16), (31, 1), (1, 31)):
        yield join(image(platforms(first)), image(platforms(second)), None, image(platforms(32)))
    for first, second in ((16, 17), (32, 1), (1, 32), (32, 32)):
        yield join(image(platforms(first)), image(platforms(second)), limits[0])
    for first, second in ((128, 128), (256, 0), (0, 256)):
        yield join(image([platform(), *areas(first)]), image([platform(), *areas(second)]), None,
                   image([*platforms(2), *areas(256)]))
    for first, second in ((128, 129), (256, 1), (1, 256)):
        yield join(image([platform(), *areas(first)]), image([platform(), *areas(second)]), limits[1])
    for first, second in ((128, 128), (255, 1), (256, 0)):
        yield join(image([platform(2), *inserts(first)]), image([platform(2), *inserts(second)]), None,
                   image([platform(2), platform(1), *inserts(first), *inserts(second, 1, 1)]))
    full, nearly, one = ([platform(), *rest] for rest in (inserts(256), inserts(255), [page(0)]))
    large = [page(LARGE * k, 0, IS_LARGE) for k in range(32)]
    yield join(image(full), image(one), limits[2])
    yield join(image(one), image(full), limits[2])
    yield join(image(nearly), image([*one, *large]), limits[2])
    yield join(image([*one, *large]), image(nearly), limits[2])
    yield join(image([platform(), *inserts(200)]), image([platform(), *inserts(57)]), limits[2])
    # The first of these that is passed.
    many = image([*platforms(17), *areas(130, 1), *inserts(200)])
    yield join(many, many, limits[0])
    crowded = image([platform(), *areas(130, 1), *inserts(200)])
    yield join(crowded, crowded, limits[1])


# Seal

def stating(digest, mask=1):
    """An ID block that states this, with keys and signatures."""
    return header(0x30B, struct.pack("<IB3x48s16s16sIIII592s", mask, 1, bytes.fromhex(digest), b"family", b"image",
                                     3, 4, 5, 6, b"\x5A" * 592))


def seals():
    for version in FIXED_SIZES:
        image = partial(spelled, version=version)
        for given, digest in (([], ONE_PAGE), ([OPTION], ONE_ZERO)):
            # A block that counts for no platform, and headers that are carried, stay.
            for rest in ([], [stating(OTHER, 2), header(0x311, b"vbs"), carried(b"")]):
                front = [platform(), policy(), page(0x1000)]
                sealed = image([*front, stating(digest), *rest])
                for stated, wanted in product((OTHER, ONE_PAGE, ONE_ZERO), ("snp", "0")):
                    file = image([*front, stating(stated), *rest])
                    yield seal(file + b"behind", wanted, None, sealed, *given, out=FIRST)
                    yield seal(file, wanted, None, sealed, *given, out=NEW)
        yield from seals_of_several(image)
        yield from seals_of_none(image)


def seals_of_several(image):
    """The blocks that count for the platform that is asked for want its digest, and no others."""
    front = [platform(4, TDX), platform(0x80000000)]
    yield seal(image([*front, stating(OTHER, 0x80000000)]), "snp", None, image([*front, stating(NO_PAGES, 0x80000000)]))
    front, masks = [platform(1), platform(2), page(0x1000, mask=2)], (1, 2, 3, TOP, 4, 0)
    for wanted, digest, own in (("snp", NO_PAGES, 1), ("0", NO_PAGES, 1), ("1", ONE_PAGE, 2)):
        blocks = [stating(digest if mask & own else OTHER, mask) for mask in masks]
        yield seal(image([*front, *(stating(OTHER, mask) for mask in masks)]), wanted, None, image([*front, *blocks]))


def seals_of_none(image):
    """Nothing to seal."""
    for blocks in ([], [stating(OTHER, 4)], [stating(OTHER, 0), stating(OTHER, 2)]):
        for given in ([], [OPTION]):
            yield seal(image([platform(), page(0), *blocks]), "snp", ended(6, "no id block"), None, *given)
    for kind, name in enumerate(PLATFORM_KINDS):
        whole = image([platform(1, kind), *([stating(OTHER)] if kind != SNP else [])])
        yield seal(whole, "0", ended(6, "no id block" if kind == SNP else f"no seal for {name}"))
        yield seal(whole, "1", ended(6, "no platform 1"))
    yield seal(image([platform(1, TDX)]), "tdx", ended(6, "no seal for tdx"))
    yield seal(image([platform(1, TDX), stating(OTHER)]), "snp", ended(6, "no platform snp"), None, OPTION)


# The limits of data and of the image

def of_data():
    """Each header's data are counted by themselves; zeros that the file does not hold aren't."""
    content, too_many = bytes(range(256)) * (LARGE // 256), ended(8, "limit: data")

    def much(count, *others, contents=(content,)):
        """So many large pages, and further headers, whose data are there."""
        large = (at(0, page, LARGE * k, flags=IS_LARGE) for k in range(count))
        return spelled([platform(), platform(2, TDX), *large, *others], contents)
    yield strip(much(512), "snp", None, spelled(
        [platform(), *(at(0, page, LARGE * k, flags=IS_LARGE) for k in range(512))], [content]))
    yield strip(much(512), "tdx", None, spelled([platform(2, TDX)]))
    # 511 large pages, and as much as one more in small ones, a context and areas; one more of each is too much.
    mixed = [at(1, page, PAGE * k, flags=IS_UNMEASURED) for k in range(508)] + [
        at(1, short, 0), at(1, area, 0), at(2, area, 1, 2 * PAGE), page(0), area(2, AREA_MOST)]
    for more in ([], [at(1, page, 0)], [at(1, short, 0)], [at(1, area, 3)]):
        yield strip(much(511, *mixed, *more, contents=[content, X, Y + Z]), "tdx", too_many if more else None, spelled(
            [platform(2, TDX), at(0, area, 0), at(1, area, 1, 2 * PAGE), area(2, AREA_MOST)], [X, Y + Z]))
    past, some = much(513), SMALLEST[1]
    for wanted in ("snp", "tdx", "1"):
        yield strip(past, wanted, too_many)
    yield strip(past, "2", ended(6, "no platform 2"))
    yield seal(past, "snp", too_many)
    yield seal(past, "tdx", ended(6, "no seal for tdx"))
    # Each FILE of a join has a limit of its own, behind both are judged.
    yield join(past, some, too_many)
    yield join(some, past, too_many)
    yield join(past, b"IGV", ended(1, "file refused at 3: too short"))
    yield join(past, spelled(platforms(32)), too_many)


def overlapping(small, *others):
    """255 large pages and so many small ones, all of which are there, and no two of them equal; and further headers."""
    held = struct.pack(f"<{LARGE // 4 + 64}I", *range(LARGE // 4 + 64))
    parts = [page(LARGE * k, 24 + k, IS_LARGE) for k in range(255)]
    parts += [page(PAGE * k, 24 + PAGE * k) for k in range(small)]
    return image_of(row([platform(), *parts, *others]), gap=held)


def of_image():
    """An image of 24 + 24 + 255 × 32 + 506 × 32 + 176 + 255 × 2,097,152 + 506 × 4,096 bytes is the largest."""
    some, full, too_large = SMALLEST[1], carried(bytes(168)), ended(8, "limit: image")
    line = (0, "built 536870912 bytes\n", "")
    yield strip(overlapping(506, full), "snp", line, out=NO_BYTES)
    yield strip(overlapping(506, carried(bytes(169))), "snp", too_large)
    yield join(overlapping(506, carried(bytes(144))), some, line, out=NO_BYTES)
    yield join(overlapping(506, carried(bytes(145))), some, too_large)
    yield join(some, overlapping(506, full), too_large)
    # An ID block takes 704 bytes.
    yield seal(overlapping(505, id_block(), carried(bytes(3592))), "snp", line, out=NO_BYTES)
    yield seal(overlapping(505, id_block(), carried(bytes(3593))), "snp", too_large)
    yield seal(overlapping(506, carried(bytes(169))), "snp", ended(6, "no id block"))


# The order of steps: a file's name, its bytes where it is there, and its answer where it is refused

BLOCK, OTHER_KIND = spelled([platform(), id_block()]), spelled([platform(1, TDX)], version=2)
RIGHT = (SMALLEST[1], BLOCK, OTHER_KIND)
BROKEN = tuple((image, ended(1, f"file refused at {text}")) for image, text in (
    (b"", "0: too short"), (SMALLEST[2][:28], "28: too short"), (SMALLEST[1][:-1], "16: total size"),
    (spelled([platform(), page(1)]), "48: alignment"), (spelled([platform(3)]), "24: mask"),
    (spelled([]), "24: no platform"), (spelled([platform(), insert(0, 5)], version=2), "56: area unknown")))


def files_of(name):
    return (*NO_FILES, *((name, *broken) for broken in BROKEN), *((name, image, None) for image in RIGHT))


def of_platform(image, wanted):
    """The answer where one of these images has no platform P."""
    return None if wanted in ("0", "tdx" if image == OTHER_KIND else "snp") else ended(6, f"no platform {wanted}")


def of_seal(image):
    """The answer where there is nothing to seal."""
    return None if image == BLOCK else ended(6, "no seal for tdx" if image == OTHER_KIND else "no id block")


def joined_pair(first, second):
    """What two of these images make together."""
    kinds = [TDX if image == OTHER_KIND else SNP for image in (first, second)]
    blocks = [id_block(mask=mask) for mask, image in ((1, first), (2, second)) if image == BLOCK]
    return spelled([platform(1, kinds[0]), platform(2, kinds[1]), *blocks], version=2 if first == OTHER_KIND else 1)


def with_old(**files):
    return {OUT: OLD, **{f"{FOLDER}/{name}": content for name, content in files.items() if content is not None}}


def steps():
    """`strip` and `seal` of every file for every P to every OUT, and `join` of every two files to every OUT."""
    sealed = spelled([platform(), id_block(bytes.fromhex(NO_PAGES))])
    for (name, image, answer), wanted, (out, out_answer) in product(files_of(FIRST), WORDS_OF_P, OUTS):
        files, answers = with_old(first=image), (answer, of_platform(image, wanted))
        yield told(["strip", name, out, "--platform", wanted], files, (*answers, out_answer), out, image)
        yield told(["seal", name, out, "--platform", wanted], files,
                   (*answers, of_seal(image), out_answer), out, sealed)
    for (first_name, first, first_answer), (second_name, second, answer), (out, out_answer) in product(
            files_of(FIRST), files_of(SECOND), OUTS):
        yield told(["join", first_name, second_name, out], with_old(first=first, second=second),
                   (first_answer, answer, out_answer), out, joined_pair(first, second))


def too_long():
    """Files that are longer than is read, which takes a while."""
    limit, broken = ended(8, "limit: file"), BROKEN[0]
    for words in (["strip", HUGE, OUT, "--platform", "snp"], ["seal", HUGE, OUT, "--platform", "9"],
                  ["join", HUGE, HUGE, OUT], ["join", HUGE, "missing", OUT], ["join", FIRST, HUGE, "missing/new"]):
        yield Job(words, with_old(first=SMALLEST[1]), limit, None, None)
    yield Job(["join", HUGE, SECOND, OUT], with_old(second=broken[0]), limit, None, None)
    yield Job(["join", FIRST, HUGE, OUT], with_old(first=broken[0]), broken[1], None, None)


def cases():
    """All but the steps; what takes long comes first."""
    yield from of_image()
    yield from of_data()
    yield from too_long()
    yield from strips()
    yield from joins()
    yield from seals()
