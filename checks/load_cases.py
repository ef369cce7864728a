"""Images and hosts whose load is known beforehand, and host descriptions whose refusals are.

What a machine holds is told page by page: the digest is hashed by zero_pages.py over these, or stands here in digits,
and the pages file is spelled here. Each image comes in both versions of the format.
"""
import json
import struct
from collections import namedtuple
from itertools import chain

from cases import SMALLEST
from images import (area, context, error_range, header, id_block, image_of, insert, page, param, platform, policy,
                    required, row)
from records import FIXED_SIZES, LARGE, PAGE
from zero_pages import CODE, CPUID, NORMAL, SECRETS, UNMEASURED, VMSA, ZERO, ZEROS, folded, joined

AREA_MOST, HOST_MOST = 67108864, 16777216
MEMORY = [(0, 0x10000000)]
TAGS = {NORMAL: 0, UNMEASURED: 1, SECRETS: 2, CPUID: 3, ZERO: 4, VMSA: 5}
SNP, TDX = platform(kind=2), platform(kind=3)
NO_PAGES = "0" * 96
ONE_PAGE = "e6e4d78904d9d6b33c0cbfd121998fd2d11744dae606b3aee35e2a45d6869b60b35c63928a9232bef72d6be386f48ec6"
ONE_ZERO = "4bd4147976a1e7554c1c778a781affc1c672f1965a727ba16084989b7e356044a28bbe585a2f75dac9356fa5ab78f061"
ONE_TDX = "ca76d5541328afef8bc9364261c515aebef90412ebc56ca0c2260ec531a14462cfc0c11de61d84292ddf8ca871da1ff1"

# An image, a host's text, the words behind `--platform`; status, output and error, and the pages file or None.
Case = namedtuple("Case", "image host options answer pages")


def host(ranges=MEMORY, **others):
    """The text of a host description."""
    memory = [{"start": hex(start), "bytes": hex(size)} for start, size in ranges]
    return json.dumps({"memory": memory, **others}).encode()


def misfit(number, text):
    return (3, f"does not fit: header {number}: {text}\n", ""), None


def refused(status, error):
    return (status, "", f"igvm: {error}\n"), None


def holds(records, digest):
    """The answer where the machine holds these: (page type, GPA, bytes, and the VP where it is a context)."""
    kinds = [record[0] for record in records]
    contexts = kinds.count(VMSA)
    pages = b"".join(spelled(*record) for record in records)
    return (0, f"loaded {len(kinds) - contexts} pages, {contexts} contexts\ndigest {digest}\n", ""), pages


def spelled(kind, gpa, page, vp=0):
    return struct.pack("<Q", gpa) + bytes([TAGS[kind], 0, vp % 256, vp // 256, 0, 0, 0, 0]) + page


def on_snp(*records):
    return holds(records, folded([(kind, gpa, data if kind in (NORMAL, VMSA) else None)
                                  for kind, gpa, data, *_ in records]))


def on_tdx(*records):
    return holds(records, joined([(gpa, data if kind == NORMAL else None) for kind, gpa, data in records]))


def filled(digits):
    """A page that begins with these bytes."""
    return bytes.fromhex(digits).ljust(PAGE, b"\0")


# The tables: (headers, host's text, words behind `--platform`, answer); the images in both versions

def smallest():
    """The platform alone, and one measured page of zeros behind it."""
    one = page(0x1000)
    for options in ("snp", "0", "snp --native-zero"):
        yield [SNP], host(), options, holds([], NO_PAGES)
    yield [SNP, one], host(), "snp", holds([(NORMAL, 0x1000, ZEROS)], ONE_PAGE)
    yield [SNP, one], host(), "snp --native-zero", holds([(ZERO, 0x1000, ZEROS)], ONE_ZERO)
    for options in ("tdx", "0", "tdx --native-zero"):
        yield [TDX, one], host(), options, holds([(NORMAL, 0x1000, ZEROS)], ONE_TDX)


def masks():
    """Headers count by their masks, and are numbered over all."""
    both = [platform(1), platform(2)]
    twice = [*both, page(0x1000, mask=1), page(0x1000, mask=3)]
    yield twice, host(), "0", misfit(3, "repeated")
    yield twice, host(), "1", holds([(NORMAL, 0x1000, ZEROS)], ONE_PAGE)
    yield [SNP, page(0x1000, mask=2), page(0x1000, mask=2)], host(), "snp", holds([], NO_PAGES)
    yield [*both, policy(1), policy(2)], host(), "0", holds([], NO_PAGES)
    yield [*both, policy(1), policy(3)], host(), "1", holds([], NO_PAGES)
    yield [*both, policy(1), policy(3)], host(), "0", misfit(3, "policy repeated")
    gone = [*both, area(0), insert(0x1000, 0, mask=1), param("srat", 0, 0)]
    yield gone, host(), "0", misfit(4, "area gone")
    yield gone, host(), "1", holds([], NO_PAGES)


def areas():
    """What the host's values make of an area."""
    two = [SNP, area(0), param("command_line", 0, 0), param("madt", 0, 2), insert(0x3000, 0)]
    values = host(values={"command_line": "61626364", "madt": "5859"})
    yield two, values, "snp", on_snp((UNMEASURED, 0x3000, filled("61625859")))
    end, last = host(values={"vp_count": "04000000"}), bytes(4092) + b"\4\0\0\0"
    for kind, text, fitting, page_then in (("vp_count", end, 4092, last), ("command_line", host(), 4096, ZEROS)):
        front, behind = [SNP, area(0)], insert(0x3000, 0)
        yield [*front, param(kind, 0, fitting), behind], text, "snp", on_snp((UNMEASURED, 0x3000, page_then))
        yield [*front, param(kind, 0, fitting + 1), behind], text, "snp", misfit(2, "value too long")
        yield [*front, param(kind, 0, 2 ** 32 - 1), behind], text, "snp", misfit(2, "value too long")
    # Two areas, of which one holds a value across its pages; the insert of the other doesn't take it away.
    pages = [TDX, area(0, 2 * PAGE), area(7), insert(0x1000, 7), param("slit", 0, 4095), insert(0x5000, 0)]
    yield pages, host(values={"slit": "ABCD"}), "tdx", on_tdx(
        (UNMEASURED, 0x1000, ZEROS), (UNMEASURED, 0x5000, bytes(4095) + b"\xAB"), (UNMEASURED, 0x6000, filled("cd")))
    yield [*pages, insert(0x7000, 7)], host(), "tdx", misfit(6, "area gone")
    large = [SNP, area(0, 2 ** 20), param("device_tree", 0, 0), insert(0, 0)]
    most = bytes(range(256)) * 4096
    yield large, host(values={"device_tree": most.hex()}), "snp", on_snp(
        *((UNMEASURED, at, most[at:at + PAGE]) for at in range(0, 2 ** 20, PAGE)))


def plans():
    """What a plan covers."""
    small = host([(0, 0x2000)])
    yield [SNP, page(0x1000)], small, "snp", holds([(NORMAL, 0x1000, ZEROS)], ONE_PAGE)
    for gpa in (0x2000, 0xFFFFFFFFFFFFF000):
        yield [SNP, page(gpa)], small, "snp", misfit(1, "outside")
    touching = host([(0, 0x1000), (0x1000, 0x3FF000)])
    yield [SNP, page(LARGE, flags=1), required(0, 0x2000)], touching, "snp", on_snp(
        *((NORMAL, gpa, ZEROS) for gpa in range(LARGE, 2 * LARGE, PAGE)))
    yield [SNP, page(2 * LARGE, flags=1)], touching, "snp", misfit(1, "outside")
    parted = host([(0, 0x1000), (0x2000, 0x3FE000)])
    for needed in (required, error_range):
        yield [SNP, needed(0, 0x2000)], parted, "snp", misfit(1, "outside")
        yield [SNP, needed(0xFFF, 1)], parted, "snp", holds([], NO_PAGES)
        yield [SNP, needed(0xFFF, 2)], parted, "snp", misfit(1, "outside")
        yield [SNP, needed(2 ** 64 - 1, 0)], parted, "snp", holds([], NO_PAGES)
        yield [SNP, needed(2 ** 64 - 1, 1)], parted, "snp", misfit(1, "outside")
    yield [SNP, area(0, 2 * PAGE), insert(0, 0)], parted, "snp", misfit(2, "outside")
    yield [SNP, required(0, 0x2000), page(0x1000), error_range(0x1000, 1)], small, "snp", holds(
        [(NORMAL, 0x1000, ZEROS)], ONE_PAGE)


def repeated_pages():
    """Pages that two headers place."""
    one = [SNP, page(0x1000)]
    yield [*one, page(0x1000)], host(), "snp", misfit(2, "repeated")
    yield [*one, page(0, flags=1)], host(), "snp", misfit(2, "repeated")
    yield [*one, area(0, 2 * PAGE), insert(0, 0)], host(), "snp", misfit(3, "repeated")
    yield [SNP, page(0, flags=1), page(LARGE - PAGE)], host(), "snp", misfit(2, "repeated")
    yield [*one, page(0x1000, mask=2), page(0x2000)], host(), "snp", on_snp(
        (NORMAL, 0x1000, ZEROS), (NORMAL, 0x2000, ZEROS))
    yield [*one, page(0x1000), page(2 ** 63)], host([(0, 0x1000)]), "snp", misfit(1, "outside")


def contexts():
    """A context is no page."""
    gpa = 0xFFFFFFFFF000
    yield [SNP, context(gpa)], host(), "snp", on_snp((VMSA, gpa, ZEROS, 0))
    yield [SNP, context(gpa), context(gpa)], host(), "snp", misfit(2, "context repeated")
    yield [TDX, context(gpa)], host(), "tdx", misfit(1, "context not here")
    # In the file the contexts stand before the page; in the digest, too, and behind it in the pages file.
    row_of_three = [SNP, context(gpa, vp=3), context(gpa, vp=0x201), page(0x1000)]
    records = [(NORMAL, 0x1000, ZEROS), (VMSA, gpa, ZEROS, 3), (VMSA, gpa, ZEROS, 0x201)]
    digest = folded([(VMSA, gpa, ZEROS), (VMSA, gpa, ZEROS), (NORMAL, 0x1000, ZEROS)])
    yield row_of_three, host(), "snp", holds(records, digest)


def id_blocks():
    """What an ID block states is compared last."""
    right = bytes.fromhex(ONE_PAGE)
    wrong = right[:47] + bytes([right[47] ^ 1])
    one = [SNP, page(0x1000)]
    yield [*one, id_block(right)], host(), "snp", holds([(NORMAL, 0x1000, ZEROS)], ONE_PAGE)
    for digest, option, found in ((wrong, "", ONE_PAGE), (right, " --native-zero", ONE_ZERO)):
        text = f"bad digest wanted {digest.hex()} found {found}"
        yield [*one, id_block(digest)], host(), f"snp{option}", misfit(2, text)
    yield [*one, id_block(bytes.fromhex(ONE_ZERO))], host(), "snp --native-zero", holds(
        [(ZERO, 0x1000, ZEROS)], ONE_ZERO)
    yield [*one, id_block(wrong), page(2 ** 40)], host(), "snp", misfit(3, "outside")
    yield [*one, id_block(right), id_block(right)], host(), "snp", misfit(3, "id block repeated")
    yield [*one, id_block(wrong), id_block(right)], host(), "snp", misfit(3, "id block repeated")
    yield [*one, id_block(wrong, mask=2)], host(), "snp", holds([(NORMAL, 0x1000, ZEROS)], ONE_PAGE)
    yield [TDX, id_block(right)], host(), "tdx", misfit(1, "id block not here")


def page_kinds():
    """Pages whose bytes are the host's, and tags."""
    handed = host(secrets="0102", cpuid="03" * PAGE)
    kinds = [SNP, page(0x1000, kind=1), page(0x2000, kind=2, flags=2), page(0x3000, kind=3), page(0x4000, flags=2)]
    tail = [(CPUID, 0x2000, b"\3" * PAGE), (CPUID, 0x3000, b"\3" * PAGE), (UNMEASURED, 0x4000, ZEROS)]
    for option in ("", " --native-zero"):
        yield kinds, handed, f"snp{option}", on_snp((SECRETS, 0x1000, filled("0102")), *tail)
    for kind in (1, 2, 3):
        yield [TDX, page(0x1000, kind=kind)], handed, "tdx", misfit(1, "type not here")
    yield [TDX, page(2 ** 63, kind=1)], handed, "tdx", misfit(1, "type not here")
    yield [TDX, page(0x4000, flags=2)], handed, "tdx", on_tdx((UNMEASURED, 0x4000, ZEROS))
    yield [SNP, policy(), policy()], handed, "snp", misfit(2, "policy repeated")
    yield [SNP, header(0x80000001, b"carried"), page(0x1000)], handed, "snp", holds(
        [(NORMAL, 0x1000, ZEROS)], ONE_PAGE)


def limits():
    """As many areas and pages as there may be, and one more."""
    full = host([(0, 0x100000000)])
    large = [page(at * LARGE, flags=1) for at in range(1025)]
    yield [SNP, *large], full, "snp", misfit(1025, "too many pages")
    yield [SNP, *large[:1024], page(1024 * LARGE)], full, "snp", misfit(1025, "too many pages")
    yield [SNP, *large[:1024], page(LARGE)], full, "snp", misfit(1025, "repeated")
    yield [SNP, *large[:1024], page(1024 * LARGE, mask=2), page(2 ** 63)], full, "snp", misfit(1026, "outside")
    whole = [SNP, area(0, AREA_MOST)]
    yield [*whole, area(1)], full, "snp", misfit(2, "areas too large")
    yield [SNP, area(0), area(1, AREA_MOST)], full, "snp", misfit(2, "areas too large")
    yield [SNP, area(0, AREA_MOST - PAGE), area(1)], full, "snp", holds([], NO_PAGES)
    rest = 1024 - AREA_MOST // LARGE
    inserted = [*whole, *large[:rest]]
    yield [*inserted, page(1024 * LARGE), insert(rest * LARGE, 0)], full, "snp", misfit(rest + 3, "too many pages")
    yield [*inserted, insert(rest * LARGE, 0), page(1024 * LARGE)], full, "snp", misfit(rest + 3, "too many pages")


def steps():
    """Which step decides."""
    fitting, small = [SNP, page(0x1000)], host([(0, 0x1000)])
    yield [platform(kind=0)], b"", "0", refused(6, "no digest for native")
    yield fitting, b"", "tdx", refused(6, "no platform tdx")
    yield fitting, b"", "1", refused(6, "no platform 1")
    yield fitting, b"", "snp", refused(7, "json refused")
    yield [SNP, page(0x4000)], b"{}", "snp", refused(7, "json refused: top 0")
    yield [*fitting, page(0x2000)], small, "snp", misfit(1, "outside")
    yield [*fitting, id_block()], small, "snp", misfit(1, "outside")
    for count, answer in ((HOST_MOST, holds([(NORMAL, 0x1000, ZEROS)], ONE_PAGE)),
                          (HOST_MOST + 1, refused(8, "limit: host"))):
        yield fitting, host().ljust(count), "snp", answer
    yield fitting, bytes(HOST_MOST + 1), "3", refused(6, "no platform 3")


def hosts():
    """Host descriptions for the smallest image: (text, what the refusal says behind `json refused`, or None)."""
    one, deep = '{"start":"0x0","bytes":"0x1000"}', "[" * 126 + "]" * 126
    yield from ((text, "") for text in (
        "", "{", '{"memory":[' + one + ',]}', '{"memory":[' + one + ']}{}', '{"memory":[' + one + '],"x":1e400}',
        '{"memory":1e400,"memory":[' + one + ']}', '{"memory":"\\ud800"}', "\ufeff{}", "{'memory':[]}", "NaN",
        f'{{"memory":[{deep}]}}'))
    yield f'{{"memory":[{deep[1:-1]}]}}', ": memory 0"
    yield from ((text, ": top 0") for text in (
        "[]", "null", "{}", '"memory"', '{"values":{},"secrets":"","cpuid":""}', f'{{"Memory":[{one}]}}',
        f'{{"memory":[{one}],"other":0}}', '{"memory":[],"values":0,"other":0}'))
    yield from memories(one)
    yield from values(one)
    for key in ("secrets", "cpuid"):
        for value in ('"0"', '"0g"', "null", "0", "[]", '"0x00"', '" 00"', f'"{"00" * 4097}"'):
            yield f'{{"memory":[{one}],"{key}":{value}}}', f": {key} 0"
        for value in ('""', '"aB"', f'"{"00" * 4096}"'):
            yield f'{{"memory":[{one}],"{key}":{value}}}', None
    yield f'{{"memory":[{one}],"cpuid":0,"secrets":0,"values":0}}', ": values 0"
    yield f'{{"memory":[{one}],"cpuid":0,"secrets":0}}', ": secrets 0"
    yield f'{{"cpuid":0,"memory":[{one}],"cpuid":""}}', None
    yield f'{{"cpuid":"","memory":[{one}],"cpuid":0}}', ": cpuid 0"


def memories(one):
    """What may stand at `memory`."""
    ranges = [f'{{"start":"{start}","bytes":"{size}"}}' for start, size in (
        ("0x1000", "0x1000"), ("0x0", "0x0"), ("0x1", "0x1000"), ("0x0", "0x800"), ("0", "0x1000"), ("0X0", "0x1000"),
        ("0x", "0x1000"), ("0x00000000000000000", "0x1000"), ("0xFFFFFFFFFF000", "0x2000"), ("0x10000000000000",
        "0x1000"), ("0xfffffffffffff000", "0x1000"), ("0x0", "0xfffffffffffff000"))]
    for text in ("null", "{}", "[]", "0", '"0x0"', "[null]", "[[]]", '[{"start":"0x0"}]', '[{"bytes":"0x1000"}]',
                 '[{"start":0,"bytes":"0x1000"}]', '[{"start":"0x0","bytes":"0x1000","x":0}]'):
        yield f'{{"memory":{text}}}', ": memory 0"
    for wrong in ranges[1:]:
        yield f'{{"memory":[{wrong}]}}', ": memory 0"
        yield f'{{"memory":[{one},{ranges[0]},{wrong}]}}', ": memory 2"
    yield f'{{"memory":[{one},{ranges[0]}]}}', None
    yield f'{{"memory":[{ranges[0]},{one}]}}', ": memory 1"
    yield f'{{"memory":[{one},{one}]}}', ": memory 1"
    yield '{"memory":[{"bytes":"0x1000","start":"0xFfFfFfFfFf000"}]}', None
    yield '{"memory":[{"start":null,"bytes":"0x0000000000001000","start":"0x0"}]}', None
    many = [f'{{"start":"{at * PAGE:#x}","bytes":"0x1000"}}' for at in range(66)]
    for count, where in ((64, None), (65, ": memory 64"), (66, ": memory 64")):
        yield f'{{"memory":[{",".join(many[:count])}]}}', where
    yield f'{{"memory":[{",".join(many[:64])},null],"cpuid":0}}', ": memory 64"
    yield f'{{"memory":[{",".join(many[:63])},null,0]}}', ": memory 63"


def values(one):
    """What may stand at `values`."""
    for text, item in (
            ("null", 0), ("[]", 0), ('"00"', 0), ('{"vp_count":null}', 0), ('{"srat":"0"}', 1), ('{"madt":"0x"}', 2),
            ('{"mmio_ranges":0}', 3), ('{"memory_map":"0 "}', 4), ('{"command_line":"console"}', 5), ('{"slit":{}}', 6),
            ('{"pptt":["00"]}', 7), ('{"device_tree":true}', 8), ('{"environment_info":"\\u0660\\u0660"}', 9),
            ('{"vp":"00"}', 10), ('{"":"00"}', 10), ('{"VP_COUNT":"00"}', 10), ('{"slit":0,"srat":0,"pptt":"0"}', 1),
            ('{"none":0,"environment_info":0}', 9), (f'{{"slit":"{"00" * 1048577}","pptt":0}}', 6)):
        yield f'{{"memory":[{one}],"values":{text}}}', f": values {item}"
    most = f'{{"slit":"{"Ff" * 1048576}"}}'
    for text in ("{}", '{"slit":""}', most, '{"slit":0,"slit":"00"}', '{"\\u0073lit":"00"}'):
        yield f'{{"memory":[{one}],"values":{text}}}', None


def from_file():
    """Cases whose data stand in the file, in version 1: behind 24 bytes lie two pages, and then the section."""
    data, at, gpa = CODE + CODE[::-1], 24, 0xFFFFFFFFF000
    later = at + 2 * PAGE
    headers = [SNP, area(0, offset=at), param("slit", 0, 2), insert(0x1000, 0), page(0x2000, at), page(0x3000, at + 1),
               page(0x4000, at + PAGE, flags=2), page(0x5000, at, kind=1)]
    records = [(UNMEASURED, 0x1000, CODE[:2] + b"\xEE" + CODE[3:]), (NORMAL, 0x2000, CODE),
               (NORMAL, 0x3000, data[1:PAGE + 1]), (UNMEASURED, 0x4000, CODE[::-1]), (SECRETS, 0x5000, filled("0102"))]
    text = host(values={"slit": "ee"}, secrets="0102")
    for option in ("", " --native-zero"):
        yield Case(image_of(row(headers), gap=data), text, f"snp{option}", *on_snp(*records))
    # The context's bytes end with the image, whatever lies behind it.
    end = row([SNP, context(gpa, later, vp=65535)])
    yield Case(image_of(end, gap=data) + b"behind", host(), "snp", *on_snp((VMSA, gpa, end.ljust(PAGE, b"\0"), 65535)))


def in_both_versions(rows):
    for version in FIXED_SIZES:
        for headers, text, options, answer in rows:
            yield Case(image_of(row(headers), version=version), text, options, *answer)


def answers():
    """All cases."""
    tables = (smallest, masks, areas, plans, repeated_pages, contexts, id_blocks, page_kinds, limits, steps)
    yield from in_both_versions(list(chain.from_iterable(table() for table in tables)))
    yield from from_file()
    yield Case(b"IGV", b"", "3", *refused(1, "file refused at 3: too short"))
    for text, where in hosts():
        answer = holds([], NO_PAGES) if where is None else refused(7, f"json refused{where}")
        yield Case(SMALLEST[1], text.encode(), "snp", *answer)
