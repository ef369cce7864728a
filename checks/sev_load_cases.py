"""Images and hosts whose load on SEV and on SEV-ES is known beforehand.

Most images have a SEV platform of mask 1, a SEV-ES platform of mask 2 and a SEV-SNP platform of mask 4, the headers 0
to 2, and their headers behind these count for the first two, but where a mask stands here. What a machine holds is told
by how many pages and contexts there are and by the bytes that are measured, page by page; they are hashed here, or the
digest stands here in digits. The images come in both versions of the format.
"""
import hashlib
from functools import partial
from itertools import chain

import images
from digests import SEV, SEV_ES, SNP, TDX
from images import area, header, image_of, param, platform, row
from load_cases import AREA_MOST, HOST_MOST, Case, filled, host, misfit, refused
from records import FIXED_SIZES, LARGE, PAGE

PLATFORMS = [platform(1, SEV), platform(2, SEV_ES), platform(4, SNP)]
page, insert, context, policy, required, error_range, id_block = (partial(spelled, mask=3) for spelled in (
    images.page, images.insert, images.context, images.policy, images.required, images.error_range, images.id_block))
ZEROS, CODE, STATE = bytes(PAGE), bytes(range(256)) * 16, b"\xf0\xff\0\0" * 1024
IS_LARGE, IS_UNMEASURED = 1, 2      # a page's flags
NOTHING = "e3b0c44298fc1c149afbf4c8996fb92427ae41e4649b934ca495991b7852b855"
ONE_PAGE = "ad7facb2586fc6e966c004d7d1d16b024f5805ff7cb47c7a85dabd8b48892ca7"
PAGE_AND_CONTEXT = "a1457f84d4cd8968f2204773813f2e175314a2637b9dddc00742ea9e5427fc25"
ROM = 0xFFFFFFFFF000                # no plan here covers it


def holds(pages, contexts, *measured, digest=None):
    """The answer where the machine holds so many of them, and these bytes were measured."""
    digest = digest or hashlib.sha256(b"".join(measured)).hexdigest()
    return (0, f"loaded {pages} pages, {contexts} contexts\ndigest {digest}\n", ""), None


# The tables: (headers behind the platforms, host's text, the answer on SEV, the one on SEV-ES)

def on_both(headers, text, answer):
    return headers, text, answer, answer


def smallest():
    """The platforms alone, and one page of zeros behind them."""
    yield on_both([], host(), holds(0, 0, digest=NOTHING))
    yield on_both([page(0x1000)], host(), holds(1, 0, digest=ONE_PAGE))
    yield on_both([page(0x1000, mask=7), page(0x1000, mask=4)], host(), holds(1, 0, digest=ONE_PAGE))


def page_kinds():
    """Only normal pages are here, and only those without the flag are measured; the host's pages are of no use."""
    handed = host(secrets="0102", cpuid="03" * PAGE)
    for kind in (1, 2, 3):
        for flags in (0, IS_UNMEASURED):
            yield on_both([page(0x1000, 0, flags, kind)], handed, misfit(3, "type not here"))
        yield on_both([page(2 ** 63, kind=kind)], handed, misfit(3, "type not here"))
        yield on_both([page(0x1000), page(0x1000, kind=kind)], handed, misfit(4, "type not here"))
        yield on_both([page(0x1000), images.page(0x1000, kind=kind, mask=4)], handed, holds(1, 0, ZEROS))
    yield on_both([page(0x1000, 0, IS_UNMEASURED)], handed, holds(1, 0, digest=NOTHING))
    yield on_both([page(0x2000, 0, IS_UNMEASURED), page(0x1000)], handed, holds(2, 0, digest=ONE_PAGE))
    yield on_both([page(LARGE, 0, IS_LARGE)], handed, holds(512, 0, *[ZEROS] * 512))
    yield on_both([page(LARGE, 0, IS_LARGE | IS_UNMEASURED), page(0)], handed, holds(513, 0, digest=ONE_PAGE))
    yield on_both([header(0x80000001, b"carried"), page(0x1000)], handed, holds(1, 0, digest=ONE_PAGE))


def contexts():
    """A context isn't here on SEV, and measured where it stands on SEV-ES. It is no page."""
    absent = misfit(3, "context not here")
    yield [context(ROM)], host(), absent, holds(0, 1, ZEROS)
    yield [context(0x1000), page(0x1000)], host(), absent, holds(1, 1, ZEROS, ZEROS)
    yield [context(ROM), context(ROM)], host(), absent, misfit(4, "context repeated")
    yield [context(ROM), context(ROM, vp=65535)], host(), absent, holds(0, 2, ZEROS, ZEROS)
    yield [context(ROM), page(2 ** 40)], host(), absent, misfit(4, "outside")
    yield [page(2 ** 40), context(ROM)], host(), *[misfit(3, "outside")] * 2
    yield [page(0x1000), context(ROM)], host(), misfit(4, "context not here"), holds(1, 1, ZEROS, ZEROS)
    yield [images.context(ROM, mask=2)], host(), holds(0, 0, digest=NOTHING), holds(0, 1, ZEROS)
    yield [images.context(ROM, mask=1)], host(), absent, holds(0, 0, digest=NOTHING)
    yield [images.context(ROM, mask=4), page(0x1000)], host(), *[holds(1, 0, digest=ONE_PAGE)] * 2


def id_blocks():
    """An ID block isn't here, whatever it states."""
    for digest in (bytes(48), bytes.fromhex(ONE_PAGE).ljust(48, b"\0")):
        yield on_both([page(0x1000), id_block(digest)], host(), misfit(4, "id block not here"))
    yield on_both([id_block(), id_block()], host(), misfit(3, "id block not here"))
    yield on_both([images.id_block(mask=4), page(0x1000)], host(), holds(1, 0, digest=ONE_PAGE))
    yield [images.id_block(mask=1)], host(), misfit(3, "id block not here"), holds(0, 0, digest=NOTHING)


def areas():
    """An area is placed and not measured, whatever the host's values are; its rows are those of every platform."""
    values = host(values={"command_line": "61626364", "vp_count": "04000000"})
    behind = [param("command_line", 0, 0), insert(0x3000, 0), page(0x1000)]
    for text in (host(), values):
        yield on_both([area(0, 2 * PAGE), *behind], text, holds(3, 0, digest=ONE_PAGE))
    yield on_both([area(0), param("vp_count", 0, 4092), insert(0x3000, 0)], values, holds(1, 0, digest=NOTHING))
    yield on_both([area(0), param("vp_count", 0, 4093), insert(0x3000, 0)], values, misfit(4, "value too long"))
    yield on_both([area(0), insert(0x3000, 0), param("srat", 0, 0)], values, misfit(5, "area gone"))
    yield on_both([area(0), insert(0x3000, 0), insert(0x4000, 0)], values, misfit(5, "area gone"))
    yield ([area(0), images.insert(0x3000, 0, mask=1), param("srat", 0, 0)], values, misfit(5, "area gone"),
           holds(0, 0, digest=NOTHING))
    yield on_both([area(0, AREA_MOST), area(1)], values, misfit(4, "areas too large"))
    yield on_both([area(0), insert(2 ** 40, 0)], values, misfit(4, "outside"))


def places():
    """The memory plan, pages that two headers place, and policies."""
    small = host([(0, 0x2000)])
    for gpa in (0x2000, 2 ** 63):
        yield on_both([page(gpa)], small, misfit(3, "outside"))
    yield on_both([page(0x1000), required(0, 0x2000), error_range(0x1FFF, 1)], small, holds(1, 0, digest=ONE_PAGE))
    for needed in (required, error_range):
        yield on_both([needed(0x1000, 0x1001)], small, misfit(3, "outside"))
    yield on_both([page(0x1000), page(0x1000)], small, misfit(4, "repeated"))
    yield on_both([area(0), page(0x1000), insert(0x1000, 0)], small, misfit(5, "repeated"))
    yield on_both([page(0, 0, IS_UNMEASURED), page(0)], small, misfit(4, "repeated"))
    yield ([images.page(0x1000, mask=1), page(0x1000)], small, misfit(4, "repeated"), holds(1, 0, digest=ONE_PAGE))
    yield on_both([policy(), policy()], small, misfit(4, "policy repeated"))
    yield on_both([images.policy(1), images.policy(2), images.policy(4)], small, holds(0, 0, digest=NOTHING))
    full = host([(0, 0x100000000)])
    large = [page(at * LARGE, 0, IS_LARGE | IS_UNMEASURED) for at in range(1025)]
    yield on_both([*large[:1024]], full, holds(524288, 0, digest=NOTHING))
    yield on_both([*large[:1024], page(1024 * LARGE)], full, misfit(1027, "too many pages"))
    yield on_both(large, full, misfit(1027, "too many pages"))


def told():
    """All of these as cases; P is the platform's word in version 1 and its number in version 2."""
    for headers, text, *answers in chain(smallest(), page_kinds(), contexts(), id_blocks(), areas(), places()):
        for version in FIXED_SIZES:
            image = image_of(row([*PLATFORMS, *headers]), version=version)
            for number, (word, answer) in enumerate(zip(("sev", "sev_es"), answers)):
                yield Case(image, text, word if version == 1 else str(number), *answer)


def steps():
    """Which step decides."""
    fitting, small = [platform(kind=SEV_ES), images.page(0x1000)], host([(0, 0x1000)])
    for kind, name in ((0, "native"), (1, "vsm"), (SNP, "snp"), (TDX, "tdx")):
        yield [platform(kind=kind)], b"", "0", refused(6, f"no digest for {name}")
    yield fitting, b"", "sev", refused(6, "no platform sev")
    yield fitting, b"", "1", refused(6, "no platform 1")
    yield [platform(kind=SEV)], b"", "sev_es", refused(6, "no platform sev_es")
    yield fitting, b"", "sev_es", refused(7, "json refused")
    yield [platform(kind=SEV), images.page(0x4000)], b"{}", "sev", refused(7, "json refused: top 0")
    yield fitting, small, "sev_es", misfit(1, "outside")
    for count, answer in ((HOST_MOST, holds(1, 0, digest=ONE_PAGE)), (HOST_MOST + 1, refused(8, "limit: host"))):
        yield fitting, host().ljust(count), "sev_es", answer
    yield fitting, bytes(HOST_MOST + 1), "sev", refused(6, "no platform sev")


def from_file():
    """Cases whose data stand in the file, in version 1: behind 24 bytes lie two pages, and then the section."""
    at, gap = 24, CODE + STATE
    headers = [page(0x2000, at), context(ROM, at + PAGE, vp=3), page(0x1000), page(0x3000, at + 1),
               page(0x4000, at, IS_UNMEASURED), context(ROM, vp=1), area(0, PAGE, at), insert(0x5000, 0)]
    image = image_of(row([*PLATFORMS, *headers]), gap=gap)
    yield Case(image, host(), "sev", *misfit(4, "context not here"))
    yield Case(image, host(), "sev_es", *holds(5, 2, CODE, STATE, ZEROS, gap[1:PAGE + 1], ZEROS))
    # The context's bytes end with the image, whatever lies behind it.
    end = row([platform(kind=SEV_ES), images.context(ROM, at + len(gap), vp=65535)])
    yield Case(image_of(end, gap=gap) + b"behind", host(), "0", *holds(0, 1, end.ljust(PAGE, b"\0")))


def worked():
    """The image of docs/DIGESTS.md."""
    image = bytes.fromhex("4947564d01000000180000007000000098000000d1171c0a"
                          "010000001000000001000000000401000000000000000000"
                          "010000001000000002000000000501000000000000000000"
                          "020300001800000000100000000000000300000000000000" "0000000000000000"
                          "040300001800000000f0ffffffff00000300000088000000" "0000000000000000"
                          "00009300ffff00000000000000000000")
    yield Case(image, host([(0x1000, 0x1000)]), "sev", *misfit(3, "context not here"))
    yield Case(image, host([(0x1000, 0x1000)]), "sev_es", *holds(1, 1, digest=PAGE_AND_CONTEXT))
    yield Case(image, host([(0x1000, 0x1000)]), "1", *holds(1, 1, digest=PAGE_AND_CONTEXT))
    yield Case(image, host([(0, 0x1000)]), "sev_es", *misfit(2, "outside"))


def answers():
    """All cases."""
    yield from told()
    for headers, text, wanted, answer in steps():
        for version in FIXED_SIZES:
            yield Case(image_of(row(headers), version=version), text, wanted, *answer)
    yield from from_file()
    yield from worked()
    yield Case(b"IGV", b"", "3", *refused(1, "file refused at 3: too short"))
