"""What jobs of `strip`, `join` and `seal` meet, in words, and which of these words a check has to come to."""
import re

import changes
import digests
from changes import indices, list_of, masks, of, pages, thirds
from components import PAGES_MOST, Ended
from jobs import NEW, OUT
from listing import PLATFORM_KINDS
from operation_cases import FIRST, SECOND
from records import FIXED_SIZES, fixed, headers, platforms

RELOCATIONS, HIGH = (0x102, 0x103), 0x80000000

STRIPS = (
    "a platform dropped", "the only platform", "a header dropped", "a mask of several bits",
    "a mask with bits of no platform", "an area that nothing names", "a parameter", "contents dropped",
    "contents at two places", "zeros in the file", "a context of 24 bytes", "bytes behind the image",
    "carried in front", *(f"of kind {kind}" for kind in PLATFORM_KINDS))
JOINS = (
    "a bit of no platform in FIRST", "a bit of no platform in FIRST that SECOND gets", "a bit of no platform in SECOND",
    "a mask that is lost", "bits that clash", "bits that are kept", "bits in another order", "areas that clash",
    "areas renamed without a clash", "areas that keep their indices", "an index between those of FIRST",
    "a parameter renamed", "an insert renamed", "contents of both", "relocations in both",
    "relocations in SECOND alone", "no second part", "carried before a platform of SECOND", "carried in a second part",
    "32 platforms", "256 areas",
    "an image with itself", *(f"of versions {first} and {second}" for first in FIXED_SIZES for second in FIXED_SIZES))
SEALS = ("another digest", "the same digest", "several blocks", "a block of several platforms", "a block that stays",
         "with the option", "the option changes the digest")
LAUNCHES = (*(f"{prefix}{command}: {ending}" for prefix in ("", "sev-") for command, ending in (
    ("measure", "done"), ("load", "done"), ("load", "does not fit"))), "measure: no digest")

COMMON = (
    *(f"strip: {what}" for what in STRIPS), *(f"join: {what}" for what in JOINS), *(f"seal: {what}" for what in SEALS),
    *(f"{command}: P, a {how}" for command in ("strip", "seal") for how in ("word", "number")),
    *(f"{command}: to {out}" for command in ("strip", "seal") for out in (OUT, NEW, FIRST)),
    *(f"join: to {out}" for out in (OUT, NEW, FIRST, SECOND)),
    *(f"{how}: {what}" for how in ("strip", "join") for what in LAUNCHES),
    *(f"join, strip: {what}" for what in ("measure: done", "sev-measure: done", "measure: no digest")),
    *(f"seal: {what}" for what in ("measure: done", "load: done", "load: does not fit")),
    *(f"{command}: {what}" for command in ("strip", "seal") for what in ("file refused", "no platform")),
    "seal: no id block", *(f"seal: no seal for {kind}" for kind in PLATFORM_KINDS if kind != "snp"),
    *(f"join: {which} refused" for which in ("FIRST", "SECOND", "both")),
    *(f"join: limit: {what}" for what in ("platforms", "areas", "pages", "platforms before areas",
                                          "areas before pages")))
RARE = (*(f"{command}: limit: data" for command in ("strip", "join", "seal")), f"join: {PAGES_MOST} pages",
        "join: limit: file", "join: SECOND refused before data of FIRST")


def named(command, met):
    return {f"{command}: {what}" for what, is_met in met.items() if is_met}


def masked(whole):
    """The masks of those that have one, but for the platforms."""
    return [part.fields.mask for part in whole.parts if part.name not in ("Platform", *changes.UNMASKED)]


def contents(whole):
    return {part.data for part in whole.parts if part.data is not None}


def out_kinds(job, wanted=None):
    """Where the image goes, and how the platform is named."""
    how = set() if wanted is None else {f"{job.words[0]}: P, a {'number' if wanted.isdecimal() else 'word'}"}
    return how | {f"{job.words[0]}: to {job.out}"}


# What is done

def strip_kinds(image, number, made):
    before, after = list_of(image), list_of(made)
    mask, bits = masks(before)[number], sum(masks(before))
    stay = [one for one in masked(before) if one & mask]
    names = {part.fields.index for part in after.parts if part.name in ("Param", "Insert")}
    places = {(header.fields.offset, changes.stored(header)) for header in headers(image) if changes.stored(header)}
    return named("strip", {
        "a platform dropped": len(masks(before)) > 1, "the only platform": len(masks(before)) == 1,
        "a header dropped": len(stay) < len(masked(before)),
        "a mask of several bits": any(one & bits & ~mask for one in stay),
        "a mask with bits of no platform": any(one & ~bits for one in stay),
        "an area that nothing names": set(indices(after)) - names, "a parameter": of(after, "Param"),
        "contents dropped": contents(before) - contents(after),
        "contents at two places": len(places) > len(contents(before)),
        "zeros in the file": any(not any(data) for data in contents(after)),
        "a context of 24 bytes": any(len(header.content) == 24 and header.fields.mask & mask
                                     for header in headers(image) if header.name == "Context"),
        "bytes behind the image": len(image) > fixed(image).total,
        "carried in front": before.parts[0].name == "Carried",
        f"of kind {PLATFORM_KINDS[platforms(image)[number].kind]}": True})


def join_kinds(first, second, made):
    a, b, c = (list_of(image) for image in (first, second, made))
    return named("join", {**mask_kinds(a, b, c), **area_kinds(a, b, c), **order_kinds(a, b),
                          "contents of both": contents(a) & contents(b), "an image with itself": first is second,
                          f"of versions {a.version} and {b.version}": True,
                          f"{PAGES_MOST} pages": pages(c) == PAGES_MOST})


def mask_kinds(a, b, c):
    own, others, new = sum(masks(a)), sum(masks(b)), masks(c)[len(masks(a)):]
    return {
        "a bit of no platform in FIRST": any(one & ~own for one in masked(a)),
        "a bit of no platform in FIRST that SECOND gets": any(one & sum(new) for one in masked(a)),
        "a bit of no platform in SECOND": any(one & ~others for one in masked(b)),
        "a mask that is lost": any(one and not one & bits for whole, bits in ((a, own), (b, others))
                                   for one in masked(whole)),
        "bits that clash": own & others, "bits that are kept": masks(b) == new,
        "bits in another order": masks(b) != sorted(masks(b)), "32 platforms": len(masks(c)) == 32}


def area_kinds(a, b, c):
    own, others, new = indices(a), indices(b), indices(c)[len(indices(a)):]
    names = dict(zip(others, new))
    clash = set(own) & set(others)

    def is_renamed(name):
        return any(part.fields.index != names[part.fields.index] for part in of(b, name))
    return {
        "areas that clash": clash, "areas renamed without a clash": not clash and others != new,
        "areas that keep their indices": others and others == new,
        "an index between those of FIRST": any(min(own) < one < max(own) for one in new if own),
        "a parameter renamed": is_renamed("Param"), "an insert renamed": is_renamed("Insert"),
        "256 areas": len(indices(c)) == 256}


def order_kinds(a, b):
    relocating = [any(part.type in RELOCATIONS for part in whole.parts) for whole in (a, b)]
    return {
        "relocations in both": all(relocating), "relocations in SECOND alone": relocating == [False, True],
        "no second part": not thirds(a)[1] + thirds(b)[1],
        "carried before a platform of SECOND": any(part.name == "Carried" for part in thirds(b)[0]),
        "carried in a second part": any(part.type >= HIGH for part in thirds(a)[1] + thirds(b)[1])}


def seal_kinds(image, number, native_zero, made):
    before, mask = list_of(image), masks(list_of(image))[number]
    blocks = [part.fields for part in of(before, "IdBlock")]
    counting = [one for one in blocks if one.mask & mask]
    with_option, without = (digests.digest(image, platforms(image)[number], given) for given in (True, False))
    digest = with_option if native_zero else without
    return named("seal", {
        "another digest": any(one.digest != digest for one in counting),
        "the same digest": any(one.digest == digest for one in counting), "several blocks": len(counting) > 1,
        "a block of several platforms": any(one.mask & sum(masks(before)) & ~mask for one in counting),
        "a block that stays": len(counting) < len(blocks), "with the option": native_zero,
        "the option changes the digest": with_option != without})


# What is refused

def refusal(job):
    """What kind of refusal a job's answer is, without places, texts of rules and the word P."""
    text = re.sub(" (at|platform) .*", r" \1", job.answer[2].removeprefix("igvm: ").rstrip())
    return {f"{job.words[0]}: {text.removesuffix(' at')}"}


def is_refused(file):
    try:
        changes.judged(file)
    except Ended:
        return True
    return False


def has_too_much(file):
    try:
        changes.copied(file)
    except Ended:
        return True
    return False


def join_refusal(job, first, second):
    """And which of both files it is of, or what else is passed."""
    if job.answer[0] == 1 or "limit: file" in job.answer[2]:
        refused = [is_refused(file) for file in (first, second)]
        which = "both" if all(refused) else "FIRST" if refused[0] else "SECOND"
        met = {f"join: {which} refused"} | ({"join: limit: file"} if job.answer[0] != 1 else set())
        return met | named("join", {"SECOND refused before data of FIRST": which == "SECOND" and has_too_much(first)})
    if "limit: data" in job.answer[2]:
        return refusal(job)
    lists = list_of(first), list_of(second)
    passed = [sum(map(count, lists)) > most for count, most in changes.LIMITS.values()]
    return refusal(job) | named("join", {"limit: platforms before areas": passed[0] and passed[1],
                                         "limit: areas before pages": not passed[0] and passed[1] and passed[2]})
