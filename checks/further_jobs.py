"""Jobs of `vmsa-build`, `vmsa-print` and `build-elf` with the answers of the plain readers and the plain builder.

Beside the jobs stands what kinds of answers they meet: those of COMMON, and of RARE, which cost much.
"""
import json
import re

import elves
import vmsas
from answers import OPTION, answer, words
from components import PAGES_MOST
from elves import ADDRESS_LIMIT, PAGE_LIMIT, SEGMENT_LIMIT, TEXTS, judged
from further_cases import ELF, FILE, JSON, LIST
from jobs import NEW, OLD, OUT, Job
from list_cases import HUGE
from named_files import Huge, read
from random_lists import FILES
from reader import Before, first_fault
from records import FIXED_SIZES, PAGE, fixed, headers, platforms
from vmsas import KEYS, OTHER, PARTS, SIZE, TEXT_MOST

TEXT_OUTS = (OUT, OUT, NEW, JSON)               # by the number; NEW isn't there before
PAIR_OUTS = (OUT, OUT, NEW, LIST, ELF, "page")  # the last one is a file that lists name
BEFORE = (OLD, b"", OLD * 3000)                 # what OUT holds before, by the number
READ_BACK, FEW_PAGES = 3, 2000                  # one image of so many is read again, where it names so few pages
MANY_HEADERS = 1 << 20                          # bytes of a section that isn't looked at

FORMS = {"letters of upper case": '"0x[0-9a-f]*[A-F]', "zeros in front": '"0x0+[1-9a-fA-F]',
         "16 digits": '"0x[^"]{16}"', "an address that is 0": '"0x0+"', "an escape": r"\\u00",
         "white space around": r"^\s|\s$"}
KEY_FORMS = ("a key twice", "a segment without a part", "an empty segment", "no other bytes")
RULES = ("mask", "alignment", "too many areas", "area repeated", "area unknown", "area size", "address wraps",
         "too many pages", "data type", "length", "no platform")
MASKS = {"no": 0, "one": 1, "several": 2, "all": 32}    # how many bits a mask has, at least
SEGMENTS = ("out of order", "that touch", "that share a page", "apart", "without bytes in the file",
            "up to the last page", f"{SEGMENT_LIMIT} in number", "among other headers", "before the program headers")
MOST_PAGES = f"build-elf: segments of {PAGE_LIMIT} pages"
IMAGES = ("filled pages", "other pages", "filled pages of zeros", "pages alike", "pages like the list's",
          f"{PAGES_MOST} pages")

COMMON = (
    "vmsa-build: json refused", *(f"vmsa-build: json refused: vmsa {place}" for place in range(len(KEYS) + 1)),
    "vmsa-build: limit: vmsa", "vmsa-build: outside fault: shelf",
    *(f"vmsa-build: {form}" for form in (*FORMS, *KEY_FORMS)), *(f"vmsa-build: {key}" for key in KEYS),
    *(f"vmsa-build: {part}" for part in PARTS), *(f"vmsa-build: to {out}" for out in sorted(set(TEXT_OUTS))),
    *(f"vmsa-print: {key}" for key in KEYS), "vmsa-print: nothing", "vmsa-print: of a whole page",
    "vmsa-print: of a front", "vmsa-print: limit: vmsa",
    *(f"build-elf: elf refused: {text}" for text in TEXTS.values()), "build-elf: elf refused behind another header",
    "build-elf: json refused",
    *(f"build-elf: json refused: {part}" for part in ("top", "platforms", "policies", "directives", *RULES)),
    *(f"build-elf: limit: {what}" for what in ("list", "data", "pages")), "build-elf: outside fault: shelf",
    *(f"build-elf: version {version}" for version in FIXED_SIZES),
    *(f"build-elf: mask of {bits} bits" for bits in MASKS),
    *(f"build-elf: segments {what}" for what in SEGMENTS), *(f"build-elf: {what}" for what in IMAGES),
    *(f"build-elf: to {out}" for out in sorted(set(PAIR_OUTS))), "print", "measure", f"measure {OPTION}",
)
RARE = ("vmsa-build: a text as long as may be", "vmsa-print: outside fault: shelf", MOST_PAGES,
        *(f"build-elf: limit: {what}" for what in ("elf", "blob", "image")))


def kind_of(job):
    """What kind of refusal a job's answer is, without the numbers of entries and headers; nothing for other words."""
    status, _, error = job.answer
    if status in (0, 2):
        return set()
    error = error.removeprefix("igvm: ").rstrip()
    if "vmsa" not in error:
        error = re.sub("( at)? [0-9]+", "", error)
    parts = error.split(": ")
    return {f"{job.words[0]}: {': '.join([*parts[:1], *parts[-1:]] if len(parts) > 1 else parts)}"}


# VMSA pages

def built_text(data, out, number):
    """The job that builds a text, and the page, which is None where there is none."""
    *want, page = vmsas.built(data)
    files = {OUT: BEFORE[number % len(BEFORE)], JSON: data}
    return Job(["vmsa-build", JSON, out], files, tuple(want), page and out, page), page


def printed_page(page):
    return Job(["vmsa-print", FILE], {FILE: page}, vmsas.printed(page), None, None)


def text_jobs(number, data):
    """A text is built, and then the page is printed."""
    out = TEXT_OUTS[number % len(TEXT_OUTS)]
    job, page = built_text(data, out, number)
    if page is None:
        return [job], kind_of(job)
    back = printed_page(page)
    return [job, back], {f"vmsa-build: to {out}"} | forms(data) | printed_kinds(back, page)


def page_jobs(number, page):
    """A page is printed, and then the text is built."""
    job = printed_page(page)
    if job.answer[0]:
        return [job], kind_of(job)
    back, whole = built_text(job.answer[1].encode(), TEXT_OUTS[number % len(TEXT_OUTS)], number)
    assert whole == page.ljust(SIZE, b"\0"), "the plain reader of texts and the one of pages are at odds"
    return [job, back], printed_kinds(job, page)


def printed_kinds(job, page):
    found = json.loads(job.answer[1])
    how = "of a whole page" if len(page) == SIZE else "of a front"
    return {f"vmsa-print: {how}", *(f"vmsa-print: {key}" for key in found or ("nothing",))}


def forms(data):
    """How a text that is accepted is spelled."""
    if len(data) == TEXT_MOST:
        return {"vmsa-build: a text as long as may be"}
    twice = []

    def joined(pairs):
        twice.append(len(pairs) > len(dict(pairs)))
        return dict(pairs)
    text = data.decode()
    whole = json.loads(text, object_pairs_hook=joined)
    segments = [value for value in whole.values() if isinstance(value, dict)]
    met = {"a key twice": any(twice), "a segment without a part": any(0 < len(one) < len(PARTS) for one in segments),
           "an empty segment": {} in segments, "no other bytes": whole.get(OTHER) == [],
           **{form: re.search(pattern, text) for form, pattern in FORMS.items()}}
    keys = {*whole, *(part for one in segments for part in one), *(form for form, is_met in met.items() if is_met)}
    return {f"vmsa-build: {key}" for key in keys}


# ELF files behind lists

def pair_jobs(number, text, file, mask):
    """A list is built with an ELF file, and then the image may be listed and measured."""
    out, elf = PAIR_OUTS[number % len(PAIR_OUTS)], HUGE if isinstance(file, Huge) else ELF
    *want, image = elves.built(text, read, file, mask)
    files = {OUT: BEFORE[number % len(BEFORE)], LIST: text}
    if elf == ELF:
        files[ELF] = file
    if out in FILES:
        files[out] = FILES[out]
    job = Job(["build-elf", LIST, elf, str(mask), out], files, tuple(want), image and out, image)
    if image is None:
        is_later = job.answer[0] == 1 and " at 0: " not in job.answer[2]
        return [job], kind_of(job) | ({"build-elf: elf refused behind another header"} if is_later else set())
    met, pages = image_kinds(image, file)
    met |= {f"build-elf: to {out}", f"build-elf: mask of {bits_of(mask)} bits"}
    further = read_back(image) if number % READ_BACK == 0 and pages <= FEW_PAGES else []
    done = (" ".join([job.words[0], *job.words[4:]]) for job in further if job.answer[0] == 0)
    return [job, *further], met | set(done)


def bits_of(mask):
    return [name for name, least in MASKS.items() if mask.bit_count() >= least][-1]


def read_back(image):
    """The jobs that list an image, and measure it for each platform with the option and without."""
    fault = first_fault(image)
    measuring = [f"measure {number}" for number in range(len(platforms(image)))]
    return [Job(words(command, OUT), {OUT: image}, answer(command, image, fault), None, None)
            for command in ("print", *measuring, *(f"{measure} {OPTION}" for measure in measuring))]


def segment_kinds(file, segments, pages):
    """How the segments of a file lie."""
    in_order = sorted((address, address + in_memory) for _, address, _, in_memory in segments)
    between = [(first[1], second[0]) for first, second in zip(in_order, in_order[1:])]
    met = (in_order != [(address, address + in_memory) for _, address, _, in_memory in segments],
           any(end == start for end, start in between),
           any((end - 1) // PAGE == start // PAGE for end, start in between),
           any(end < start for end, start in between),
           any(in_file == 0 for _, _, in_file, _ in segments), in_order[-1][1] == ADDRESS_LIMIT,
           len(segments) == SEGMENT_LIMIT, elves.number(file, 56, 2) > len(segments),
           any(offset < elves.number(file, 32, 8) for offset, _, in_file, _ in segments if in_file))
    most = {MOST_PAGES} if len(pages) == PAGE_LIMIT else set()
    return most | {f"build-elf: segments {what}" for what, is_met in zip(SEGMENTS, met) if is_met}


def image_kinds(image, file):
    """What an image with the pages of a file meets, and how many pages it names: many, where it isn't looked at."""
    (segments, pages), _ = judged(file)
    kinds = segment_kinds(file, segments, pages) | {f"build-elf: version {fixed(image).version}"}
    if fixed(image).size > MANY_HEADERS:
        return kinds, PAGES_MOST
    found, before = headers(image), Before()
    for header in found:
        before.add(header)
    offsets = [header.fields.offset for header in found if header.name in ("Area", "Page", "Context")]
    filled, others = [offset for offset in offsets[-len(pages):] if offset], offsets[:-len(pages)]
    met = (filled, len(filled) < len(pages), any(not any(image[offset:offset + PAGE]) for offset in filled),
           len(set(filled)) < len(filled), set(filled) & set(others), before.pages == PAGES_MOST)
    return kinds | {f"build-elf: {what}" for what, is_met in zip(IMAGES, met) if is_met}, before.pages
