"""Jobs of `vmsa-build`, `vmsa-print` and `build-elf` whose answers are known: steps that fail, and words of no job.

And lists that are refused in one way each, to stand before any ELF file, with the answers.
"""
import json
from itertools import product

from components import LIST_MOST
from elf_cases import THREE, THREE_PAGES, elf, list_of, made, of_pages
from jobs import FOLDER, NEW, NO_FILES, OLD, OUT, OUTS, SHELF, Job, ended, told
from list_cases import HUGE, LEAST, ONE, area, insert, named, pages
from program import usage
from random_lists import AREA_MOST, TOP
from records import PAGE
from vmsa_cases import RESET, RESET_TEXT

JSON, FILE, LIST, ELF = (f"{FOLDER}/{name}" for name in ("json", "page", "list", "elf"))


# Lists

def rule(where, text):
    return ended(7, f"json refused: {where}: {text}")


def platforms(*masks):
    """The text of a list of platforms of these masks."""
    return json.dumps({"platforms": [{**ONE, "mask": mask} for mask in masks], "directives": []}).encode()


def wrong_forms():
    """(a list's text, its answer) of texts that are none, or have an entry of another form."""
    yield from ((text, ended(7, "json refused")) for text in (b"", b"[", LEAST + b"x"))
    yield from ((text, ended(7, "json refused: top 0")) for text in (b"[]", b"{}", list_of(version=3)))
    yield json.dumps({"platforms": [ONE, {}], "directives": []}).encode(), ended(7, "json refused: platforms 1")
    yield list_of(policies=[{"mask": 1}]), ended(7, "json refused: policies 0")
    yield list_of({"do": "elf", "file": "byte"}), ended(7, "json refused: directives 0")
    yield list_of(pages(0, 1), pages(0, 1, file="byte")), ended(7, "json refused: directives 1")


def broken_rules():
    """The same of lists that break a rule, each rule once or twice."""
    full, wrapping = area(0, AREA_MOST), 2 ** 64 - PAGE
    yield platforms(1, 1), rule("platforms 1", "mask")
    yield platforms(3), rule("platforms 0", "mask")
    yield platforms(), rule("platforms 0", "no platform")
    yield list_of(pages(0x800, 1)), rule("directives 0", "alignment")
    yield list_of(area(0), insert(0x800, 0)), rule("directives 1", "alignment")
    yield list_of(*(area(index) for index in range(257))), rule("directives 256", "too many areas")
    yield list_of(area(7), area(7)), rule("directives 1", "area repeated")
    yield list_of(insert(0, 0)), rule("directives 0", "area unknown")
    yield list_of(area(0, 0)), rule("directives 0", "area size")
    yield list_of(area(0, AREA_MOST + PAGE)), rule("directives 0", "area size")
    yield list_of(pages(wrapping, 2)), rule("directives 0", "address wraps")
    yield list_of(area(0, 2 * PAGE), insert(wrapping, 0)), rule("directives 1", "address wraps")
    yield list_of(pages(0, 8192, large=True), pages(0, 1)), rule("directives 1", "too many pages")
    yield list_of(full, *[insert(0, 0)] * 257), rule("directives 257", "too many pages")
    yield list_of(pages(0, 1, large=True, kind="secrets")), rule("directives 0", "data type")
    yield list_of(area(0, file="page and one")), rule("directives 0", "length")
    context = {"do": "context", "mask": 1, "gpa": "0x0", "vp": 0, "file": "two pages"}
    yield list_of(context), rule("directives 0", "length")


def wrong_lists():
    """The same of all these, and of lists that name what can't be read or is too much."""
    yield from wrong_forms()
    yield from broken_rules()
    yield list_of(named(0, "missing")), SHELF
    yield list_of(named(0, "folder"), area(0, 1)), SHELF
    yield list_of(area(0, TOP, file="byte")), ended(8, "limit: data")
    yield LEAST.ljust(LIST_MOST + 1), ended(8, "limit: list")
    yield b"[".ljust(LIST_MOST + 1), ended(8, "limit: list")


# The order of steps: a file's name, its bytes where it is there, and its answer where it is refused

FULL = list_of(pages(0, 8192, large=True))
LISTS = (*NO_FILES, (HUGE, None, ended(8, "limit: list")),
         *((LIST, text, answer) for text, answer in (*wrong_forms(), *broken_rules()) if len(text) < 200),
         (LIST, list_of(named(0, "missing")), SHELF),
         (LIST, list_of(area(0, TOP, file="byte")), ended(8, "limit: data")), (LIST, LEAST, None), (LIST, FULL, None))
ELFS = (*NO_FILES, (HUGE, None, ended(8, "limit: elf")),
        *((ELF, file, ended(1, f"elf refused at {item}: {text}")) for file, item, text in (
            (b"", 0, "too short"), (LEAST.ljust(64), 0, "magic"), (elf([(1, 0, 0, 0, 1)], _18=183), 0, "machine"),
            (elf([(6, 0, 0, 0, 1), (1, 1020, 0, 5, 5)]), 1, "outside"), (elf([]), 0, "empty"),
            (elf([(1, 0, 0, 0, 1 << 51)]), 0, "too large"))),
        (ELF, THREE, None))
TEXTS = (*NO_FILES, (HUGE, None, ended(8, "limit: vmsa")), (JSON, b"{", ended(7, "json refused")),
         (JSON, b"[]", ended(7, "json refused: vmsa 0")), (JSON, b'{"rip":0}', ended(7, "json refused: vmsa 18")),
         (JSON, RESET_TEXT.encode(), None))
FILES = (*NO_FILES, (HUGE, None, ended(8, "limit: vmsa")), (FILE, bytes(PAGE + 1), ended(8, "limit: vmsa")))


def with_old(**files):
    return {OUT: OLD, **{f"{FOLDER}/{name}": content for name, content in files.items() if content is not None}}


def elf_steps():
    """`build-elf` with every list, every ELF file and every OUT."""
    _, image = made(of_pages(THREE_PAGES, 1, 1))
    for (text_name, text, *answers), (elf_name, file, elf_answer), (out, out_answer) in product(LISTS, ELFS, OUTS):
        answers += [elf_answer, ended(8, "limit: pages") if text == FULL else None, out_answer]
        yield told(["build-elf", text_name, elf_name, "1", out], with_old(list=text, elf=file), answers, out, image)


def vmsa_steps():
    """`vmsa-build` with every text and every OUT, and `vmsa-print` with what it refuses."""
    for (name, text, text_answer), (out, out_answer) in product(TEXTS, OUTS):
        yield told(["vmsa-build", name, out], with_old(json=text), (text_answer, out_answer), out, RESET)
    for name, file, answer in FILES:
        yield Job(["vmsa-print", name], with_old(page=file), answer, None, None)


# Words

MASKS = ("", "00", "01", "000", "+1", "-1", "-0", "0x1", "0b1", "1.0", "1e0", "1,0", "1_0", " 1", "1 ", "1\n", "1a",
         "a1", "x", "snp", "\u0661", "4294967296", "4294967297", "18446744073709551616", "18446744073709551617",
         "9" * 40, "0" * 10)
COMMANDS = (["vmsa-build", JSON, OUT], ["vmsa-print", FILE], ["build-elf", LIST, ELF, "1", OUT])
SPELLINGS = ("", "vmsa", "elf", "build_elf", "buildelf", "Build-elf", "BUILD-ELF", "-build-elf", "--build-elf",
             "build-elf ", "build-el", "build-elfs", "elf-build", "vmsa_build", "Vmsa-build", "VMSA-PRINT",
             "vmsa_print", "vmsa-prin", "vmsa-prints", "vmsa-builds", "print-vmsa", "build-vmsa", "--help", "--")
FURTHER_WORDS = ("", "1", OUT, NEW, "-", "--", "--help", "--native-zero", "--platform", "--image")


def other_words():
    """Words that are none of the three jobs'; words of others aren't among them."""
    yield from (["build-elf", LIST, ELF, mask, OUT] for mask in MASKS)
    for words in COMMANDS:
        yield from (words[:count] for count in range(len(words)))
        for at in range(1, len(words) + 1):
            yield from ([*words[:at], word, *words[at:]] for word in FURTHER_WORDS)
        for at in range(1, len(words)):
            yield from ([*words[:at], word, *words[at + 1:]] for word in ("", "-", "--", "-x", "--image", "-" + OUT))
        yield from ([spelling, *words[1:]] for spelling in SPELLINGS)
        yield [*words, "--platform", "snp"]
        yield [" ".join(words)]
    for order in ((LIST, "1", ELF, OUT), ("1", LIST, ELF, OUT), (LIST, ELF, OUT, "1"), (OUT, LIST, ELF, NEW)):
        yield ["build-elf", *order]


def refused_words():
    files = {JSON: RESET_TEXT.encode(), FILE: RESET, LIST: LEAST, ELF: THREE, OUT: OLD}
    for words in other_words():
        yield Job(words, files, (2, "", usage()), None, None)
