#!/usr/bin/env -S python3 -B
"""The program takes the words that docs/PROGRAM.md lists, and no others.

Each row of words is run in a folder where a small image with three platforms lies under several names, one for SEV and
SEV-ES and a list of one platform under others, and a host description, a VMSA page, its text and an ELF file under
others again, and so does an image with an ID block. What `make` writes is maker.py's image. The usage text is read from
the page; it has a line for each of FORMS, and then those of ON_P. Ends with 77 where the program isn't built.
"""
import os
import sys
import tempfile

import changes
import elves
import images
import reader
import vmsas
from answers import SEV_COMMANDS, answer
from elf_cases import THREE
from loader import load, sev_load
from maker import made
from program import ROOT, Program, is_built, usage
from random_lists import TOP
from vmsa_cases import RESET, RESET_TEXT

FORMS = ("build LIST OUT", "print FILE", "measure FILE --platform P [--native-zero]",
         "load FILE HOST --platform P [--native-zero] [--image OUT]", "make N OUT", "sev-measure FILE --platform P",
         "sev-load FILE HOST --platform P", "vmsa-build JSON OUT", "vmsa-print FILE", "build-elf LIST ELF MASK OUT",
         "strip FILE OUT --platform P", "join FILE FILE OUT", "seal FILE OUT --platform P [--native-zero]")
ON_P = ["P is snp, tdx or a platform number", "P of sev-measure and sev-load is sev, sev_es or a platform number"]
PLATFORMS = ((1, 0), (2, 3), (4, 2))           # mask and platform type: native, tdx, snp
IMAGE = images.image_of(images.row([*(images.platform(*one) for one in PLATFORMS), images.page(0x1000, mask=6)]))
NAMES = ("image", "-x", "measure", "print", "snp")      # the image's, all the same
# One page for SEV and SEV-ES, and a context for SEV-ES alone; the second SEV platform counts for a page more.
SEV_IMAGE = images.image_of(images.row([
    *(images.platform(*one) for one in ((1, 4), (2, 5), (4, 4), (8, 2))), images.page(0x1000, mask=7),
    images.context(0xFFFFFFFFF000, mask=2), images.page(0x2000, mask=4)]))
SEV_NAMES = ("sevs", "-sevs", "sev-load", "sev")        # that image's, all the same
LIST = b'{"platforms":[{"kind":"snp","mask":1}],"directives":[]}'
BUILT = images.image_of(images.platform())
LIST_NAMES = ("list", "-list", "build")                 # the list's, all the same
# words that build the list, and the file that they write
BUILDING = (("build list out", "out"), ("build build made", "made"), ("build ./-list ./-out", "-out"),
            ("build list print", "print"), ("build list list", "list"))
HOST = b'{"memory":[{"start":"0x0","bytes":"0x10000"}]}'
HOST_NAMES = ("host", "-host", "load")                  # the host description's, all the same
# words that load the image on the host, P, and whether `--native-zero` is among them
LOADED = (
    *((f"load image host --platform {wanted}", wanted, False)
      for wanted in ("snp", "tdx", "0", "1", "2", "3", "32", "4294967295")),
    *((f"load image host --platform {wanted} --native-zero", wanted, True)
      for wanted in ("snp", "tdx", "0", "1", "2", "3", "4294967295")),
    ("load image load --platform snp", "snp", False), ("load ./-x ./-host --platform tdx", "tdx", False),
    ("load measure load --platform 2 --native-zero", "2", True), ("load snp host --platform snp", "snp", False),
    # OUT isn't written where there is nothing to load.
    ("load image host --platform 0 --image new", "0", False), ("load image host --platform 3 --image new", "3", False),
    ("load image host --platform 3 --native-zero --image new", "3", True),
)
# words that load the image for SEV and SEV-ES, or the other one, on the host, and that image and P
SEV_LOADED = (
    *((f"sev-load sevs host --platform {wanted}", SEV_IMAGE, wanted)
      for wanted in ("sev", "sev_es", "0", "1", "2", "3", "4", "32", "4294967295")),
    *((f"sev-load image host --platform {wanted}", IMAGE, wanted) for wanted in ("sev", "sev_es", "0", "1", "2", "3")),
    ("sev-load sev-load load --platform sev_es", SEV_IMAGE, "sev_es"),
    ("sev-load ./-sevs ./-host --platform 2", SEV_IMAGE, "2"), ("sev-load sev host --platform sev", SEV_IMAGE, "sev"),
)
# the same of `load` with OUT, which is written; the last ones write over HOST and FILE
LOADING = (
    ("load image host --platform snp --image pages", "snp", False, "pages"),
    ("load image host --platform tdx --image pages", "tdx", False, "pages"),
    ("load image host --platform 2 --native-zero --image ./-pages", "2", True, "-pages"),
    ("load image load --platform snp --native-zero --image load", "snp", True, "load"),
    ("load image host --platform snp --image snp", "snp", False, "snp"),
    ("load image host --platform snp --image host", "snp", False, "host"),
    ("load image ./-host --platform snp --image image", "snp", False, "image"),
)
# words that make an image, of how many pages, and the file that they write; the last ones write over files of others
MAKING = (("make 4 out", 4, "out"), ("make 1 made", 1, "made"), ("make 12 ./-made", 12, "-made"),
          ("make 4 make", 4, "make"), ("make 10 4", 10, "4"), ("make 3 snp", 3, "snp"), ("make 2 list", 2, "list"),
          ("make 5 host", 5, "host"), ("make 6 image", 6, "image"))
TEXT = RESET_TEXT.encode()
TEXT_NAMES = ("json", "-json", "vmsa-build")            # the text's, all the same
PAGE_NAMES = ("page", "-page", "vmsa-print")            # the page's, which is that of the text
ELF_NAMES = ("elf", "-elf", "build-elf", "1", "0")      # the ELF file's
# words that print the page, and others that print what is no page
PRINTING = (("vmsa-print page", RESET), ("vmsa-print ./-page", RESET), ("vmsa-print vmsa-print", RESET),
            ("vmsa-print json", TEXT), ("vmsa-print image", IMAGE), ("vmsa-print elf", THREE))
# words that build the page, and the file that they write; the last one writes over JSON
PAGE_BUILDING = (("vmsa-build json out", "out"), ("vmsa-build vmsa-build made", "made"),
                 ("vmsa-build ./-json ./-out", "-out"), ("vmsa-build json page", "page"),
                 ("vmsa-build json vmsa-build", "vmsa-build"), ("vmsa-build json json", "json"))
# words that build the list with the ELF file, the mask, and the file that they write; the last ones write over ELF and
# LIST
ELF_BUILDING = (*((f"build-elf build elf {mask} out", mask, "out") for mask in (0, 1, 2, 9, 10, 4294967290, TOP)),
                ("build-elf build build-elf 1 made", 1, "made"), ("build-elf ./-list ./-elf 1 ./-out", 1, "-out"),
                ("build-elf build 1 1 2", 1, "2"), ("build-elf build 0 1 1", 1, "1"), ("build-elf build 0 0 0", 0, "0"),
                ("build-elf build elf 7 elf", 7, "elf"), ("build-elf build build-elf 1 build", 1, "build"))
# An image whose ID block counts for two SEV-SNP platforms, which have other digests, with the option others again
BLOCK = images.image_of(images.row([
    *(images.platform(*one) for one in ((1, 2), (2, 3), (4, 2), (8, 4))), images.page(0x1000, mask=5),
    images.page(0x2000, mask=4), images.id_block(mask=5)]))
BLOCK_NAMES = ("block", "-block", "strip", "join", "seal")      # that image's, all the same
# words that strip the image, P, and the file that they write; the last one writes over FILE
STRIPPING = (
    *((f"strip block out --platform {wanted}", wanted, "out") for wanted in ("snp", "tdx", "0", "1", "2", "3")),
    ("strip strip made --platform snp", "snp", "made"), ("strip ./-block ./-out --platform 2", "2", "-out"),
    ("strip join snp --platform tdx", "tdx", "snp"), ("strip seal 0 --platform 0", "0", "0"),
    ("strip strip strip --platform 3", "3", "strip"))
# words that join two images, these images, and the file that they write; the last ones write over the files read
JOINING = (
    ("join block sevs out", BLOCK, SEV_IMAGE, "out"), ("join sevs block out", SEV_IMAGE, BLOCK, "out"),
    ("join block block made", BLOCK, BLOCK, "made"), ("join join join ./-out", BLOCK, BLOCK, "-out"),
    ("join ./-block ./-sevs made", BLOCK, SEV_IMAGE, "made"), ("join seal sev snp", BLOCK, SEV_IMAGE, "snp"),
    ("join sev-load join sev-load", SEV_IMAGE, BLOCK, "sev-load"), ("join sev join join", SEV_IMAGE, BLOCK, "join"))
# words that seal the image, P and whether `--native-zero` is among them, and the file that they write; the last one
# writes over FILE
SEALING = (
    *((f"seal block out --platform {wanted}", wanted, False, "out") for wanted in ("snp", "0", "2")),
    *((f"seal block out --platform {wanted} --native-zero", wanted, True, "out") for wanted in ("snp", "0", "2")),
    ("seal ./-block ./-out --platform 2 --native-zero", "2", True, "-out"),
    ("seal seal made --platform 2", "2", False, "made"), ("seal ./-block snp --platform snp", "snp", False, "snp"),
    ("seal seal seal --platform snp --native-zero", "snp", True, "seal"))
# words that ask for what the image hasn't got
NOT_THERE = (
    *((f"strip block new --platform {wanted}", f"no platform {wanted}") for wanted in ("4", "32", "4294967295")),
    ("strip sevs new --platform tdx", "no platform tdx"),
    *((f"seal block new --platform {wanted}{option}", error) for option in ("", " --native-zero")
      for wanted, error in (("4", "no platform 4"), ("4294967295", "no platform 4294967295"), ("3", "no seal for sev"),
                            ("1", "no seal for tdx"), ("tdx", "no seal for tdx"))),
    ("seal sevs new --platform 1", "no seal for sev_es"), ("seal image new --platform 0", "no seal for native"),
    ("seal image new --platform snp", "no id block"), ("seal sevs new --platform 3 --native-zero", "no id block"))
# words that mean a job, and the command that it is
TAKEN = (
    ("print image", "print"), ("measure image --platform snp", "measure snp"),
    ("measure image --platform tdx", "measure tdx"), ("measure image --platform 0", "measure 0"),
    ("measure image --platform 1", "measure 1"), ("measure image --platform 2", "measure 2"),
    ("measure image --platform 3", "measure 3"), ("measure image --platform 32", "measure 32"),
    ("measure image --platform 4294967295", "measure 4294967295"),
    ("print measure", "print"), ("print ./-x", "print"), ("measure print --platform 1", "measure 1"),
    ("print snp", "print"),
    *((f"measure image --platform {wanted} --native-zero", f"measure {wanted} --native-zero")
      for wanted in ("snp", "tdx", "0", "1", "2", "3", "4294967295")),
    ("measure measure --platform snp --native-zero", "measure snp --native-zero"),
    ("measure ./-x --platform snp --native-zero", "measure snp --native-zero"),
    *((command.replace(" ", " image --platform "), command) for command in SEV_COMMANDS),
    ("sev-measure ./-x --platform sev", "sev-measure sev"),
    ("sev-measure print --platform 4294967295", "sev-measure 4294967295"),
)
# words that are no P, but for the commands on SEV and SEV-ES platforms
NO_P = ("native", "vsm", "SNP", "Snp", "snpx", "sn", "snp,tdx", "TDX", "sev", "sev_es", "sev-es", "00", "01", "+0",
        "+1", "-1", "-0", "0x0", "0x1", "1.0", "1e0", "1_0", "1a", "4294967296", "18446744073709551616",
        "18446744073709551617", "04294967295", "\u0661", "--", "-")
# words that are hardly `join`, and others that are hardly `strip` or `seal`
NO_PAIR = (
    "join", "join block", "join block sevs", "join block new", "join block sevs new new", "join block sevs sevs new",
    "join -block sevs new", "join block -sevs new", "join block sevs -new", "join - sevs new", "join block - new",
    "join block sevs -", "join -- block sevs new", "join block -- sevs new", "join block sevs -- new",
    "join block sevs new --", "join block sevs --", "-- join block sevs new", "join --help", "join block sevs --help",
    "join block sevs new --help", "join block sevs new --platform snp", "join block sevs new --platform 0",
    "join --platform snp block sevs new", "join block sevs --platform snp new", "join block --platform snp sevs new",
    "join block sevs --platform snp", "join block sevs new --native-zero", "join block sevs --native-zero new",
    "join --native-zero block sevs new", "join block sevs --native-zero", "join block sevs new --image new",
    "join block sevs --image new", "Join block sevs new", "JOIN block sevs new", "joi block sevs new",
    "joins block sevs new", "--join block sevs new", "-join block sevs new", "joined block sevs new",
    "block join sevs new", "block sevs join new", "block sevs new join", "join join block sevs new",
    "build block sevs new", "print block sevs new", "strip block sevs new", "seal block sevs new")
NO_CHANGE = tuple(text for name in ("strip", "seal") for text in (
    name, f"{name} block", f"{name} block new", f"{name} block new --platform", f"{name} block --platform snp",
    f"{name} block new snp", f"{name} --platform snp", f"{name} block new new --platform snp",
    f"{name} block block new --platform snp", f"{name} block new --platform snp snp",
    f"{name} block new --platform snp new", f"{name} block new --platform snp tdx",
    f"{name} block new --platform snp --platform snp", f"{name} block new --platform snp --platform tdx",
    f"{name} --platform snp block new", f"{name} block --platform snp new", f"--platform snp {name} block new",
    f"{name} -block new --platform snp", f"{name} block -new --platform snp", f"{name} - new --platform snp",
    f"{name} block - --platform snp", f"{name} -- block new --platform snp", f"{name} block -- new --platform snp",
    f"{name} block new -- --platform snp", f"{name} block new --platform -- snp", f"{name} block new --platform snp --",
    f"-- {name} block new --platform snp", f"{name} --help", f"{name} block new --help",
    f"{name} block new --platform snp --help", f"{name} block new --platform=snp", f"{name} block new -platform snp",
    f"{name} block new --Platform snp", f"{name} block new -p snp", f"{name} block new --platforms snp",
    f"{name} block new --platform snp --image new", f"{name} block --image new --platform snp",
    f"{name} block --platform snp --image new", f"{name} block new --native-zero",
    f"{name} block new --native-zero --platform snp", f"{name} --native-zero block new --platform snp",
    f"{name} block --native-zero new --platform snp", f"--native-zero {name} block new --platform snp",
    f"{name} block new --platform --native-zero", f"{name} block new --platform --native-zero snp",
    f"{name} block new --platform snp --native-zero --native-zero",
    f"{name} block new --native-zero --platform snp --native-zero",
    f"{name} block new --platform snp --native-zero snp", f"{name} block new --platform snp --native-zero new",
    f"{name} block new --platform snp --native-zero --platform snp",
    f"{name} block new --platform snp --native-zero --",
    f"{name} block new --platform snp -- --native-zero", f"{name} block new --platform snp tdx --native-zero",
    f"{name} block new --platform snp --native-zero=true", f"{name} block new --platform snp --native-zero=",
    f"{name} block new --platform snp --native_zero", f"{name} block new --platform snp --native-zeros",
    f"{name} block new --platform snp --native", f"{name} block new --platform snp -native-zero",
    f"{name} block new --platform snp native-zero", f"{name} block new --platform snp --NATIVE-ZERO",
    f"{name} block new --platform snp --native-zero --image new",
    f"{name.capitalize()} block new --platform snp", f"{name.upper()} block new --platform snp",
    f"{name[:-1]} block new --platform snp", f"{name}s block new --platform snp", f"--{name} block new --platform snp",
    f"{name}-image block new --platform snp", f"block {name} new --platform snp", f"block new {name} --platform snp",
    f"block new --platform snp {name}", f"{name} {name} block new --platform snp",
    *(f"{name} block new --platform {wanted}" for wanted in NO_P),
)) + ("strip block new --platform snp --native-zero", "strip block new --platform 0 --native-zero",
      "strip seal block new --platform snp", "seal strip block new --platform snp", "build block new --platform snp",
      "sealed block new --platform snp", "stripped block new --platform snp", "print block new --platform snp")
# words that mean none
REFUSED = (
    "", "print", "measure", "help", "--help", "-h", "--version", "--", "image", "PRINT image", "prin image",
    "print image image", "print image --platform snp", "print -x", "print --", "print -- image", "-- print image",
    "image print", "print --help",
    "build", "build list", "build list new new", "build list -new", "build -list new", "build -- list new",
    "build list --", "build list new --platform snp", "build list --platform snp", "Build list new", "list build new",
    "build --help", "build --list new", "buil list new",
    "measure image", "measure image --platform", "measure image snp", "measure image -p snp",
    "measure --platform snp image", "--platform snp measure image", "measure image --platform=snp",
    "measure -x --platform snp", "measure image --platform snp --platform snp", "measure image --platform snp snp",
    "measure image --Platform snp", "measure image --platform SNP", "measure image --platform sev",
    "measure image --platform native", "measure image --platform snpx", "measure image --platform -1",
    "measure image --platform +1", "measure image --platform 01", "measure image --platform 00",
    "measure image --platform 0x1", "measure image --platform 1.0", "measure image --platform 1a",
    "measure image --platform 4294967296", "measure image --platform 99999999999999999999999999",
    "measure image --platform \u0661",
    "measure image --native-zero", "measure image --native-zero --platform snp",
    "measure --native-zero image --platform snp", "--native-zero measure image --platform snp",
    "measure image --platform --native-zero", "measure image --platform --native-zero snp",
    "measure --platform snp image --native-zero", "measure image snp --native-zero",
    "measure --native-zero --platform snp", "measure image --platform snp --native-zero --native-zero",
    "measure image --native-zero --platform snp --native-zero",
    "measure image --platform snp --native-zero snp", "measure image --platform snp --native-zero true",
    "measure image --platform snp --native-zero --platform snp", "measure image --platform snp --native-zero --",
    "measure image --platform snp -- --native-zero", "measure image --platform snp tdx --native-zero",
    "measure image --platform snp --native-zero=true", "measure image --platform snp --native-zero=",
    "measure image --platform snp --native_zero", "measure image --platform snp --native-zeros",
    "measure image --platform snp --native-zer", "measure image --platform snp --native",
    "measure image --platform snp --Native-zero", "measure image --platform snp --NATIVE-ZERO",
    "measure image --platform snp -native-zero", "measure image --platform snp native-zero",
    "measure image --platform snp ---native-zero", "measure image --platform snp --zero-native",
    "measure image --platform snp --no-native-zero", "measure image --platform snp -n",
    "measure image --platform sev --native-zero", "measure image --platform 01 --native-zero",
    "measure image --platform=snp --native-zero", "measure -x --platform snp --native-zero",
    "print image --native-zero", "print --native-zero image", "print --native-zero", "--native-zero print image",
    "build list new --native-zero", "build --native-zero list new", "build list --native-zero", "--native-zero",
    "load", "load image", "load image host", "load image host --platform", "load image host snp", "load --help",
    "load image --platform snp", "load host --platform snp", "load image host image --platform snp",
    "load image host host --platform snp", "load --platform snp image host", "load image --platform snp host",
    "--platform snp load image host", "load -x host --platform snp", "load image -host --platform snp",
    "load -- image host --platform snp", "load image host -- --platform snp", "load image host --platform=snp",
    "load image host -p snp", "load image host --platform SNP", "load image host --platform sev",
    "load image host --platform 01", "load image host --platform -1", "load image host --platform 4294967296",
    "load image host --platform snp snp", "load image host --platform snp --platform snp",
    "load image host --platform snp new", "load image host --platform snp --", "Load image host --platform snp",
    "loads image host --platform snp", "loa image host --platform snp", "image load host --platform snp",
    "load image host --platform --native-zero", "load image host --native-zero --platform snp",
    "load --native-zero image host --platform snp", "load image host --native-zero",
    "load image host --platform snp --native-zero --native-zero", "load image host --platform snp --native-zero new",
    "load image host --platform snp --native-zero=true", "load image host --platform snp --native-zero --",
    "load image host --platform snp --image", "load image host --platform snp --image -new",
    "load image host --platform snp --image --", "load image host --platform snp --image -- new",
    "load image host --platform snp --image --native-zero", "load image host --platform snp --image --image",
    "load image host --platform snp --image new --native-zero", "load image host --platform snp --image new new",
    "load image host --platform snp --image new --image new", "load image host --platform snp --image new --",
    "load image host --platform snp --image=new", "load image host --platform snp --images new",
    "load image host --platform snp --imag new", "load image host --platform snp --Image new",
    "load image host --platform snp -image new", "load image host --platform snp image new",
    "load image host --platform snp -i new", "load image host --platform snp -o new",
    "load image host --platform snp --native-zero --image", "load image host --platform snp --native-zero --image -new",
    "load image host --platform snp --native-zero --image new --native-zero",
    "load image host --platform snp --native-zero --image new --image new",
    "load image host --platform snp --native-zero --native-zero --image new",
    "load image host --image new --platform snp", "load --image new image host --platform snp",
    "--image new load image host --platform snp", "load image host --image new",
    "load image --image new --platform snp",
    "load image host --platform --image new", "load image host --platform 01 --image new",
    "measure image --platform snp --image new", "measure image --platform snp --native-zero --image new",
    "measure image host --platform snp", "print image --image new", "print image host", "build list new --image new",
    "build list --image new", "--image new",
    "make", "make 4", "make new", "make new 4", "make new new", "make 4 new new", "make 4 4 new", "make 4 new 4",
    "make 0 new", "make 00 new", "make 04 new", "make +4 new", "make -4 new", "make -0 new", "make 100001 new",
    "make 1000000 new", "make 4294967296 new", "make 4294967297 new", "make 18446744073709551617 new",
    "make 99999999999999999999999999 new", "make 4.0 new", "make 4a new", "make a4 new", "make 0x4 new", "make 4e0 new",
    "make 1,000 new", "make 1_000 new", "make \u0664 new", "make four new", "make list new", "make 4 -new", "make 4 --",
    "make 4 -- new", "make -- 4 new", "-- make 4 new", "make --help", "make 4 --help", "make --pages 4 new",
    "make 4 --image new", "make 4 new --native-zero", "make 4 --native-zero", "make --native-zero 4 new",
    "make 4 new --platform snp", "make 4 --platform snp", "make 4 new --image pages", "make 4 new --native-zero new",
    "Make 4 new", "MAKE 4 new", "mak 4 new", "makes 4 new", "--make 4 new", "4 make new", "4 new make", "new 4 make",
    "sev-measure", "sev-measure image", "sev-measure image --platform", "sev-measure image sev",
    "sev-measure --platform sev", "sev-measure --platform sev image", "sev-measure image image --platform sev",
    "sev-measure image --platform sev sev", "sev-measure image --platform sev image",
    "sev-measure image --platform sev --platform sev", "sev-measure image --platform=sev",
    "sev-measure image --Platform sev", "sev-measure image -platform sev", "sev-measure image -p sev",
    "sev-measure -- image --platform sev", "sev-measure image -- --platform sev", "sev-measure image --platform -- sev",
    "sev-measure image --platform sev --", "-- sev-measure image --platform sev", "sev-measure -x --platform sev",
    "sev-measure - --platform sev", "sev-measure --help", "sev-measure image --help",
    "sev-measure image --platform sev --help", "sev-measure image --platform sev --native-zero",
    "sev-measure image --native-zero --platform sev", "sev-measure image --platform sev --image new",
    "sev-measure image host --platform sev", "sev-measure list host --platform sev",
    *(f"sev-measure image --platform {wanted}" for wanted in (
        "snp", "tdx", "native", "vsm", "SEV", "Sev", "SEV_ES", "sev-es", "seves", "sev_es_", "sev_", "sev_e", "se",
        "sev,sev_es", "00", "01", "+0", "+1", "-1", "-0", "0x0", "0x1", "1.0", "1e0", "1_0", "4294967296",
        "18446744073709551616", "18446744073709551617", "04294967295", "\u0661", "--", "-")),
    "measure image --platform sev", "measure image --platform sev_es", "load image host --platform sev",
    "load image host --platform sev_es", "sev_measure image --platform sev", "sevmeasure image --platform sev",
    "sev measure image --platform sev", "measure sev image --platform sev", "measure-sev image --platform sev",
    "Sev-measure image --platform sev", "SEV-MEASURE image --platform sev", "sev-measur image --platform sev",
    "sev-measures image --platform sev", "--sev-measure image --platform sev", "sev image --platform sev",
    "image sev-measure --platform sev", "image --platform sev sev-measure",
    "sev-load", "sev-load sevs", "sev-load sevs host", "sev-load sevs host --platform", "sev-load sevs host sev",
    "sev-load --platform sev", "sev-load sevs --platform sev", "sev-load host --platform sev",
    "sev-load sevs host sevs --platform sev", "sev-load sevs host host --platform sev",
    "sev-load sevs sevs host --platform sev", "sev-load --platform sev sevs host", "sev-load sevs --platform sev host",
    "--platform sev sev-load sevs host", "sev-load -sevs host --platform sev", "sev-load sevs -host --platform sev",
    "sev-load - host --platform sev", "sev-load sevs - --platform sev", "sev-load -- sevs host --platform sev",
    "sev-load sevs -- host --platform sev", "sev-load sevs host -- --platform sev",
    "sev-load sevs host --platform -- sev", "sev-load sevs host --platform sev --",
    "-- sev-load sevs host --platform sev", "sev-load --help",
    "sev-load sevs host --help", "sev-load sevs host --platform sev --help", "sev-load sevs host --platform=sev",
    "sev-load sevs host -p sev", "sev-load sevs host -platform sev", "sev-load sevs host --Platform sev",
    "sev-load sevs host --platform sev sev", "sev-load sevs host --platform sev host",
    "sev-load sevs host --platform sev --platform sev", "sev-load sevs host --platform sev --native-zero",
    "sev-load sevs host --native-zero --platform sev", "sev-load --native-zero sevs host --platform sev",
    "sev-load sevs host --platform sev --image new", "sev-load sevs host --image new --platform sev",
    "sev-load --image new sevs host --platform sev", "sev-load sevs host --platform sev --image",
    "sev-load sevs host --platform sev --native-zero --image new", "sev-load sevs host new --platform sev",
    *(f"sev-load sevs host --platform {wanted}" for wanted in (
        "snp", "tdx", "native", "vsm", "SEV", "Sev", "SEV_ES", "sev-es", "seves", "sev_es_", "sev_", "sev_e", "se",
        "sev,sev_es", "00", "01", "+0", "+1", "-1", "-0", "0x0", "0x1", "1.0", "1e0", "1_0", "4294967296",
        "18446744073709551616", "18446744073709551617", "04294967295", "\u0661", "--", "-")),
    "load sevs host --platform sev", "load sevs host --platform sev_es", "sev_load sevs host --platform sev",
    "sevload sevs host --platform sev", "sev load sevs host --platform sev", "load sev sevs host --platform sev",
    "load-sev sevs host --platform sev", "Sev-load sevs host --platform sev", "SEV-LOAD sevs host --platform sev",
    "sev-loa sevs host --platform sev", "sev-loads sevs host --platform sev", "--sev-load sevs host --platform sev",
    "sev sevs host --platform sev", "sevs sev-load host --platform sev", "sevs host sev-load --platform sev",
    "sevs host --platform sev sev-load", "sev-measure sevs host --platform sev_es",
    "sev-es-load sevs host --platform sev",
    "vmsa-build", "vmsa-build json", "vmsa-build json new new", "vmsa-build json json new", "vmsa-build -json new",
    "vmsa-build json -new", "vmsa-build - new", "vmsa-build json -", "vmsa-build -- json new", "vmsa-build json --",
    "vmsa-build json -- new", "-- vmsa-build json new", "vmsa-build --help", "vmsa-build json --help",
    "vmsa-build json --image new", "vmsa-build json new --image new", "vmsa-build json new --platform snp",
    "vmsa-build json new --native-zero", "vmsa-build --json json new", "Vmsa-build json new", "VMSA-BUILD json new",
    "vmsa_build json new", "vmsabuild json new", "vmsa build json new", "build-vmsa json new", "vmsa-buil json new",
    "vmsa-builds json new", "--vmsa-build json new", "vmsa json new", "json vmsa-build new", "json new vmsa-build",
    "build vmsa json new", "vmsa-print json new", "vmsa-build page",
    "vmsa-print", "vmsa-print page page", "vmsa-print page new", "vmsa-print -page", "vmsa-print -", "vmsa-print --",
    "vmsa-print -- page", "vmsa-print page --", "-- vmsa-print page", "vmsa-print --help", "vmsa-print page --help",
    "vmsa-print page --platform snp", "vmsa-print page --native-zero", "vmsa-print page --image new",
    "vmsa-print --image new page", "Vmsa-print page", "VMSA-PRINT page", "vmsa_print page", "vmsaprint page",
    "vmsa print page", "print-vmsa page", "vmsa-prin page", "vmsa-prints page", "--vmsa-print page", "vmsa page",
    "page vmsa-print", "print vmsa page",
    "build-elf", "build-elf list", "build-elf list elf", "build-elf list elf 1", "build-elf list elf new",
    "build-elf elf 1 new", "build-elf list 1 new", "build-elf list elf 1 new new", "build-elf list elf 1 1 new",
    "build-elf list elf elf 1 new", "build-elf list list elf 1 new", "build-elf list elf new 1",
    "build-elf list 1 elf new", "build-elf 1 list elf new", "build-elf list elf new new",
    *(f"build-elf list elf {mask} new" for mask in (
        "00", "01", "000", "007", "+0", "+1", "-1", "-0", "0x1", "0X1", "0b1", "1.0", "1e0", "1,0", "1_0", "1a", "a1",
        "x", "snp", "all", "4294967296", "4294967297", "8589934593", "18446744073709551616", "18446744073709551617",
        "99999999999999999999999999", "04294967295", "\u0661", "\u0967", "--", "-")),
    "build-elf -list elf 1 new", "build-elf list -elf 1 new", "build-elf list elf 1 -new", "build-elf - elf 1 new",
    "build-elf list - 1 new", "build-elf list elf 1 -", "build-elf list elf 1 --", "build-elf -- list elf 1 new",
    "build-elf list -- elf 1 new", "build-elf list elf -- 1 new", "build-elf list elf 1 -- new",
    "build-elf list elf 1 new --", "-- build-elf list elf 1 new", "build-elf --help", "build-elf list elf 1 --help",
    "build-elf list elf 1 --image new", "build-elf list elf 1 new --image new",
    "build-elf list elf 1 new --native-zero", "build-elf list elf 1 new --platform snp",
    "build-elf list elf --platform snp new", "build-elf list elf --mask 1 new", "build-elf list elf --mask=1 new",
    "build-elf list --elf elf 1 new", "Build-elf list elf 1 new",
    "BUILD-ELF list elf 1 new", "build_elf list elf 1 new", "buildelf list elf 1 new", "build elf list elf 1 new",
    "elf-build list elf 1 new", "build-el list elf 1 new", "build-elfs list elf 1 new", "build-elf64 list elf 1 new",
    "--build-elf list elf 1 new", "elf list elf 1 new", "list build-elf elf 1 new", "build list elf 1 new",
    "build list new 1", "build-elf list new",
    *NO_PAIR, *NO_CHANGE,
)
EMPTY = (["print", ""], ["measure", "", "--platform", "snp"], ["measure", "image", "", "snp"],
         ["measure", "image", "--platform", ""], ["", "image"], ["print image"],
         ["measure", "image", "--platform", "snp", ""], ["measure", "image", "--platform", "snp", "--native-zero", ""],
         ["measure", "", "--platform", "snp", "--native-zero"], ["measure", "image", "--platform", "", "--native-zero"],
         ["measure", "image", "--platform", "snp", "--native-zero "],
         ["measure", "image", "--platform", "snp --native-zero"],
         ["build", "", "new"], ["build", "list", ""], ["build list", "new"],
         ["load", "", "host", "--platform", "snp"], ["load", "image", "", "--platform", "snp"],
         ["load", "image", "host", "--platform", ""], ["load", "image", "host", "", "snp"],
         ["load", "image host", "--platform", "snp"], ["load", "image", "host", "--platform", "snp", ""],
         ["load", "image", "host", "--platform", "snp", "--image", ""],
         ["load", "image", "host", "--platform", "snp", "", "new"],
         ["load", "image", "host", "--platform", "snp", "--image new"],
         ["load", "image", "host", "--platform", "snp", "--image", "new", ""],
         ["load", "image", "host", "--platform", "snp", "--native-zero", "--image", ""],
         [b"load", b"image", b"ho\xffst", b"--platform", b"snp"],
         [b"load", b"im\xffage", b"host", b"--platform", b"snp"],
         [b"load", b"image", b"host", b"--platform", b"snp", b"--image", b"ne\xffw"],
         ["sev-load", "", "host", "--platform", "sev"], ["sev-load", "sevs", "", "--platform", "sev"],
         ["sev-load", "sevs", "host", "--platform", ""], ["sev-load", "sevs", "host", "", "sev"],
         ["sev-load", "sevs", "host", "--platform", "sev", ""], ["sev-load", "sevs host", "--platform", "sev"],
         ["sev-load", "sevs", "host", "--platform sev"], ["sev-load", "sevs", "host", "--platform", " sev"],
         ["sev-load", "sevs", "host", "--platform", "sev "], ["sev-load sevs", "host", "--platform", "sev"],
         ["", "sev-load", "sevs", "host", "--platform", "sev"], ["sev-load ", "sevs", "host", "--platform", "sev"],
         [b"sev-load", b"sevs", b"ho\xffst", b"--platform", b"sev"],
         [b"sev-load", b"se\xffvs", b"host", b"--platform", b"sev"],
         ["make", "", "new"], ["make", "4", ""], ["make", "4 ", "new"], ["make", " 4", "new"], ["make 4", "new"],
         ["make", "4 new"], ["make", "4", "new", ""], ["", "make", "4", "new"],
         ["vmsa-build", "", "new"], ["vmsa-build", "json", ""], ["vmsa-build", "json", "new", ""],
         ["vmsa-build json", "new"], ["vmsa-build", "json new"], ["vmsa-build ", "json", "new"], ["vmsa-print", ""],
         ["vmsa-print page"], ["vmsa-print", "page", ""], ["", "vmsa-print", "page"], [" vmsa-print", "page"],
         ["build-elf", "", "elf", "1", "new"], ["build-elf", "list", "", "1", "new"],
         ["build-elf", "list", "elf", "", "new"], ["build-elf", "list", "elf", "1", ""],
         ["build-elf", "list", "elf", "1", "new", ""], ["build-elf", "list", "elf", " 1", "new"],
         ["build-elf", "list", "elf", "1 ", "new"], ["build-elf", "list", "elf", "1\n", "new"],
         ["build-elf", "list", "elf", "1 new"], ["build-elf", "list elf", "1", "new"],
         ["build-elf list", "elf", "1", "new"],
         [b"vmsa-build", b"js\xffon", b"new"], [b"vmsa-build", b"json", b"ne\xffw"], [b"vmsa-print", b"pa\xffge"],
         [b"build-elf", b"li\xffst", b"elf", b"1", b"new"], [b"build-elf", b"list", b"e\xfflf", b"1", b"new"],
         [b"build-elf", b"list", b"elf", b"1\xff", b"new"], [b"build-elf", b"list", b"elf", b"1", b"ne\xffw"],
         [b"make", b"4", b"ne\xffw"], [b"make", b"4\xff", b"new"], [b"make", b"\xff", b"new"],
         [b"build", b"list", b"ne\xffw"], [b"build", b"li\xffst", b"new"], [b"print", b"im\xffage"],
         [b"measure", b"image", b"--platform", b"\xff"],
         ["sev-measure", "", "--platform", "sev"], ["sev-measure", "image", "", "sev"],
         ["sev-measure", "image", "--platform", ""], ["sev-measure", "image", "--platform", "sev", ""],
         ["sev-measure", "image", "--platform sev"], ["sev-measure image", "--platform", "sev"],
         ["sev-measure", "image", "--platform", "sev "], ["sev-measure", "image", "--platform", " 0"],
         [b"sev-measure", b"im\xffage", b"--platform", b"sev"], [b"sev-measure", b"image", b"--platform", b"se\xff"],
         [b"measure", b"image", b"--platform", b"snp", b"--native-zero\xff"],
         ["join", "", "sevs", "new"], ["join", "block", "", "new"], ["join", "block", "sevs", ""],
         ["join", "block", "sevs", "new", ""], ["", "join", "block", "sevs", "new"], ["join", "block sevs", "new"],
         ["join block", "sevs", "new"], ["join", "block", "sevs new"], ["join ", "block", "sevs", "new"],
         [b"join", b"bl\xffock", b"sevs", b"new"], [b"join", b"block", b"se\xffvs", b"new"],
         [b"join", b"block", b"sevs", b"ne\xffw"],
         *(words for name in ("strip", "seal") for words in (
             [name, "", "new", "--platform", "snp"], [name, "block", "", "--platform", "snp"],
             [name, "block", "new", "", "snp"], [name, "block", "new", "--platform", ""],
             [name, "block", "new", "--platform", "snp", ""], ["", name, "block", "new", "--platform", "snp"],
             [name, "block new", "--platform", "snp"], [name, "block", "new", "--platform snp"],
             [name, "block", "new", "--platform", "snp "], [name, "block", "new", "--platform", " 0"],
             [name, "block", "new", "--platform", "snp --native-zero"],
             [name, "block", "new", "--platform", "snp", "--native-zero "],
             [name, "block", "new", "--platform", "snp", "--native-zero", ""],
             [f"{name} block", "new", "--platform", "snp"], [f"{name} ", "block", "new", "--platform", "snp"],
             [name.encode(), b"bl\xffock", b"new", b"--platform", b"snp"],
             [name.encode(), b"block", b"ne\xffw", b"--platform", b"snp"],
             [name.encode(), b"block", b"new", b"--platform", b"sn\xff"],
             [name.encode(), b"block", b"new", b"--platform", b"snp", b"--native-zero\xff"])))
SHOWN = 100                         # bytes of a file that are printed


def wrong_lines(text):
    """Where the usage text has other lines than those of FORMS and the last two, which are on P."""
    lines = [line.strip() for line in text.removeprefix("usage: ").splitlines()]
    if lines[:-2] != [f"igvm {form}" for form in FORMS]:
        yield f"the usage text of docs/PROGRAM.md has other lines than those of {FORMS}"


def rows():
    """(words, status, output, error) of each run that writes no file."""
    for words, command in TAKEN:
        yield words.split(), answer(command, IMAGE, None)
    for words, *options in LOADED:
        yield words.split(), load(IMAGE, HOST, *options)[:3]
    for words, image, wanted in SEV_LOADED:
        yield words.split(), sev_load(image, HOST, wanted)[:3]
    for words in (*(words.split() for words in REFUSED), *EMPTY):
        yield words, (2, "", usage())
    yield ["print", "missing"], (4, "", "igvm: outside fault: shelf\n")
    for options in ([], ["--native-zero"]):
        yield ["measure", ".", "--platform", "0", *options], (4, "", "igvm: outside fault: shelf\n")
    for list_name, out in (("missing", "new"), (".", "new"), ("list", "."), ("list", "missing/new")):
        yield ["build", list_name, out], (4, "", "igvm: outside fault: shelf\n")
    for files in (["missing", "host"], [".", "host"], ["image", "missing"], ["image", "."]):
        for options in ([], ["--native-zero"], ["--image", "new"]):
            yield ["load", *files, "--platform", "snp", *options], (4, "", "igvm: outside fault: shelf\n")
    for files in (["missing", "host"], [".", "host"], ["sevs", "missing"], ["sevs", "."]):
        for wanted in ("sev", "sev_es", "2"):
            yield ["sev-load", *files, "--platform", wanted], (4, "", "igvm: outside fault: shelf\n")
    for out in (".", "missing/new"):
        yield ["load", "image", "host", "--platform", "snp", "--image", out], (4, "", "igvm: outside fault: shelf\n")
    for pages in (1, 4):
        for out in (".", "missing/new", "image/new"):
            yield ["make", str(pages), out], (4, "", "igvm: outside fault: shelf\n")
    for words in ("vmsa-build missing new", "vmsa-build . new", "vmsa-build json .", "vmsa-build json missing/new",
                  "vmsa-print missing", "vmsa-print .", "build-elf missing elf 1 new", "build-elf . image 1 new",
                  "build-elf list missing 1 new", "build-elf list . 1 new", "build-elf list elf 1 .",
                  "build-elf list elf 1 missing/new"):
        yield words.split(), (4, "", "igvm: outside fault: shelf\n")
    for words, page in PRINTING:
        yield words.split(), vmsas.printed(page)
    yield from change_rows()
    # The platform is looked up before HOST is read.
    yield ["load", "image", "missing", "--platform", "0"], (6, "", "igvm: no digest for native\n")
    yield ["sev-load", "sevs", "missing", "--platform", "3"], (6, "", "igvm: no digest for snp\n")
    yield ["sev-load", "image", "missing", "--platform", "sev"], (6, "", "igvm: no platform sev\n")
    yield ["build", "image", "new"], (7, "", "igvm: json refused\n")
    yield ["load", "image", "image", "--platform", "snp", "--image", "new"], (7, "", "igvm: json refused\n")
    yield ["sev-load", "sevs", "sevs", "--platform", "sev"], (7, "", "igvm: json refused\n")
    yield ["sev-load", "sevs", "list", "--platform", "sev_es"], (7, "", "igvm: json refused: top 0\n")
    yield ["load", "list", "host", "--platform", "snp", "--image", "new"], answer(
        "load", LIST, reader.first_fault(LIST))
    # FILE is judged before HOST is read.
    for host in ("host", "missing"):
        yield ["sev-load", "list", host, "--platform", "sev"], answer("load", LIST, reader.first_fault(LIST))
    yield ["vmsa-build", "image", "new"], (7, "", "igvm: json refused\n")
    yield ["vmsa-build", "list", "new"], (7, "", "igvm: json refused: vmsa 0\n")
    # LIST is judged before ELF is read.
    for elf in ("elf", "image", "missing"):
        yield ["build-elf", "image", elf, "1", "new"], (7, "", "igvm: json refused\n")
        yield ["build-elf", "host", elf, "1", "new"], (7, "", "igvm: json refused: top 0\n")
    yield ["build-elf", "list", "image", "1", "new"], (1, "", "igvm: elf refused at 0: magic\n")
    yield ["build-elf", "list", "host", "1", "missing/new"], (1, "", "igvm: elf refused at 0: too short\n")


def change_rows():
    """Those of `strip`, `join` and `seal`."""
    shelf, broken = (4, "", "igvm: outside fault: shelf\n"), answer("print", LIST, reader.first_fault(LIST))
    for words, error in NOT_THERE:
        yield words.split(), (6, "", f"igvm: {error}\n")
    for name, option in (("strip", []), ("seal", []), ("seal", ["--native-zero"])):
        for file, out in (("missing", "new"), (".", "new"), ("block", "."), ("block", "missing/new")):
            yield [name, file, out, "--platform", "snp", *option], shelf
        # FILE is judged before the platform is looked up, and that is done before OUT is touched.
        for wanted in ("snp", "tdx", "9"):
            yield [name, "list", "new", "--platform", wanted, *option], broken
            yield [name, "list", "missing/new", "--platform", wanted, *option], broken
        yield [name, "block", "missing/new", "--platform", "9", *option], (6, "", "igvm: no platform 9\n")
    for files in ("missing sevs new", ". sevs new", "block missing new", "block . new", "block sevs .",
                  "block sevs missing/new"):
        yield ["join", *files.split()], shelf
    # FIRST is judged before SECOND is read.
    for files in ("list sevs new", "list missing new", "list list new", "block list new", "block list missing/new"):
        yield ["join", *files.split()], broken


def writing_rows():
    """(words, the file that they write, the answer, what is written then)."""
    for words, name in BUILDING:
        yield words, name, (0, f"built {len(BUILT)} bytes\n", ""), BUILT
    for words, name in PAGE_BUILDING:
        yield words, name, (0, "built 4096 bytes\n", ""), RESET
    for words, mask, name in ELF_BUILDING:
        *want, image = elves.built(LIST, read, THREE, mask)
        yield words, name, tuple(want), image
    for words, wanted, native_zero, name in LOADING:
        loaded = load(IMAGE, HOST, wanted, native_zero)
        yield words, name, loaded[:3], loaded.pages
    for words, wanted, name in STRIPPING:
        *want, image = changes.strip(BLOCK, wanted)
        yield words, name, tuple(want), image
    for words, first, second, name in JOINING:
        *want, image = changes.join(first, second)
        yield words, name, tuple(want), image
    for words, wanted, native_zero, name in SEALING:
        *want, image = changes.seal(BLOCK, wanted, native_zero)
        yield words, name, tuple(want), image
    for words, pages, name in MAKING:
        answered = made(pages)
        yield words, name, answered[:3], answered.image


def read(name):
    """The bytes of a file, or None."""
    if not os.path.exists(name):
        return None
    with open(name, "rb") as file:
        return file.read()


def differences(folder):
    """The words that are answered otherwise, each a text, and None for the others."""
    os.chdir(folder)
    for names, content in ((NAMES, IMAGE), (SEV_NAMES, SEV_IMAGE), (LIST_NAMES, LIST), (HOST_NAMES, HOST),
                           (TEXT_NAMES, TEXT), (PAGE_NAMES, RESET), (ELF_NAMES, THREE), (BLOCK_NAMES, BLOCK)):
        for name in names:
            with open(name, "wb") as file:
                file.write(content)
    yield from wrong_lines(usage())
    program, before = Program(folder), set(os.listdir("."))
    for words, want in rows():
        got = program.run(words)
        yield None if got == want else f"{words}: the program answers {got}, expected {want}"
    others = set(os.listdir(".")) - before - {"output", "error"}
    yield f"these files were written: {others}" if others else None
    for words, name, want, content in writing_rows():
        got, written = program.run(words.split()), read(name)
        is_right = got == want and written == content
        held = "isn't there" if written is None else f"has {len(written)} bytes, {written[:SHOWN]}"
        yield None if is_right else f"{words}: the program answers {got}, expected {want}; `{name}` {held}"


def main():
    if not is_built():
        print("usage: skipped, the program isn't built")
        return 77
    with tempfile.TemporaryDirectory() as folder:
        found = list(differences(folder))
        os.chdir(ROOT)
    faults = [text for text in found if text is not None]
    for fault in faults:
        print(f"usage: {fault}")
    print(f"usage: {len(found)} rows, {len(faults)} differ")
    return 1 if faults else 0


if __name__ == "__main__":
    sys.exit(main())
