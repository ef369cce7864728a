#!/usr/bin/env -S python3 -B
"""The program does the same with VMSA pages, and with ELF files behind lists, as plain readers and a plain builder.

    further.py                        the comparison
    further.py --write NUMBER FOLDER  writes the files of the jobs of that number to FOLDER, and what OUT then holds,
                                      tells the words and the answers, and runs nothing

Texts are built, and the page is printed; pages are printed, and the text is built; lists are built with ELF files
behind them, and many of the images are listed and measured. They are those of tables, whose answers are known, and
random ones, right and wrong, the same in each run. Status, output and error are compared with vmsas.py and elves.py,
and so is what the files hold then: OUT, which mostly was there before and sometimes is a file that is read, has what is
built after status 0 and is as it was after any other, and nothing else has changed. Jobs with steps that fail one
behind the other, and words that mean no job, have the answers of a table alone. Ends with 77 where the program isn't
built; the plain ones are compared with the tables before that.
"""
import random
import sys
from collections import Counter

import elf_cases
import elves
import vmsa_cases
import vmsas
from elf_cases import THREE
from elves import TEXTS as FAULTS
from further_cases import elf_steps, refused_words, vmsa_steps, wrong_lists
from further_jobs import COMMON, RARE, kind_of, page_jobs, pair_jobs, text_jobs
from jobs import SHOWN_TEXT, Check, main
from random_elves import broken, broken_by, broken_twice
from random_lists import FILES
from random_pairs import (crowded, fitting, past_the_image, too_long_blob, too_long_file, with_file, with_list,
                          with_most_pages, with_wrong_list)
from random_vmsas import (any_text, broken_longest, broken_too_long, dense_page, long_page, longest, no_json,
                          random_page, refused_at, right, sparse_page, too_long)
from vmsas import KEYS

SEED, LEAST, FEW = 20240229, 10, 3  # how many cases have to meet each of COMMON, and each of RARE
# What makes a text, a page, or a pair of a list and an ELF file, and how many; what takes long comes first.
TEXTS = ((longest, 4), (broken_longest, 3), (too_long, 10), (broken_too_long, 3), (right, 700), (any_text, 350),
         (no_json, 250), *((refused_at(place), 32) for place in range(len(KEYS) + 1)))
PAGES = ((random_page, 200), (dense_page, 120), (sparse_page, 150), (long_page, 50))
PAIRS = ((past_the_image, 4), (too_long_file, 4), (too_long_blob, 4), (with_most_pages, 4), (crowded, 80),
         (fitting, 800), (with_file(broken_twice), 160), (with_file(broken), 160), (with_wrong_list, 400),
         *((with_file(broken_by(fault)), 30) for fault in FAULTS),
         *((with_list(text), 10) for text, _ in wrong_lists()))
MAKERS = [(jobs_of, make) for jobs_of, makers in ((pair_jobs, PAIRS), (text_jobs, TEXTS), (page_jobs, PAGES))
          for make, count in makers for _ in range(count)]
# The same from tables: what is given, or a job that is told whole
KNOWN = [*((text_jobs, text.encode()) for text, _ in (*vmsa_cases.KNOWN, *vmsa_cases.SPELLED)),
         *((page_jobs, page) for page, _ in vmsa_cases.PRINTED),
         *((pair_jobs, case.text, case.file, case.mask) for case in elf_cases.cases())]
TOLD = [*elf_steps(), *vmsa_steps(), *refused_words()]
COUNT = len(MAKERS) + len(KNOWN) + len(TOLD)


def numbered(number):
    """The jobs of a number, and what they meet."""
    if number < len(MAKERS):
        jobs_of, make = MAKERS[number]
        given = make(random.Random(SEED + number))
        return jobs_of(number, *(given if isinstance(given, tuple) else (given,)))
    if number < len(MAKERS) + len(KNOWN):
        jobs_of, *given = KNOWN[number - len(MAKERS)]
        return jobs_of(number, *given)
    job = TOLD[number - len(MAKERS) - len(KNOWN)]
    return [job], kind_of(job)


def wrong_answers():
    """Where the plain readers and the plain builder answer otherwise than the tables."""
    for text, found in (*vmsa_cases.KNOWN, *vmsa_cases.SPELLED):
        want, got = (7, "", f"igvm: json refused{found}\n", None), vmsas.built(text.encode())
        if got != ((0, "built 4096 bytes\n", "", found) if isinstance(found, bytes) else want):
            yield f"{text[:SHOWN_TEXT]}: vmsas.py answers {got[:3]}"
    for page, text in vmsa_cases.PRINTED:
        if vmsas.printed(page) != (0, text, ""):
            yield f"the page of {text}: vmsas.py prints {vmsas.printed(page)}"
    pairs = [*elf_cases.cases(), *(elf_cases.Case(text, THREE, 1, answer, None) for text, answer in wrong_lists())]
    for at, case in enumerate(pairs):
        got = elves.built(case.text, FILES.get, case.file, case.mask)
        if got != (*case.answer, case.image):
            yield f"pair {at}: elves.py answers {got[:3]}, the table {case.answer}, or makes another image"


def counts():
    kinds = Counter(jobs_of for jobs_of, *_ in (*MAKERS, *KNOWN))
    return f"{kinds[text_jobs]} texts, {kinds[page_jobs]} pages, {kinds[pair_jobs]} pairs, {len(TOLD)} jobs that are told"


if __name__ == "__main__":
    sys.exit(main(Check("further", COUNT, numbered, wrong_answers, counts, ((COMMON, LEAST), (RARE, FEW))),
                  "the program and plain ones on VMSA pages and on ELF files"))
