#!/usr/bin/env -S python3 -B
"""The program strips, joins and seals images as plain Python does, and what it made is launched as it was before.

    operations.py                        the comparison
    operations.py --write NUMBER FOLDER  writes the files of the jobs of that number to FOLDER, and what OUT then holds,
                                         tells the words and the answers, and runs nothing

The images are those of a table, whose answers are known, and random ones, right and wrong, the same in each run; those
of a pair are made to share or to clash. Status, output and error are compared with changes.py, and so is what the files
hold then: OUT, which mostly was there before and sometimes is a file that is read, has the image after status 0 and is
as it was after any other, and nothing else has changed. What was made is measured and loaded, and compared with the
plain readers; what was joined is stripped again, and has the digest that its part had. Jobs with steps that fail one
behind the other have the answers of a table alone. Ends with 77 where the program isn't built; the plain ones are
compared with the table before that.
"""
import random
import sys
from collections import Counter

from jobs import Check, called, main
from operation_cases import cases, steps
from operation_jobs import join_jobs, plain, seal_jobs, strip_jobs
from operation_kinds import COMMON, RARE
from random_operations import (broken_one, broken_pair, fitting_pair, many_areas, many_pages, many_platforms, one,
                               one_of_many, one_to_seal, pair, past_two, too_long_pair, too_much, too_much_pair,
                               with_itself)

SEED, LEAST, FEW = 20240418, 20, 3  # how many cases have to meet each of COMMON, and each of RARE
# What makes two images, or one, with a host, and how many; what takes long comes first.
PAIRS = ((too_much_pair, 20), (too_long_pair, 8), (past_two, 60), (many_pages, 60), (many_areas, 100),
         (many_platforms, 180), (fitting_pair, 800), (pair, 500), (with_itself, 120), (broken_pair, 160))
STRIPPED = ((too_much, 8), (one, 360), (one_of_many, 120), (broken_one, 60))
SEALED = ((too_much, 8), (one_to_seal, 360), (one, 80), (one_of_many, 300), (broken_one, 60))
MAKERS = [(jobs_of, make) for jobs_of, makers in ((join_jobs, PAIRS), (strip_jobs, STRIPPED), (seal_jobs, SEALED))
          for make, count in makers for _ in range(count)]
TOLD = [*cases(), *steps()]
COUNT = len(TOLD) + len(MAKERS)


def numbered(number):
    """The jobs of a number, and what they meet."""
    if number < len(TOLD):
        return [TOLD[number]], set()
    jobs_of, make = MAKERS[number - len(TOLD)]
    chance = random.Random(SEED + number)
    return jobs_of(chance, *make(chance))


def wrong_answers():
    """Where the plain ones answer otherwise than the table, or make another image."""
    for number, job in enumerate(cases()):
        *got, image = plain(job)
        if tuple(got) != job.answer or job.written not in (None, image):
            yield f"case {number}: {called(job.words)}: changes.py answers {got}, or makes another image"


def counts():
    kinds = Counter(jobs_of for jobs_of, _ in MAKERS)
    return (f"{kinds[join_jobs]} pairs, {kinds[strip_jobs]} images to strip, {kinds[seal_jobs]} to seal, "
            f"{len(TOLD)} jobs that are told")


if __name__ == "__main__":
    sys.exit(main(Check("operations", COUNT, numbered, wrong_answers, counts, ((COMMON, LEAST), (RARE, FEW))),
                  "the program and plain ones on strip, join and seal"))
