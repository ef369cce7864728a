"""Jobs of `strip`, `join` and `seal` with the answers of the plain ones, and jobs that measure and load what was made.

What docs/OPERATIONS.md says is kept is asked of the plain ones here, each time.
"""
import re

import changes
from answers import OPTION, answer, words
from changes import number_of
from digests import SEV, SEV_ES, SNP, TDX
from jobs import FOLDER, NEW, OLD, OUT, Job
from list_cases import HUGE
from loader import load, sev_load
from named_files import Huge, read
from operation_cases import FIRST, SECOND
from operation_kinds import join_kinds, join_refusal, out_kinds, refusal, seal_kinds, strip_kinds
from reader import first_fault
from records import platforms

HOST = f"{FOLDER}/host"
BEFORE = (OLD, b"", OLD * 3000)     # what OUT holds before
LAUNCHED = {SNP: "", TDX: "", SEV: "sev-", SEV_ES: "sev-"}  # what stands before `measure` and `load`, by the kind
HEADER = re.compile("header [0-9]+: ")


# The jobs that are told

def plain(job):
    """The status, the output, the error and the image of a job, as far as they don't hang on its OUT."""
    command, *rest = job.words

    def file(name):
        return job.files[name] if name in job.files else read(name)
    if command == "join":
        return changes.join(file(rest[0]), file(rest[1]))
    if command == "strip":
        return changes.strip(file(rest[0]), rest[3])
    return changes.seal(file(rest[0]), rest[3], OPTION in rest)


# Launches of what was made

def option(native_zero):
    return [OPTION] if native_zero else []


def measured(image, number, native_zero):
    """The command that measures an image for the platform of this number, and the plain answer."""
    prefix = LAUNCHED.get(platforms(image)[number].kind, "")
    command = " ".join([f"{prefix}measure", str(number), *option(native_zero)])
    return command, answer(command, image, None)


def loaded(image, number, native_zero, host):
    """What the plain loader answers for a platform of a kind that is launched."""
    if LAUNCHED[platforms(image)[number].kind]:
        return sev_load(image, host, str(number))
    return load(image, host, str(number), native_zero)


def measure_job(made, number, native_zero, before):
    """`before` is the image that it was made of, and the number that the platform has there."""
    command, got = measured(made, number, native_zero)
    assert got == measured(*before, native_zero)[1], "a digest of the plain reader isn't kept"
    return Job(words(command, OUT), {OUT: made}, got, None, None)


def load_job(made, number, native_zero, host, before, is_kept):
    """`is_kept` says of the answer before and the one of what was made whether they are as the page says."""
    kind = platforms(made)[number].kind
    got = loaded(made, number, native_zero, host)
    assert is_kept(loaded(*before, native_zero, host), got), "an answer of the plain loader isn't kept"
    command = [f"{LAUNCHED[kind]}load", OUT, HOST, "--platform", str(number), *option(native_zero)]
    files = {OUT: made, HOST: host}
    if LAUNCHED[kind]:
        return Job(command, files, got[:3], None, None)
    return Job([*command, "--image", NEW], files, got[:3], None if got.pages is None else NEW, got.pages)


def is_as_before(before, after):
    """All but the number of a header is the same."""
    return HEADER.sub("", before.output) == HEADER.sub("", after.output) and before.pages == after.pages


def is_as_before_where_it_fits(before, after):
    """Or a header doesn't fit, which may be one of the other image."""
    return is_as_before(before, after) or after.status == 3 and "bad digest" not in after.output


def has_its_digest(before, after):
    """A load that wanted another digest is done now, and any other is as before."""
    return after.status == 0 if "bad digest" in before.output else is_as_before(before, after)


def launches(made, number, native_zero, host, before, is_kept):
    """The jobs that measure and load an image for one of its platforms."""
    kind = platforms(made)[number].kind
    native_zero = native_zero and kind in (SNP, TDX)
    jobs = [measure_job(made, number, native_zero, before)]
    if kind in LAUNCHED:
        jobs.append(load_job(made, number, native_zero, host, before, is_kept))
    return jobs


def launch_kinds(how, jobs):
    """What launches meet, by how the image was made."""
    endings = {0: "done", 3: "does not fit", 6: "no digest"}
    return {f"{how}: {job.words[0]}: {endings[job.answer[0]]}" for job in jobs}


# The operations

def some_platform(chance, file):
    """A word P, which mostly means a platform of the image, if it is one."""
    count = 0 if isinstance(file, Huge) or first_fault(file) else len(platforms(file))
    return chance.choice(("snp", "tdx", *map(str, range(count)), *map(str, range(count)), str(count)))


def strip_jobs(chance, file, host):
    """An image is stripped, and what is left is measured and loaded."""
    wanted, out = some_platform(chance, file), chance.choice((OUT, NEW, FIRST))
    *want, made = changes.strip(file, wanted)
    job = Job(["strip", FIRST, out, "--platform", wanted], {OUT: chance.choice(BEFORE), FIRST: file}, tuple(want),
              made and out, made)
    if made is None:
        return [job], refusal(job)
    number = number_of(file, wanted)
    further = launches(made, 0, chance.random() < 0.5, host, (file, number), is_as_before)
    met = strip_kinds(file, number, made) | out_kinds(job, wanted) | launch_kinds("strip", further)
    return [job, *further], met


def seal_jobs(chance, file, host):
    """An image is sealed, and then measured and loaded with the same options."""
    wanted, native_zero = chance.choice(("snp", some_platform(chance, file))), chance.random() < 0.5
    out = chance.choice((OUT, NEW, FIRST))
    *want, made = changes.seal(file, wanted, native_zero)
    job = Job(["seal", FIRST, out, "--platform", wanted, *option(native_zero)],
              {OUT: chance.choice(BEFORE), FIRST: file}, tuple(want), made and out, made)
    if made is None:
        return [job], refusal(job)
    number = number_of(file, wanted)
    further = launches(made, number, native_zero, host, (file, number), has_its_digest)
    met = seal_kinds(file, number, native_zero, made) | out_kinds(job, wanted) | launch_kinds("seal", further)
    return [job, *further], met


def file_words(first, second):
    """The names of two files to be joined, which are one where the image is."""
    names = [FIRST, FIRST if second is first else SECOND]
    return [HUGE if isinstance(file, Huge) else name for file, name in zip((first, second), names)]


def join_jobs(chance, first, second, host):
    """Two images are joined, and what comes out is measured and loaded for one of its platforms, and stripped to it
    again."""
    names, out = file_words(first, second), chance.choice((OUT, OUT, NEW, FIRST, SECOND))
    *want, made = changes.join(first, second)
    files = {OUT: chance.choice(BEFORE), **dict(zip(names, (first, second)))}
    files.pop(HUGE, None)
    job = Job(["join", *names, out], files, tuple(want), made and out, made)
    if made is None:
        return [job], join_refusal(job, first, second)
    number, count = chance.randrange(len(platforms(made))), len(platforms(first))
    before = (first, number) if number < count else (second, number - count)
    native_zero = chance.random() < 0.5
    further = launches(made, number, native_zero, host, before, is_as_before_where_it_fits)
    back = strip_back(made, number, native_zero, before)
    met = join_kinds(first, second, made) | out_kinds(job) | launch_kinds("join", further)
    return [job, *further, *back], met | launch_kinds("join, strip", back[1:])


def strip_back(made, number, native_zero, before):
    """What was joined is stripped to a platform, which has the digest that it had before."""
    *want, left = changes.strip(made, str(number))
    job = Job(["strip", FIRST, OUT, "--platform", str(number)], {FIRST: made}, tuple(want), OUT, left)
    kind = platforms(left)[0].kind
    return [job, measure_job(left, 0, native_zero and kind in (SNP, TDX), before)]
