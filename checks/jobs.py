"""Jobs of the program, each with its answer and what it writes, and a check that does many of them on all processors.

The files of a job lie in a folder beside those that lists name. They are as the job has them before it, and behind it
OUT alone may be another.
"""
import argparse
import multiprocessing
import os
import tempfile
from collections import Counter, namedtuple

from named_files import lay_out, read, write
from program import Program, is_built, shared_memory
from random_lists import FILES

FOLDER = "job"
OUT, NEW = f"{FOLDER}/out", f"{FOLDER}/new"
OLD = b"what was there before"
SHOWN, SHOWN_TEXT = 10, 60          # differences that are printed, and characters of an answer

# The words, the files that are there before; status, output and error; OUT with what it holds then, or None where all
# files are as they were.
Job = namedtuple("Job", "words files answer out written")
# What a check is called; how many numbers it has; the jobs of a number, and what they meet; where the plain ones answer
# otherwise than tables; a text on what there is; and pairs of names of what has to be met and how often at the least.
Check = namedtuple("Check", "name count numbered wrong_answers counts asked")


def ended(status, error):
    return status, "", f"igvm: {error}\n"


def size_line(image):
    return 0, f"built {len(image)} bytes\n", ""


SHELF = ended(4, "outside fault: shelf")
NO_FILES = tuple((name, None, SHELF) for name in ("missing", "folder", "folder/none", "x" * 300))
OUTS = ((OUT, None), (NEW, None), ("folder", SHELF), ("missing/new", SHELF))


def told(words, files, answers, out, image):
    """A job whose steps have these answers, None where a step is done; the first refusal is that of the job."""
    refusal = next((one for one in answers if one), None)
    return Job(words, files, refusal or size_line(image), *((None, None) if refusal else (out, image)))


# The runs

class Bench:
    """Does jobs in a folder of its own; there is one in each process."""

    def __init__(self, folder, check):
        self.program, self.check = Program(folder), check
        os.mkdir(os.path.join(folder, "files"))
        os.chdir(os.path.join(folder, "files"))
        lay_out()
        os.mkdir(FOLDER)

    def differences(self, job):
        """What the program answers or writes otherwise."""
        for name in os.listdir(FOLDER):
            os.remove(os.path.join(FOLDER, name))
        for name, content in job.files.items():
            write(name, content)
        others = other_files(job)
        got = self.program.run(job.words)
        if got != job.answer:
            yield difference(got, job.answer)
        if other_files(job) != others:
            yield "another file has changed"
        files = {**job.files, job.out: job.written} if job.out else job.files
        for name in sorted({*files, *(os.path.join(FOLDER, name) for name in os.listdir(FOLDER))}):
            found = read(name)
            if found != files.get(name):
                yield f"the file `{name}` differs: it has {size(found)}, expected {size(files.get(name))}"
        for name in job.files.keys() & FILES.keys():
            write(name, FILES[name])

    def do(self, number):
        """How many runs there were, texts on those that differ, and what was met."""
        jobs, met = self.check.numbered(number)
        behind = f"to have the files: checks/{self.check.name}.py --write {number} FOLDER"
        return len(jobs), [f"{called(job.words)}: {text}; {behind}"
                           for job in jobs for text in self.differences(job)], met


def other_files(job):
    """The files beside the job's, each with its size and when it was written."""
    return {one.name: (one.stat().st_size, one.stat().st_mtime_ns) for one in os.scandir() if one.is_file()
            and one.name not in job.files}


def size(content):
    return "no name" if content is None else f"{len(content)} bytes"


def called(words):
    return " ".join(word if word.isprintable() and word else ascii(word) for word in words)


def shown(answer, at=0):
    """An answer, with some of its output from a character on."""
    status, output, error = answer
    return status, output[at:at + SHOWN_TEXT], error[:2 * SHOWN_TEXT]


def difference(got, want):
    """Status and error of both, and the outputs from the first character on that is another."""
    at = len(os.path.commonprefix([got[1], want[1]]))
    return (f"the program answers {shown(got, at)}, expected {shown(want, at)}"
            + (f", the outputs from character {at} on" if at else ""))


def set_up(folder, check):
    """Makes this process's bench."""
    global bench
    bench = Bench(tempfile.mkdtemp(dir=folder), check)


def do(number):
    return bench.do(number)


def wrong_answer_list(check):
    return list(check.wrong_answers())


# The check

def write_files(check, number, folder):
    """Lays out the files of the first job and what it writes, and tells of all."""
    if number >= check.count:
        print(f"{check.name}: there are no jobs {number}")
        return 1
    os.makedirs(os.path.join(folder, FOLDER), exist_ok=True)
    os.chdir(folder)
    lay_out()
    jobs, _ = check.numbered(number)
    for name, content in jobs[0].files.items():
        write(name, content)
    if jobs[0].out:
        write("expected", jobs[0].written)
    for job in jobs:
        print(f"{check.name}: {called(job.words)}: by the plain ones {shown(job.answer)}")
    return 0


def compare(check):
    """What the processes find together, and the line of counts."""
    differing, met, runs = [], Counter(), 0
    with tempfile.TemporaryDirectory(dir=shared_memory()) as folder:
        with multiprocessing.Pool(min(4, os.cpu_count() or 1), set_up, (folder, check)) as pool:
            wrong = pool.apply_async(wrong_answer_list, (check,))
            for its_runs, its_differing, its_met in pool.imap(do, range(check.count), chunksize=8):
                runs += its_runs
                differing += its_differing
                met.update(its_met)
            faults = wrong.get()
    faults += differing[:SHOWN]
    faults += [f"{met[name]} have met, of {least}: {name}" for names, least in check.asked for name in names
               if met[name] < least]
    for fault in faults:
        print(f"{check.name}: {fault}")
    print(f"{check.name}: {check.counts()}, {runs} runs, {len(differing)} differ")
    return 1 if faults else 0


def main(check, description):
    """The status of a check by the words of its caller."""
    arguments = argparse.ArgumentParser(description=description)
    arguments.add_argument("--write", nargs=2, metavar=("NUMBER", "FOLDER"))
    options = arguments.parse_args()
    if options.write:
        return write_files(check, int(options.write[0]), options.write[1])
    if not is_built():
        faults = wrong_answer_list(check)
        print("\n".join(f"{check.name}: {text}" for text in (*faults, "skipped, the program isn't built")))
        return 1 if faults else 77
    return compare(check)
