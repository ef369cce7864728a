"""Runs a small program over the repository's crates, made for one check alone, by `rt try`, which needs no proof."""
import os
import shutil
import subprocess
import tempfile

from program import ROOT, shared_memory

SHOWN = 20                          # lines of what `rt` put that are shown
STEPS = "1000"                      # of the interpreter of `rt try`; the compiled run alone gets to the end
NO_OUT = shutil.ignore_patterns("out")


def stands_on():
    """The crates that each crate of the repository stands on."""
    with open(os.path.join(ROOT, "crates.txt"), encoding="utf-8") as file:
        parts = [line.partition("#")[0].split(":") for line in file]
    return {part[0].strip(): part[1].split() for part in parts if len(part) == 2}


def with_lower(crates, lower):
    """Those of these crates that are the repository's, and all that they stand on."""
    own = {crate for crate in crates if crate in lower}
    return own.union(*(with_lower(lower[crate], lower) for crate in own))


def write_crates(folder, source, crates):
    """A repository of these crates and the program; the program's folder."""
    lower = {**stands_on(), "check_program": crates}
    for crate in with_lower(crates, lower):
        shutil.copytree(os.path.join(ROOT, "crates", crate), os.path.join(folder, "crates", crate), ignore=NO_OUT)
    program = os.path.join(folder, "crates", "check_program")
    os.makedirs(os.path.join(program, "src"))
    with open(os.path.join(program, "src", "main.rt"), "w", encoding="utf-8") as file:
        file.write(source)
    with open(os.path.join(folder, "crates.txt"), "w", encoding="utf-8") as file:
        file.writelines(f"{crate}: {' '.join(lower[crate])}\n" for crate in with_lower(["check_program"], lower))
    return program


def write_cases(folder, cases):
    os.mkdir(folder)
    for name, (given, wanted) in cases.items():
        with open(os.path.join(folder, name), "wb") as file:
            file.write(given)
        with open(os.path.join(folder, name + ".stdout"), "w", encoding="utf-8") as file:
            file.write(wanted)


def run(source, crates, cases):
    """Runs a program over these crates on each case: by a name what it is given, and the text that it has to put.

    Gives the status of the check, which is 0, 1, or 77 where nothing could be run, and lines on what went wrong.
    """
    if not shutil.which("rt"):
        return 77, ["skipped, the command rt isn't there"]
    with tempfile.TemporaryDirectory(dir=shared_memory()) as folder:
        program, inputs = write_crates(folder, source, crates), os.path.join(folder, "cases")
        write_cases(inputs, cases)
        tried = subprocess.run(["rt", "try", "--steps", STEPS, "--cases", inputs], cwd=program, text=True,
                               errors="backslashreplace", stdin=subprocess.DEVNULL, stdout=subprocess.PIPE,
                               stderr=subprocess.STDOUT)
    lines = [line for line in tried.stdout.splitlines() if "output=expected" not in line]
    if tried.returncode == 2 or f"cases={len(cases)} ended=0 fault=0 differs=0 no-answer={len(cases)}" in tried.stdout:
        return 77, [*lines[-SHOWN:], "skipped, rt can't run a program here"]
    if tried.returncode or tried.stdout.count("output=expected") != len(cases):
        return 1, lines[-SHOWN:]
    return 0, []
