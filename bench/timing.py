"""What the scripts of this folder share: the program, best times of commands in turn, and peak memory."""
import argparse
import os
import shutil
import struct
import subprocess
import sys
import time
import zlib

ROOT = os.path.dirname(os.path.dirname(os.path.abspath(__file__)))
PROGRAM = os.path.join(ROOT, "crates", "igvm_tool", "out", "igvm_tool")
TIME = "/usr/bin/time"              # GNU time: its %M is the peak in KiB of the program alone


def arguments(description):
    """A parser of the words that all scripts take."""
    parser = argparse.ArgumentParser(description=description)
    parser.add_argument("--program", default=os.environ.get("IGVM") or PROGRAM)
    parser.add_argument("--times", type=int, default=5)
    return parser


def need(program, *tools):
    """Ends the script where the program or a tool is missing."""
    if not os.access(program, os.X_OK):
        sys.exit(f"{program} isn't built: run ./igvm once")
    for tool in tools:
        if shutil.which(tool) is None:
            sys.exit(f"{tool} is missing")


def front(section, total):
    """The fixed header of an image whose section follows it."""
    fixed = b"IGVM" + struct.pack("<IIII", 1, 24, len(section), total)
    return fixed + struct.pack("<I", zlib.crc32(fixed + bytes(4) + section))


def platform(mask, kind):
    return struct.pack("<IIIBBHQ", 1, 16, mask, 0, kind, 1, 0)


def run(words, output=os.devnull):
    """What a command puts on its error output. Its output goes to a file; it must end well."""
    with open(output, "wb") as out:
        done = subprocess.run(words, stdout=out, stderr=subprocess.PIPE, text=True)
    if done.returncode != 0:
        sys.exit(f"{' '.join(words)}: status {done.returncode}\n{done.stderr}")
    return done.stderr


def remove(path):
    if os.path.exists(path):
        os.remove(path)


def best(commands, times, made=()):
    """The least seconds of each (words, output), run in turn so that all see the same machine.

    The files `made` are removed before each run: to empty a file costs, and none is to pay for what another left.
    """
    least = [float("inf")] * len(commands)
    for _ in range(times):
        for at, (words, output) in enumerate(commands):
            for path in made:
                remove(path)
            start = time.perf_counter()
            run(words, output)
            least[at] = min(least[at], time.perf_counter() - start)
    return least


def peak(words, output):
    """The most memory in bytes that a command takes, or None where GNU time is missing."""
    if not os.access(TIME, os.X_OK):
        return None
    return int(run([TIME, "-f", "%M"] + words, output).split()[-1]) * 1024


def over_the_file(words, output, size):
    """A text on the most memory that a command takes, beside that of its image."""
    most = peak(words, output)
    return "unknown" if most is None else f"{(most - size) / 1e6:.1f} MB over the file"
