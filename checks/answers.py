"""What the program answers to a command on an image, by docs/PROGRAM.md and the plain reader.

A command is `print`, or `measure` and the word P of `--platform P`, with the option behind it or without, as in
"measure snp" and "measure 0 --native-zero", or `sev-measure` and the word P.
"""
import digests
from listing import PLATFORM_KINDS, listing
from records import platforms

WANTED = ("snp", "tdx", "0", "1", "2", "3")
OPTION = "--native-zero"
SEV_COMMANDS = tuple(f"sev-measure {wanted}" for wanted in ("sev", "sev_es", "0", "1", "2", "3"))
COMMANDS = ("print", *(f"measure {wanted}" for wanted in WANTED), *(f"measure {wanted} {OPTION}" for wanted in WANTED))


def words(command, path):
    """The program's words for a command on the file of this name."""
    job, *wanted = command.split()
    return [job, path] + (["--platform", *wanted] if wanted else [])


def platform(image, wanted):
    """The platform that P means, or None: the first of a kind, or the one of a number."""
    found = platforms(image)
    if wanted.isdecimal():
        return found[int(wanted)] if int(wanted) < len(found) else None
    return next((one for one in found if PLATFORM_KINDS[one.kind] == wanted), None)


def no_digest(one, wanted, kinds=("snp", "tdx")):
    """What the error output has where P means no platform, or one of another kind than these, or None."""
    if one is None:
        return f"igvm: no platform {wanted}\n"
    return None if PLATFORM_KINDS[one.kind] in kinds else f"igvm: no digest for {PLATFORM_KINDS[one.kind]}\n"


def measured(image, wanted, native_zero):
    one = platform(image, wanted)
    error = no_digest(one, wanted)
    if error is not None:
        return 6, "", error
    return 0, digests.digest(image, one, native_zero).hex() + "\n", ""


def sev_measured(image, wanted):
    one = platform(image, wanted)
    error = no_digest(one, wanted, ("sev", "sev_es"))
    if error is not None:
        return 6, "", error
    return 0, digests.sev_digest(image, one).hex() + "\n", ""


def answer(command, image, fault):
    """Status, output and error for an image whose first fault is this one, or None."""
    if fault is not None:
        _, at, text = fault
        return 1, "", f"igvm: file refused at {at}: {text}\n"
    if command == "print":
        return 0, listing(image), ""
    job, wanted, *options = command.split()
    if job == "sev-measure":
        return sev_measured(image, wanted)
    return measured(image, wanted, options == [OPTION])
