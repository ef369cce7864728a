#!/usr/bin/env -S python3 -B
"""The example images, their listings, their table, the lists and the program agree: examples.py [IMAGE..]

The images of examples/ and their listings are those that make_images.py writes. The plain reader gives the same
listings, and the digests that examples/README.md has for each image. The plain builder makes the image NAME.igvm of
each list NAME.json, and boot.json in the other version of the format makes an image that only lies 8 bytes further.
The plain loader gives what the README shows of loading boot.igvm on the host of boot_host.json, whose values then
stand in the pages of its areas. The plain readers of VMSA texts and ELF files make firmware.vmsa and firmware.igvm.
changes.py makes joined.igvm, stripped.igvm and sealed.igvm again, and they have the digests of what they are made of.
Then the program ($IGVM, or crates/igvm_tool/out/igvm_tool) is run by all commands over each image, and compared with
the plain reader; so it is over further images that are named. It builds the lists, boot.json with an ELF file, too,
prints boot.vmsa and builds it again, and loads boot.igvm with a pages file, and the commands that examples/README.md
shows print what stands there and write the images of examples/. Ends with 77 where the program isn't built.
"""
import json
import os
import subprocess
import sys
import tempfile

import changes
import elves
import reader
import vmsas
from answers import COMMANDS, OPTION, answer, words
from components import built
from elf_cases import THREE
from listing import PLATFORM_KINDS, listing
from loader import load
from program import ROOT, Program, is_built
from records import headers, platforms

EXAMPLES = os.path.join(ROOT, "examples")
LISTS = ("boot", "sparse")
SHOWN = ("boot", "sparse", "firmware", "joined", "stripped", "sealed")     # the images that README.md shows being made
LOADED = ("load", "examples/boot.igvm", "examples/boot_host.json", "--platform")
# The values of boot_host.json, and what they make of the two areas of boot.igvm
MEMORY_MAP, PROCESSORS, COMMAND_LINE = bytes(9) + b"\x10" + bytes(14), b"\4\0\0\0", b"console=ttyS0"
AREAS = MEMORY_MAP.ljust(2048, b"\0") + PROCESSORS.ljust(2048, b"\0"), COMMAND_LINE.ljust(4096, b"\0")


def read(*path):
    with open(os.path.join(*path), "rb") as file:
        return file.read()


def made_again():
    """What make_images.py writes today, by name."""
    with tempfile.TemporaryDirectory() as folder:
        script = os.path.join(EXAMPLES, "make_images.py")
        subprocess.run([sys.executable, "-B", script, folder], check=True, stdout=subprocess.DEVNULL)
        return {name: read(folder, name) for name in sorted(os.listdir(folder))}


def file_faults(written):
    """Where the files of examples/ are others than those written."""
    images = {name for name in os.listdir(EXAMPLES) if name.endswith(".igvm")}
    for name in sorted(images - written.keys()):
        yield f"{name}: make_images.py doesn't write it"
    for name, content in written.items():
        if not os.path.exists(os.path.join(EXAMPLES, name)) or read(EXAMPLES, name) != content:
            yield f"{name}: make_images.py writes another file"


def page_faults(name, image, text, table):
    """Where an image's listing and its rows of the table differ from the plain reader."""
    fault = reader.first_fault(image)
    if fault is not None:
        yield f"{name}: the plain reader refuses it: {fault}"
        return
    if listing(image) != text:
        yield f"{name}: the plain reader lists it otherwise"
    rows = [line for line in table if line.startswith(f"| `{name}` | ") and line.endswith("` |")]
    if rows != list(digest_rows(name, image)):
        yield f"{name}: README.md has other rows of digests than {list(digest_rows(name, image))}"


def words_of(image):
    """The word of each platform that has a digest: its kind, or its number where an earlier one is of this kind."""
    kinds = [PLATFORM_KINDS[one.kind] for one in platforms(image)]
    return [kind if kinds.index(kind) == number else str(number) for number, kind in enumerate(kinds)
            if kind in ("snp", "tdx")]


def digest_rows(name, image):
    """An image's rows of the table: with the option only where it changes the digest."""
    for wanted in words_of(image):
        digest, other = (answer(f"measure {wanted}{option}", image, None)[1].strip() for option in ("", f" {OPTION}"))
        yield f"| `{name}` | {wanted} | `{digest}` |"
        if other != digest:
            yield f"| `{name}` | {wanted} {OPTION} | `{other}` |"


def from_root(name):
    """A file that a list names: names are counted from the root."""
    return read(ROOT, name)


def list_faults(name):
    """Where the plain builder makes another image of a list."""
    status, _, error, image = built(read(EXAMPLES, f"{name}.json"), from_root)
    if status != 0:
        yield f"{name}.json: the plain builder refuses it: {error.rstrip()}"
    elif image != read(EXAMPLES, f"{name}.igvm"):
        yield f"{name}.json: the plain builder makes another image than {name}.igvm"


def in_version_2():
    """The text of boot.json with the key `version`."""
    return json.dumps({**json.loads(read(EXAMPLES, "boot.json")), "version": 2}).encode()


def version_faults(image):
    """Where an image of boot.json in version 2 isn't boot.igvm with 8 bytes more before its section."""
    first = read(EXAMPLES, "boot.igvm")
    offsets = [header.fields.offset for header in headers(image) if header.name == "Page"]
    if len(image) != 41648 or offsets != [*range(688, 688 + 9 * 4096, 4096), 0, 0]:
        yield f"boot.json in version 2: the image has {len(image)} bytes, and its pages lie at {offsets}"
    for wanted in ("snp", f"snp {OPTION}", "tdx", "2"):
        if answer(f"measure {wanted}", image, reader.first_fault(image)) != answer(f"measure {wanted}", first, None):
            yield f"boot.json in version 2: another answer than that of boot.igvm to measure {wanted}"


def shown():
    """(the words behind ./igvm, what they print) of each command in a block of README.md."""
    command, lines = None, []
    for line in read(EXAMPLES, "README.md").decode().splitlines():
        if line.startswith("    $ ./igvm "):
            if command is not None:
                yield command, lines
            command, lines = line.split()[2:], []
        elif line.startswith("    ") and command is not None:
            lines.append(line[4:])
        elif command is not None:
            yield command, lines
            command = None


def plain_load(wanted):
    """What the plain loader answers for boot.igvm on its host."""
    return load(read(EXAMPLES, "boot.igvm"), read(EXAMPLES, "boot_host.json"), wanted, native_zero=False)


def load_faults():
    """Where README.md shows another load of boot.igvm, or the host's values don't stand where its areas are."""
    lines = {tuple(command): lines for command, lines in shown()}
    for wanted, at in (("snp", 11), ("tdx", 9)):
        loaded = plain_load(wanted)
        if loaded.output.splitlines() != lines.get((*LOADED, wanted)):
            yield f"README.md: load with --platform {wanted}: the plain loader answers {loaded[:3]}"
        for gpa, page in zip((0x1A000, 0x1B000), AREAS):
            record = gpa.to_bytes(8, "little") + b"\1" + bytes(7) + page
            if (loaded.pages or b"")[len(record) * at:len(record) * (at + 1)] != record:
                yield f"boot_host.json: --platform {wanted}: another page at {gpa:#x}"
            at += 1


def pages_file_faults():
    """Where the program loads boot.igvm with another pages file than the plain loader."""
    with tempfile.TemporaryDirectory() as folder:
        path, program = os.path.join(folder, "pages"), Program(folder)
        os.chdir(ROOT)
        for wanted in ("snp", "tdx"):
            want, got = plain_load(wanted), program.run([*LOADED, wanted, "--image", path])
            if got != want[:3]:
                yield f"{' '.join(LOADED)} {wanted} --image: the program answers {got}, expected {want[:3]}"
            elif read(path) != want.pages:
                yield f"{' '.join(LOADED)} {wanted} --image: the program writes another pages file"


def shown_faults():
    """Where the commands of README.md print something else than it shows, or write other images in /tmp."""
    with tempfile.TemporaryDirectory() as folder:
        program = Program(folder)
        os.chdir(ROOT)
        for command, lines in shown():
            status, output, error = program.run([word.replace("/tmp", folder) for word in command])
            got = output.splitlines()
            is_right = got == lines or "..." in lines and agree_around(got, lines)
            if (status, error) != (0, "") or not is_right:
                yield f"README.md: {' '.join(command)}: the program answers {status}, {output}{error}"
        for name in SHOWN:
            path = os.path.join(folder, f"{name}.igvm")
            if not os.path.exists(path):
                yield f"README.md: no command that is shown makes {name}.igvm"
            elif read(path) != read(EXAMPLES, f"{name}.igvm"):
                yield f"README.md: the program makes another image than {name}.igvm"


def other_version_faults():
    """Where the program builds boot.json in version 2 otherwise than the plain builder."""
    with tempfile.TemporaryDirectory() as folder:
        text, path = os.path.join(folder, "list"), os.path.join(folder, "image")
        with open(text, "wb") as file:
            file.write(in_version_2())
        os.chdir(ROOT)
        *want, image = built(in_version_2(), from_root)
        got = Program(folder).run(["build", text, path])
        if got != tuple(want) or read(path) != image:
            yield f"boot.json in version 2: the program answers {got}, expected {tuple(want)} and the same image"


def vmsa_faults():
    """Where the plain reader of texts makes another page of what the plain writer says of boot.vmsa."""
    page = read(EXAMPLES, "boot.vmsa")
    if vmsas.page_of(vmsas.text_of(page).encode()) != page.ljust(vmsas.SIZE, b"\0"):
        yield f"boot.vmsa: the plain reader makes another page of {vmsas.text_of(page)}"


def firmware_faults():
    """Where the plain readers make another page of firmware_vmsa.json, or another image of the firmware's list and ELF file."""
    if vmsas.page_of(read(EXAMPLES, "firmware_vmsa.json")) != read(EXAMPLES, "firmware.vmsa"):
        yield "firmware_vmsa.json: the plain reader makes another page than firmware.vmsa"
    *_, image = elves.built(read(EXAMPLES, "firmware.json"), from_root, read(EXAMPLES, "firmware.elf"), 3)
    if image != read(EXAMPLES, "firmware.igvm"):
        yield "firmware.json: the plain builder makes another image than firmware.igvm"


def change_faults():
    """Where changes.py makes other images, or what was joined and stripped has other digests than its parts."""
    boot, sparse, joined, stripped, unsealed, sealed = (read(EXAMPLES, f"{name}.igvm") for name in (
        "boot", "sparse", "joined", "stripped", "unsealed", "sealed"))
    for name, made, image in (("joined", changes.join(boot, sparse), joined),
                              ("stripped", changes.strip(joined, "3"), stripped),
                              ("sealed", changes.seal(unsealed, "snp", native_zero=False), sealed)):
        if made != (0, f"built {len(image)} bytes\n", "", image):
            yield f"{name}.igvm: changes.py answers {made[:3]}, or makes another image"
    for name, image, wanted, part, own in (
            ("joined", joined, "0", boot, "snp"), ("joined", joined, "1", boot, "tdx"),
            ("joined", joined, "3", sparse, "snp"), ("joined", joined, "4", sparse, "tdx"),
            ("stripped", stripped, "snp", sparse, "snp"), ("sealed", sealed, "snp", unsealed, "snp")):
        for option in ("", f" {OPTION}"):
            if answer(f"measure {wanted}{option}", image, None) != answer(f"measure {own}{option}", part, None):
                yield f"{name}.igvm: --platform {wanted}{option}: another digest than that of what it is made of"


def further_faults():
    """Where the program makes another text or page of boot.vmsa, or another image of boot.json and an ELF file."""
    page, text = (read(EXAMPLES, name) for name in ("boot.vmsa", "boot.json"))
    *want, image = elves.built(text, from_root, THREE, 7)
    with tempfile.TemporaryDirectory() as folder:
        program = Program(folder)
        json_path, elf, path = (os.path.join(folder, name) for name in ("json", "elf", "made"))
        for name, content in ((json_path, vmsas.text_of(page).encode()), (elf, THREE)):
            with open(name, "wb") as file:
                file.write(content)
        os.chdir(ROOT)
        for command, answered, written in (
                (["vmsa-print", "examples/boot.vmsa"], vmsas.printed(page), None),
                (["vmsa-build", json_path, path], (0, "built 4096 bytes\n", ""), page.ljust(vmsas.SIZE, b"\0")),
                (["build-elf", "examples/boot.json", elf, "7", path], tuple(want), image)):
            got = program.run(command)
            if got != answered or written is not None and read(path) != written:
                yield f"{' '.join(command)}: the program answers {got}, expected {answered}, or writes another file"


def agree_around(got, lines):
    """The lines before and behind `...` are the first and the last ones."""
    at = lines.index("...")
    last = len(lines) - at - 1
    return len(got) >= at + last and got[:at] == lines[:at] and got[len(got) - last:] == lines[at + 1:]


def program_faults(paths):
    """Where the program answers otherwise than the plain reader."""
    with tempfile.TemporaryDirectory() as folder:
        program = Program(folder)
        for path in paths:
            image = read(path)
            fault = reader.first_fault(image)
            for command in COMMANDS:
                want, got = answer(command, image, fault), program.run(words(command, path))
                if got != want:
                    yield f"{path}: {command}: the program answers {got}, expected {want}"


def main():
    written = made_again()
    names = [name for name in written if name.endswith(".igvm")]
    table = read(EXAMPLES, "README.md").decode().splitlines()
    paths = [os.path.join(EXAMPLES, name) for name in names] + sys.argv[1:]
    faults = list(file_faults(written))
    for name in names:
        text = written[name.replace(".igvm", ".txt")].decode()
        faults += page_faults(name, written[name], text, table)
    for name in LISTS:
        faults += list_faults(name)
    faults += [*version_faults(built(in_version_2(), from_root)[3]), *load_faults(), *vmsa_faults(),
               *firmware_faults(), *change_faults()]
    if is_built():
        faults += [*program_faults(paths), *shown_faults(), *other_version_faults(), *pages_file_faults(),
                   *further_faults()]
    for fault in faults:
        print(f"examples: {fault}")
    if not is_built() and not faults:
        print(f"examples: skipped, the program isn't built ({len(names)} images, listings, digests and loads agree)")
        return 77
    print(f"examples: {len(paths)} images, {len(faults)} faults")
    return 1 if faults else 0


if __name__ == "__main__":
    sys.exit(main())
