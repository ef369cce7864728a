#!/usr/bin/env -S python3 -B
"""Writes the example images, their listings, the files that the lists name and the ELF file, and prints the digests.

    make_images.py [FOLDER]      into this script's own folder where none is named

What the images are is declared here; image.py spells them. The lists, the host descriptions and firmware_vmsa.json were
written by hand.
"""
import os
import struct
import sys

from image import CPUID, CPUID_XF, NATIVE, PAGE, SECRETS, SNP, TDX, Image

ALL = SNP | TDX | NATIVE
OTHER_SNP, OTHER_TDX = 8, 16        # the masks of the second image's platforms, where two are joined
BOOT_PAGES = 9
DATA_AT, CODE_AT, RESET_AT = 0x100000, 0xFFFFE000, 0xFFFFFFF0      # of the firmware, in guest memory


def pattern(seed, size):
    """Bytes that differ from place to place and from seed to seed."""
    return bytes((seed * 37 + place * 7 + place // 256 * 11) % 256 for place in range(size))


def counted(size):
    """The numbers from 0 on, eight bytes each."""
    return struct.pack(f"<{size // 8}Q", *range(size // 8))


def boot_pages():
    """The code that boots: what boot.json has as pages."""
    return counted(BOOT_PAGES * PAGE)


def boot_vmsa():
    """The registers of the first processor, as far as they are stated."""
    return bytes([0x5A] * 1648)


def one_page():
    """One SEV-SNP platform and one page."""
    image = Image()
    image.platform(SNP)
    image.page(SNP, 0x1000, pattern(1, PAGE))
    return image


def three_platforms(image):
    image.platform(SNP, vtl=2)
    image.platform(TDX)
    image.platform(NATIVE)


def parameters(image, command_line_bytes, command_line=b""):
    """The areas of the host's parameters."""
    image.area(0, PAGE)
    image.area(1, command_line_bytes, command_line)
    image.parameter("memory_map", 0, 0)
    image.parameter("vp_count", 0, 2048)
    image.parameter("command_line", 1, 0)


def guest():
    """A small guest for three platforms, with each kind of header."""
    image = Image()
    three_platforms(image)
    image.policy(SNP, 0x30000)
    parameters(image, 2 * PAGE, pattern(2, 2 * PAGE))
    image.required(ALL, 0, 0x1000000)
    for k in range(3):
        image.page(ALL, 0x10000 + k * PAGE, pattern(3 + k, PAGE))
    image.page(SNP | TDX, 0x13000, pattern(6, PAGE), unmeasured=True)
    image.page(TDX, 0x14000, pattern(7, PAGE))                      # not on SEV-SNP
    image.page(SNP | TDX, 0x200000, large=True)                     # 512 pages of zeros
    image.page(SNP, 0x9E000, kind=SECRETS)
    image.page(SNP, 0x9F000, kind=CPUID)
    image.page(SNP, 0xA0000, kind=CPUID_XF)
    image.insert(ALL, 0x1A000, 0)
    image.insert(ALL, 0x1B000, 1)
    image.carried(0x80000001, b"notes")                             # a header of no platform, with padding
    image.error_range(SNP, 0x300000, PAGE)
    image.context(SNP, 0xFFFFFFFFF000, 0, pattern(8, 1648))         # the file ends in it: zeros follow
    image.page(SNP, 0x15000)                                        # zeros, behind the context
    image.id_block(SNP, image.snp())
    return image


def boot():
    """What boots on three platforms: nine pages of code, the host's parameters, and on SEV-SNP one processor."""
    image = Image()
    three_platforms(image)
    image.policy(SNP, 0x30000)
    boot_directives(image)
    return image


def boot_directives(image):
    parameters(image, PAGE)
    image.required(ALL, 0, 0x1000000)
    code = boot_pages()
    for at in range(0, len(code), PAGE):
        image.page(ALL, 0x10000 + at, code[at:at + PAGE])
    image.page(SNP, 0x9E000, kind=SECRETS)
    image.page(SNP, 0x9F000, kind=CPUID)
    image.insert(ALL, 0x1A000, 0)
    image.insert(ALL, 0x1B000, 1)
    image.context(SNP, 0xFFFFFFFFF000, 0, boot_vmsa().ljust(PAGE, b"\0"))


def sparse_pages():
    """A page of code and a page of zeros that the file holds: what sparse.json has as pages."""
    return pattern(9, PAGE) + bytes(PAGE)


def sparse():
    """Of version 2, and mostly of zeros that the file doesn't hold."""
    image = Image(version=2)
    image.platform(SNP)
    image.platform(TDX)
    sparse_directives(image, SNP, SNP | TDX)
    return image


def sparse_directives(image, snp, both):
    """Those of the platforms of these masks."""
    held = sparse_pages()
    image.page(both, 0x10000, held[:PAGE])
    image.page(both, 0x11000, held[PAGE:])
    for k in range(2):
        image.page(both, 0x12000 + k * PAGE)
    image.page(both, 0x14000, unmeasured=True)
    image.page(both, 0x200000, large=True)
    image.context(snp, 0xFFFFFFFFF000, 0)


def joined():
    """boot.igvm and sparse.igvm joined: the platforms of both, the policy, the directives of one behind the other's."""
    image = Image()
    three_platforms(image)
    image.platform(OTHER_SNP, of=SNP)
    image.platform(OTHER_TDX, of=TDX)
    image.policy(SNP, 0x30000)
    boot_directives(image)
    sparse_directives(image, OTHER_SNP, OTHER_SNP | OTHER_TDX)
    return image


def stripped():
    """What was joined, stripped to the second SEV-SNP platform: the areas of boot.igvm have no mask, so they stay."""
    image = Image()
    image.platform(OTHER_SNP, of=SNP)
    parameters(image, PAGE)
    sparse_directives(image, OTHER_SNP, OTHER_SNP)
    return image


def with_block(digest):
    """One page, and an ID block that wants this digest."""
    image = one_page()
    image.id_block(SNP, digest)
    return image


def unsealed():
    """An ID block that doesn't know its digest yet."""
    return with_block(bytes(48))


def sealed():
    """The same sealed: an ID block is no part of the digest, so it is that of the page."""
    return with_block(one_page().snp())


def firmware_data():
    """The first bytes of the firmware's data; zeros follow in memory."""
    return pattern(10, 0x600)


def firmware_code():
    """Two pages of code that end at 4 GB, where a processor starts."""
    return pattern(11, 2 * PAGE)


def firmware_elf():
    """An ELF file of two segments: data with zeros behind them, and code. docs/ELF.md has the fields."""
    segments = [(DATA_AT, firmware_data(), 0x2800), (CODE_AT, firmware_code(), 2 * PAGE)]
    start = 64 + 56 * len(segments)
    headers = struct.pack("<4s5B7x2HI3QI6H", b"\x7fELF", 2, 1, 1, 0, 0, 2, 62, 1, RESET_AT, 64, 0, 0,
                          64, 56, len(segments), 0, 0, 0)
    contents = b""
    for gpa, held, size in segments:
        headers += struct.pack("<2I6Q", 1, 7, start + len(contents), gpa, gpa, len(held), size, PAGE)
        contents += held
    return headers + contents


def firmware_vmsa():
    """The registers behind a reset, as firmware_vmsa.json has them: CS, RIP, and what SEV-SNP wants in EFER."""
    page = bytearray(PAGE)
    struct.pack_into("<2HIQ", page, 0x010, 0xF000, 0x09B, 0xFFFF, 0xFFFF0000)
    struct.pack_into("<Q", page, 0x0D0, 0x1000)
    struct.pack_into("<Q", page, 0x178, 0xFFF0)
    struct.pack_into("<Q", page, 0x3B0, 1)
    return bytes(page)


def firmware():
    """Firmware for SEV-SNP and TDX: what firmware.json says, and the pages of firmware.elf."""
    image = Image()
    image.platform(SNP)
    image.platform(TDX)
    image.policy(SNP, 0x30000)
    image.required(SNP | TDX, DATA_AT, 3 * PAGE)
    image.page(SNP, 0x9E000, kind=SECRETS)
    image.page(SNP, 0x9F000, kind=CPUID)
    image.context(SNP, 0xFFFFFFFFF000, 0, firmware_vmsa())
    image.page(SNP | TDX, DATA_AT, firmware_data().ljust(PAGE, b"\0"))
    image.page(SNP | TDX, DATA_AT + PAGE)
    image.page(SNP | TDX, DATA_AT + 2 * PAGE)
    code = firmware_code()
    image.page(SNP | TDX, CODE_AT, code[:PAGE])
    image.page(SNP | TDX, CODE_AT + PAGE, code[PAGE:])
    return image


IMAGES = {"one_page": one_page, "guest": guest, "boot": boot, "sparse": sparse, "firmware": firmware, "joined": joined,
          "stripped": stripped, "unsealed": unsealed, "sealed": sealed}
OTHER_FILES = {"boot.pages": boot_pages, "boot.vmsa": boot_vmsa, "sparse.pages": sparse_pages,
               "firmware.elf": firmware_elf, "firmware.vmsa": firmware_vmsa}


def write(folder, name, content):
    with open(os.path.join(folder, name), "wb") as out:
        out.write(content)


def main():
    folder = sys.argv[1] if len(sys.argv) > 1 else os.path.dirname(os.path.abspath(__file__))
    for name, make in IMAGES.items():
        image = make()
        file, listing = image.spelled()
        write(folder, f"{name}.igvm", file)
        write(folder, f"{name}.txt", listing.encode("ascii"))
        for number, (mask, kind) in enumerate(image.kinds):
            if kind == SNP:
                print(f"{name}.igvm {number}", image.snp(mask).hex())
                print(f"{name}.igvm {number} --native-zero", image.snp(mask, native_zero=True).hex())
            if kind == TDX:
                print(f"{name}.igvm {number}", image.tdx(mask).hex())
    for name, make in OTHER_FILES.items():
        write(folder, name, make())


if __name__ == "__main__":
    main()
