"""An example image as it is spelled by hand from the pages: its bytes, its listing and its digests.

docs/FORMAT.md gives the bytes, docs/PROGRAM.md the listing, docs/DIGESTS.md the digests, which are taken with hashlib
over what is kept as the headers are declared. No part of the toolset takes part.
"""
import hashlib
import struct
import zlib

PAGE = 4096
LARGE = 512 * PAGE
SNP, TDX, NATIVE = 1, 2, 4          # the masks of the platforms, where nothing else is said
FIXED_SIZES = {1: 24, 2: 32}        # by the format's version, the bytes of the fixed header
KINDS = {SNP: 2, TDX: 3, NATIVE: 0}
KIND_NAMES = {SNP: "snp", TDX: "tdx", NATIVE: "native"}
NORMAL, SECRETS, CPUID, CPUID_XF = 0, 1, 2, 3
PAGE_KINDS = ("normal", "secrets", "cpuid", "cpuid_xf")
RECORDS = {"normal": 1, "vmsa": 2, "zero": 3, "unmeasured": 4, "secrets": 5, "cpuid": 6}
PARAMETERS = {"vp_count": 0x307, "memory_map": 0x30C, "command_line": 0x30E}


def td_record(name, gpa):
    return struct.pack("<16sQ", name, gpa).ljust(128, b"\0")


class Image:
    """Headers and data as they are declared, and the pages that they place."""

    def __init__(self, version=1):
        self.version = version
        self.headers = []           # (type, content, text of its line, where its file offset stands, data)
        self.areas = {}             # index -> size
        self.placed = []            # (mask, name of the page type, GPA, the page, the file holds nothing of it)
        self.kinds = []             # of the platforms, by their numbers: (mask, platform type)

    def header(self, kind, content, text, offset_at=None, data=b""):
        """In the text `{offset}` stands for the file offset of the data."""
        self.headers.append((kind, content, text, offset_at, data))

    def platform(self, mask, vtl=0, of=None):
        """One of the kind that this mask has, or the mask `of`."""
        kind = of or mask
        self.header(0x001, struct.pack("<IBBHQ", mask, vtl, KINDS[kind], 1, 0),
                    f"platform {len(self.kinds)} mask {mask:08x} kind {KIND_NAMES[kind]} vtl {vtl} version 1 "
                    f"shared {0:016x}")
        self.kinds.append((mask, kind))

    def policy(self, mask, value):
        self.header(0x101, struct.pack("<QII", value, mask, 0), f"policy mask {mask:08x} value {value:016x}")

    def area(self, index, size, data=b""):
        self.areas[index] = size
        self.header(0x301, struct.pack("<QII", size, index, 0), f"area {index} bytes {size} from {{offset}}", 12, data)

    def parameter(self, name, index, offset):
        self.header(PARAMETERS[name], struct.pack("<II", index, offset), f"param {name} area {index} offset {offset}")

    def required(self, mask, gpa, size):
        self.header(0x305, struct.pack("<QIIII", gpa, mask, size, 0, 0),
                    f"required gpa {gpa:016x} mask {mask:08x} bytes {size} flags {0:08x}")

    def error_range(self, mask, gpa, size):
        self.header(0x30D, struct.pack("<QII", gpa, mask, size),
                    f"error-range gpa {gpa:016x} mask {mask:08x} bytes {size}")

    def carried(self, kind, content):
        self.header(kind, content, f"carried kind {kind:08x} length {len(content)}")

    def page(self, mask, gpa, data=b"", kind=NORMAL, large=False, unmeasured=False):
        size = LARGE if large else PAGE
        self.header(0x302, struct.pack("<QIIIHH", gpa, mask, 0, large | unmeasured << 1, kind, 0),
                    f"page gpa {gpa:016x} mask {mask:08x} from {{offset}} size {size} "
                    f"{'unmeasured' if unmeasured else 'measured'} {PAGE_KINDS[kind]}", 12, data)
        name = {NORMAL: "unmeasured" if unmeasured else "normal", SECRETS: "secrets"}.get(kind, "cpuid")
        whole = data or bytes(size)
        for at in range(0, size, PAGE):
            self.placed.append((mask, name, gpa + at, whole[at:at + PAGE], not data))

    def insert(self, mask, gpa, index):
        self.header(0x303, struct.pack("<QII", gpa, mask, index), f"insert gpa {gpa:016x} mask {mask:08x} area {index}")
        for at in range(0, self.areas[index], PAGE):
            self.placed.append((mask, "unmeasured", gpa + at, b"", False))

    def context(self, mask, gpa, vp, data=b""):
        self.header(0x304, struct.pack("<QIIHH", gpa, mask, 0, vp, 0),
                    f"context gpa {gpa:016x} mask {mask:08x} from {{offset}} vp {vp}", 12, data)
        self.placed.append((mask, "vmsa", gpa, data.ljust(PAGE, b"\0"), not data))

    def id_block(self, mask, digest):
        names = (b"example family".ljust(16, b"\0"), b"example image".ljust(16, b"\0"))
        content = struct.pack("<IB3x48s16s16sIIII", mask, 0, digest, *names, 1, 2, 1, 0)
        self.header(0x30B, content + bytes(592),
                    f"id-block mask {mask:08x} author 0 ld {digest.hex()} family {names[0].hex()} "
                    f"image {names[1].hex()} version 1 svn 2 algorithms 1 0")

    def snp(self, mask=SNP, native_zero=False):
        """The SEV-SNP launch digest of what was declared so far, with the option `--native-zero` or without."""
        digest = bytes(48)
        for page_mask, name, gpa, page, is_absent in self.placed:
            if not page_mask & mask:
                continue
            if native_zero and name == "normal" and is_absent:
                name = "zero"
            contents = hashlib.sha384(page).digest() if name in ("normal", "vmsa") else bytes(48)
            info = digest + contents + struct.pack("<HBBIQ", 112, RECORDS[name], 0, 0, gpa)
            digest = hashlib.sha384(info).digest()
        return digest

    def tdx(self, mask=TDX):
        """MRTD of what was declared so far."""
        stream = hashlib.sha384()
        for page_mask, name, gpa, page, _ in self.placed:
            if not page_mask & mask or name == "vmsa":
                continue
            stream.update(td_record(b"MEM.PAGE.ADD", gpa))
            for at in range(0, PAGE if name == "normal" else 0, 256):
                stream.update(td_record(b"MR.EXTEND", gpa + at) + page[at:at + 256])
        return stream.digest()

    def spelled(self):
        """The file and its listing: fixed header, section, then the data in the order of their headers."""
        start = FIXED_SIZES[self.version]
        size = sum(8 + (len(content) + 7) // 8 * 8 for _, content, _, _, _ in self.headers)
        section, body, lines = b"", b"", []
        for kind, content, text, offset_at, data in self.headers:
            offset = start + size + len(body) if data else 0
            if offset_at is not None:
                content = content[:offset_at] + struct.pack("<I", offset) + content[offset_at + 4:]
            lines.append(f"{len(lines)} at {start + len(section)} {text.format(offset=offset)}\n")
            body += data
            section += struct.pack("<II", kind, len(content)) + content + bytes(-len(content) % 8)
        total = start + size + len(body)
        line = f"igvm version {self.version} section {start} {size} total {total} headers {len(lines)}"
        if self.version == 2:
            line += " architecture x64 page 4096"
        return self.fixed(start, section, total) + section + body, f"{line}\n" + "".join(lines)

    def fixed(self, start, section, total):
        """The fixed header; that of version 2 ends with the architecture, X64, and the page size."""
        front = b"IGVM" + struct.pack("<IIII", self.version, start, len(section), total)
        machine = struct.pack("<II", 0, PAGE) if self.version == 2 else b""
        return front + struct.pack("<I", zlib.crc32(front + bytes(4) + machine + section)) + machine
