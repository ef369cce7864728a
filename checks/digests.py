"""The launch digests of an image that the reader accepts, written from docs/FORMAT.md and docs/DIGESTS.md alone.

It shares no code with the toolset nor with the script of the example images, and judges nothing: a file that breaks
a rule gives any answer, or an exception.
"""
import hashlib
import struct

from records import PAGE, data_page, headers

SNP, TDX, SEV, SEV_ES = 2, 3, 4, 5  # the platform types that have a digest
PAGE_TYPES = {"normal": 1, "vmsa": 2, "zero": 3, "unmeasured": 4, "secrets": 5, "cpuid": 6}
CHUNK = 256


def kind_of(page, native_zero):
    """What a Page header's pages are to the launch."""
    if page.data_type != 0:
        return "secrets" if page.data_type == 1 else "cpuid"
    if page.flags & 2:
        return "unmeasured"
    return "zero" if native_zero and page.offset == 0 else "normal"


def places(image, mask, native_zero):
    """(header, kind, GPA, page) of each page that a header of the platform of this mask puts in its place.

    The page is there for all but an Insert's, whose bytes the host makes. With `native_zero` a measured page of normal
    data at file offset 0 is of the kind zero.
    """
    sizes = {}
    for header in headers(image):
        fields = header.fields
        if header.name == "Area":
            sizes[fields.index] = fields.size
        if header.name not in ("Page", "Insert", "Context") or not fields.mask & mask:
            continue
        if header.name == "Page":
            for k in range(512 if fields.flags & 1 else 1):
                yield "Page", kind_of(fields, native_zero), fields.gpa + PAGE * k, data_page(image, fields.offset, k)
        elif header.name == "Insert":
            for k in range(sizes[fields.index] // PAGE):
                yield "Insert", "unmeasured", fields.gpa + PAGE * k, None
        else:
            yield "Context", "vmsa", fields.gpa, data_page(image, fields.offset)


def snp(image, mask, native_zero):
    """The SEV-SNP launch digest: a fold over the PAGE_INFO records."""
    digest = bytes(48)
    for _, kind, gpa, page in places(image, mask, native_zero):
        contents = hashlib.sha384(page).digest() if kind in ("normal", "vmsa") else bytes(48)
        info = digest + contents + struct.pack("<HBBIQ", 112, PAGE_TYPES[kind], 0, 0, gpa)
        digest = hashlib.sha384(info).digest()
    return digest


def td_record(name, gpa):
    """The 128 bytes that begin each record of a TD's measurement."""
    return name.ljust(16, b"\0") + struct.pack("<Q", gpa) + bytes(104)


def tdx(image, mask):
    """MRTD: one digest of all records joined. The option has no effect on it."""
    stream = hashlib.sha384()
    for header, kind, gpa, page in places(image, mask, native_zero=False):
        if header == "Context":
            continue
        stream.update(td_record(b"MEM.PAGE.ADD", gpa))
        if kind == "normal":
            for at in range(0, PAGE, CHUNK):
                stream.update(td_record(b"MR.EXTEND", gpa + at) + page[at:at + CHUNK])
    return stream.digest()


def sev(image, mask, kind):
    """One digest of the bytes of all measured pages, and on SEV-ES of the contexts between them."""
    stream = hashlib.sha256()
    for _, what, _, page in places(image, mask, native_zero=False):
        if what == "normal" or what == "vmsa" and kind == SEV_ES:
            stream.update(page)
    return stream.digest()


def sev_digest(image, platform):
    """The digest for one of the image's platforms, or None where it is neither SEV nor SEV-ES."""
    return sev(image, platform.mask, platform.kind) if platform.kind in (SEV, SEV_ES) else None


def digest(image, platform, native_zero):
    """That of SEV-SNP or TDX for one of the image's platforms, with the option or without, or None for other kinds."""
    if platform.kind == SNP:
        return snp(image, platform.mask, native_zero)
    return tdx(image, platform.mask) if platform.kind == TDX else None
