"""The listing of an image that the reader accepts, written from docs/FORMAT.md and docs/PROGRAM.md alone."""
from records import LARGE, PAGE, PARAMETERS, fixed, headers

PLATFORM_KINDS = ("native", "vsm", "snp", "tdx", "sev", "sev_es")
PAGE_KINDS = ("normal", "secrets", "cpuid", "cpuid_xf")

WHOLE = "igvm version {f.version} section {f.offset} {f.size} total {f.total} headers {count}{machine}\n"
MACHINES = {1: "", 2: " architecture x64 page 4096"}        # by the version, what ends the line for the whole
# What a header's line says behind its number and its place: f are its fields, w the words that these stand for.
TEXTS = {
    "Platform": "platform {number} mask {f.mask:08x} kind {w[kind]} vtl {f.vtl} version {f.version} "
                "shared {f.shared:016x}",
    "Policy": "policy mask {f.mask:08x} value {f.policy:016x}",
    "Area": "area {f.index} bytes {f.size} from {f.offset}",
    "Page": "page gpa {f.gpa:016x} mask {f.mask:08x} from {f.offset} size {w[size]} {w[measured]} {w[kind]}",
    "Insert": "insert gpa {f.gpa:016x} mask {f.mask:08x} area {f.index}",
    "Param": "param {w[name]} area {f.index} offset {f.byte_offset}",
    "Context": "context gpa {f.gpa:016x} mask {f.mask:08x} from {f.offset} vp {f.vp}",
    "Required": "required gpa {f.gpa:016x} mask {f.mask:08x} bytes {f.size} flags {f.flags:08x}",
    "ErrorRange": "error-range gpa {f.gpa:016x} mask {f.mask:08x} bytes {f.size}",
    "IdBlock": "id-block mask {f.mask:08x} author {f.author} ld {w[digest]} family {w[family]} image {w[image]} "
               "version {f.version} svn {f.svn} algorithms {f.id_algorithm} {f.author_algorithm}",
    "Carried": "carried kind {type:08x} length {length}",
}


def words(header):
    """The words of a header's line that stand for a number or for bytes."""
    fields = header.fields
    if header.name == "Platform":
        return {"kind": PLATFORM_KINDS[fields.kind]}
    if header.name == "Page":
        return {"size": LARGE if fields.flags & 1 else PAGE, "kind": PAGE_KINDS[fields.data_type],
                "measured": "unmeasured" if fields.flags & 2 else "measured"}
    if header.name == "Param":
        return {"name": PARAMETERS[header.type]}
    if header.name == "IdBlock":
        return {name: getattr(fields, name).hex() for name in ("digest", "family", "image")}
    return {}


def listing(image):
    """The line for the whole, then one for each header; platforms are numbered among themselves."""
    whole, found, platforms = fixed(image), headers(image), 0
    lines = [WHOLE.format(f=whole, count=len(found), machine=MACHINES[whole.version])]
    for number, header in enumerate(found):
        text = TEXTS[header.name].format(f=header.fields, w=words(header), number=platforms,
                                         type=header.type, length=len(header.content))
        lines.append(f"{number} at {header.place} {text}\n")
        platforms += header.name == "Platform"
    return "".join(lines)
