"""The pages of an ELF file, or its fault, and the image of a list with them, written from docs/ELF.md alone."""
from components import FILE_MOST, PAGES_MOST, Ended, answered, checked_list, component, layout
from records import PAGE

PAGE_LIMIT, SEGMENT_LIMIT, ADDRESS_LIMIT = 131_072, 64, 1 << 52
OFFSET, ADDRESS, IN_FILE, IN_MEMORY = 8, 24, 32, 40     # fields of a program header
# The answers, in the order of the rules, and what the program says
TEXTS = {"TooShort": "too short", "Magic": "magic", "Class": "class", "Machine": "machine", "Table": "table",
         "TooMany": "too many segments", "Sizes": "sizes", "Outside": "outside", "Wrap": "address wraps",
         "Overlap": "overlap", "Empty": "empty", "TooLarge": "too large"}


def number(file, at, size):
    return int.from_bytes(file[at:at + size], "little")


def file_fault(file):
    if len(file) < 64:
        return "TooShort"
    if file[:4] != b"\x7fELF":
        return "Magic"
    if file[4] != 2 or file[5] != 1:
        return "Class"
    if number(file, 18, 2) != 62:
        return "Machine"
    start, size, count = number(file, 32, 8), number(file, 54, 2), number(file, 56, 2)
    if count and (size != 56 or start + 56 * count > len(file)):
        return "Table"
    return None


def segment_fault(file, before, segment):
    offset, address, in_file, in_memory = segment
    if len(before) == SEGMENT_LIMIT:
        return "TooMany"
    if in_file > in_memory:
        return "Sizes"
    if in_file and offset + in_file > len(file):
        return "Outside"
    if address + in_memory > ADDRESS_LIMIT:
        return "Wrap"
    if any(a < address + in_memory and address < a + m for _, a, _, m in before):
        return "Overlap"
    return None


def pages_of(segments):
    """The numbers of the pages, rising; some that are too many, where they are."""
    found = set()
    for _, address, _, in_memory in segments:
        # A segment of terabytes isn't listed page by page: this one alone is too large.
        first, last = address // PAGE, (address + in_memory - 1) // PAGE
        found.update(range(first, min(last, first + PAGE_LIMIT) + 1))
        if len(found) > PAGE_LIMIT:
            break
    return sorted(found)


def judged(file):
    """(the loadable segments, the numbers of the pages) of a file or None, and (item, answer) of its fault or None."""
    fault = file_fault(file)
    if fault:
        return None, (0, fault)
    segments = []
    for k in range(number(file, 56, 2)):
        at = number(file, 32, 8) + 56 * k
        segment = tuple(number(file, at + field, 8) for field in (OFFSET, ADDRESS, IN_FILE, IN_MEMORY))
        if number(file, at, 4) == 1 and segment[3]:
            fault = segment_fault(file, segments, segment)
            if fault:
                return None, (k, fault)
            segments.append(segment)
    if not segments:
        return None, (0, "Empty")
    pages = pages_of(segments)
    return (None, (0, "TooLarge")) if len(pages) > PAGE_LIMIT else ((segments, pages), None)


def page_bytes(file, segments, page):
    """The bytes of a page, and whether some segment has one of them in the file."""
    memory, filled = bytearray(PAGE), False
    for offset, address, in_file, _ in segments:
        low, high = max(address, page * PAGE), min(address + in_file, page * PAGE + PAGE)
        if low < high:
            filled = True
            memory[low - page * PAGE:high - page * PAGE] = file[offset + low - address:offset + high - address]
    return bytes(memory), filled


# In an image

def page_component(file, segments, page, mask):
    memory, filled = page_bytes(file, segments, page)
    return component(None, "page", page * PAGE, mask, None, 0, 0, data=memory if filled else None)


def image_of_both(text, read, file, mask):
    """The image of a list of this text and an ELF file, which is None where it can't be read; else an answer."""
    version, parts, named = checked_list(text, read)
    if file is None:
        raise Ended(4, "outside fault: shelf")
    if len(file) > FILE_MOST:
        raise Ended(8, "limit: elf")
    accepted, fault = judged(file)
    if fault:
        item, name = fault
        raise Ended(1, f"elf refused at {item}: {TEXTS[name]}")
    segments, pages = accepted
    if named + len(pages) > PAGES_MOST:
        raise Ended(8, "limit: pages")
    return layout(version, parts + [page_component(file, segments, page, mask) for page in pages])


def built(text, read, file, mask):
    """(status, output, error, image) of `build-elf` over these; the image is None where there is none."""
    return answered(image_of_both, text, read, file, mask)
