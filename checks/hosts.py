"""What a host description in JSON says, or its refusal, written from docs/HOST.md alone."""
import re
from collections import namedtuple

from lists import NOTHING, Refused, address, value_of

NAMES = ("vp_count", "srat", "madt", "mmio_ranges", "memory_map", "command_line", "slit", "pptt", "device_tree",
         "environment_info")        # of the parameters, in the order of their numbers
KEYS = {"memory", "values", "secrets", "cpuid"}
UNIT, MEMORY_END, RANGES_MOST = 4096, 2 ** 52, 64
VALUE_MOST, PAGE_MOST = 1048576, 4096


class Host(namedtuple("Host", "memory values secrets cpuid")):
    """Ranges as (start, end), values by their names, and what pages of secrets and of CPUID begin with."""

    def covers(self, start, size):
        """Each of these bytes lies in some range; no two ranges share one."""
        return size == sum(max(0, min(end, start + size) - max(first, start)) for first, end in self.memory)

    def value(self, name):
        return self.values.get(name, b"")


def bytes_of(value, most):
    fits = isinstance(value, str) and re.fullmatch("[0-9a-fA-F]*", value) and len(value) % 2 == 0
    return bytes.fromhex(value) if fits and len(value) // 2 <= most else NOTHING


def range_of(entry, least):
    """Start and end of a range that begins at this address or behind it, or NOTHING."""
    if not isinstance(entry, dict) or entry.keys() != {"start", "bytes"}:
        return NOTHING
    start, size = address(entry["start"]), address(entry["bytes"])
    if NOTHING in (start, size) or start % UNIT or size % UNIT or size == 0:
        return NOTHING
    return (start, start + size) if least <= start and start + size <= MEMORY_END else NOTHING


def memory_of(value):
    entries = value if isinstance(value, list) and value else [None]
    ranges, least = [], 0
    for item, entry in enumerate(entries[:RANGES_MOST]):
        found = range_of(entry, least)
        if found is NOTHING:
            raise Refused(f": memory {item}")
        ranges.append(found)
        least = found[1]
    if len(entries) > RANGES_MOST:
        raise Refused(f": memory {RANGES_MOST}")
    return ranges


def values_of(value):
    if not isinstance(value, dict):
        raise Refused(": values 0")
    found = {name: bytes_of(value[name], VALUE_MOST) for name in NAMES if name in value}
    for item, name in enumerate(NAMES):
        if found.get(name) is NOTHING:
            raise Refused(f": values {item}")
    if value.keys() - set(NAMES):
        raise Refused(f": values {len(NAMES)}")
    return found


def page_of(whole, key):
    """The bytes at a key of the whole; none where it is missing."""
    found = bytes_of(whole.get(key, ""), PAGE_MOST)
    if found is NOTHING:
        raise Refused(f": {key} 0")
    return found


def read_host(text):
    """The host that a text describes, else Refused."""
    whole = value_of(text)
    if not isinstance(whole, dict) or whole.keys() - KEYS or "memory" not in whole:
        raise Refused(": top 0")
    return Host(memory_of(whole["memory"]), values_of(whole.get("values", {})), page_of(whole, "secrets"),
                page_of(whole, "cpuid"))
