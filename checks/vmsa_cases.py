"""Texts of VMSA pages with the pages that they stand for or their refusals, told by hand."""
from vmsas import SIZE

NO_JSON = ""


def page_with(**runs):
    """A page of zeros but for these bytes, each run by its place."""
    page = bytearray(SIZE)
    for place, digits in runs.items():
        at, found = int(place[1:], 16), bytes.fromhex(digits)
        page[at:at + len(found)] = found
    return bytes(page)


def place(number):
    """What is behind `igvm: json refused` where a text is refused at this place."""
    return f": vmsa {number}"


# A text, and its page or what is behind `igvm: json refused`
KNOWN = (
    ("{}", page_with()),
    ('{"rip":"0xfff0","cs":{"selector":61440,"attributes":155,"limit":65535,"base":"0xffff0000"}}',
     page_with(x010="00f0 9b00 ffff0000 0000ffff00000000", x178="f0ff000000000000")),
    ('{"other":[{"at":784,"byte":18},{"at":785,"byte":15},{"at":786,"byte":128}]}', page_with(x310="120f80")),
    # long mode: paging and caches on, a code segment of 64 bits, an address in the upper half
    ('{"efer":"0x1d01","cr0":"0x80010033","cr3":"0x100000","cr4":"0x668","rip":"0xFFFFFFFF80000000","rflags":"0x2",'
     '"cs":{"selector":8,"attributes":2715,"limit":4294967295},"g_pat":"0x70106","sev_features":"0x1","xcr0":"0x1"}',
     page_with(x010="0800 9b0a ffffffff", x0d0="011d", x148="6806", x150="000010", x158="33000180", x170="02",
               x178="00000080ffffffff", x268="060107", x3b0="01", x3e8="01")),
    *((text, NO_JSON) for text in ("", "{", "{} {}", '{"rip":1e400,"rip":"0x1"}', '{"rip":"\\ud800"}')),
    *((text, place(0)) for text in ("[]", "null", '{"RIP":"0x0"}', '{"x":0,"es":0}')),
    *(('{"es":%s,"cs":0}' % value, place(1))
      for value in ('{"selector":65536}', '{"limit":1,"x":0}', '{"base":0}', '{"attributes":-0}', "[]", "null")),
    ('{"tr":{"limit":4294967296}}', place(10)), ('{"efer":"0x","other":0}', place(11)),
    ('{"rip":"fff0"}', place(18)), ('{"rip":"0x00000000000000001"}', place(18)), ('{"xcr0":"0X1"}', place(23)),
    *(('{"other":%s}' % value, place(24))
      for value in ("{}", "[0]", '[{"at":784}]', '[{"at":784,"byte":1,"x":0}]', '[{"at":4096,"byte":1}]',
                    '[{"at":16,"byte":1}]', '[{"at":207,"byte":1},{"at":206,"byte":1}]', '[{"at":784,"byte":0}]',
                    '[{"at":784,"byte":1},{"at":784,"byte":1}]', '[{"at":784,"byte":256}]')),
)
# The same, where it is a matter of how JSON is spelled
SPELLED = (
    *(('{"rip":%s,"rip":"0x1"}' % ("[" * deep + "]" * deep), answer)
      for deep, answer in ((126, page_with(x178="01")), (127, NO_JSON))),
    *(('{"es":{"base":%s,"base":"0x1"}}' % ("[" * deep + "]" * deep), answer)
      for deep, answer in ((125, page_with(x008="01")), (126, NO_JSON))),
    *(('{"rip":%s,"rip":"0x1"}' % value, page_with(x178="01"))
      for value in ("1e308", "1e-400", "null", '"\\ud83d\\ude00"')),
    *(('{"rip":%s,"rip":"0x1"}' % value, NO_JSON) for value in ("1e309", "1" * 310, "01", "[1,]", '"\\ude00\\ud83d"')),
    ('{"rip":"0x1","rip":null}', place(18)), ('{"rip":"0x1","r\\u0069p":"0X1"}', place(18)),
    ('{"r\\u0069p":"\\u0030x1"}', page_with(x178="01")), (' {\t"rip"\n:\r"0x1" } ', page_with(x178="01")),
    ('\ufeff{"rip":"0x1"}', NO_JSON), ('{"rip\\u0000":"0x1"}', place(0)), ('{"es":{},"other":[]}', page_with()),
    ('{"other":[{"at":784,"at":16,"byte":0,"byte":1}]}', place(24)),
    ('{"other":[{"at":16,"at":784,"byte":0,"byte":1}]}', page_with(x310="01")),
    ('{"es":0,"es":{"limit":-1,"limit":1}}', page_with(x004="01")),
)

RESET, LAST = KNOWN[1][1], page_with(xfff="ff")
RESET_TEXT = '{"cs":{"attributes":155,"base":"0xffff0000","limit":65535,"selector":61440},"rip":"0xfff0"}'
# A page, and what is printed of it
PRINTED = (
    (b"", "{}"), (bytes(SIZE), "{}"), (bytes(17), "{}"), (RESET, RESET_TEXT), (RESET[:0x17A], RESET_TEXT),
    (RESET[:0x179], RESET_TEXT.replace("0xfff0", "0xf0")),
    (page_with(x310="21"), '{"other":[{"at":784,"byte":33}]}'), (LAST, '{"other":[{"at":4095,"byte":255}]}'),
    (page_with(x000="01", x00f="80"), '{"es":{"attributes":0,"base":"0x8000000000000000","limit":0,"selector":1}}'),
    (page_with(x092="ffff"), '{"tr":{"attributes":65535,"base":"0x0","limit":0,"selector":0}}'),
    (page_with(x09f="01a0", x0cf="02", x0d0="00000000000000ff", x0d8="03", x3ef="ab", x3f0="04"),
     '{"efer":"0xff00000000000000","other":[{"at":160,"byte":160},{"at":207,"byte":2},{"at":216,"byte":3},'
     '{"at":1008,"byte":4}],"tr":{"attributes":0,"base":"0x100000000000000","limit":0,"selector":0},'
     '"xcr0":"0xab00000000000000"}'),
)
