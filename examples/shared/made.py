"""A shared object made by hand, with a symbol of each kind, and changes of single numbers in it."""

import struct

TITLES = [b"", b".text", b".dynsym", b".dynstr", b".dynamic", b".names", b".shstrtab", b".bss"]
STRINGS = [b"", b"call", b"table", b"own", b"outside", b"hidden", b"once", b"picked", b"weak", b"local", b"lib.so.3", b"libc.so.6"]
COUNT = 8  # of section headers
DT_NULL, DT_NEEDED, DT_SYMTAB, DT_SONAME = 0, 1, 6, 14
CALL, TABLE, OWN, OUTSIDE, HIDDEN, ONCE, PICKED, WEAK, LOCAL, ABSOLUTE = range(1, 11)
SYMBOLS = 11  # the null symbol among them


def offsets_of(texts):
    """The texts one after another, each with its closing zero, and the offset of each."""
    joined, offsets = b"", {}
    for text in texts:
        offsets[text] = len(joined)
        joined += text + b"\0"
    return joined, offsets


TITLE_BYTES, TITLE = offsets_of(TITLES)
STRING_BYTES, STRING = offsets_of(STRINGS)


def symbol(name, info, section, value=0, size=0, other=0):
    return struct.pack("<IBBHQQ", STRING[name], info, other, section, value, size)


def entry(tag, value):
    return struct.pack("<qQ", tag, value)


DYNAMIC_SYMBOLS = b"".join([
    bytes(24), symbol(b"call", 0x12, 1, 0, 4), symbol(b"table", 0x11, 7, 8, 8), symbol(b"own", 0x16, 7),
    symbol(b"outside", 0x10, 0), symbol(b"hidden", 0x12, 1, 4, 4, 2), symbol(b"once", 0xA1, 7, 16, 4),
    symbol(b"picked", 0x1A, 1, 8, 4, 3), symbol(b"weak", 0x22, 1, 12, 4), symbol(b"local", 0x02, 1), symbol(b"", 0x10, 0xFFF1)])
ENTRIES = b"".join([
    entry(DT_NEEDED, STRING[b"libc.so.6"]), entry(DT_SONAME, STRING[b"lib.so.3"]), entry(DT_SYMTAB, 64), entry(DT_NULL, 0),
    entry(DT_SONAME, STRING[b"call"])])

# Each section: name, type, flags, bytes (or the size of zeros), sh_link, sh_info, alignment, entry size.
SECTIONS = [
    (b".text", 1, 6, b"\x90" * 16, 0, 0, 16, 0),
    (b".dynsym", 11, 2, DYNAMIC_SYMBOLS, 3, 1, 8, 24),
    (b".dynstr", 3, 2, STRING_BYTES, 0, 0, 1, 0),
    (b".dynamic", 6, 3, ENTRIES, 3, 0, 8, 16),
    (b".names", 3, 0, b"\0other.so\0", 0, 0, 1, 0),
    (b".shstrtab", 3, 0, TITLE_BYTES, 0, 0, 1, 0),
    (b".bss", 8, 3, 32, 0, 0, 8, 0),
]


def shared_object():
    """The shared object, and the offset of each section in it."""
    body, offsets, headers = bytearray(64), [0], bytes(64)
    for name, code, flags, data, link, info, align, entry_size in SECTIONS:
        body += bytes(-len(body) % align)
        size = data if isinstance(data, int) else len(data)
        headers += struct.pack("<IIQQQQIIQQ", TITLE[name], code, flags, 0, len(body), size, link, info, align, entry_size)
        offsets.append(len(body))
        body += b"" if isinstance(data, int) else data
    body += bytes(-len(body) % 8)
    table = len(body)
    body[:64] = b"\x7fELF\x02\x01\x01" + bytes(9) + struct.pack(
        "<HHIQQQIHHHHHH", 3, 62, 1, 0, 0, table, 0, 64, 0, 0, 64, COUNT, 6)
    return bytes(body + headers), offsets


SHARED, PLACES = shared_object()
HEADERS = len(SHARED) - 64 * COUNT

FILE_FIELDS = {"class": (4, 1), "data": (5, 1), "version": (6, 1), "type": (16, 2), "machine": (18, 2),
               "shoff": (40, 8), "shentsize": (58, 2), "shnum": (60, 2), "shstrndx": (62, 2)}
SECTION_FIELDS = {"name": (0, 4), "type": (4, 4), "offset": (24, 8), "size": (32, 8), "link": (40, 4), "info": (44, 4),
                  "align": (48, 8), "entry": (56, 8)}
SYMBOL_FIELDS = {"name": (0, 4), "info": (4, 1), "other": (5, 1), "section": (6, 2)}


def head(field, number):
    return FILE_FIELDS[field] + (number,)


def sec(n, field, number):
    place, width = SECTION_FIELDS[field]
    return HEADERS + 64 * n + place, width, number


def sym(k, field, number):
    place, width = SYMBOL_FIELDS[field]
    return PLACES[2] + 24 * k + place, width, number


def named(k, name):
    """A symbol has another name."""
    return sym(k, "name", STRING[name])


def tag(k, number):
    return PLACES[4] + 16 * k, 8, number % 2**64


def value(k, number):
    return PLACES[4] + 16 * k + 8, 8, number


def changed(*changes):
    out = bytearray(SHARED)
    for place, width, number in changes:
        out[place : place + width] = number.to_bytes(width, "little")
    return bytes(out)


def moved(number, *changes):
    """The shared object with the bytes of a section once more at its end, where its header has them now."""
    size = len(SECTIONS[number - 1][3])
    return changed(sec(number, "offset", len(SHARED)), *changes) + SHARED[PLACES[number] : PLACES[number] + size]


def good(soname="lib.so.3", needs=("libc.so.6",), functions=3, objects=2, tls=1, others=1, references=1, weak=1):
    """What is said of the shared object as it is, or with something changed."""
    lines = ["shared object: " + soname] + ["needs: " + need for need in needs]
    lines.append("symbols: %d functions, %d objects, %d thread-local, %d others, %d references, %d weak"
                 % (functions, objects, tls, others, references, weak))
    return "\n".join(lines) + "\n"
