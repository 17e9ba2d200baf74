"""One object with a part of each kind, and what the reader says of it with one place or two changed.

Each check of the reader stands here with its fault, with a neighbour just inside the limit beside it where
there is one, and with the order where two faults stand together. The wanted answers are those that the
checks give in their order: identification, section table, sections, symbols, relocations, groups.
"""

import os
import struct
import subprocess
import sys

# ---- the object

TITLES = [b"", b".text", b".rela.text", b".data", b".tdata", b".group", b".symtab", b".strtab", b".shstrtab",
          b".comment", b".zdebug_info", b".got", b".interp", b".bss"]
STRINGS = [b"", b"local", b"first", b"second", b"common", b"own"]
COUNT = 10  # of section headers
SYMBOLS = 6  # the null symbol among them


def offsets_of(texts):
    """The texts one after another, each with its closing zero, and the offset of each."""
    joined, offsets = b"", {}
    for text in texts:
        offsets[text] = len(joined)
        joined += text + b"\0"
    return joined, offsets


TITLE_BYTES, TITLE = offsets_of(TITLES)
STRING_BYTES, STRING = offsets_of(STRINGS)


def symbol(name, info, section, value=0, size=0):
    return struct.pack("<IBBHQQ", STRING[name], info, 0, section, value, size)


def rela(offset, code, number, addend):
    return struct.pack("<QQq", offset, number << 32 | code, addend)


# Each section: name, type, flags, bytes (or the size of zeros), sh_link, sh_info, alignment, entry size.
SECTIONS = [
    (b".text", 1, 6, b"\x90" * 16, 0, 0, 16, 0),
    (b".rela.text", 4, 0x40, rela(0, 2, 3, -4) + rela(8, 1, 2, 0), 6, 1, 8, 24),
    (b".data", 1, 3, b"\x01" * 8, 0, 0, 8, 0),
    (b".tdata", 1, 0x403, b"\x02" * 8, 0, 0, 8, 0),
    (b".group", 17, 0, struct.pack("<II", 1, 3), 6, 2, 4, 4),
    (b".symtab", 2, 0, bytes(24) + symbol(b"local", 0x00, 1) + symbol(b"first", 0x12, 1)
     + symbol(b"second", 0x10, 0) + symbol(b"common", 0x11, 0xFFF2, 8, 4) + symbol(b"own", 0x16, 4), 7, 2, 8, 24),
    (b".strtab", 3, 0, STRING_BYTES, 0, 0, 1, 0),
    (b".shstrtab", 3, 0, TITLE_BYTES, 0, 0, 1, 0),
    (b".bss", 8, 3, 32, 0, 0, 8, 0),
]


def object_bytes():
    """The object, and the offset of each section in it."""
    body, offsets, headers = bytearray(64), [0], bytes(64)
    for name, code, flags, data, link, info, align, entry in SECTIONS:
        body += bytes(-len(body) % align)
        size = data if isinstance(data, int) else len(data)
        headers += struct.pack("<IIQQQQIIQQ", TITLE[name], code, flags, 0, len(body), size, link, info, align, entry)
        offsets.append(len(body))
        body += b"" if isinstance(data, int) else data
    body += bytes(-len(body) % 8)
    table = len(body)
    body[:64] = b"\x7fELF\x02\x01\x01" + bytes(9) + struct.pack(
        "<HHIQQQIHHHHHH", 1, 62, 1, 0, 0, table, 0, 64, 0, 0, 64, COUNT, 8)
    return bytes(body + headers), offsets


OBJECT, PLACES = object_bytes()
TABLE = len(OBJECT) - 64 * COUNT

# ---- changes: place, width, number

FILE_FIELDS = {"class": (4, 1), "data": (5, 1), "version": (6, 1), "type": (16, 2), "machine": (18, 2),
               "shoff": (40, 8), "shentsize": (58, 2), "shnum": (60, 2), "shstrndx": (62, 2)}
SECTION_FIELDS = {"name": (0, 4), "type": (4, 4), "flags": (8, 8), "offset": (24, 8), "size": (32, 8),
                  "link": (40, 4), "info": (44, 4), "align": (48, 8), "entry": (56, 8)}
SYMBOL_FIELDS = {"name": (0, 4), "info": (4, 1), "section": (6, 2), "value": (8, 8)}


def head(field, number):
    return FILE_FIELDS[field] + (number,)


def sec(n, field, number):
    place, width = SECTION_FIELDS[field]
    return TABLE + 64 * n + place, width, number


def sym(k, field, number):
    place, width = SYMBOL_FIELDS[field]
    return PLACES[6] + 24 * k + place, width, number


def offset_of(k, number):
    return PLACES[2] + 24 * k, 8, number


def code_of(k, number):
    return PLACES[2] + 24 * k + 8, 4, number


def symbol_of(k, number):
    return PLACES[2] + 24 * k + 12, 4, number


def word(i, number):
    return PLACES[5] + 4 * i, 4, number


def changed(*changes):
    out = bytearray(OBJECT)
    for place, width, number in changes:
        out[place : place + width] = number.to_bytes(width, "little")
    return bytes(out)


GOOD = "object"
REST = len(OBJECT) - PLACES[1]  # the bytes of the file from .text on
SECOND_GROUP = [sec(9, "type", 17), sec(9, "flags", 0), sec(9, "offset", PLACES[5]), sec(9, "size", 8),
                sec(9, "link", 6), sec(9, "info", 2)]

# What is said of a file that is not the object with a place changed.
FILES = [
    (b"", "NotElf"), (OBJECT, GOOD), (OBJECT[:-1], "BadTable 0"), (OBJECT[:63], "NotElf"), (OBJECT[:3], "NotElf"),
    (b"!<arch>\n", "Archive"), (b"!<thin>\n", "Archive"), (b"!<arc", "Script"), (b"INPUT(a.o)\n", "Script"),
    (b"#\n", "Script"), (b"\t\r\n ", "Script"), (b"\x00abc", "NotElf"), (b"abc\x7f", "NotElf"), (b"abc\x1f", "NotElf"),
    (b"\x7fELf" + OBJECT[4:], "NotElf"),
]

ROWS = [
    # identification
    ([head("class", 1)], "WrongClass"), ([head("data", 2)], "WrongClass"), ([head("version", 2)], "WrongClass"),
    ([head("machine", 3)], "WrongMachine"), ([head("type", 2)], "WrongType"), ([head("type", 4)], "WrongType"),
    ([head("class", 1), head("machine", 3)], "WrongClass"), ([head("machine", 3), head("type", 2)], "WrongMachine"),
    # of type 3 it is a shared object, of which the section table is looked at first and then its dynamic section
    ([head("type", 3)], "NoDynamic"), ([head("type", 3), head("shnum", 0)], "BadTable 0"),
    # the section table
    ([head("shentsize", 63)], "BadTable 0"), ([head("shnum", 0)], "BadTable 0"), ([head("shnum", COUNT + 1)], "BadTable 0"),
    ([head("shoff", TABLE + 1)], "BadTable 0"), ([head("shoff", 2**64 - 1)], "BadTable 0"),
    ([head("shstrndx", 0)], "BadTable 0"), ([head("shstrndx", 1)], "BadTable 0"), ([head("shstrndx", COUNT)], "BadTable 0"),
    ([head("shstrndx", 0), sec(1, "align", 3)], "BadTable 0"),
    # places and alignments of sections
    ([sec(1, "size", REST)], GOOD), ([sec(1, "size", REST + 1)], "BadTable 1"), ([sec(1, "size", 2**64 - 1)], "BadTable 1"),
    ([sec(3, "offset", len(OBJECT) - 8)], GOOD), ([sec(3, "offset", len(OBJECT) - 7)], "BadTable 3"),
    ([sec(9, "size", 2**63)], GOOD), ([sec(9, "offset", 2**63)], GOOD),
    ([sec(1, "align", 0)], GOOD), ([sec(1, "align", 3)], "BadTable 1"), ([sec(1, "align", 2**20)], GOOD),
    ([sec(1, "align", 2**21)], "BadTable 1"), ([sec(9, "align", 3)], "BadTable 9"),
    # names of sections
    ([sec(9, "name", len(TITLE_BYTES) - 1)], GOOD), ([sec(9, "name", len(TITLE_BYTES))], "BadName 9"),
    ([sec(8, "size", len(TITLE_BYTES) - 1)], "BadName 9"),
    ([sec(3, "align", 3), sec(1, "name", len(TITLE_BYTES))], "BadName 1"),
    ([sec(1, "align", 3), sec(1, "name", len(TITLE_BYTES))], "BadTable 1"),
    # flags and types of sections
    ([sec(3, "flags", 0x803)], "Compressed 3"), ([sec(9, "name", TITLE[b".zdebug_info"])], "Compressed 9"),
    ([sec(3, "flags", 0x803), sec(3, "name", len(TITLE_BYTES))], "BadName 3"),
    ([sec(3, "type", 9)], "UnsupportedSection 3"), ([sec(3, "type", 18)], "UnsupportedSection 3"),
    ([sec(3, "name", TITLE[b".got"])], "UnsupportedSection 3"), ([sec(3, "name", TITLE[b".interp"])], "UnsupportedSection 3"),
    ([sec(3, "name", TITLE[b".symtab"])], "UnsupportedSection 3"), ([sec(3, "name", TITLE[b".comment"])], GOOD),
    ([sec(3, "type", 9), sec(3, "flags", 0x803)], "Compressed 3"),
    ([sec(3, "type", 5)], "UnknownAlloc 3"), ([sec(3, "type", 5), sec(3, "flags", 0)], GOOD),
    ([sec(3, "type", 6)], "UnknownAlloc 3"), ([sec(3, "type", 7)], GOOD), ([sec(3, "type", 14)], GOOD),
    ([sec(3, "type", 16)], GOOD), ([sec(3, "type", 0x70000001)], GOOD), ([sec(3, "type", 0x70000002)], "UnknownAlloc 3"),
    # the symbol table
    ([sec(9, "type", 2), sec(9, "flags", 0), sec(9, "offset", 0)], "BadTable 9"),
    ([sec(6, "entry", 23)], "BadTable 6"), ([sec(6, "size", 24 * SYMBOLS - 1)], "BadTable 6"), ([sec(6, "size", 0)], "BadTable 6"),
    ([sec(6, "link", 1)], "BadTable 6"), ([sec(6, "link", 0)], "BadTable 6"), ([sec(6, "link", COUNT)], "BadTable 6"),
    ([sec(6, "info", SYMBOLS + 1)], "BadTable 6"), ([sec(6, "info", SYMBOLS)], "BadSymbol 2"),
    # symbols
    ([sym(2, "name", len(STRING_BYTES))], "BadSymbol 2"), ([sym(1, "name", 0)], GOOD), ([sym(2, "name", 0)], "BadSymbol 2"),
    ([sec(7, "size", len(STRING_BYTES) - 1)], "BadSymbol 5"),
    ([sym(2, "section", 0xFFFF)], "UnsupportedSymbol 2"), ([sym(2, "section", 0xFFF1)], GOOD),
    ([sym(2, "section", 0xFF00)], "BadSymbol 2"), ([sym(2, "section", COUNT)], "BadSymbol 2"),
    ([sym(2, "section", COUNT - 1)], GOOD),
    ([sym(2, "section", 0xFFFF), sym(2, "name", len(STRING_BYTES))], "BadSymbol 2"),
    ([sym(2, "info", 0x02)], "BadSymbol 2"), ([sym(1, "info", 0x10)], "BadSymbol 1"),
    ([sym(2, "info", 0x22)], GOOD), ([sym(2, "info", 0x32)], "UnsupportedSymbol 2"), ([sym(2, "info", 0xA2)], "UnsupportedSymbol 2"),
    ([sym(2, "info", 0x1A)], "UnsupportedSymbol 2"), ([sym(1, "section", 0xFFF2)], "UnsupportedSymbol 1"),
    ([sym(4, "info", 0x16)], "UnsupportedSymbol 4"),
    ([sym(4, "value", 0)], "BadSymbol 4"), ([sym(4, "value", 3)], "BadSymbol 4"), ([sym(4, "value", 1)], GOOD),
    ([sym(4, "value", 2**20)], GOOD), ([sym(4, "value", 2**21)], "BadSymbol 4"),
    ([sym(5, "section", 1)], "BadSymbol 5"), ([sym(5, "section", 0xFFF1)], "BadSymbol 5"), ([sym(5, "section", 0)], GOOD),
    ([sym(1, "info", 0x06)], "BadSymbol 1"), ([sym(1, "info", 0x06), sym(1, "section", 4)], GOOD),
    ([sym(4, "value", 3), sym(2, "info", 0x32)], "UnsupportedSymbol 2"),
    ([sym(2, "info", 0x32), sec(6, "entry", 23)], "BadTable 6"), ([sym(2, "info", 0x32), sec(9, "align", 3)], "BadTable 9"),
    # sections of relocations and their entries
    ([sec(2, "entry", 0)], "BadTable 2"), ([sec(2, "size", 47)], "BadTable 2"), ([sec(2, "size", 0)], GOOD),
    ([sec(2, "link", 7)], "BadTable 2"), ([sec(2, "info", 0)], "BadTable 2"), ([sec(2, "info", COUNT)], "BadTable 2"),
    ([sec(2, "info", 7), symbol_of(0, SYMBOLS)], GOOD),
    ([symbol_of(0, SYMBOLS)], "BadRela 2 0"), ([symbol_of(0, SYMBOLS - 1)], GOOD), ([symbol_of(1, 2**32 - 1)], "BadRela 2 1"),
    ([offset_of(0, 4)], GOOD), ([offset_of(0, 13), sec(1, "size", 16)], "BadRela 2 0"), ([offset_of(1, 9)], "BadRela 2 1"),
    ([offset_of(0, 2**64 - 1)], "BadRela 2 0"), ([code_of(0, 0), offset_of(0, 16)], GOOD),
    ([code_of(0, 0), offset_of(0, 17)], "BadRela 2 0"),
    ([sec(2, "info", 9)], "BadRela 2 0"), ([sec(2, "info", 9), sec(2, "size", 0)], GOOD),
    ([offset_of(0, 5)], "BadRela 2 1"), ([offset_of(0, 12)], "BadRela 2 1"), ([code_of(0, 0), offset_of(0, 12)], GOOD),
    ([symbol_of(1, SYMBOLS), offset_of(0, 5)], "BadRela 2 1"), ([symbol_of(0, SYMBOLS), offset_of(0, 5)], "BadRela 2 0"),
    ([symbol_of(0, SYMBOLS), sym(5, "section", 1)], "BadSymbol 5"),
    # groups
    ([sec(5, "size", 3)], "BadGroup 5"), ([sec(5, "size", 6)], "BadGroup 5"), ([sec(5, "size", 4)], GOOD), ([sec(5, "size", 0)], "BadGroup 5"),
    ([sec(5, "link", 7)], "BadGroup 5"), ([sec(5, "info", SYMBOLS)], "BadGroup 5"), ([sec(5, "info", SYMBOLS - 1)], GOOD),
    ([sec(5, "info", 0)], "BadGroup 5"), ([sym(1, "name", 0), sec(5, "info", 1)], GOOD),
    ([word(0, 0)], GOOD), ([word(0, 2)], "BadGroup 5"), ([word(1, 0)], "BadGroup 5"), ([word(1, COUNT)], "BadGroup 5"),
    ([word(1, COUNT - 1)], GOOD), (SECOND_GROUP, "BadGroup 9"), (SECOND_GROUP + [sec(9, "size", 4)], GOOD),
    ([word(1, 0), offset_of(0, 5)], "BadRela 2 1"), ([word(1, 0), sec(2, "link", 7)], "BadTable 2"),
]


def said_of(reader, path, data):
    """What the reader says of a file of these bytes, without path and counts, where its status fits."""
    with open(path, "wb") as file:
        file.write(data)
    run = subprocess.run([reader, "read", path], stdout=subprocess.PIPE)
    text = run.stdout.decode("latin-1")
    if run.returncode == 0 and text == "object: %d sections, %d symbols\n" % (COUNT, SYMBOLS):
        return GOOD
    start = "error: %s: " % path
    if run.returncode == 1 and text.startswith(start) and text.count("\n") == 1:
        return text[len(start) :].rstrip("\n")
    return "status %d, %r" % (run.returncode, text)


def main():
    reader, path = sys.argv[1], os.path.join(sys.argv[2], "row.o")
    cases = FILES + [(changed(*changes), wanted) for changes, wanted in ROWS]
    wrong = 0
    for number, (data, wanted) in enumerate(cases):
        got = said_of(reader, path, data)
        if got != wanted:
            wrong += 1
            print("case %d: %s, wanted %s" % (number, got, wanted))
    faulty = sum(wanted != GOOD for _, wanted in cases)
    print("%d objects, %d of them hostile, %d wrong" % (len(cases), faulty, wrong))
    sys.exit(1 if wrong else 0)


main()
