"""The checks of the reader of shared objects, each with files that it refuses and the nearest file that it does not.

A row has the name of a check, the fault, the files that are refused for it, the nearest file that passes this check,
and what is said of that one: mostly what is said of a shared object, else the fault of a later check.
"""

from made import (ABSOLUTE, CALL, COUNT, DT_NULL, DT_SONAME, HEADERS, HIDDEN, LOCAL, SHARED, STRING, STRING_BYTES,
                  SYMBOLS, changed, good, head, moved, named, sec, sym, tag, value)

TEXT, DYNSYM, DYNSTR, DYNAMIC, NAMES, BSS = 1, 2, 3, 4, 5, 7  # the numbers of sections
END = len(STRING_BYTES)  # where .dynstr ends
BARE = good(functions=0, objects=0, tls=0, others=0, references=0, weak=0)  # without symbols
NO_SYMBOLS = sec(DYNSYM, "size", 24)  # but for the null symbol
CUT_TEXT = sec(DYNSTR, "size", END - 1)  # the last text of .dynstr has no closing zero in it
OTHER_NAMES = [sec(DYNAMIC, "link", NAMES), value(0, 1), value(1, 1)]  # soname and need are texts of .names
OTHERS = good("other.so", ("other.so",))


def byte(place, number):
    """The shared object with another byte at a place."""
    return changed((place, 1, number))


# gABI "ELF Identification", "ELF Header"
FILES = [
    ("an archive", "Archive", [b"!<arch>\n", b"!<arch>"], b"!<arch", "Script"),
    ("a thin archive", "Archive", [b"!<thin>\n", b"!<thin>"], b"!<thin", "Script"),
    ("a text has a byte", "NotElf", [b""], b"(", "Script"),
    ("a text is printable from the space on", "NotElf", [b"\x1fabc", b"\x00abc", b"\x0eabc"], b" abc", "Script"),
    ("a text is printable up to the tilde", "NotElf", [b"\x7fabc", b"\xffabc"], b"~abc", "Script"),
    ("a text may have tabs", "NotElf", [b"\x08abc"], b"\tabc", "Script"),
    ("a text may have line feeds", "NotElf", [b"\x0babc"], b"\nabc", "Script"),
    ("a text may have carriage returns", "NotElf", [b"\x0cabc"], b"\rabc", "Script"),
    ("four bytes of a text are looked at", "NotElf", [b"abc\0", b"ab\0", b"\0"], b"abcd\0", "Script"),
    ("the first magic byte", "NotElf", [byte(0, 0x80), byte(0, 0)], SHARED, good()),
    ("the second magic byte", "NotElf", [byte(1, ord("E") - 1), byte(1, ord("E") + 1)], SHARED, good()),
    ("the third magic byte", "NotElf", [byte(2, ord("L") - 1), byte(2, ord("L") + 1)], SHARED, good()),
    ("the fourth magic byte", "NotElf", [byte(3, ord("F") - 1), byte(3, ord("F") + 1), SHARED[:3]], SHARED, good()),
    ("a whole header", "NotElf", [SHARED[:4], SHARED[:63]], SHARED[:64], "BadTable 0"),
    ("the class", "WrongClass", [changed(head("class", c)) for c in (0, 1, 3, 255)], SHARED, good()),
    ("the byte order", "WrongClass", [changed(head("data", c)) for c in (0, 2, 255)], SHARED, good()),
    ("the version", "WrongClass", [changed(head("version", c)) for c in (0, 2, 255)], SHARED, good()),
    ("the machine", "WrongMachine", [changed(head("machine", c)) for c in (3, 61, 63, 62 + 256)], SHARED, good()),
    ("the type of the file", "WrongType", [changed(head("type", c)) for c in (0, 2, 4, 3 + 256)], SHARED, good()),
]

# gABI "Sections"
SECTION_TABLE = [
    ("the size of a section header", "BadTable 0", [changed(head("shentsize", c)) for c in (0, 63, 65, 128)], SHARED, good()),
    ("there are section headers", "BadTable 0", [changed(head("shnum", 0)), changed(head("shnum", 0), head("shstrndx", 0))],
     SHARED, good()),
    ("the section headers end in the file", "BadTable 0",
     [SHARED[:-1], changed(head("shoff", HEADERS + 1)), changed(head("shnum", COUNT + 1)), changed(head("shnum", 0xFFFF))],
     SHARED, good()),
    ("their end does not wrap", "BadTable 0",
     [changed(head("shoff", 2**64 - c)) for c in (1, 64, 64 * COUNT, 2**63)], SHARED, good()),
    ("the section of names is there", "BadTable 0", [changed(head("shstrndx", c), sec(0, "type", 3)) for c in (0, COUNT, 0xFFFF)],
     changed(head("shstrndx", NAMES)), good()),
    ("the section of names has strings", "BadTable 0", [changed(head("shstrndx", c)) for c in (TEXT, DYNSYM, BSS)],
     changed(head("shstrndx", DYNSTR)), good()),
]

# gABI "Symbol Table", "Dynamic Section": the two tables and their strings
TABLES = [
    ("there are symbols", "NoDynamic", [changed(sec(DYNSYM, "type", c)) for c in (0, 2, 10, 12, 11 + 2**16)],
     changed(sec(DYNSYM, "type", 2), sec(BSS, "type", 11), sec(BSS, "size", 24), sec(BSS, "link", DYNSTR), sec(BSS, "offset", 64)), BARE),
    ("there is a dynamic section", "NoDynamic", [changed(sec(DYNAMIC, "type", c)) for c in (0, 5, 7, 6 + 2**16)],
     changed(sec(DYNAMIC, "type", 7), sec(BSS, "type", 6), sec(BSS, "size", 0), sec(BSS, "link", DYNSTR)), good("row.so", ())),
    ("section 0 is none", "NoDynamic", [changed(sec(DYNSYM, "type", 2), sec(0, "type", 11)), changed(sec(DYNAMIC, "type", 7), sec(0, "type", 6))],
     changed(sec(0, "type", 11)), good()),
    ("the symbols end in the file", "BadTable 2", [moved(DYNSYM)[:-1], changed(sec(DYNSYM, "size", 2**64 - 16))], moved(DYNSYM), good()),
    ("the end of the symbols does not wrap", "BadTable 2",
     [changed(NO_SYMBOLS, sec(DYNSYM, "offset", c)) for c in (2**64 - 1, 2**64 - 24, 2**63, len(SHARED) - 23)],
     changed(NO_SYMBOLS, sec(DYNSYM, "offset", len(SHARED) - 24)), BARE),
    ("the dynamic section ends in the file", "BadTable 4", [moved(DYNAMIC)[:-1], changed(sec(DYNAMIC, "size", 2**64 - 16))],
     moved(DYNAMIC), good()),
    ("the end of the dynamic section does not wrap", "BadTable 4",
     [changed(sec(DYNAMIC, "size", 16), sec(DYNAMIC, "offset", c)) for c in (2**64 - 1, 2**64 - 16, 2**63, len(SHARED) - 15)],
     changed(sec(DYNAMIC, "size", 0), sec(DYNAMIC, "offset", len(SHARED))), good("row.so", ())),
    ("the names of symbols end in the file", "BadTable 3", [moved(DYNSTR)[:-1], changed(sec(DYNSTR, "size", 2**64 - 1))],
     moved(DYNSTR), good()),
    ("the end of the names does not wrap", "BadTable 3", [changed(sec(DYNSTR, "offset", c)) for c in (2**64 - 1, 2**64 - END, 2**63)],
     changed(sec(DYNSTR, "size", END + 1)), good()),
    ("the texts of the dynamic section end in the file", "BadTable 5",
     [moved(NAMES, *OTHER_NAMES)[:-1], changed(sec(NAMES, "size", 2**64 - 1), *OTHER_NAMES)], moved(NAMES, *OTHER_NAMES), OTHERS),
    ("strings that no table names may be cut off", "BadTable 5", [changed(sec(NAMES, "size", 2**40), *OTHER_NAMES)],
     changed(sec(NAMES, "size", 2**40)), good()),
    ("symbols are whole", "BadTable 2", [changed(sec(DYNSYM, "size", 24 * SYMBOLS + c)) for c in (-23, -1, 1, 23)],
     changed(sec(DYNSYM, "size", 24 * SYMBOLS - 24)), good(others=0)),
    ("dynamic entries are whole", "BadTable 4", [changed(sec(DYNAMIC, "size", 80 + c)) for c in (-15, -1, 1, 8)],
     changed(sec(DYNAMIC, "size", 64)), good()),
    ("the symbols name a section that is there", "BadTable 2",
     [changed(NO_SYMBOLS, sec(0, "type", 3), sec(DYNSYM, "link", c)) for c in (0, COUNT, 2**32 - 1)],
     changed(NO_SYMBOLS, sec(DYNSYM, "link", COUNT - 2)), BARE),
    ("the symbols name strings", "BadTable 2",
     [changed(sec(DYNSYM, "link", c)) for c in (TEXT, DYNSYM, BSS)] + [changed(sec(DYNSTR, "type", 2))],
     changed(NO_SYMBOLS, sec(DYNSYM, "link", NAMES)), BARE),
    ("the dynamic section names a section that is there", "BadTable 4",
     [changed(sec(0, "type", 3), sec(DYNAMIC, "link", c)) for c in (0, COUNT, 2**32 - 1)], changed(*OTHER_NAMES), OTHERS),
    ("the dynamic section names strings", "BadTable 4", [changed(sec(DYNAMIC, "link", c)) for c in (TEXT, DYNSYM, BSS)],
     changed(*OTHER_NAMES), OTHERS),
]

# gABI "String Table", "Symbol Table", "Dynamic Section": names
NAMED = [
    ("the name of the first symbol begins in the strings", "BadName 2", [changed(sym(CALL, "name", c)) for c in (END, 2**31, 2**32 - 1)],
     changed(sym(CALL, "name", END - 1)), good(others=0)),
    ("so does the name of the last", "BadName 2", [changed(sym(ABSOLUTE, "name", END))], changed(sym(ABSOLUTE, "name", END - 1)), good()),
    ("so does that of a LOCAL symbol", "BadName 2", [changed(sym(LOCAL, "name", END))], changed(sym(LOCAL, "name", END - 1)), good()),
    ("so does that of a hidden symbol", "BadName 2", [changed(sym(HIDDEN, "name", END))], changed(sym(HIDDEN, "name", END - 1)), good()),
    ("the null symbol has no name", "BadName 2", [changed(sym(1, "name", END))], changed(sym(0, "name", END)), good()),
    ("the names of symbols end in the strings", "BadName 2", [changed(CUT_TEXT, named(CALL, b"libc.so.6"))],
     changed(named(CALL, b"libc.so.6")), good()),
    ("symbols without strings", "BadName 2", [changed(sec(DYNSTR, "size", 0))],
     changed(NO_SYMBOLS, sec(DYNSTR, "size", 0), tag(1, 15)), good("row.so", (), functions=0, objects=0, tls=0, others=0, references=0, weak=0)),
    ("the soname begins in the strings", "BadName 4", [changed(value(1, c)) for c in (END, 2**32 + 1, 2**63, 2**64 - 1)],
     changed(value(1, END - 1)), good("")),
    ("the soname ends in the strings", "BadName 4", [changed(CUT_TEXT, value(1, STRING[b"libc.so.6"]))],
     changed(value(1, STRING[b"libc.so.6"])), good("libc.so.6")),
    ("the first soname counts", "BadName 4", [changed(tag(0, DT_SONAME), value(0, END))],
     changed(tag(2, DT_SONAME), value(2, END)), good()),
    ("a soname after the first NULL does not count", "BadName 4", [changed(tag(1, 15), tag(3, 21), value(4, END))],
     changed(tag(1, 15), value(4, END)), good("row.so")),
    ("a tag has 64 bits", "BadName 4", [changed(value(1, END), tag(1, DT_SONAME))],
     changed(value(1, END), tag(1, DT_SONAME + 2**32)), good("row.so")),
    ("a NULL has 64 bits", "BadName 4", [changed(tag(0, 2**32), value(1, END))], changed(tag(0, DT_NULL), value(1, END)), good("row.so", ())),
]

CHECKS = FILES + SECTION_TABLE + TABLES + NAMED
