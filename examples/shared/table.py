"""Shared objects with places changed, and what the reader says of each.

The checks of the reader are in checks.py, each with what it refuses and the nearest file that it does not. Here is
which fault is reported where two are in one file, and what a change makes of the name, the needs and the symbols that
are kept. The wanted answers are written by hand; the rules of rules.py must give each of them too.
"""

import os
import subprocess
import sys

import rules
from checks import CHECKS
from made import (ABSOLUTE, CALL, COUNT, DT_NEEDED, DT_NULL, DT_SONAME, HIDDEN, LOCAL, ONCE, OUTSIDE, OWN, PICKED, PLACES,
                  SHARED, STRING, STRING_BYTES, SYMBOLS, TABLE, WEAK, changed, good, head, named, sec, sym, tag, value)

REST = len(SHARED) - PLACES[2]  # the bytes of the file from .dynsym on
STRINGS_END = len(STRING_BYTES)
DYNSYM, DYNSTR, DYNAMIC, NAMES, BSS = 2, 3, 4, 5, 7
NO_END = [sec(DYNSTR, "size", STRINGS_END - 1)]  # the last text of .dynstr has no zero in it

# What is said of a file that is not the shared object with a place changed.
FILES = [
    (SHARED, good()), (SHARED + b"more", good()), (b"INPUT(a.so)\n", "Script"), (b"GROUP ( libc.so.6 )\n", "Script"),
]

# Which of two faults is reported.
ORDER = [
    ([head("class", 1), head("machine", 3)], "WrongClass"), ([head("machine", 3), head("type", 2)], "WrongMachine"),
    ([head("type", 2), head("shentsize", 63)], "WrongType"), ([head("shstrndx", 0), sec(DYNSYM, "type", 1)], "BadTable 0"),
    ([sec(DYNSYM, "type", 1), sec(DYNAMIC, "type", 1)], "NoDynamic"), ([sec(DYNSYM, "type", 1), sec(DYNAMIC, "size", REST)], "NoDynamic"),
    ([sec(DYNAMIC, "type", 1), sec(DYNSYM, "size", 2**40)], "NoDynamic"),
    ([sec(DYNSYM, "size", 2**40), sec(DYNAMIC, "size", 2**40)], "BadTable 2"),
    ([sec(DYNAMIC, "size", 2**40), sec(DYNSTR, "size", 2**40)], "BadTable 4"),
    ([sec(DYNSTR, "size", 2**40), sec(DYNAMIC, "link", NAMES), sec(NAMES, "size", 2**40)], "BadTable 3"),
    ([sec(NAMES, "size", 2**40), sec(DYNAMIC, "link", NAMES), sec(DYNSYM, "size", 1)], "BadTable 5"),
    ([sec(DYNSTR, "size", 2**40), sec(DYNSYM, "size", 24 * SYMBOLS - 1)], "BadTable 3"),
    ([sec(DYNSYM, "size", 1), sec(DYNAMIC, "size", 1)], "BadTable 2"), ([sec(DYNAMIC, "size", 1), sec(DYNSYM, "link", 1)], "BadTable 4"),
    ([sec(DYNSYM, "link", 1), sec(DYNAMIC, "link", 0)], "BadTable 2"), ([sec(DYNAMIC, "link", 0), sym(CALL, "name", STRINGS_END)], "BadTable 4"),
    ([value(1, STRINGS_END), sym(CALL, "name", STRINGS_END)], "BadName 2"), (NO_END + [named(CALL, b"libc.so.6"), value(1, STRINGS_END)], "BadName 2"),
]

# The first table of each kind counts, and a table may be empty.
TABLES = [
    ([head("shnum", COUNT - 1)], good()), ([sec(DYNSYM, "entry", 0), sec(DYNAMIC, "entry", 0)], good()),
    ([sec(BSS, "type", 11), sec(BSS, "size", 2**63)], good()), ([sec(BSS, "type", 6), sec(BSS, "size", 2**63)], good()),
    ([sec(1, "type", 11)], "BadTable 1"), ([sec(1, "type", 11), sec(1, "size", 0), sec(1, "link", DYNSTR)],
     good(functions=0, objects=0, tls=0, others=0, references=0, weak=0)),
    ([sec(1, "type", 11), sec(1, "size", 24), sec(1, "link", DYNSTR)],
     good(functions=0, objects=0, tls=0, others=0, references=0, weak=0)),
    ([sec(DYNSYM, "size", 0)], good(functions=0, objects=0, tls=0, others=0, references=0, weak=0)),
    ([sec(DYNAMIC, "size", 16)], good("row.so")), ([sec(DYNAMIC, "size", 0)], good("row.so", ())),
    ([sec(DYNAMIC, "offset", len(SHARED) - 80)], good("row.so", ("",))),
]

# The soname, and the needs: one without a text is left out.
TEXTS = [
    (NO_END, good(needs=())), (NO_END + [named(CALL, b"lib.so.3")], good(needs=())), ([value(0, STRINGS_END)], good(needs=())),
    ([value(1, STRING[b"call"])], good("call")), ([tag(1, 15)], good("row.so")), ([tag(1, DT_NULL)], good("row.so")),
    ([tag(3, 21)], good()), ([tag(1, 15), tag(3, 21)], good("call")), ([tag(0, DT_SONAME)], good("libc.so.6", ())),
    ([tag(1, -1)], good("row.so")), ([sec(DYNAMIC, "link", NAMES), value(0, 1), value(1, 9)], good("", ("other.so",))),
    ([tag(2, DT_NEEDED), value(2, STRING[b"lib.so.3"])], good(needs=("libc.so.6", "lib.so.3"))),
]

# Which symbols are kept.
KEPT = [
    ([sym(CALL, "info", 0x02)], good(functions=2)), ([sym(CALL, "info", 0x32)], good(functions=2)), ([sym(CALL, "info", 0xF2)], good(functions=2)),
    ([sym(CALL, "info", 0x92)], good(functions=2)), ([sym(CALL, "info", 0xB2)], good(functions=2)),
    ([sym(CALL, "info", 0x22)], good(weak=2)), ([sym(CALL, "info", 0xA2)], good()), ([sym(LOCAL, "info", 0x12)], good(functions=4)),
    ([sym(CALL, "other", 1)], good(functions=2)), ([sym(CALL, "other", 3)], good()), ([sym(HIDDEN, "other", 0)], good(functions=4)),
    ([sym(CALL, "other", 4)], good()), ([sym(OUTSIDE, "other", 2)], good(references=0)),
    ([sym(CALL, "section", 0)], good(functions=2, references=2)), ([sym(CALL, "section", 0xFFF2)], good()),
    ([sym(CALL, "section", 0xFFFF)], good()), ([sym(OUTSIDE, "section", 1)], good(others=2, references=0)),
    ([sym(OWN, "info", 0x11)], good(objects=3, tls=0)), ([sym(TABLE, "info", 0x1A)], good(functions=4, objects=1)),
    ([sym(TABLE, "info", 0x1F)], good(others=2, objects=1)), ([sym(CALL, "info", 0x0F)], good(functions=2)),
    ([sym(WEAK, "info", 0x20)], good(functions=2, others=2)),
]

# Of two definitions of a name the first counts, and references stay.
NAMED_TWICE = [
    ([named(WEAK, b"call")], good(functions=2, weak=0)), ([named(CALL, b"weak")], good(functions=2, weak=0)),
    ([named(ONCE, b"table")], good(objects=1)), ([named(PICKED, b"own")], good(functions=2)),
    ([named(OUTSIDE, b"call")], good()), ([named(CALL, b"outside")], good()), ([named(HIDDEN, b"call")], good()),
    ([named(WEAK, b"hidden")], good()), ([named(WEAK, b"call"), sym(CALL, "section", 0)], good(functions=2, references=2)),
    ([named(WEAK, b"call"), sym(CALL, "info", 0x02)], good(functions=2)),
    ([named(OUTSIDE, b"call"), sym(WEAK, "section", 0), named(WEAK, b"call")], good(functions=2, references=2)),
    ([named(PICKED, b"call"), named(WEAK, b"call"), named(ABSOLUTE, b"call")], good(functions=1, others=0, weak=0)),
]


def cases():
    """Each file with what it is and what is said of it."""
    for number, (data, wanted) in enumerate(FILES):
        yield "file %d" % number, data, wanted
    for number, (changes, wanted) in enumerate(ORDER + TABLES + TEXTS + KEPT + NAMED_TWICE):
        yield "change %d" % number, changed(*changes), wanted
    for name, fault, refused, near, said in CHECKS:
        for number, data in enumerate(refused):
            yield "%s, file %d" % (name, number), data, fault
        yield name + ", the nearest file", near, said


def said_of(path, status, text):
    """What is said of a file, a fault without its path, where its status fits."""
    start = "error: %s: " % path
    if status == 0:
        return text
    if status == 1 and text.startswith(start) and text.count("\n") == 1:
        return text[len(start) :].rstrip("\n")
    return "status %d, %r" % (status, text)


def main():
    reader, path = sys.argv[1], os.path.join(sys.argv[2], "row.so")
    count = faulty = wrong = 0
    for name, data, wanted in cases():
        with open(path, "wb") as file:
            file.write(data)
        run = subprocess.run([reader, "read", path], stdout=subprocess.PIPE, check=False)
        said = said_of(path, run.returncode, run.stdout.decode("latin-1"))
        status, text = rules.said_of(data, path.encode())
        found = said_of(path, status, text.decode("latin-1"))
        if said != wanted or found != wanted:
            wrong += 1
            print("%s: %r by the reader, %r by the rules, wanted %r" % (name, said, found, wanted))
        count += 1
        faulty += not wanted.startswith("shared object")
    print("%d shared objects, %d of them broken, %d wrong" % (count, faulty, wrong))
    sys.exit(1 if wrong else 0)


if __name__ == "__main__":
    main()
