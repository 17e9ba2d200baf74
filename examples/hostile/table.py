"""Hostile variants of an object in a link of two, each with the answers that it may have."""

import os
import struct
import subprocess
import sys

LINKED = (0, "full link")
# What a file without a fault may come to, since a changed header may make another section of its code or of its
# symbols: the entry is not defined, the other object's function is not found or defined twice, a relocation goes to
# what is not linked, a value does not fit, or a section is too large.
OTHERS = ("error: no entry _start", "error: undefined f at ", "error: multiple definition of ",
          "error: dropped local at ", "error: overflow at in.o:", "error: limit Memory: ", "error: limit Image: ")

NULL, PROGBITS, SYMTAB, STRTAB, RELA, NOTE, NOBITS, REL, GROUP, SHNDX = 0, 1, 2, 3, 4, 7, 8, 9, 17, 18
LOADED = (PROGBITS, NOBITS, NOTE, 14, 15, 16, 0x70000001)
WRITE, ALLOC, COMPRESSED = 1, 2, 0x800
TABLES = b".interp .hash .dynsym .dynstr .rela.dyn .rela.plt .plt .dynamic .got .got.plt".split()
TAIL = [b".symtab", b".strtab", b".shstrtab"]
TAIL += [b".gnu_incremental_" + part for part in (b"inputs", b"symtab", b"relocs", b"got_plt", b"strtab")]
WIDTHS = {1: 8, 2: 4, 4: 4, 9: 4, 10: 4, 11: 4, 12: 2, 13: 2, 14: 1, 15: 1, 17: 8, 18: 8, 21: 4, 22: 4, 23: 4,
          24: 8, 25: 8, 26: 4, 32: 4, 33: 8, 41: 4, 42: 4}


class Section:
    """A section header."""

    def __init__(self, fields):
        (self.name, self.type, self.flags, _, self.offset, self.size, self.link, self.info, self.align,
         self.entry) = fields


class Elf:
    """A file as the rules of objects see it (gABI "Object Files")."""

    def __init__(self, data):
        self.data = data
        self.sections = []
        self.strings = struct.unpack_from("<H", data, 62)[0]

    def lies_in(self, at, size):
        return at + size <= len(self.data)

    def section(self, number):
        return self.sections[number] if 0 < number < len(self.sections) else None

    def is_type(self, number, code):
        return self.section(number) is not None and self.section(number).type == code

    def text(self, number, offset):
        """The text at an offset of a string section, or None where no zero ends it there."""
        section = self.section(number)
        if section is None:
            return None
        body = self.data[section.offset : section.offset + section.size]
        end = body.find(0, offset)
        return body[offset:end] if end >= 0 else None

    def name(self, number):
        return self.text(self.strings, self.section(number).name)

    def is_piece(self, number):
        section = self.section(number)
        name = section and self.name(number)
        if name is None or section.type in (NULL, SYMTAB, STRTAB, RELA, GROUP):
            return False
        if section.flags & ALLOC:
            return name != b".note.gnu.property"
        return section.type == PROGBITS and name != b".note.GNU-stack"

    def numbered(self, code):
        return [n for n in range(1, len(self.sections)) if self.sections[n].type == code]


def header_fault(data):
    """The first fault of a file's header, or None."""
    if data.startswith((b"!<arch>", b"!<thin>")):
        return "Archive"
    if data[:4] != b"\x7fELF":
        text = data and all(b in (9, 10, 13) or 32 <= b <= 126 for b in data[:4])
        return "Script" if text else "NotElf"
    if len(data) < 64:
        return "NotElf"
    if data[4:7] != b"\x02\x01\x01":
        return "WrongClass"
    if data[18:20] != b"\x3e\x00":
        return "WrongMachine"
    return None if data[16:18] == b"\x01\x00" else "WrongType"


def table_fault(elf):
    """The first fault of the section table, which is read here."""
    (at,) = struct.unpack_from("<Q", elf.data, 40)
    size, count = struct.unpack_from("<HH", elf.data, 58)
    if size != 64 or count == 0 or not elf.lies_in(at, 64 * count):
        return "BadTable 0"
    elf.sections = [Section(struct.unpack_from("<IIQQQQIIQQ", elf.data, at + 64 * n)) for n in range(count)]
    return None if elf.is_type(elf.strings, STRTAB) else "BadTable 0"


def section_fault(elf, n):
    """The first fault of a section."""
    section, name = elf.section(n), elf.name(n)
    if section.type not in (NULL, NOBITS) and not elf.lies_in(section.offset, section.size):
        return f"BadTable {n}"
    if section.align and (section.align & (section.align - 1) or section.align > 2**63):
        return f"BadTable {n}"
    if name is None:
        return f"BadName {n}"
    if section.flags & COMPRESSED or name.startswith(b".zdebug_"):
        return f"Compressed {n}"
    if section.type in (REL, SHNDX) or (elf.is_piece(n) and name in TABLES + TAIL):
        return f"UnsupportedSection {n}"
    if section.flags & ALLOC and section.type not in LOADED:
        return f"UnknownAlloc {n}"
    return None


def symbols_fault(elf):
    """The first fault of the symbol table and its symbols."""
    tables = elf.numbered(SYMTAB)
    if not tables:
        return None
    n, table = tables[0], elf.section(tables[0])
    if len(tables) > 1:
        return f"BadTable {tables[1]}"
    if table.entry != 24 or table.size % 24 or table.size == 0 or not elf.is_type(table.link, STRTAB):
        return f"BadTable {n}"
    if table.info > table.size // 24:
        return f"BadTable {n}"
    for k in range(1, table.size // 24):
        name, info, _, home, value, _ = struct.unpack_from("<IBBHQQ", elf.data, table.offset + 24 * k)
        text = elf.text(table.link, name)
        if text is None:
            return f"BadSymbol {k}"
        if home == 0xFFFF:
            return f"UnsupportedSymbol {k}"
        if home not in (0, 0xFFF1, 0xFFF2) and elf.section(home) is None:
            return f"BadSymbol {k}"
        if (k < table.info) != (info // 16 == 0) or (k >= table.info and not text):
            return f"BadSymbol {k}"
        if info // 16 > 2 or info % 16 == 10 or (home == 0xFFF2 and info // 16 == 0):
            return f"UnsupportedSymbol {k}"
        if home == 0xFFF2 and (value == 0 or value & (value - 1)):
            return f"BadSymbol {k}"
    return None


def relocations_fault(elf, n):
    """The first fault of a section of relocations."""
    section, tables = elf.section(n), elf.numbered(SYMTAB)
    if section.entry != 24 or section.size % 24 or not tables or section.link != tables[0]:
        return f"BadTable {n}"
    target = elf.section(section.info)
    if target is None:
        return f"BadTable {n}"
    if not elf.is_piece(section.info):
        return None
    for k in range(section.size // 24):
        offset, code, symbol, _ = struct.unpack_from("<QIIq", elf.data, section.offset + 24 * k)
        if symbol >= elf.section(tables[0]).size // 24 or offset + WIDTHS.get(code, 0) > target.size:
            return f"BadRela {n} {k}"
        if target.type == NOBITS:
            return f"BadRela {n} {k}"
    return None


def overlap_fault(elf):
    """The first relocation whose field shares a byte with that of one before it in the same target."""
    for target in range(1, len(elf.sections)):
        taken = set()
        for n in elf.numbered(RELA):
            if elf.section(n).info != target or not elf.is_piece(target):
                continue
            for k in range(elf.section(n).size // 24):
                offset, code = struct.unpack_from("<QI", elf.data, elf.section(n).offset + 24 * k)
                field = set(range(offset, offset + WIDTHS.get(code, 0)))
                if field & taken:
                    return f"BadRela {n} {k}"
                taken |= field
    return None


def first_fault(data):
    """The first fault of an object, by the rules in their order, or None."""
    fault = header_fault(data)
    if fault:
        return fault
    elf = Elf(data)
    fault = table_fault(elf)
    for n in range(1, len(elf.sections)):
        fault = fault or section_fault(elf, n)
    fault = fault or symbols_fault(elf)
    if not fault:
        for n in elf.numbered(RELA):
            fault = fault or relocations_fault(elf, n)
    if fault:
        return fault
    groups = elf.numbered(GROUP)
    return overlap_fault(elf) or (f"BadGroup {groups[0]}" if groups else None)


class Table:
    """Runs the linker on files and counts what was not as it must be."""

    def __init__(self, linker, other, folder):
        self.linker = os.path.abspath(linker)
        self.folder = folder
        self.tried = 0
        self.wrong = []
        self.put("b.o", other)

    def put(self, name, data):
        with open(os.path.join(self.folder, name), "wb") as file:
            file.write(data)

    def answer(self, data):
        """The exit status, the text, and whether the output was left alone."""
        self.put("in.o", data)
        self.put("out", b"old")
        words = [self.linker, "-o", "out", "in.o", "b.o"]
        done = subprocess.run(words, cwd=self.folder, capture_output=True, check=False)
        with open(os.path.join(self.folder, "out"), "rb") as file:
            kept = file.read() == b"old"
        self.tried += 1
        return done.returncode, done.stdout.decode("latin1").strip(), kept

    def wants(self, what, data):
        """Checks that a file is answered by its first fault, and that only a link touches the output."""
        status, text, kept = self.answer(data)
        fault = first_fault(data)
        if fault:
            good = (status, text) == (1, f"error: in.o: {fault}")
        else:
            good = (status, text) == LINKED or (status in (1, 6) and text.startswith(OTHERS))
        if not good or kept != (status != 0):
            self.wrong.append(f"{what}: {status} {text}, output {'kept' if kept else 'written'}; fault {fault}")


def changed(data, place, value):
    copy = bytearray(data)
    copy[place] = value
    return bytes(copy)


def main(linker, path, other, folder):
    with open(path, "rb") as file:
        good = file.read()
    with open(other, "rb") as file:
        table = Table(linker, file.read(), folder)
    if table.answer(good)[:2] != LINKED:
        table.wrong.append("whole: not linked")
    for length in range(len(good)):
        table.wants(f"cut to {length}", good[:length])
    headers = struct.unpack_from("<Q", good, 40)[0]
    for value in (0, 1, 0x7F, 0xFF):
        for place in list(range(64)) + list(range(headers, len(good))):
            table.wants(f"byte {place} set to {value}", changed(good, place, value))
    if table.answer(good + bytes(64 * 2**20 + 1 - len(good)))[:2] != (6, "error: limit InputSize: 67108865"):
        table.wrong.append("64 MiB and a byte: no limit told")
    for line in table.wrong:
        print(f"hostile: {line}")
    print(f"hostile: {table.tried} files, {len(table.wrong)} wrong answers")
    return 1 if table.wrong else 0


if __name__ == "__main__":
    sys.exit(main(*sys.argv[1:]))
