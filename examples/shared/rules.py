"""The rules of shared objects, written anew (gABI "ELF Header", "Sections", "Symbol Table", "Dynamic Section"):
the first fault of a file, or what is said of it."""

import itertools
import struct

NULL, STRTAB, DYNAMIC, NOBITS, DYNSYM = 0, 3, 6, 8, 11
DT_NULL, DT_NEEDED, DT_SONAME = 0, 1, 14
WEAK = 2
KINDS = {2: "functions", 1: "objects", 6: "thread-local"}
MOST = 2**26  # the most bytes of an input


def section_headers(data):
    """The section headers; none where they are not all in the file."""
    (at,) = struct.unpack_from("<Q", data, 40)
    (count,) = struct.unpack_from("<H", data, 60)
    if at + 64 * count > len(data):
        return []
    return [struct.unpack_from("<IIQQQQIIQQ", data, at + 64 * n) for n in range(count)]


class Elf:
    """A file with its section headers."""

    def __init__(self, data):
        self.data, self.sections = data, section_headers(data)

    def section(self, number):
        return self.sections[number] if 0 < number < len(self.sections) else None

    def first(self, code):
        """The number of the first section of a type, or None."""
        return next((n for n, s in enumerate(self.sections) if n and s[1] == code), None)

    def is_strings(self, number):
        return self.section(number) is not None and self.section(number)[1] == STRTAB

    def is_cut_off(self, number):
        section = self.section(number)
        return section[1] not in (NULL, NOBITS) and section[4] + section[5] > len(self.data)

    def text(self, number, offset):
        """The text at an offset of a string section, or None where no zero ends it there."""
        section = self.section(number)
        if section is None:
            return None
        stop = min(section[4] + section[5], len(self.data))
        start = section[4] + offset
        end = self.data.find(b"\0", start, stop) if start < stop else -1
        return self.data[start:end] if end >= 0 else None

    def entries(self, number, form):
        """The entries of a table of this form, where the file holds them."""
        at, length = self.section(number)[4:6]
        if at + length > len(self.data):
            return []
        length -= length % struct.calcsize(form)
        return list(struct.iter_unpack(form, self.data[at : at + length]))

    def symbols(self, number):
        """The symbols of a table without the null symbol."""
        return self.entries(number, "<IBBHQQ")[1:]

    def dynamic(self, number):
        """The entries of a dynamic section before its first NULL."""
        return list(itertools.takewhile(lambda entry: entry[0] != DT_NULL, self.entries(number, "<qQ")))

    def soname(self, number):
        """What the first SONAME of a dynamic section says, or None."""
        return next((value for tag, value in self.dynamic(number) if tag == DT_SONAME), None)


def kind_fault(data):
    """The first fault of the identification, or None."""
    if data.startswith((b"!<arch>", b"!<thin>")):
        return "Archive"
    if data[:4] != b"\x7fELF":
        text = data and all(b in (9, 10, 13) or 32 <= b <= 126 for b in data[:4])
        return "Script" if text else "NotElf"
    if len(data) < 64:
        return "NotElf"
    if data[4:7] != b"\x02\x01\x01":
        return "WrongClass"
    if data[18:20] != b"\x3e\x00":
        return "WrongMachine"
    return None if data[16:18] == b"\x03\x00" else "WrongType"


def table_fault(elf):
    """The first fault of the section table and of the two tables, or None."""
    size, count, strings = struct.unpack_from("<HHH", elf.data, 58)
    if size != 64 or count == 0 or not elf.sections or not elf.is_strings(strings):
        return "BadTable 0"
    symbols, dynamic = elf.first(DYNSYM), elf.first(DYNAMIC)
    if symbols is None or dynamic is None:
        return "NoDynamic"
    links = [elf.section(n)[6] for n in (symbols, dynamic)]
    for n in (symbols, dynamic):
        if elf.is_cut_off(n):
            return "BadTable %d" % n
    for n in links:
        if elf.is_strings(n) and elf.is_cut_off(n):
            return "BadTable %d" % n
    for n, width in ((symbols, 24), (dynamic, 16)):
        if elf.section(n)[5] % width:
            return "BadTable %d" % n
    for n, link in zip((symbols, dynamic), links):
        if not elf.is_strings(link):
            return "BadTable %d" % n
    return None


def name_fault(elf):
    """The first fault of the names, or None."""
    symbols, dynamic = elf.first(DYNSYM), elf.first(DYNAMIC)
    strings = elf.section(symbols)[6]
    if any(elf.text(strings, symbol[0]) is None for symbol in elf.symbols(symbols)):
        return "BadName %d" % symbols
    soname = elf.soname(dynamic)
    if soname is not None and elf.text(elf.section(dynamic)[6], soname) is None:
        return "BadName %d" % dynamic
    return None


def first_fault(data):
    """The first fault of a shared object, or None."""
    fault = kind_fault(data)
    if fault:
        return fault
    elf = Elf(data)
    return table_fault(elf) or name_fault(elf)


def kept_symbols(elf):
    """The symbols that other files may mean, each as (name, kind, is it weak)."""
    table, defined, kept = elf.first(DYNSYM), set(), []
    for name, info, other, section, _, _ in elf.symbols(table):
        if info // 16 not in (1, 2, 10) or other % 4 not in (0, 3):
            continue
        text = elf.text(elf.section(table)[6], name)
        if section and text in defined:
            continue
        code = 2 if info % 16 == 10 else info % 16
        kept.append((text, KINDS.get(code, "others") if section else "references", info // 16 == WEAK))
        if section:
            defined.add(text)
    return kept


def text_of(soname, needs, symbols):
    """What is said of a shared object of this name and these needs, with these symbols as (kind, is it weak)."""
    lines = [b"shared object: " + soname] + [b"needs: " + need for need in needs]
    kinds = [kind for kind, _ in symbols]
    counts = ["%d %s" % (kinds.count(kind), kind) for kind in ("functions", "objects", "thread-local", "others", "references")]
    counts.append("%d weak" % sum(weak for _, weak in symbols))
    return b"\n".join(lines) + b"\nsymbols: " + ", ".join(counts).encode() + b"\n"


def said_of(data, path):
    """The status and the text of `lk_probe read` on a shared object of these bytes at this path."""
    fault = first_fault(data)
    if fault:
        return 1, b"error: %s: %s\n" % (path, fault.encode())
    elf = Elf(data)
    dynamic = elf.first(DYNAMIC)
    link, soname = elf.section(dynamic)[6], elf.soname(dynamic)
    name = path.rsplit(b"/", 1)[-1] if soname is None else elf.text(link, soname)
    needs = [elf.text(link, value) for tag, value in elf.dynamic(dynamic) if tag == DT_NEEDED]
    return 0, text_of(name, [n for n in needs if n is not None], [(kind, weak) for _, kind, weak in kept_symbols(elf)])
