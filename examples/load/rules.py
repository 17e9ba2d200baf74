"""The rules of loading, written anew (gABI "ELF Header", "Program Header", "Program Loading", "Dynamic Section", "Hash
Table"): what a loader makes of a file, or why it takes none."""

import collections
import struct

LOAD, DYNAMIC, TLS = 1, 2, 7
DT_NULL, DT_NEEDED, DT_PLTRELSZ, DT_HASH, DT_STRTAB, DT_SYMTAB, DT_RELA, DT_RELASZ, DT_STRSZ, DT_JMPREL = 0, 1, 2, 4, 5, 6, 7, 8, 10, 23
SPACE = 2**47  # the bytes of memory that a process can have

NOT_ELF = "refused: no ELF64 executable in little-endian byte order"
NO_MEMORY = "error: no memory"
BAD_DYNAMIC = "refused: what the dynamic section names is not loaded"


def bad_table(n):
    return "refused: program header %d or its range is not in the file" % n


def overlap(n):
    return "refused: program header %d begins below the end of an earlier segment" % n


class Header(collections.namedtuple("Header", "type flags place address physical file memory align")):
    """A program header."""

    FORM = "<IIQQQQQQ"

    @property
    def end(self):
        """The address after the last in memory."""
        return self.address + self.memory


def table_of(data):
    """The place of the program headers, and how many there are."""
    return struct.unpack_from("<Q", data, 32)[0], struct.unpack_from("<H", data, 56)[0]


def headers_of(data):
    """The program headers, of which one that is not in the file is None."""
    table, count = table_of(data)
    places = [table + 56 * n for n in range(count)]
    return [Header(*struct.unpack_from(Header.FORM, data, at)) if at + 56 <= len(data) else None for at in places]


def header_refusal(data):
    """The first refusal that the headers of a file give, or None."""
    if len(data) < 64 or data[:7] != b"\x7fELF\x02\x01\x01" or data[16:18] != b"\x02\0":
        return NOT_ELF
    headers = headers_of(data)
    for n, header in enumerate(headers):
        if header is None or header.file and header.place + header.file > len(data):
            return bad_table(n)
    highest = 0
    for n, header in enumerate(headers):
        if header.type != LOAD:
            continue
        if header.address < highest:
            return overlap(n)
        highest = max(highest, header.end)
    return None


class Memory:
    """The bytes that LOAD headers map."""

    def __init__(self, data, headers):
        self.data, self.loads = data, [header for header in headers if header.type == LOAD]

    def piece(self, address, size):
        """At most so many bytes from an address on, of the segment that has it: none where no segment does."""
        load = next((load for load in self.loads if load.address <= address < load.end), None)
        if load is None:
            return b""
        skipped, size = address - load.address, min(size, load.end - address)
        stored = self.data[load.place + skipped : load.place + min(load.file, skipped + size)] if skipped < load.file else b""
        return stored + bytes(size - len(stored))

    def at(self, address, size):
        """So many bytes from an address on, or None where one of them is not loaded."""
        found = bytearray()
        while len(found) < size:
            piece = self.piece(address + len(found), size - len(found))
            if not piece:
                return None
            found += piece
        return bytes(found)


def records(form, data):
    """The whole records of a table."""
    return list(struct.iter_unpack(form, data[: len(data) - len(data) % struct.calcsize(form)]))


def text_in(strings, offset):
    """The text at an offset of a string table, or None where no zero ends it there."""
    end = strings.find(b"\0", offset) if offset < len(strings) else -1
    return strings[offset:end] if end >= 0 else None


def counted(data):
    """The entries of a dynamic section before its first NULL."""
    entries = records("<qQ", data)
    tags = [tag for tag, _ in entries]
    return entries[: tags.index(DT_NULL)] if DT_NULL in tags else entries


def first_values(entries):
    """What the first entry with each tag says."""
    return dict(reversed(entries))


class Unloaded(Exception):
    """What the dynamic section names is not loaded, or a text of it does not end."""


def sure(value):
    if value is None:
        raise Unloaded
    return value


def symbol_count(memory, said):
    """How many symbols there are by the hash table, all of whose bytes are loaded; none without it."""
    if DT_HASH not in said:
        return 0
    buckets, chains = struct.unpack("<II", sure(memory.at(said[DT_HASH], 8)))
    sure(memory.at(said[DT_HASH], 4 * (2 + buckets + chains)))
    return chains


def named(data, headers):
    """The needed names and the numbers of symbols and relocations, by the first DYNAMIC header."""
    memory, dynamic = Memory(data, headers), next((header for header in headers if header.type == DYNAMIC), None)
    if dynamic is None:
        return [], 0, 0
    entries = counted(sure(memory.at(dynamic.address, dynamic.memory)))
    said = first_values(entries)

    def table(tag, size):
        return sure(memory.at(said[tag], size)) if tag in said else b""

    symbols = records("<IBBHQQ", table(DT_SYMTAB, 24 * symbol_count(memory, said)))
    strings = table(DT_STRTAB, said.get(DT_STRSZ, 0))
    relocations = [table(DT_RELA, said.get(DT_RELASZ, 0)), table(DT_JMPREL, said.get(DT_PLTRELSZ, 0))]
    needs = [sure(text_in(strings, value)) for tag, value in entries if tag == DT_NEEDED]
    for symbol in symbols:
        sure(text_in(strings, symbol[0]))
    return needs, len(symbols), sum(len(table) // 24 for table in relocations)


def text_of(data, headers, needs, symbols, relocations):
    """What is said of an executable that is loaded."""
    lines = ["run %#x %#x %#x" % (load.address, load.memory, load.flags) for load in headers if load.type == LOAD]
    lines.append("entry %#x" % struct.unpack_from("<Q", data, 24))
    threads = [header for header in headers if header.type == TLS]
    lines += ["tls %#x %#x %#x %#x" % (tls.address, tls.file, tls.memory, tls.align) for tls in threads[:1]]
    lines += ["needs " + need.decode("latin-1") for need in needs]
    return "\n".join(lines + ["%d symbols, %d relocations" % (symbols, relocations)])


def answer_of(text):
    """The status and the text of the program where this is said."""
    return 5 if text == NO_MEMORY else 0, text.encode("latin-1") + b"\n"


def said_of(data, _path=b""):
    """The status and the text of `lk_probe load` on a file of these bytes."""
    refusal = header_refusal(data)
    if refusal is not None:
        return answer_of(refusal)
    headers = headers_of(data)
    if any(load.memory - load.file >= SPACE for load in headers if load.type == LOAD):
        return answer_of(NO_MEMORY)
    try:
        return answer_of(text_of(data, headers, *named(data, headers)))
    except Unloaded:
        return answer_of(BAD_DYNAMIC)
