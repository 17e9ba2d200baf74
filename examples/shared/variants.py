"""Real shared objects cut off and with fields at their greatest values, against the rules written anew.

    variants.py lk_probe SMALL LARGE [--all]     two shared objects, of which the second is longer than 64 KiB

Both are cut as they are, and with their section headers at the front, where a cut leaves these whole and goes into the
tables: with `--all` at every length below 64 KiB and at a thousand beyond, else at a small part of these; in both
cases next to the ends of all sections. And every field of their file headers, section headers, dynamic entries and
symbols (the first hundred of each file) is put at its greatest value, of LARGE without `--all` a few of them. Each
answer must be the one that rules.py finds.
"""

import os
import struct
import sys

import rules

sys.path.append(os.path.join(os.path.dirname(os.path.abspath(__file__)), os.pardir))
from mutations import ENTRY, FILE_HEADER, SECTION_HEADER, SYMBOL, count_wrong, cuts, fields, fields_of, lengths_of, parts_of

MOST_SYMBOLS = 100  # whose fields are put at their greatest values


def section_table(whole):
    """The place of the section headers, and how many there are."""
    return struct.unpack_from("<Q", whole, 40)[0], struct.unpack_from("<H", whole, 60)[0]


def fronted(whole):
    """The same shared object with its section headers right behind the file header, and all else moved on."""
    table, count = section_table(whole)
    headers = bytearray(whole[table : table + 64 * count])
    moved = len(headers)
    for number in range(1, count):
        (place,) = struct.unpack_from("<Q", headers, 64 * number + 24)
        struct.pack_into("<Q", headers, 64 * number + 24, place + moved)
    file_header = bytearray(whole[:64])
    struct.pack_into("<QQ", file_header, 32, 64 + moved, 64)
    return bytes(file_header + headers) + whole[64:]


def edges_of(whole):
    """Where the file header, the section headers and the bytes of each section begin and end."""
    table, count = section_table(whole)
    edges = {0, 64, table, table + 64 * count, len(whole)}
    for _, code, _, _, place, size, _, _, _, _ in rules.Elf(whole).sections:
        edges |= {place, place + size} if code not in (rules.NULL, rules.NOBITS) else set()
    return edges


def places_of(whole):
    """The place and the width of each field of the headers, of the symbols and of the dynamic entries."""
    elf = rules.Elf(whole)
    symbols, dynamic = elf.section(elf.first(rules.DYNSYM)), elf.section(elf.first(rules.DYNAMIC))
    table, count = section_table(whole)
    yield from fields_of(0, FILE_HEADER)
    yield from fields_of(table, SECTION_HEADER, count)
    yield from fields_of(symbols[4], SYMBOL, min(symbols[5] // 24, MOST_SYMBOLS))
    yield from fields_of(dynamic[4], ENTRY, dynamic[5] // 16)


def read(source):
    with open(source, "rb") as file:
        return file.read()


def work_on(source, whole, stride, step):
    """The work on a file: its cuts, as it is and with its section headers at the front, at every length or at a small
    part of them by strides; and every so many of its fields."""
    front = source + ".front"
    data, moved = read(source), fronted(read(source))
    with open(front, "wb") as file:
        file.write(moved)
    work = parts_of(cuts, source, lengths_of(len(data), edges_of(data), stride, whole))
    work += parts_of(cuts, front, lengths_of(len(moved), edges_of(moved), stride // 2, whole))
    return work + parts_of(fields, source, list(places_of(data))[:: 1 if whole else step])


def main():
    reader, small, large = sys.argv[1:4]
    whole = "--all" in sys.argv
    work = work_on(small, whole, 32, 1) + work_on(large, whole, 256, 32)
    sys.exit(1 if count_wrong([reader, "read"], rules.said_of, work) else 0)


if __name__ == "__main__":
    main()
