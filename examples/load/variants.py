"""Executables cut off and with fields at their greatest values, against the rules of loading written anew.

    variants.py lk_probe [--all] FILE ..

Each file, which an executable need not be, is tried as it is; and cut with `--all` at every length below 64 KiB and at
a thousand beyond, else at a small part of these; in both cases next to the ends of its headers and their ranges. And
every field of the file header, of the program headers, of the dynamic entries, of the first two words of the hash table
and of the symbols (the first hundred) is put at its greatest value. Each answer must be the one that rules.py finds.
"""

import os
import sys

import rules
from images import DynamicImage, Image
from rules import DT_HASH, DT_SYMTAB, DYNAMIC

sys.path.append(os.path.join(os.path.dirname(os.path.abspath(__file__)), os.pardir))
from mutations import (ENTRY, FILE_HEADER, PROGRAM_HEADER, SYMBOL, count_wrong, cuts, fields, fields_of, lengths_of, parts_of)

MOST_SYMBOLS = 100  # whose fields are put at their greatest values


def edges_of(image):
    """Where the file header, the program headers and the range of each of them begin and end."""
    table, count = rules.table_of(image.data)
    edges = {0, 64, len(image.data)} | {table + 56 * n for n in range(count + 1)}
    for header in image.headers:
        edges |= {header.place, header.place + header.file} if header.file else set()
    return edges


def places_of(image):
    """The place and the width of each field of the headers, and of the tables that the dynamic section names."""
    table, count = rules.table_of(image.data)
    yield from fields_of(0, FILE_HEADER)
    yield from fields_of(table, PROGRAM_HEADER, count)
    if image.first(DYNAMIC) is None:
        return
    tables = DynamicImage(image.data)
    yield from fields_of(tables.section, ENTRY, len(tables.entries))
    if any(tag == DT_HASH for tag, _ in tables.entries):
        symbols = rules.symbol_count(rules.Memory(image.data, image.headers), rules.first_values(tables.entries))
        yield from fields_of(tables.table(DT_HASH), [4], 2)
        yield from fields_of(tables.table(DT_SYMTAB), SYMBOL, min(symbols, MOST_SYMBOLS))


def work_on(source, whole):
    """The work on a file: every length or a small part of them, and every field."""
    with open(source, "rb") as file:
        data = file.read()
    if rules.header_refusal(data) is not None:
        return parts_of(cuts, source, [len(data)])
    image = Image(data)
    lengths = lengths_of(len(data), edges_of(image), 64, whole)
    return parts_of(cuts, source, lengths) + parts_of(fields, source, places_of(image))


def main():
    loader, words = sys.argv[1], sys.argv[2:]
    sources = [word for word in words if word != "--all"]
    work = [part for source in sources for part in work_on(source, "--all" in words)]
    sys.exit(1 if count_wrong([loader, "load"], rules.said_of, work) else 0)


if __name__ == "__main__":
    main()
