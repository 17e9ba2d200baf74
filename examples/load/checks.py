"""The checks of a loader, each with executables that it refuses and the nearest executable that it does not.

A row has the name of a check, what is said of the executables that are refused for it, these, the nearest executable
that passes this check, and what is said of that one. All are made of one that a linker made.
"""

import struct

from rules import (BAD_DYNAMIC, DT_HASH, DT_JMPREL, DT_NEEDED, DT_NULL, DT_PLTRELSZ, DT_RELA, DT_RELASZ, DT_STRSZ, DT_STRTAB,
                   DT_SYMTAB, DYNAMIC, LOAD, NOT_ELF, Header, bad_table, named, overlap, text_of)

NOTE = 4
DT_SYMENT, DT_RELAENT, DT_DEBUG = 11, 9, 21
TOP = 2**64  # addresses, places and sizes are below it
NOWHERE = 0x10  # an address at which nothing is loaded


def load_at(address, memory):
    """The header of a segment of zeros."""
    return Header(LOAD, 6, 0, address, address, 0, memory, 1)


def file_checks(image):
    """gABI "ELF Header", "ELF Identification": an ELF64 executable of this byte order."""
    whole = text_of(image.data, image.headers, *named(image.data, image.headers))
    bare = image.with_table([])[:64]

    def others(place, *numbers):
        return [image.with_bytes((place, "<B", number)) for number in numbers]

    yield "a whole file header", NOT_ELF, [b"", bare[:4], bare[:63]], bare, text_of(image.data, [], [], 0, 0)
    yield "the first magic byte", NOT_ELF, others(0, 0x7E, 0x80), image.data, whole
    yield "the second magic byte", NOT_ELF, others(1, ord("D"), ord("F")), image.data, whole
    yield "the third magic byte", NOT_ELF, others(2, ord("K"), ord("M")), image.data, whole
    yield "the fourth magic byte", NOT_ELF, others(3, ord("E"), ord("G")), image.data, whole
    yield "the class", NOT_ELF, others(4, 0, 1, 3), image.data, whole
    yield "the byte order", NOT_ELF, others(5, 0, 2), image.data, whole
    yield "the version", NOT_ELF, others(6, 0, 2), image.data, whole
    yield "the type", NOT_ELF, others(16, 0, 1, 3, 4) + others(17, 1), image.with_bytes((18, "<H", 3)), whole


def table_checks(image):
    """gABI "Program Header": the headers are in the file."""
    headers, count = image.headers, len(image.headers)
    whole = text_of(image.data, headers, *named(image.data, headers))
    again = image.with_table(headers)
    size = len(again)
    yield "the program headers end in the file", bad_table(count - 1), [again[:-1], again[:-56]], again, whole
    yield ("there are as many program headers", bad_table(count), [image.with_table(headers, count=c) for c in (count + 1, 0xFFFF)],
           again, whole)
    last = headers[-1]
    yield ("the first program header is in the file", bad_table(0),
           [image.with_table(headers, place, 1) for place in (size - 55, size, TOP - 1, TOP - 56, TOP - 64, TOP // 2)],
           image.with_table(headers, size - 56, 1), text_of(image.data, [last], [], 0, 0))
    yield ("no program header is anywhere", bad_table(0), [image.with_table(headers, TOP - 1, 1)],
           image.with_table(headers, TOP - 1, 0), text_of(image.data, [], [], 0, 0))


def range_checks(image):
    """gABI "Program Header": the range of the file of each header is in the file."""
    parts = named(image.data, image.headers)
    size = len(image.with_table(image.headers))
    for n, header in enumerate(image.headers):
        room = size - header.place
        refused = [image.with_header(n, file=file) for file in (room + 1, min(TOP - header.place, TOP - 1))]
        refused += [image.with_header(n, file=file, place=place) for file, place in ((1, size), (1, TOP - 1), (16, TOP - 16), (16, size - 15))]
        near = [header._replace(file=room) if k == n else other for k, other in enumerate(image.headers)]
        yield ("the range of header %d is in the file" % n, bad_table(n), refused,
               image.with_header(n, file=room), text_of(image.data, near, *parts))
    last = len(image.headers) - 1
    yield ("a range without a byte is anywhere", bad_table(last), [image.with_header(last, place=TOP - 1, file=1)],
           image.with_header(last, place=TOP - 1, file=0), text_of(image.data, image.headers, *parts))


def overlap_checks(image):
    """gABI "Program Loading": LOADs rise, and do not overlap."""
    headers, loads = image.headers, image.loads
    parts, count = named(image.data, headers), len(headers)
    for a, b in zip(loads, loads[1:]):
        gap = headers[b].address - headers[a].address
        near = [header._replace(memory=gap) if k == a else header for k, header in enumerate(headers)]
        yield ("header %d ends below header %d" % (a, b), overlap(b),
               [image.with_header(a, memory=memory) for memory in (gap + 1, TOP - headers[a].address, TOP - 1)],
               image.with_header(a, memory=gap), text_of(image.data, near, *parts))

    def more(*added):
        return image.with_headers({}, added)

    def said(*added):
        return text_of(image.data, headers + list(added), *parts)

    first, last = headers[loads[0]], headers[loads[-1]]
    below = load_at(0, first.address)
    yield ("a segment begins at address 0", overlap(loads[0] + 1), [image.with_table([load_at(0, first.address + 1)] + headers)],
           image.with_table([below] + headers), text_of(image.data, [below] + headers, *parts))
    at_end = load_at(last.end, 0)
    yield ("a segment without a byte begins above those before it", overlap(count),
           [more(load_at(last.end - 1, 0)), more(load_at(last.address, 0)), more(load_at(0, 0))], more(at_end), said(at_end))
    yield ("segments rise", overlap(count), [more(load_at(last.address - 1, 1)), more(load_at(first.address - 1, 1))],
           more(load_at(last.end, 1)), said(load_at(last.end, 1)))
    yield ("two segments at an address", overlap(count), [more(first), more(last)], more(first._replace(type=NOTE)), said())
    high = load_at(TOP - 8, 16)
    yield ("an end above all addresses does not wrap", overlap(count + 1), [more(high, load_at(0, 0)), more(high, load_at(TOP - 1, 0))],
           more(high, load_at(0, 0)._replace(type=NOTE)), said(high))


def dynamic_segment_checks(image):
    """gABI "Dynamic Section": the dynamic section is loaded."""
    d, last = image.first(DYNAMIC), image.loads[-1]
    dynamic, load = image.at(d), image.at(last)
    needs, symbols, relocations = parts = named(image.data, image.headers)
    whole = text_of(image.data, image.headers, *parts)
    nothing = text_of(image.data, image.headers, [], 0, 0)
    yield ("the dynamic section begins in a segment", BAD_DYNAMIC,
           [image.with_header(d, address=address, memory=1) for address in (load.address - 1, load.end, NOWHERE, TOP - 1)],
           image.with_header(d, address=load.address, memory=1), nothing)
    yield ("the dynamic section ends in a segment", BAD_DYNAMIC,
           [image.with_header(d, memory=memory) for memory in (load.end - dynamic.address + 1, TOP - dynamic.address, TOP - 1)],
           image.with_header(d, memory=load.end - dynamic.address), whole)
    yield ("a dynamic section without a byte is anywhere", BAD_DYNAMIC, [image.with_header(d, address=NOWHERE, memory=1)],
           image.with_header(d, address=NOWHERE, memory=0), nothing)
    cut = dynamic.address + 40 - load.address  # in the third entry
    front = {"file": cut, "memory": cut}
    rest = load._replace(place=load.place + cut, address=load.address + cut, file=load.file - cut, memory=load.memory - cut)
    late = rest._replace(place=rest.place + 1, address=rest.address + 1, file=rest.file - 1, memory=rest.memory - 1)
    near = [header._replace(**front) if k == last else header for k, header in enumerate(image.headers)] + [rest]
    yield ("the dynamic section goes on in the next segment", BAD_DYNAMIC,
           [image.with_headers({last: front}, [late]), image.with_headers({last: {"file": cut, "memory": cut - 1}}, [rest])],
           image.with_headers({last: front}, [rest]), text_of(image.data, near, needs, symbols, relocations))
    bad = dynamic._replace(address=NOWHERE)
    other = next(n for n, header in enumerate(image.headers[:d]) if header.type != LOAD)
    yield ("the first dynamic section counts", BAD_DYNAMIC, [image.with_header(other, **bad._asdict())], image.with_headers({}, [bad]), whole)


def symbol_checks(image):
    """gABI "Hash Table", "Symbol Table": the hash table and the symbols are loaded."""
    end = image.at(image.loads[-1]).end  # zeros are below it
    needs, symbols, relocations = named(image.data, image.headers)

    def said(count):
        return text_of(image.data, image.headers, needs, count, relocations)

    yield ("the hash table begins in a segment", BAD_DYNAMIC, image.saying(DT_HASH, end - 7, end, NOWHERE, TOP - 8, TOP - 1),
           *image.saying(DT_HASH, end - 8), said(0))
    head = image.table(DT_HASH)
    buckets, chains = struct.unpack_from("<II", image.data, head)
    words = (image.end_above(DT_HASH) - image.value(DT_HASH)) // 4 - 2
    yield ("the buckets end in a segment", BAD_DYNAMIC,
           [image.with_bytes((head, "<I", number)) for number in (words - chains + 1, 2**31, 2**32 - 1)],
           image.with_bytes((head, "<I", words - chains)), said(symbols))
    yield ("the chains end in a segment", BAD_DYNAMIC,
           [image.with_bytes((head + 4, "<I", number)) for number in (words - buckets + 1, 2**31, 2**32 - 1)],
           image.with_bytes((head + 4, "<I", chains - 1)), said(symbols - 1))
    yield ("the symbols end in a segment", BAD_DYNAMIC, image.saying(DT_SYMTAB, end - 24 * symbols + 1, end, NOWHERE, TOP - 24, TOP - 1),
           *image.saying(DT_SYMTAB, end - 24 * symbols), said(symbols))
    yield ("without a hash table there is no symbol", BAD_DYNAMIC, image.saying(DT_SYMTAB, NOWHERE),
           image.with_bytes(image.retags(DT_HASH, DT_DEBUG), image.says(DT_SYMTAB, NOWHERE)), said(0))
    yield ("a tag has 64 bits", BAD_DYNAMIC, image.saying(DT_HASH, NOWHERE),
           image.with_bytes(image.retags(DT_HASH, DT_HASH + 2**32), image.says(DT_HASH, NOWHERE)), said(0))


def text_checks(image):
    """gABI "String Table": the strings are loaded, and each text ends in them."""
    needs, symbols, relocations = named(image.data, image.headers)
    size, place = image.value(DT_STRSZ), image.table(DT_STRTAB)
    strings = image.data[place : place + size]
    last = strings.rindex(b"\0", 0, size - 1) + 1  # where the last text begins

    def said(first):
        return text_of(image.data, image.headers, [first] + needs[1:], symbols, relocations)

    room = image.end_above(DT_STRTAB) - image.value(DT_STRTAB)
    yield "the strings end in a segment", BAD_DYNAMIC, image.saying(DT_STRSZ, room + 1, TOP - 1), *image.saying(DT_STRSZ, room), said(needs[0])
    no_texts = [(image.section + 16 * k, "<q", DT_DEBUG) for k, (tag, _) in enumerate(image.entries) if tag in (DT_NEEDED, DT_HASH)]
    no_texts.append(image.says(DT_STRTAB, NOWHERE))
    yield ("the strings begin in a segment", BAD_DYNAMIC, [image.with_bytes(*no_texts, image.says(DT_STRSZ, 1))],
           image.with_bytes(*no_texts, image.says(DT_STRSZ, 0)), text_of(image.data, image.headers, [], 0, relocations))
    empty = [(image.section + 16 * k + 8, "<Q", 0) for k, (tag, _) in enumerate(image.entries) if tag == DT_NEEDED]
    empty.append(image.retags(DT_HASH, DT_DEBUG))
    yield ("without a size there are no strings", BAD_DYNAMIC, [image.with_bytes(*empty, image.retags(DT_STRSZ, DT_DEBUG))],
           image.with_bytes(*empty, image.says(DT_STRSZ, 1)), text_of(image.data, image.headers, [b""] * len(needs), 0, relocations))
    yield ("a needed name begins in the strings", BAD_DYNAMIC, image.saying(DT_NEEDED, size, 2**32, TOP // 2, TOP - 1),
           *image.saying(DT_NEEDED, size - 1), said(b""))
    yield ("a needed name ends in the strings", BAD_DYNAMIC,
           [image.with_bytes(image.says(DT_NEEDED, last), image.says(DT_STRSZ, size - 1))], *image.saying(DT_NEEDED, last), said(strings[last:-1]))
    table = image.table(DT_SYMTAB)
    for k in (0, 1, symbols - 1):
        yield ("the name of symbol %d begins in the strings" % k, BAD_DYNAMIC,
               [image.with_bytes((table + 24 * k, "<I", number)) for number in (size, 2**31, 2**32 - 1)],
               image.with_bytes((table + 24 * k, "<I", size - 1)), said(needs[0]))
        yield ("the name of symbol %d ends in the strings" % k, BAD_DYNAMIC,
               [image.with_bytes((table + 24 * k, "<I", last), image.says(DT_STRSZ, size - 1))],
               image.with_bytes((table + 24 * k, "<I", last)), said(needs[0]))


def relocation_checks(image):
    """gABI "Relocation", "Dynamic Section": the relocations are loaded, and the first entry with a tag counts."""
    needs, symbols, _ = named(image.data, image.headers)
    sizes = {DT_RELASZ: image.value(DT_RELASZ), DT_PLTRELSZ: image.value(DT_PLTRELSZ)}

    def said(others):
        count = sum(size // 24 for size in {**sizes, **others}.values())
        return text_of(image.data, image.headers, needs, symbols, count)

    for tag, size_tag in (DT_RELA, DT_RELASZ), (DT_JMPREL, DT_PLTRELSZ):
        room = image.end_above(tag) - image.value(tag)
        yield ("relocations of tag %d end in a segment" % tag, BAD_DYNAMIC,
               image.saying(size_tag, room + 1, TOP - image.value(tag), TOP - 1),
               image.with_bytes(image.says(size_tag, room)), said({size_tag: room}))
        yield ("relocations of tag %d begin in a segment" % tag, BAD_DYNAMIC,
               [image.with_bytes(image.says(tag, NOWHERE), image.says(size_tag, 1)), image.with_bytes(image.says(tag, TOP - 1))],
               image.with_bytes(image.says(tag, NOWHERE), image.says(size_tag, 0)), said({size_tag: 0}))
        yield ("without a size there are no relocations of tag %d" % tag, BAD_DYNAMIC, image.saying(tag, NOWHERE),
               image.with_bytes(image.says(tag, NOWHERE), image.retags(size_tag, DT_DEBUG)), said({size_tag: 0}))
        yield ("a size without relocations of tag %d" % tag, BAD_DYNAMIC, image.saying(size_tag, TOP - 1),
               image.with_bytes(image.says(size_tag, TOP - 1), image.retags(tag, DT_DEBUG)), said({size_tag: 0}))
    bad = image.says(DT_STRTAB, NOWHERE)
    first = image.entries[0][0]
    yield ("an entry after the first NULL does not count", BAD_DYNAMIC, [image.with_bytes(bad), image.with_bytes(bad, image.retags(first, 2**32))],
           image.with_bytes(bad, image.retags(first, DT_NULL)), text_of(image.data, image.headers, [], 0, 0))
    yield ("the first entry with a tag counts", BAD_DYNAMIC, [image.with_bytes(image.retags(DT_SYMENT, DT_RELASZ), image.says(DT_SYMENT, TOP - 1))],
           image.with_bytes(image.retags(DT_RELAENT, DT_RELASZ), image.says(DT_RELAENT, TOP - 1)), said({}))


HEADER_CHECKS = [file_checks, table_checks, range_checks, overlap_checks]
DYNAMIC_CHECKS = [dynamic_segment_checks, symbol_checks, text_checks, relocation_checks]
