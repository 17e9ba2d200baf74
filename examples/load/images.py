"""An executable that a linker made, and copies of it with other program headers or other tables."""

import struct

from rules import DYNAMIC, LOAD, Header, Memory, headers_of


class Image:
    """An executable and its program headers."""

    def __init__(self, data):
        self.data, self.headers = data, headers_of(data)
        self.loads = [n for n, header in enumerate(self.headers) if header.type == LOAD]

    def first(self, kind):
        """The number of the first header of a type, or None."""
        return next((n for n, header in enumerate(self.headers) if header.type == kind), None)

    def at(self, n):
        return self.headers[n]

    def with_table(self, headers, place=None, count=None):
        """The executable with these program headers at its end; the file header may say another place and number."""
        table = len(self.data)
        made = bytearray(self.data + b"".join(struct.pack(Header.FORM, *header) for header in headers))
        struct.pack_into("<Q", made, 32, table if place is None else place)
        struct.pack_into("<H", made, 56, len(headers) if count is None else count)
        return bytes(made)

    def with_header(self, n, **fields):
        """The executable with fields of a program header changed."""
        return self.with_headers({n: fields})

    def with_headers(self, changes, more=()):
        """The executable with fields of program headers changed, and more of them."""
        headers = [header._replace(**changes.get(n, {})) for n, header in enumerate(self.headers)]
        return self.with_table(headers + list(more))

    def with_bytes(self, *changes):
        """The executable with numbers changed: the place, the form and the number of each."""
        made = bytearray(self.data)
        for place, form, number in changes:
            struct.pack_into(form, made, place, number)
        return bytes(made)

    def place_of(self, address):
        """Where the file has the byte of an address."""
        load = next(header for header in self.headers if header.type == LOAD and header.address <= address < header.end)
        return load.place + address - load.address


class DynamicImage(Image):
    """An executable with a dynamic section, a hash table and symbols."""

    def __init__(self, data):
        super().__init__(data)
        dynamic = self.at(self.first(DYNAMIC))
        self.entries = list(struct.iter_unpack("<qQ", Memory(data, self.headers).at(dynamic.address, dynamic.memory)))
        self.section = dynamic.place

    def entry(self, tag):
        """The place in the file of the first entry with a tag."""
        return self.section + 16 * [found for found, _ in self.entries].index(tag)

    def value(self, tag):
        """What the first entry with a tag says."""
        return next(value for found, value in self.entries if found == tag)

    def says(self, tag, number):
        """The change that makes the first entry with a tag say a number."""
        return self.entry(tag) + 8, "<Q", number

    def saying(self, tag, *numbers):
        """The executable with each of these numbers in the first entry with a tag."""
        return [self.with_bytes(self.says(tag, number)) for number in numbers]

    def retags(self, tag, other):
        """The change that gives the first entry with a tag another one."""
        return self.entry(tag), "<q", other

    def table(self, tag):
        """The place in the file of the table at the address that the first entry with a tag says."""
        return self.place_of(self.value(tag))

    def end_above(self, tag):
        """The end of the segment that has the address that the first entry with a tag says."""
        address = self.value(tag)
        return next(header.end for header in self.headers if header.type == LOAD and header.address <= address < header.end)
