"""A compiler's object cut at every length and with each header field at its greatest value."""

import os
import re
import struct
import subprocess
import sys

OBJECT = re.compile(rb"object: \d+ sections, \d+ symbols\n")
FAULT = re.compile(rb"error: [^\n]*: [A-Z][A-Za-z]*(?: \d+)*\n")

# The widths of the fields of the two headers, in order (gABI "ELF Header", "Sections").
FILE_HEADER = [1] * 16 + [2, 2, 4, 8, 8, 8, 4, 2, 2, 2, 2, 2, 2]
SECTION_HEADER = [4, 4, 8, 8, 8, 8, 4, 4, 8, 8]


def answer(reader, path, data):
    """The status and the words of the reader on a file of these bytes."""
    with open(path, "wb") as file:
        file.write(data)
    run = subprocess.run([reader, "read", path], stdout=subprocess.PIPE)
    return run.returncode, run.stdout


def is_object(said):
    return said[0] == 0 and OBJECT.fullmatch(said[1]) is not None


def is_fault(said):
    return said[0] == 1 and FAULT.fullmatch(said[1]) is not None


def at_greatest(data, start, widths):
    """The variants with one field of the header that starts here at its greatest value."""
    place = start
    for width in widths:
        yield place, data[:place] + b"\xff" * width + data[place + width :]
        place += width


def main():
    reader, source = sys.argv[1], sys.argv[2]
    with open(source, "rb") as file:
        whole = file.read()
    path = os.path.join(os.path.dirname(source), "variant.o")
    table, count = struct.unpack_from("<Q", whole, 40)[0], struct.unpack_from("<H", whole, 60)[0]
    wrong = []

    if not is_object(answer(reader, path, whole)):
        wrong.append("the whole object")
    for length in range(len(whole)):
        said = answer(reader, path, whole[:length])
        # what is cut off is the end of the table of section headers, or more
        if not is_fault(said) and not (length >= table + 64 * count and is_object(said)):
            wrong.append("cut at %d: %r" % (length, said))
    variants = list(at_greatest(whole, 0, FILE_HEADER))
    for number in range(count):
        variants += at_greatest(whole, table + 64 * number, SECTION_HEADER)
    for place, data in variants:
        said = answer(reader, path, data)
        if not is_fault(said) and not is_object(said):
            wrong.append("the field at %d: %r" % (place, said))

    for line in wrong[:20]:
        print(line)
    print("%d lengths and %d fields, %d wrong" % (len(whole), len(variants), len(wrong)))
    sys.exit(1 if wrong else 0)


main()
