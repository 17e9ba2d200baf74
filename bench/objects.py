#!/usr/bin/env python3
"""Makes large objects and times `lk_probe read` on each: many sections, symbols, relocations, groups.

    bench/objects.py crates/lk_probe/out/lk_probe            # the sizes below
    bench/objects.py crates/lk_probe/out/lk_probe --small    # a hundredth of them, for a quick look

Prints for each file its length, the time and the greatest memory of the run. Needs python3 alone.
"""
import os, struct, sys, tempfile

sys.dont_write_bytecode = True     # a run leaves the checkout as it was
from elf import (ALLOC, EXEC, GLOBAL, GROUP, LINKED, MEMBER, PC32, PROGBITS, RELA, STRTAB, SYMTAB, WEAK, apart, assemble,
                 put, relocation, say, symbol, timed)

TITLES = b'\0.text\0.rela.text\0.symtab\0.strtab\0.shstrtab\0.group\0'
AT_TEXT, AT_RELA, AT_SYMTAB, AT_STRTAB, AT_SHSTRTAB, AT_GROUP = 1, 7, 18, 26, 34, 44
CODE = (AT_TEXT, PROGBITS, ALLOC + EXEC, b'\x90' * 16, 0, 0, 16, 0)
LAST = (AT_SHSTRTAB, STRTAB, 0, TITLES, 0, 0, 1, 0)


def named(name, info, sections):
    """The entries of symbols of numbered names, one for each of these section numbers, and the texts of the names."""
    texts, table = bytearray(b'\0'), [bytes(24)]
    for i, (section, value) in enumerate(sections):
        table.append(symbol(len(texts), info, section, value))
        texts += name % i + b'\0'
    return b''.join(table), texts


def sections(n):
    return assemble([CODE] * n + [LAST], n + 1)


def symbols(n):
    table, texts = named(b's%d', GLOBAL, [(1, i) for i in range(n)])
    return assemble([CODE, (AT_SYMTAB, SYMTAB, 0, table, 3, 1, 8, 24), (AT_STRTAB, STRTAB, 0, texts, 0, 0, 1, 0), LAST], 4)


def relocations(n):
    rows = b''.join(relocation(4 * i, PC32, 1, -4) for i in range(n))
    return assemble([
        (AT_TEXT, PROGBITS, ALLOC + EXEC, bytes(4 * n), 0, 0, 16, 0), (AT_RELA, RELA, LINKED, rows, 3, 1, 8, 24),
        (AT_SYMTAB, SYMTAB, 0, bytes(24) + symbol(1, GLOBAL, 1), 4, 1, 8, 24), (AT_STRTAB, STRTAB, 0, b'\0f\0', 0, 0, 1, 0),
        LAST], 5)


def groups(n):
    table, texts = named(b'g%d', WEAK, [(i + 1, 0) for i in range(n)])
    tables = 2 * n + 1
    parts = [(AT_TEXT, PROGBITS, ALLOC + EXEC + MEMBER, b'\x90' * 16, 0, 0, 16, 0)] * n
    parts += [(AT_GROUP, GROUP, 0, struct.pack('<II', 1, i + 1), tables, i + 1, 4, 4) for i in range(n)]
    parts += [(AT_SYMTAB, SYMTAB, 0, table, tables + 1, 1, 8, 24), (AT_STRTAB, STRTAB, 0, texts, 0, 0, 1, 0), LAST]
    return assemble(parts, tables + 2)


def main():
    binary, small = os.path.abspath(sys.argv[1]), '--small' in sys.argv
    cut = 100 if small else 1
    good = True
    with tempfile.TemporaryDirectory() as folder:
        for make, count in (sections, 60000), (symbols, 1000000), (relocations, 2000000), (groups, 30000):
            path = os.path.join(folder, make.__name__ + '.o')
            apart(lambda: put(path, make(count // cut)))
            run = timed([binary, 'read', path])
            said = say(make.__name__, os.path.getsize(path), run)
            good &= run.status == 0 and said.startswith('object')
    sys.exit(not good)


if __name__ == '__main__':
    main()
