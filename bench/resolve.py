#!/usr/bin/env python3
"""Makes links of many objects and times `lk_probe resolve` on each.

    bench/resolve.py crates/lk_probe/out/lk_probe            # the sizes below
    bench/resolve.py crates/lk_probe/out/lk_probe --small    # a hundredth of them, for a quick look

`names`: 4,000 objects define 1,000,000 names together. `turns`: 2,000 members of a lib group, of five symbols
each, want one another in reverse order, so that each pass round the group adds one. Prints for each link the
bytes of its inputs, the time and the greatest memory of the run, and its last line. Needs python3 alone.
"""
import os, sys

sys.dont_write_bytecode = True     # a run leaves the checkout as it was
from elf import ALLOC, EXEC, GLOBAL, PROGBITS, STRTAB, SYMTAB, assemble, put, symbol, time_links

TITLES = b'\0.text\0.symtab\0.strtab\0.shstrtab\0'
AT_TEXT, AT_SYMTAB, AT_STRTAB, AT_SHSTRTAB = 1, 7, 15, 23


def obj(defined, wanted):
    """An object with one section of code, in which it defines names, and with references to others."""
    texts, table = bytearray(b'\0'), bytearray(24)
    for names, section in ((defined, 1), (wanted, 0)):
        for name in names:
            table += symbol(len(texts), GLOBAL, section)
            texts += name + b'\0'
    return assemble([
        (AT_TEXT, PROGBITS, ALLOC + EXEC, b'\xc3', 0, 0, 1, 0), (AT_SYMTAB, SYMTAB, 0, table, 3, 1, 8, 24),
        (AT_STRTAB, STRTAB, 0, texts, 0, 0, 1, 0), (AT_SHSTRTAB, STRTAB, 0, TITLES, 0, 0, 1, 0)], 4)


def names(folder, cut):
    """The words, and the line that must be told."""
    inputs, each = 4000 // cut, 250
    for i in range(inputs):
        put(os.path.join(folder, 'n%d.o' % i), obj([b'name_%d_%d' % (i, k) for k in range(each)], []))
    words = ['-e', 'name_0_0'] + ['n%d.o' % i for i in range(inputs)]
    return words, '%d of %d inputs, %d names' % (inputs, inputs, inputs * each)


def turns(folder, cut):
    """The member that is wanted first stands last, and each wants the one before it."""
    members = 2000 // cut
    put(os.path.join(folder, 'm.o'), obj([b'_start'], [b'member_%d' % (members - 1)]))
    for i in range(members):
        put(os.path.join(folder, 'l%d.o' % i),
            obj([b'member_%d' % i] + [b'own_%d_%d' % (i, k) for k in range(3)], [b'member_%d' % max(i - 1, 0)]))
    words = ['m.o', '--start-lib'] + ['l%d.o' % i for i in range(members)] + ['--end-lib']
    return words, '%d of %d inputs, %d names' % (members + 1, members + 1, 1 + 4 * members)


if __name__ == '__main__':
    time_links(sys.argv, 'resolve', (names, turns))
