#!/usr/bin/env python3
"""Makes links of many pieces and times `lk_probe layout` on each.

    bench/layout.py crates/lk_probe/out/lk_probe            # the sizes below
    bench/layout.py crates/lk_probe/out/lk_probe --small    # a hundredth of them, for a quick look

`pieces`: 2,000 objects have 200,000 pieces together, of four output sections. `outputs`: 500 objects have 20,000
pieces, each of an output section of its own. `references`: 1,000 objects have 1,000,000 relocations together,
each to a name of another object. Prints for each link the bytes of its inputs, the time and the greatest memory
of the run, and its last line. Needs python3 alone.
"""
import os, sys

sys.dont_write_bytecode = True     # a run leaves the checkout as it was
from elf import (ALLOC, EXEC, GLOBAL, NOBITS, PC32, PROGBITS, RELA, STRTAB, SYMTAB, WRITE, Texts, assemble, put,
                 relocation, symbol, time_links)


def obj(sections, symbols, relas=()):
    """An object with these sections (name, type, flags, bytes or size, alignment), these symbols (name, number of
    its section from 1 or 0) and relocations of its first section (offset, type, number of a symbol from 1)."""
    names, titles = Texts(), Texts()
    entries = bytes(24) + b''.join(symbol(names.at(name), GLOBAL, section) for name, section in symbols)
    parts = [(titles.at(name), kind, flags, data, 0, 0, align, 0) for name, kind, flags, data, align in sections]
    first = 1 + len(parts)
    rows = b''.join(relocation(at, code, number) for at, code, number in relas)
    ends = [titles.at(name) for name in (b'.rela.text', b'.symtab', b'.strtab', b'.shstrtab')]
    parts += [(ends[0], RELA, 0, rows, first + 1, 1, 8, 24), (ends[1], SYMTAB, 0, entries, first + 2, 1, 8, 24),
              (ends[2], STRTAB, 0, names.bytes, 0, 0, 1, 0), (ends[3], STRTAB, 0, titles.bytes, 0, 0, 1, 0)]
    return assemble(parts, first + 3)


def pieces(folder, cut):
    """The words, and the line that must be told: there are two tables among the output sections."""
    inputs, each = 2000 // cut, 25
    kinds = [(b'.text.f%d', PROGBITS, ALLOC + EXEC, b'\xc3' * 9, 16), (b'.rodata.c%d', PROGBITS, ALLOC, b'c' * 5, 4),
             (b'.data.d%d', PROGBITS, ALLOC + WRITE, b'd' * 8, 8), (b'.bss.z%d', NOBITS, ALLOC + WRITE, 24, 32)]
    sections = [(name % k, *rest) for k in range(each) for name, *rest in kinds]
    for i in range(inputs):
        put(os.path.join(folder, 'p%d.o' % i), obj(sections, [(b'_start' if i == 0 else b'f_%d' % i, 1)]))
    return ['p%d.o' % i for i in range(inputs)], '%d sections, %d pieces' % (4 + 2, inputs * each * 4)


def outputs(folder, cut):
    inputs, each = 500 // cut, 40
    for i in range(inputs):
        sections = [(b'own_%d_%d' % (i, k), PROGBITS, ALLOC, b'o', 1) for k in range(each)]
        put(os.path.join(folder, 'o%d.o' % i), obj(sections, [(b'_start' if i == 0 else b'f_%d' % i, 1)]))
    return ['o%d.o' % i for i in range(inputs)], '%d sections, %d pieces' % (inputs * each + 2, inputs * each)


def references(folder, cut):
    inputs, each = 1000 // cut, 1000
    for i in range(inputs):
        symbols = [(b'_start' if i == 0 else b'f_%d' % i, 1)] + [(b'f_%d' % (1 + (i + k) % (inputs - 1)), 0) for k in range(1, 9)]
        symbols = list(dict(reversed(symbols)).items())[::-1]
        relas = [(4 * k, PC32, 1 + k % len(symbols)) for k in range(each)]
        put(os.path.join(folder, 'r%d.o' % i), obj([(b'.text', PROGBITS, ALLOC + EXEC, bytes(4 * each), 16)], symbols, relas))
    return ['r%d.o' % i for i in range(inputs)], '%d sections, %d pieces' % (1 + 2, inputs)


if __name__ == '__main__':
    time_links(sys.argv, 'layout', (pieces, outputs, references))
