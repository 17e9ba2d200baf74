#!/usr/bin/env python3
"""Makes a large shared object and times `lk_probe read` on it, beside an object with as many symbols.

    bench/shared.py crates/lk_probe/out/lk_probe            # 1,000,000 symbols
    bench/shared.py crates/lk_probe/out/lk_probe --small    # a hundredth of them, for a quick look

Prints for each file its length, the time and the greatest memory of the run; then the time of the shared object in
times of the object's, and its memory in bytes a symbol beyond the file's length and a run on an empty file. Ends with
1 where the first is above 3 (the aim, which is not met yet: an object's names are neither kept nor hashed here) or the
second is not below 160; with `--small` neither is looked at. Needs python3 alone.
"""
import os, struct, sys, tempfile

sys.dont_write_bytecode = True     # a run leaves the checkout as it was
from elf import ALLOC, GLOBAL_FUNC, PROGBITS, STRTAB, SYMTAB, EXEC, apart, assemble, put, say, symbol, timed

DYNAMIC, DYNSYM, ET_DYN = 6, 11, 3
TITLES = b'\0.text\0.dynsym\0.dynstr\0.dynamic\0.symtab\0.shstrtab\0'
AT_TEXT, AT_DYNSYM, AT_DYNSTR, AT_DYNAMIC, AT_SYMTAB, AT_SHSTRTAB = 1, 7, 15, 23, 32, 40
CODE = (AT_TEXT, PROGBITS, ALLOC + EXEC, b'\x90' * 16, 0, 0, 16, 0)
LAST = (AT_SHSTRTAB, STRTAB, 0, TITLES, 0, 0, 1, 0)


def functions(n):
    """The entries of so many symbols, after the null symbol, and the texts of their names."""
    texts, table = bytearray(b'\0lib.so\0'), [bytes(24)]
    for i in range(n):
        table.append(symbol(len(texts), GLOBAL_FUNC, 1, i))
        texts += b's%d\0' % i
    return b''.join(table), texts


def shared(n):
    table, texts = functions(n)
    entries = struct.pack('<qQqQ', 14, 1, 0, 0)
    made = bytearray(assemble([CODE, (AT_DYNSYM, DYNSYM, ALLOC, table, 3, 1, 8, 24), (AT_DYNSTR, STRTAB, ALLOC, texts, 0, 0, 1, 0),
                               (AT_DYNAMIC, DYNAMIC, ALLOC, entries, 3, 0, 8, 16), LAST], 5))
    made[16:18] = struct.pack('<H', ET_DYN)
    return bytes(made)


def plain(n):
    table, texts = functions(n)
    return assemble([CODE, (AT_SYMTAB, SYMTAB, 0, table, 3, 1, 8, 24), (AT_DYNSTR, STRTAB, 0, texts, 0, 0, 1, 0), LAST], 4)


def main():
    binary, small = os.path.abspath(sys.argv[1]), '--small' in sys.argv
    count = 10000 if small else 1000000
    good, runs, sizes = True, {}, {}
    with tempfile.TemporaryDirectory() as folder:
        empty = os.path.join(folder, 'empty')
        put(empty, b'')
        least = timed([binary, 'read', empty]).peak
        for make, start in (plain, 'object'), (shared, 'symbols: %d functions' % count):
            path = os.path.join(folder, make.__name__)
            apart(lambda: put(path, make(count)))
            runs[make], sizes[make] = timed([binary, 'read', path]), os.path.getsize(path)
            said = say(make.__name__, sizes[make], runs[make])
            good &= runs[make].status == 0 and said.startswith(start)
    times = runs[shared].processor / max(runs[plain].processor, 0.001)
    each = ((runs[shared].peak - least) * 1024 - sizes[shared]) / count
    print('%.2f times the object, %d bytes a symbol beyond the file' % (times, each))
    sys.exit(not (good and (small or (times <= 3 and each < 160))))


if __name__ == '__main__':
    main()
