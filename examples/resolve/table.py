#!/usr/bin/env python3
"""Gives lk_probe small links, each with the one answer that it must have.

    table.py LK_PROBE FOLDER
"""
import os, subprocess, sys

sys.path.insert(0, os.path.join(os.path.dirname(os.path.abspath(__file__)), '..', '..', 'bench'))
from resolve import obj, put

WEAK, SHARED = 0x20, 3


def weakly(data, name):
    """The object with its symbol of this name WEAK."""
    data = bytearray(data)
    headers = int.from_bytes(data[40:48], 'little')
    table = int.from_bytes(data[headers + 128 + 24:headers + 128 + 32], 'little')
    count = int.from_bytes(data[headers + 128 + 32:headers + 128 + 40], 'little') // 24
    texts = int.from_bytes(data[headers + 192 + 24:headers + 192 + 32], 'little')
    for k in range(1, count):
        at = table + 24 * k
        text = texts + int.from_bytes(data[at:at + 4], 'little')
        if data[text:].startswith(name + b'\0'):
            data[at + 4] = WEAK
    return bytes(data)


def of_type(data, kind):
    return data[:16] + bytes([kind, 0]) + data[18:]


FILES = {
    'm.o': obj([b'_start'], [b'gy']),
    'x.o': obj([b'gx'], []),
    'y.o': obj([b'gy'], [b'gx']),
    'w.o': weakly(obj([b'_start'], [b'gy']), b'gy'),
    'f.o': obj([b'f', b'_start'], []),
    'g.o': obj([b'f'], []),
    'v.o': weakly(obj([b'f'], []), b'f'),
    'cut.o': obj([b'c'], [])[:-1],
    'text.so': b'INPUT(x)',
    'old.a': b'!<arch>\nmore',
    'shared.so': of_type(obj([b's'], []), SHARED),
}

LIB = ['--start-lib', 'x.o', 'y.o', '--end-lib']

# words, status, what is said
ROWS = [
    # a lib group adds what is wanted when its turn comes: y.o in the first pass, x.o in the second
    (['m.o'] + LIB, 0, 'added 0 m.o\nadded 2 y.o\nadded 1 x.o\n3 of 3 inputs, 3 names\n'),
    # a weak reference adds no member
    (['w.o'] + LIB, 0, 'added 0 w.o\n1 of 3 inputs, 2 names\n'),
    # an empty lib group, two lib groups, and the same file twice
    (['m.o', '--start-lib', '--end-lib', '--start-lib', 'y.o', '--end-lib', '--start-lib', 'x.o', 'x.o', '--end-lib'], 0,
     'added 0 m.o\nadded 1 y.o\nadded 2 x.o\n3 of 4 inputs, 3 names\n'),
    # what stood before is not searched again
    (LIB + ['m.o'], 0, 'added 2 m.o\n1 of 3 inputs, 2 names\n'),
    (['-e', 'gx', 'm.o'] + LIB, 0, 'added 0 m.o\nadded 1 x.o\nadded 2 y.o\n3 of 3 inputs, 3 names\n'),
    # a second strong definition is told against the first, a weak one is none
    (['f.o', 'g.o'], 1, 'error: multiple definition of f: f.o, g.o\n'),
    (['f.o', 'g.o', 'g.o'], 1, 'error: multiple definition of f: f.o, g.o\nerror: multiple definition of f: f.o, g.o\n'),
    (['f.o', 'v.o'], 0, 'added 0 f.o\nadded 1 v.o\n2 of 2 inputs, 2 names\n'),
    (['g.o'], 1, 'error: no entry _start\n'),
    # the words
    (['-o', 'out'], 2, 'usage: no input\n'),
    (['--start-lib', 'a.o'], 2, 'usage: word 1: lib not ended\n'),
    (['--thread-count', '17', 'a.o'], 2, 'usage: word 2: bad number\n'),
    (['-o', 'a', '-o', 'b', 'c.o'], 2, 'usage: word 3: second output\n'),
    # files that are not there, and libraries
    (['no.o', 'm.o', '-lq', 'gone.o'], 1, 'error: missing no.o\nerror: missing -lq\nerror: missing gone.o\n'),
    (['-L', 'nowhere', '-lq', '-L', 'here'], 8, 'not built yet: here/libq.so\n'),
    (['m.o', 'shared.so', 'cut.o'], 8, 'not built yet: shared.so\n'),
    (['m.o', '--start-lib', 'shared.so', '--end-lib'], 1, 'error: shared.so: WrongType\n'),
    # files that are no objects, all of them
    (['m.o', 'cut.o', 'text.so', 'old.a', 'cut.o'], 1,
     'error: cut.o: BadTable 0\nerror: text.so: Script\nerror: old.a: Archive\nerror: cut.o: BadTable 0\n'),
    (['m.o', '.'], 3, 'error: cannot read .\n'),
    # as many inputs as a link may have, and one more
    (['f.o'] + ['--start-lib'] + ['x.o'] * 4095 + ['--end-lib'], 0, 'added 0 f.o\n1 of 4096 inputs, 2 names\n'),
    (['f.o'] + ['--start-lib'] + ['x.o'] * 4096 + ['--end-lib'], 6, 'error: limit Inputs: 4097\n'),
]


def main():
    binary, folder = os.path.abspath(sys.argv[1]), sys.argv[2]
    for path, data in FILES.items():
        put(os.path.join(folder, path), data)
    os.mkdir(os.path.join(folder, 'here'))
    put(os.path.join(folder, 'here', 'libq.so'), FILES['shared.so'])
    wrong = 0
    for words, status, said in ROWS:
        run = subprocess.run([binary, 'resolve'] + words, stdout=subprocess.PIPE, cwd=folder)
        if run.returncode != status or run.stdout.decode() != said:
            wrong += 1
            print('%s\n  must end with %d and say %r\n  ended with %d and said %r' % (
                ' '.join(words)[:100], status, said, run.returncode, run.stdout.decode()))
    print('%d links, %d answers as they must be' % (len(ROWS), len(ROWS) - wrong))
    sys.exit(wrong != 0)


main()
