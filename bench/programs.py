"""Programs of many objects for `compare.py`: many small objects, fewer large ones, many names, many sections.

Each is a real program. Its functions call one another, object by object to the last, and each adds one to a count;
`_start` ends with the status `STATUS` exactly where the count is right, so a program that runs shows that the linker
filled these calls in.
"""
import os, struct

from elf import (ALLOC, EXEC, GLOBAL_FUNC, GLOBAL_OBJECT, GROUP, LINKED, LOCAL_SECTION, MEMBER, NOBITS, PC32, PLT32,
                 PROGBITS, R32, R64, RELA, STRTAB, SYMTAB, WEAK_FUNC, WRITE, Texts, assemble, put, relocation, symbol)

STATUS = 42

NOP, RET, CALL = b'\x90', b'\xc3', b'\xe8'
COUNT = b'\xff\xc3'                 # inc ebx
CLEAR = b'\x31\xdb'                 # xor ebx, ebx


def jump(at, to):
    """A jump from a place to another of the same code."""
    return b'\xe9' + struct.pack('<i', to - (at + 5))


def leave(count):
    """The program's end, with `STATUS` where the count in ebx is this one."""
    return b'\x81\xeb' + struct.pack('<i', count) + b'\x8d\x7b' + bytes([STATUS]) + b'\x6a\x3c\x58\x0f\x05'


def patch(code, *changes):
    """The code with other bytes at these places."""
    for at, data in changes:
        code[at:at + len(data)] = data
    return bytes(code)


# Many small objects.

def small_code(i, n):
    """Function i: it calls function i + 1 and a shared one, and counts. Function 0 returns at once, and `_start` stands
    in its code at 5: it calls function 2, so n - 2 functions are counted, each with its shared one."""
    code = bytearray(NOP * (64 + 16 * (i % 16)))
    for k in range(4):
        code[8 * k:8 * k + 1] = CALL
    code[32:33] = CALL
    if i > 0:
        return patch(code, (5, b'\xeb\x19'), (37, COUNT + RET))
    return patch(code, (0, RET), (5, CLEAR), (13, b'\xeb\x19'), (40, leave(2 * (n - 2))))


def small(i, n):
    """Object i of n: code of a length of its own with four references to functions of other objects and one to a
    function that every fourth object has, in a COMDAT group; and data with one reference of 64 bits."""
    names, titles = Texts(), Texts()
    targets = [(i + 1 + k * k) % n for k in range(4)]
    shared = b'c%d' % (i % 4)
    made = [(b'f%d' % i, GLOBAL_FUNC, 1, 0, 64 + 16 * (i % 16)), (b'd%d' % i, GLOBAL_OBJECT, 3, 0, 16),
            (shared, WEAK_FUNC, 6, 0, 16)]
    if i == 0:
        made.append((b'_start', GLOBAL_FUNC, 1, 5, 0))
    defined = {name for name, *_ in made}
    wanted = dict.fromkeys(b'f%d' % j for j in targets)
    made += [(name, 0x10, 0, 0, 0) for name in wanted if name not in defined]
    numbers = {name: 1 + at for at, (name, *_) in enumerate(made)}
    table = bytes(24) + b''.join(
        symbol(names.at(name), info, section, value, size) for name, info, section, value, size in made)
    code = b''.join(relocation(1 + 8 * k, PC32, numbers[b'f%d' % j], -4) for k, j in enumerate(targets))
    code += relocation(33, PLT32, numbers[shared], -4)
    data = relocation(0, R64, numbers[b'f%d' % targets[0]])
    at = titles.at
    return assemble([
        (at(b'.text'), PROGBITS, ALLOC + EXEC, small_code(i, n), 0, 0, 16, 0),
        (at(b'.rela.text'), RELA, LINKED, code, 7, 1, 8, 24),
        (at(b'.data'), PROGBITS, ALLOC + WRITE, bytes(16), 0, 0, 8, 0),
        (at(b'.rela.data'), RELA, LINKED, data, 7, 3, 8, 24),
        (at(b'.group'), GROUP, 0, struct.pack('<II', 1, 6), 7, numbers[shared], 4, 4),
        (at(b'.text.c'), PROGBITS, ALLOC + EXEC + MEMBER, COUNT + RET + NOP * 13, 0, 0, 16, 0),
        (at(b'.symtab'), SYMTAB, 0, table, 8, 1, 8, 24),
        (at(b'.strtab'), STRTAB, 0, names.bytes, 0, 0, 1, 0),
        (at(b'.shstrtab'), STRTAB, 0, titles.bytes, 0, 0, 1, 0)], 9)


def make_small(folder, n):
    """Writes n small objects and tells their names. At least 11, so that the targets of an object differ."""
    files = ['s%d.o' % i for i in range(n)]
    for i, name in enumerate(files):
        put(os.path.join(folder, name), small(i, n))
    return files


# Fewer large objects.

FUNCTIONS, REFERENCES, STEP = 100, 30, 42
CODE_BYTES, DATA_BYTES, INFO_BYTES, LINE_BYTES = 1280, 4000, 150000, 51333
DATA_REFERENCES, INFO_REFERENCES, LINE_REFERENCES = 500, 1400, 100
FOREIGN = 100


def large_code(i, n, k):
    """The code of a function: a call in every 42 bytes. The first function of each object calls that of the next one
    and counts; that of object 0 returns at once, and `_start` stands in its code at 2."""
    code = bytearray((CALL + NOP * (STEP - 1)) * REFERENCES + NOP * STEP)[:CODE_BYTES - 4]
    code = bytearray(NOP * 4) + code
    if k > 0:
        return bytes(code)
    if i > 0:
        return patch(code, (0, COUNT), (9, RET))
    return patch(code, (0, RET), (2, CLEAR), (9, jump(9, 1240)), (1240, leave(n - 1)))


def large_references():
    """The relocations of each section of a large object, which are the same in all: of the functions, of the data, and
    of the two debug sections. LOCAL symbols 1 to 102 are those of the sections of code and of the debug sections, then
    come the object's functions and then those of others."""
    own, foreign = 1 + FUNCTIONS + 2, 1 + FUNCTIONS + 2 + FUNCTIONS
    code = []
    for k in range(FUNCTIONS):
        rows = []
        for r in range(REFERENCES):
            target = foreign + (k + r) % FOREIGN if r % 3 == 0 else own + (7 * k + r) % FUNCTIONS
            rows.append(relocation(5 + STEP * r, PC32 if r % 2 else PLT32, target, -4))
        code.append(b''.join(rows))
    data = b''.join(relocation(8 * r, R64, own + r % FUNCTIONS) for r in range(DATA_REFERENCES))
    info = b''.join(relocation(100 * r, R64, 1 + r % FUNCTIONS, r % 1024) if r % 2 else
                    relocation(100 * r, R32, 1 + FUNCTIONS + 1, r) for r in range(INFO_REFERENCES))
    line = b''.join(relocation(500 * r, R64, 1 + r % FUNCTIONS) for r in range(LINE_REFERENCES))
    return code, data, info, line


def large(i, n, rows):
    """Object i of n: 100 functions in sections of their own, with 30 references each, of which a third goes to functions
    of other objects; data, and two debug sections."""
    code, data, info, line = rows
    names, titles = Texts(), Texts()
    at = titles.at
    parts = [(at(b'.text.function_%d' % k), PROGBITS, ALLOC + EXEC, large_code(i, n, k), 0, 0, 16, 0)
             for k in range(FUNCTIONS)]
    parts += [(at(b'.debug_info'), PROGBITS, 0, bytes(INFO_BYTES), 0, 0, 1, 0),
              (at(b'.debug_line'), PROGBITS, 0, bytes(LINE_BYTES), 0, 0, 1, 0),
              (at(b'.data'), PROGBITS, ALLOC + WRITE, bytes(DATA_BYTES), 0, 0, 8, 0)]
    tables = len(parts) + FUNCTIONS + 3 + 1
    for k in range(FUNCTIONS):
        parts.append((at(b'.rela.text.function_%d' % k), RELA, LINKED, code[k], tables, 1 + k, 8, 24))
    for title, made, target in (b'.rela.debug_info', info, 1), (b'.rela.debug_line', line, 2), (b'.rela.data', data, 3):
        parts.append((at(title), RELA, LINKED, made, tables, FUNCTIONS + target, 8, 24))
    entries = [bytes(24)] + [symbol(0, LOCAL_SECTION, 1 + k) for k in range(FUNCTIONS + 2)]
    entries += [symbol(names.at(b'a_function_of_object_%d_number_%d' % (i, k)), GLOBAL_FUNC, 1 + k, 0, CODE_BYTES)
                for k in range(FUNCTIONS)]
    entries += [symbol(names.at(b'a_function_of_object_%d_number_%d' % ((i + 1 + r % 7) % n, r)), 0x10, 0)
                for r in range(FOREIGN)]
    if i == 0:
        entries.append(symbol(names.at(b'_start'), GLOBAL_FUNC, 1, 2))
    parts += [(at(b'.symtab'), SYMTAB, 0, b''.join(entries), tables + 1, 1 + FUNCTIONS + 2, 8, 24),
              (at(b'.strtab'), STRTAB, 0, names.bytes, 0, 0, 1, 0)]
    title = at(b'.shstrtab')
    parts.append((title, STRTAB, 0, titles.bytes, 0, 0, 1, 0))
    return assemble(parts, tables + 2)


def make_large(folder, n):
    """Writes n large objects and tells their names: at 300 together 100 MB of code, data and debug sections, and
    1,500,000 relocations."""
    rows = large_references()
    files = ['l%d.o' % i for i in range(n)]
    for i, name in enumerate(files):
        put(os.path.join(folder, name), large(i, n, rows))
    return files


# Many names, and many sections: a chain of calls goes through all objects, and the rest is there to be counted.

NAMES, KINDS = 250, 25
CHAIN_CALL = 3                      # where the call of the next object's function is in the code of the chain


def chain_code(i, n):
    """The function of object i: it counts and calls that of object i + 1; the last one counts and returns. `_start` is
    the code of object 0: it calls the function of object 1, so n - 1 functions are counted."""
    if i == 0:
        return CLEAR + NOP + CALL + bytes(4) + leave(n - 1)
    return COUNT + NOP + (CALL + bytes(4) if i + 1 < n else NOP * 5) + RET


def chain_rows(i, n, number):
    """The relocation of its call, to the symbol with this number."""
    return relocation(CHAIN_CALL + 1, PLT32, number, -4) if i + 1 < n else b''


def chained(sections, symbols, i, n, callee):
    """Object i of n: its sections, of which the first holds the code of the chain; its GLOBAL symbols (name, number of
    the section), which are all at offset 0; and a reference to the next object's function."""
    names, titles = Texts(), Texts()
    made = symbols + ([(callee, 0)] if i + 1 < n else [])
    table = bytes(24) + b''.join(symbol(names.at(name), GLOBAL_FUNC if k else 0x10, k) for name, k in made)
    parts = [(titles.at(name), kind, flags, data, 0, 0, align, 0) for name, kind, flags, data, align in sections]
    first = 1 + len(parts)
    titled = [titles.at(name) for name in (b'.rela.text', b'.symtab', b'.strtab', b'.shstrtab')]
    parts += [(titled[0], RELA, LINKED, chain_rows(i, n, len(made)), first + 1, 1, 8, 24),
              (titled[1], SYMTAB, 0, table, first + 2, 1, 8, 24),
              (titled[2], STRTAB, 0, names.bytes, 0, 0, 1, 0), (titled[3], STRTAB, 0, titles.bytes, 0, 0, 1, 0)]
    return assemble(parts, first + 3)


def make_names(folder, n):
    """Writes n objects of 250 names each and tells their names: 1,000,000 names at 4,000."""
    files = ['n%d.o' % i for i in range(n)]
    for i, name in enumerate(files):
        code = [(b'.text', PROGBITS, ALLOC + EXEC, chain_code(i, n), 16)]
        symbols = [(b'name_%d_%d' % (i, k), 1) for k in range(NAMES - (i == 0))] + [(b'_start', 1)] * (i == 0)
        put(os.path.join(folder, name), chained(code, symbols, i, n, b'name_%d_0' % (i + 1)))
    return files


def make_sections(folder, n):
    """Writes n objects of 100 sections each, of four output sections, and tells their names: 200,000 at 2,000."""
    kinds = [(b'.text.f%d', PROGBITS, ALLOC + EXEC, RET * 9, 16), (b'.rodata.c%d', PROGBITS, ALLOC, b'c' * 5, 4),
             (b'.data.d%d', PROGBITS, ALLOC + WRITE, b'd' * 8, 8), (b'.bss.z%d', NOBITS, ALLOC + WRITE, 24, 32)]
    rest = [(name % k, *how) for k in range(KINDS) for name, *how in kinds][1:]
    files = ['s%d.o' % i for i in range(n)]
    for i, name in enumerate(files):
        code = [(b'.text.f0', PROGBITS, ALLOC + EXEC, chain_code(i, n), 16)]
        symbols = [(b'_start' if i == 0 else b'f_%d' % i, 1)]
        put(os.path.join(folder, name), chained(code + rest, symbols, i, n, b'f_%d' % (i + 1)))
    return files
