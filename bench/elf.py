"""What the programs of this folder share: records of ELF64, objects put together, runs that are timed.

Records and numbers are those of the gABI ("ELF Header", "Sections", "Symbol Table", "Relocation") and of the psABI
x86-64 ("Relocation Types").
"""
import collections, os, struct, subprocess, sys, tempfile, time

NULL, PROGBITS, SYMTAB, STRTAB, RELA, NOBITS, GROUP = 0, 1, 2, 3, 4, 8, 17
WRITE, ALLOC, EXEC, LINKED, MEMBER = 1, 2, 4, 0x40, 0x200
LOCAL_SECTION, GLOBAL, GLOBAL_OBJECT, GLOBAL_FUNC, WEAK, WEAK_FUNC = 0x03, 0x10, 0x11, 0x12, 0x20, 0x22
R64, PC32, PLT32, R32 = 1, 2, 4, 10


def section_header(name, kind, flags, offset, size, link=0, info=0, align=1, entry=0):
    return struct.pack('<IIQQQQIIQQ', name, kind, flags, 0, offset, size, link, info, align, entry)


def symbol(name, info, section, value=0, size=0):
    return struct.pack('<IBBHQQ', name, info, 0, section, value, size)


def relocation(offset, kind, number, addend=0):
    """A relocation by the symbol of this number."""
    return struct.pack('<QQq', offset, (number << 32) | kind, addend)


class Texts:
    """A table of texts, each once."""

    def __init__(self):
        self.bytes, self.places = bytearray(b'\0'), {}

    def at(self, text):
        """Where the text begins; it is put behind the others the first time."""
        if text not in self.places:
            self.places[text] = len(self.bytes)
            self.bytes += text + b'\0'
        return self.places[text]


def assemble(parts, titles):
    """An object of these sections, from number 1 on, of which `titles` has their names. A part is (place of its name,
    type, flags, bytes, link, info, alignment, size of an entry); zeros that the file does not hold are told by their
    number in place of bytes."""
    out, headers = bytearray(64), [bytes(64)]
    for name, kind, flags, data, link, info, align, entry in parts:
        out += bytes(-len(out) % align)
        size = data if kind == NOBITS else len(data)
        headers.append(section_header(name, kind, flags, len(out), size, link, info, align, entry))
        if kind != NOBITS:
            out += data
    out += bytes(-len(out) % 8)
    table = len(out)
    out += b''.join(headers)
    out[:64] = b'\x7fELF\x02\x01\x01' + bytes(9) + struct.pack(
        '<HHIQQQIHHHHHH', 1, 62, 1, 0, 0, table, 0, 64, 0, 0, 64, len(headers), titles)
    return bytes(out)


def put(path, data):
    with open(path, 'wb') as f:
        f.write(data)


def apart(make, *arguments):
    """Makes files in a process of its own: the memory that this takes is not counted in the runs that are timed
    afterwards, which begin with what this process has."""
    sys.stdout.flush()
    pid = os.fork()
    if pid == 0:
        status = 1
        try:
            make(*arguments)
            status = 0
        finally:
            os._exit(status)
    if os.waitpid(pid, 0)[1] != 0:
        sys.exit('%s: the files were not made' % make.__name__)


Run = collections.namedtuple('Run', 'said status seconds processor peak written')


def timed(words, folder=None):
    """Runs a program: what it printed, its exit status, seconds by the clock, seconds of processor time (its own and
    the system's), the greatest memory in KiB, and bytes written as the system counted them for the file system."""
    start = time.monotonic()
    run = subprocess.Popen(words, stdout=subprocess.PIPE, cwd=folder)
    said = run.stdout.read().decode()
    _, code, used = os.wait4(run.pid, 0)
    run.stdout.close()
    return Run(said, os.waitstatus_to_exitcode(code), time.monotonic() - start, used.ru_utime + used.ru_stime,
               used.ru_maxrss, used.ru_oublock * 512)


def say(name, size, run):
    """Prints a line about the run of a program on inputs of this size, and gives the last line that it printed."""
    last = run.said.splitlines()[-1] if run.said else ''
    print('%-12s %9d bytes  %6.2f s  %4d MiB  %s' % (name, size, run.seconds, run.peak // 1024, last))
    return last


def time_links(arguments, what, makes):
    """Times `lk_probe WHAT` on the link that each of the calls makes in a folder, a hundredth of it where the arguments
    end with `--small`, and ends with whether each was told as it must be."""
    probe, cut = os.path.abspath(arguments[1]), 100 if '--small' in arguments else 1
    good = True
    for make in makes:
        with tempfile.TemporaryDirectory() as folder:
            words, wanted = make(folder, cut)
            size = sum(os.path.getsize(os.path.join(folder, f)) for f in os.listdir(folder))
            run = timed([probe, what] + words, folder)
            good &= say(make.__name__, size, run) == wanted and run.status == 0
    sys.exit(not good)
