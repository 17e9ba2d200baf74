"""Reads every shared object of the system's library folders, and compares what is said with readelf.

    system.py lk_probe [--all] [FOLDER ..]     without --all at most 500 of them, evenly over all

None may be refused, but for files that are longer than an input of a link may be. Of each, the soname and the needs are
those that `readelf -d` shows, and the numbers of symbols by kind are those that `readelf --dyn-syms` shows of the
symbols that other files may mean: binding GLOBAL, WEAK or UNIQUE, visibility DEFAULT or PROTECTED, an IFUNC counted
as a function, a symbol with index UND as a reference, and of several definitions of a name (without its version)
the first alone.
"""

import concurrent.futures
import os
import re
import subprocess
import sys

import rules

FOLDERS = [root + folder for root in ("/", "/usr/", "/usr/local/") for folder in ("lib", "lib64", "lib/x86_64-linux-gnu")]
WORD = rb"(<OS specific>: \d+|\S+)"  # readelf has no name for type or binding 10 where EI_OSABI is not that of GNU
SYMBOL = re.compile(rb"^ *\d+: [0-9a-f]+ +\S+ +" + WORD + b" +" + WORD + rb" +(\S+) +(?:\[[^]]*\] +)?(\S+)(?: ([^\n]*))?$", re.M)
UNKNOWN = b"<OS specific>: 10"
ENTRY = re.compile(rb"^ 0x[0-9a-f]+ \((NEEDED|SONAME)\) +[^\n[]*\[([^\n]*)\]$", re.M)
MOST_READ = 500  # without --all
KINDS = {b"FUNC": "functions", b"IFUNC": "functions", UNKNOWN: "functions", b"OBJECT": "objects", b"TLS": "thread-local"}


def shared_objects(folders):
    """The shared objects in the folders that there are, each file once."""
    found = {}
    for folder in filter(os.path.isdir, folders):
        for name in sorted(os.listdir(folder)):
            path = os.path.join(folder, name)
            if ".so" in name and os.path.isfile(path) and is_shared(path):
                found.setdefault(os.path.realpath(path), path)
    return sorted(found.values())


def is_shared(path):
    """Whether the file is one of ELF64 for x86-64 of type DYN; text files beside libraries are no shared objects."""
    with open(path, "rb") as file:
        front = file.read(20)
    return front[:7] == b"\x7fELF\x02\x01\x01" and front[16:20] == b"\x03\x00\x3e\x00"


def readelf(option, path):
    return subprocess.run(["readelf", "-W", option, path], stdout=subprocess.PIPE, stderr=subprocess.DEVNULL).stdout


def kept_symbols(path):
    """The symbols that other files may mean, as readelf shows them: (kind, is it weak)."""
    defined, kept = set(), []
    for code, binding, visibility, index, name in SYMBOL.findall(readelf("--dyn-syms", path))[1:]:
        if binding not in (b"GLOBAL", b"WEAK", b"UNIQUE", UNKNOWN) or visibility not in (b"DEFAULT", b"PROTECTED"):
            continue
        name = re.sub(rb"@.*", b"", name.split(b" ")[0])
        if index != b"UND":
            if name in defined:
                continue
            defined.add(name)
        kept.append(("references" if index == b"UND" else KINDS.get(code, "others"), binding == b"WEAK"))
    return kept


def compared(reader, path):
    """How a shared object is read otherwise than readelf shows it, or None; and whether it is too long."""
    run = subprocess.run([reader, "read", path], stdout=subprocess.PIPE)
    if os.path.getsize(path) > rules.MOST:
        return (None if run.returncode == 6 else "%s: %r" % (path, run.stdout)), True
    entries = ENTRY.findall(readelf("-d", path))
    sonames = [text for tag, text in entries if tag == b"SONAME"]
    soname = sonames[0] if sonames else os.path.basename(path).encode()
    needs = [text for tag, text in entries if tag == b"NEEDED"]
    wanted = rules.text_of(soname, needs, kept_symbols(path))
    if (run.returncode, run.stdout) == (0, wanted):
        return None, False
    return "%s: %r, wanted %r" % (path, run.stdout, wanted), False


def main():
    reader, words = sys.argv[1], sys.argv[2:]
    paths = shared_objects([word for word in words if word != "--all"] or FOLDERS)
    if "--all" not in words:
        paths = paths[:: -(-len(paths) // MOST_READ) or 1]
    wrong, long = [], 0
    with concurrent.futures.ThreadPoolExecutor(os.cpu_count()) as pool:
        for number, (line, is_long) in enumerate(pool.map(lambda path: compared(reader, path), paths), 1):
            wrong += [line] if line else []
            long += is_long
            if number % 100 == 0:
                print("%d of %d shared objects read" % (number, len(paths)), flush=True)
    for line in wrong[:20]:
        print(line)
    print("%d shared objects, %d of them too long for a link, %d read otherwise than readelf shows them"
          % (len(paths), long, len(wrong)))
    sys.exit(1 if wrong or not paths else 0)


if __name__ == "__main__":
    main()
