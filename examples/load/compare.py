#!/usr/bin/env python3
"""Compares what `lk_probe load` says of executables with what readelf shows of them.

    compare.py LOADER EXECUTABLE ..

Ends with 0 where each answer is the one that readelf's lines give, else with 1.
"""
import re
import subprocess
import sys


def lines_of(*words):
    return subprocess.run(words, capture_output=True, text=True, check=True).stdout.splitlines()


RIGHTS = {"R": 4, "W": 2, "E": 1}


def segments(path):
    """The program headers: type, address, bytes in the file, bytes in memory, rights, alignment."""
    found = []
    for line in lines_of("readelf", "-lW", path):
        row = re.match(r" +([A-Z_]+) +0x[0-9a-f]+ (0x[0-9a-f]+) 0x[0-9a-f]+ (0x[0-9a-f]+) (0x[0-9a-f]+) ([RWE ]{3}) (0x[0-9a-f]+)", line)
        if row:
            rights = sum(RIGHTS[letter] for letter in row[5] if letter != " ")
            found.append((row[1], *(int(row[n], 16) for n in (2, 3, 4)), rights, int(row[6], 16)))
    return found


def entries(path):
    """The entries of the dynamic section: tag, value as it is shown."""
    found = []
    for line in lines_of("readelf", "-dW", path):
        row = re.match(r" 0x[0-9a-f]+ \(([A-Z_0-9]+)\) +(.*)", line)
        if row:
            found.append((row[1], row[2].strip()))
    return found


def symbol_count(path, tags):
    """How many dynamic symbols there are: the loader counts them by the hash table of the gABI alone."""
    if "HASH" not in tags:
        return 0
    for line in lines_of("readelf", "--dyn-syms", "-W", path):
        row = re.match(r"Symbol table '\.dynsym' contains (\d+) entr", line)
        if row:
            return int(row[1])
    return 0


def wanted(path):
    """The lines that lk_probe must print."""
    headers = segments(path)
    dynamic = entries(path)
    tags = dict(dynamic)
    lines = [f"run {address:#x} {memory:#x} {rights:#x}" for kind, address, _, memory, rights, _ in headers if kind == "LOAD"]
    entry = [re.search(r"0x[0-9a-f]+", line)[0] for line in lines_of("readelf", "-hW", path) if "Entry point" in line]
    lines.append(f"entry {int(entry[0], 16):#x}")
    lines += [f"tls {address:#x} {file:#x} {memory:#x} {align:#x}" for kind, address, file, memory, _, align in headers if kind == "TLS"][:1]
    lines += [f"needs {value[value.index('[') + 1:value.rindex(']')]}" for tag, value in dynamic if tag == "NEEDED"]
    sizes = [int(tags[tag].split()[0]) for tag in ("RELASZ", "PLTRELSZ") if tag in tags]
    lines.append(f"{symbol_count(path, tags)} symbols, {sum(sizes) // 24} relocations")
    return lines


def main(loader, paths):
    for path in paths:
        answer = subprocess.run([loader, "load", path], capture_output=True, text=True, timeout=60)
        said = answer.stdout.splitlines()
        due = wanted(path)
        if answer.returncode != 0 or said != due:
            print(f"load: {path}: status {answer.returncode}")
            for line in sorted(set(said) ^ set(due)):
                print(f"  {'said' if line in said else 'wanted'}: {line}")
            return 1
        runs = sum(line.startswith("run ") for line in said)
        print(f"load: {path}: {runs} runs, {said[-1]}, as readelf shows")
    return 0


if __name__ == "__main__":
    sys.exit(main(sys.argv[1], sys.argv[2:]))
