"""Real files cut off and with fields at their greatest values, and a program's answers to them beside those of rules.

A program is a list of words, which the path of a file follows. Rules are a function from the bytes of a file and its
path to the status and the text that the program must end with.
"""

import concurrent.futures
import itertools
import os
import random
import subprocess

# The widths of the fields of the records, in order (gABI "ELF Header", "Sections", "Program Header", "Symbol Table",
# "Dynamic Section").
FILE_HEADER = [1] * 16 + [2, 2, 4, 8, 8, 8, 4, 2, 2, 2, 2, 2, 2]
SECTION_HEADER = [4, 4, 8, 8, 8, 8, 4, 4, 8, 8]
PROGRAM_HEADER = [4, 4, 8, 8, 8, 8, 8, 8]
SYMBOL = [4, 1, 1, 2, 8, 8]
ENTRY = [8, 8]
EDGE = 65536  # below it a file is cut at every length, where all are asked for
BEYOND = 1000  # lengths that are drawn from there on
STEP = 128  # mutations that one process tries before it reports


def fields_of(start, widths, count=1):
    """The place and the width of each field of so many records one after another."""
    place = start
    for width in widths * count:
        yield place, width
        place += width


def lengths_of(size, edges, stride, whole):
    """The lengths at which a file is cut: all below 64 KiB and a thousand from there on, where the whole is asked for,
    else every so many, those near edges, and a tenth of the others."""
    near = {edge + by for edge in edges for by in (-1, 0, 1)}
    beyond = random.Random(1).sample(range(EDGE, size), min(BEYOND if whole else BEYOND // 10, max(size - EDGE, 0)))
    lengths = set(beyond) | near | set(range(0, min(size + 1, EDGE), 1 if whole else stride))
    return sorted(length for length in lengths if 0 <= length <= size)


def answer(program, path):
    run = subprocess.run(program + [path], stdout=subprocess.PIPE, check=False)
    return run.returncode, run.stdout


def copy_of(source):
    """The bytes of a file, and the path of a copy that is this process's own."""
    with open(source, "rb") as file:
        whole = file.read()
    path = "%s.%d" % (source, os.getpid())
    with open(path, "wb") as file:
        file.write(whole)
    return whole, path


def cuts(program, rules, source, lengths):
    """The lengths, falling, at which a file's answer is not the one of the rules."""
    whole, path = copy_of(source)
    wrong = []
    for length in sorted(lengths, reverse=True):
        os.truncate(path, length)
        said, wanted = answer(program, path), rules(whole[:length], path.encode())
        if said != wanted:
            wrong.append("%s cut at %d: %r, wanted %r" % (source, length, said, wanted))
    return wrong


def fields(program, rules, source, places):
    """The fields at whose greatest value a file's answer is not the one of the rules."""
    whole, path = copy_of(source)
    wrong = []
    for place, width in places:
        data = whole[:place] + b"\xff" * width + whole[place + width :]
        with open(path, "wb") as file:
            file.write(data)
        said, wanted = answer(program, path), rules(data, path.encode())
        if said != wanted:
            wrong.append("%s with the field at %d: %r, wanted %r" % (source, place, said, wanted))
    return wrong


def parts_of(tried, source, cases):
    """The work on a file's cases, for one process after another."""
    cases = list(cases)
    return [(tried, source, cases[at : at + STEP]) for at in range(0, len(cases), STEP)]


def count_wrong(program, rules, work):
    """Does the work on all processors and prints what is wrong: how many answers were."""
    wrong, done = [], 0
    total = sum(len(cases) for _, _, cases in work)
    with concurrent.futures.ProcessPoolExecutor() as pool:
        running = {pool.submit(tried, program, rules, source, cases): len(cases) for tried, source, cases in work}
        for part in concurrent.futures.as_completed(running):
            wrong += part.result()
            if done // 10000 < (done + running[part]) // 10000:
                print("%d of %d mutations tried" % (done + running[part], total), flush=True)
            done += running[part]
    for line in itertools.islice(wrong, 20):
        print(line)
    print("%d lengths and fields, %d wrong" % (done, len(wrong)), flush=True)
    return len(wrong)
