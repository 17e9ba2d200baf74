"""Executables with places changed, and what `lk_probe load` says of each.

    table.py lk_probe FOLDER EXECUTABLE ..     those with a dynamic section have a hash table of the gABI

The checks of a loader are in checks.py, each with what it refuses and the nearest executable that it does not. Here is
which refusal is said where two are due. What is wanted is written by hand; the rules of rules.py must give it too.
"""

import concurrent.futures
import os
import subprocess
import sys

import rules
from checks import DYNAMIC_CHECKS, HEADER_CHECKS, NOWHERE, TOP, load_at
from images import DynamicImage, Image
from rules import BAD_DYNAMIC, DT_HASH, DYNAMIC, NOT_ELF, bad_table, overlap


def read(path):
    with open(path, "rb") as file:
        return file.read()


def header_order(image):
    """Executables with two faults of their headers or two of what counts once, and what is said of them."""
    count, last = len(image.headers), image.headers[image.loads[-1]]
    inside = load_at(last.address, 1)
    far = {"place": TOP - 1, "file": 1}
    both = image.with_headers({0: far, count - 1: far})
    yield "two ranges", both, bad_table(0)
    yield "a range before a header", image.with_headers({count - 2: far})[:-1], bad_table(count - 2)
    yield "a header before its range", image.with_header(count - 1, **far)[:-1], bad_table(count - 1)
    yield "the file header before its table", both[:16] + b"\3" + both[17:], NOT_ELF
    yield "a range of an overlapping segment", image.with_headers({}, [inside._replace(**far)]), bad_table(count)
    yield "a range after an overlap", image.with_headers({}, [inside, inside._replace(type=0, **far)]), bad_table(count + 1)
    yield "two overlaps", image.with_headers({}, [inside, inside]), overlap(count)
    high = load_at(last.end + 16, 16)
    yield "more memory than a process has", image.with_header(image.loads[-1], memory=TOP - 1), rules.NO_MEMORY
    threads = [load_at(address, 4)._replace(type=rules.TLS) for address in (1, 2)]
    parts = rules.named(image.data, image.headers)
    yield ("two thread-local segments", image.with_table(threads + image.headers),
           rules.text_of(image.data, threads + image.headers, *parts))
    yield "an overlap with one but not the last", image.with_headers({}, [high, inside]), overlap(count + 1)


def dynamic_order(image):
    """Executables whose dynamic section has a fault and more, and the fault that is said."""
    d, last = image.first(DYNAMIC), image.headers[image.loads[-1]]
    lost = {d: {"address": NOWHERE}}
    yield "an overlap before the dynamic section", image.with_headers(lost, [load_at(last.address, 1)]), overlap(len(image.headers))
    yield "a range before the dynamic section", image.with_headers({d: {"address": NOWHERE, "place": TOP - 1}}), bad_table(d)
    yield "the dynamic section before its tables", DynamicImage(image.with_bytes(image.says(DT_HASH, NOWHERE))).with_headers(lost), BAD_DYNAMIC


def cases(image):
    """Each file with what it is and what is said of it."""
    dynamic = isinstance(image, DynamicImage)
    for checks in HEADER_CHECKS + (DYNAMIC_CHECKS if dynamic else []):
        for name, why, refused, near, said in checks(image):
            for number, data in enumerate(refused):
                yield "%s, file %d" % (name, number), data, why
            yield name + ", the nearest file", near, said
    yield from header_order(image)
    if dynamic:
        yield from dynamic_order(image)


def image_of(data):
    """An executable, with its tables where it has a dynamic section."""
    image = Image(data)
    return image if image.first(DYNAMIC) is None else DynamicImage(data)


def count_wrong(loader, folder, source):
    """Tries the cases of an executable and prints which answers are wrong: how many cases, refused ones and wrong ones."""
    count = refused = wrong = 0
    path = os.path.join(folder, os.path.basename(source) + ".changed")
    for name, data, wanted in cases(image_of(read(source))):
        with open(path, "wb") as file:
            file.write(data)
        run = subprocess.run([loader, "load", path], stdout=subprocess.PIPE, check=False)
        due = rules.answer_of(wanted)
        if (run.returncode, run.stdout) != due or rules.said_of(data) != due:
            wrong += 1
            print("%s, %s: %d %r, by the rules %r, wanted %r" % (source, name, run.returncode, run.stdout, rules.said_of(data), wanted))
        count += 1
        refused += wanted.startswith("refused")
    return count, refused, wrong


def main():
    loader, folder = sys.argv[1:3]
    with concurrent.futures.ThreadPoolExecutor(os.cpu_count()) as pool:
        counts = list(pool.map(lambda source: count_wrong(loader, folder, source), sys.argv[3:]))
    count, refused, wrong = (sum(column) for column in zip(*counts))
    print("%d executables, %d of them refused, %d wrong" % (count, refused, wrong))
    sys.exit(1 if wrong else 0)


if __name__ == "__main__":
    main()
