#!/usr/bin/env python3
"""Links programs of many objects with lk_ld and with the linkers that are installed, and prints what each link costs.

    bench/compare.py                          # small and large objects, many names, many sections, with all linkers
    bench/compare.py --install                # installs GNU ld, gold, lld and mold first where they are missing (apt-get)
    bench/compare.py --rounds 3 small:500     # one program of 500 small objects, three rounds
    bench/compare.py --linker PATH --folder DIR --skip ld.bfd large:300

README.md beside this file says what the columns are. Ends with 1 where a link failed, where a program did not end as
it must, or where a bar (docs/PERFORMANCE.md) is missed. Needs python3 alone.
"""
import argparse, collections, os, platform, random, shutil, statistics, subprocess, sys, tempfile, time

sys.dont_write_bytecode = True     # a run leaves the checkout as it was
from elf import Run, apart, timed
from programs import STATUS, make_large, make_names, make_sections, make_small

HERE = os.path.dirname(os.path.abspath(__file__))
OURS, GOLD, LLD = 'lk_ld', 'gold', 'lld, 1 thread'
FLOOR, SYNC = 'floor', 'one sync'
TIMES = 5       # links of a small program by a linker that bars compare, in one round

Linker = collections.namedtuple('Linker', 'name program options package')
OTHERS = (
    Linker('bfd', 'ld.bfd', [], 'binutils'),
    Linker(GOLD, 'ld.gold', [], 'binutils'),
    Linker('gold, incremental', 'ld.gold', ['--incremental-full', '-z', 'norelro'], 'binutils'),
    Linker(LLD, 'ld.lld', ['--threads=1'], 'lld'),
    Linker('lld', 'ld.lld', [], 'lld'),
    Linker('mold, 1 thread', 'mold', ['--no-fork', '--thread-count=1'], 'mold'),
    Linker('mold', 'mold', ['--no-fork'], 'mold'))


def install():
    """Installs the packages of the linkers that are not there."""
    packages = sorted({l.package for l in OTHERS if not shutil.which(l.program)})
    words = ['apt-get', 'install', '-y'] + packages
    if packages and subprocess.run(words).returncode != 0:
        subprocess.run(['apt-get', 'update'])
        subprocess.run(words)


def installed(own, skipped):
    """Our linker and those of the others that are there, without those to be skipped."""
    found = [Linker(OURS, own, ['--no-threads'], '')]
    for linker in OTHERS:
        if linker.program in skipped:
            continue
        if shutil.which(linker.program):
            found.append(linker)
        else:
            print('not installed: %s (package %s; --install brings it)' % (linker.program, linker.package))
    return found


def version(program):
    return subprocess.run([program, '--version'], capture_output=True, text=True).stdout.splitlines()[0]


def look_up_read_write(folder, files, size, image):
    """What every linker does at least: each input is looked up, each is read whole, the image is written once."""
    buffer = memoryview(bytearray(max(size, 1 << 20)))
    for name in files:
        os.stat(os.path.join(folder, name))
    for name in files:
        with open(os.path.join(folder, name), 'rb', buffering=0) as f:
            while f.readinto(buffer):
                pass
    with open(image, 'wb', buffering=0) as f:
        done = 0
        while done < size:
            done += f.write(buffer[done:size])


def floor(folder, files, size, image):
    """The floor as a run, and then one sync of what it wrote."""
    start = time.monotonic()
    pid = os.fork()
    if pid == 0:
        look_up_read_write(folder, files, size, image)
        os._exit(0)
    _, code, used = os.wait4(pid, 0)
    run = Run('', code, time.monotonic() - start, used.ru_utime + used.ru_stime, used.ru_maxrss, used.ru_oublock * 512)
    start = time.monotonic()
    with open(image, 'rb') as f:
        os.fsync(f.fileno())
    return run, Run('', 0, time.monotonic() - start, 0.0, 0, 0)


def link(linker, folder, files, image):
    """One link into a file that is not there yet."""
    if os.path.exists(image):
        os.remove(image)
    return timed([linker.program] + linker.options + ['-o', image] + files, folder)


def median_ratio(these, those):
    """The median of the ratios of figures round by round, since a machine is faster in one second than in another."""
    return statistics.median(a / max(b, 1e-9) for a, b in zip(these, those))


def one_round(cases, linkers, turn):
    """The linkers that bars compare link every program, next to one another, small programs several times; then the
    others link every program once. Orders are drawn anew."""
    draw = random.Random(turn)
    near = [linker for linker in linkers if linker.name in (OURS, GOLD, LLD)]
    others = [linker for linker in linkers if linker.name not in (OURS, GOLD, LLD)]
    for again in range(TIMES):
        for case in cases:
            if case.kind == 'small' or again == 0:
                case.links(draw.sample(near, len(near)), turn)
    for case in cases:
        case.links(draw.sample(others, len(others)), turn)
        case.bounds(turn)


class Case:
    """A program, its inputs in a folder, and the runs of each linker on it."""

    def __init__(self, what, folder):
        kind, _, number = what.partition(':')
        self.what, self.kind, self.number, self.folder = what, kind, int(number), os.path.join(folder, what.replace(':', ''))
        make = {'small': make_small, 'large': make_large, 'names': make_names, 'sections': make_sections}[kind]
        os.mkdir(self.folder)
        apart(make, self.folder, self.number)
        self.files = ['%s%d.o' % (kind[0], i) for i in range(self.number)]
        self.bytes = sum(os.path.getsize(os.path.join(self.folder, f)) for f in self.files)
        self.runs, self.images, self.good = collections.OrderedDict(), {}, True

    def add(self, name, run, turn):
        self.runs.setdefault(name, {}).setdefault(turn, []).append(run)

    def links(self, linkers, turn):
        """Each of these linkers once."""
        image = os.path.join(self.folder, 'image')
        for linker in linkers:
            run = link(linker, self.folder, self.files, image)
            self.add(linker.name, run, turn)
            if run.status != 0:
                print('%s: %s ended with %d: %s' % (self.what, linker.name, run.status, run.said[:300]))
                self.good = False
            elif linker.name not in self.images:
                self.images[linker.name] = os.path.getsize(image)
                self.check(linker, image)
        os.path.exists(image) and os.remove(image)

    def bounds(self, turn):
        """The floor, for an image as long as ours, and a sync of it."""
        image = os.path.join(self.folder, 'image')
        if OURS in self.images:
            for name, run in zip((FLOOR, SYNC), floor(self.folder, self.files, self.images[OURS], image)):
                self.add(name, run, turn)
            os.remove(image)

    def check(self, linker, image):
        """The program runs, and ends as it must."""
        status = subprocess.run([image]).returncode
        if status != STATUS:
            print('%s: the program of %s ended with %d, not with %d' % (self.what, linker.name, status, STATUS))
            self.good = False

    def figures(self, name, field):
        """One figure a round: the median of its runs."""
        return [statistics.median(getattr(run, field) for run in runs) for runs in self.runs[name].values()]

    def median(self, name, field):
        return statistics.median(self.figures(name, field))

    def ratio(self, name, other, field):
        """The median over the rounds of the ratio within a round."""
        return median_ratio(self.figures(name, field), self.figures(other, field))

    def table(self, linkers):
        print('\n%s: %d inputs, %.1f MB' % (self.what, self.number, self.bytes / 1e6))
        print('| %-17s | %9s | %7s | %9s | %7s | %9s | %9s | %10s |' % (
            'linker', 'processor', 'to gold', 'clock', 'to gold', 'peak', 'image', 'written'))
        print('|%s|' % '|'.join(['---'] + ['---:'] * 7))
        names = [l.name for l in linkers if l.name in self.runs]
        for name in names + [n for n in (FLOOR, SYNC) if n in self.runs]:
            against = ['%.2f' % self.ratio(name, GOLD, f) if GOLD in self.runs else '' for f in ('processor', 'seconds')]
            size = self.images.get(name)
            print('| %-17s | %7.3f s | %7s | %7.3f s | %7s | %5.0f MiB | %9s | %10s |' % (
                name, self.median(name, 'processor'), against[0], self.median(name, 'seconds'), against[1],
                self.median(name, 'peak') / 1024, '%.2f MB' % (size / 1e6) if size else '',
                '%.2f MB' % (self.median(name, 'written') / 1e6)))
        spread = ', '.join('%s %.3f to %.3f' % (n, min(self.figures(n, 'processor')), max(self.figures(n, 'processor')))
                           for n in names if n in (OURS, GOLD, LLD))
        print('processor time of a round from least to most: %s' % spread)


def bar(what, figure, most, must=True):
    """A line about a bar, and whether it is no reason to end with 1."""
    good = figure <= most
    print('%-7s %s: %.2f of at most %.2f' % ('met' if good else 'missed' if must else 'goal', what, figure, most))
    return good or not must


# For each program: what it is, and the processor time to gold's that is the bar, and the goal.
ASKED = {'small:2000': ('2,000 small objects', 0.55, 0.4), 'large:300': ('300 large objects', 1.0, 0.7),
         'names:4000': ('1,000,000 names', 0.8, 0.45), 'sections:2000': ('200,000 sections', 1.2, 0.7)}


def bars(cases):
    """What is asked of our link: bars, which must be met, and goals."""
    good = True
    by = {case.what: case for case in cases if OURS in case.runs}
    for what, (title, most, goal) in ASKED.items():
        case = by.get(what)
        if case and GOLD in case.runs:
            figure = case.ratio(OURS, GOLD, 'processor')
            good &= bar('%s, processor time to gold' % title, figure, most)
            good &= bar('%s, peak memory to gold' % title, case.ratio(OURS, GOLD, 'peak'), 1.0)
            bar('%s, processor time to gold' % title, figure, goal, must=False)
        if case and LLD in case.runs:
            bar('%s, processor time to lld on one thread' % title, case.ratio(OURS, LLD, 'processor'), 1.0, must=False)
    small, double = by.get('small:2000'), by.get('small:4000')
    if small and double:
        figure = median_ratio(double.figures(OURS, 'processor'), small.figures(OURS, 'processor'))
        good &= bar('4,000 small objects, processor time to 2,000', figure, 2.15)
    return good


def machine(folder, linkers):
    with open('/proc/cpuinfo') as f:
        model = [line.split(':')[1].strip() for line in f if line.startswith('model name')]
    print('%d processors, %s; Linux %s; load %.1f at the start; inputs and images in %s' % (
        len(model), model[0] if model else platform.machine(), platform.release(), os.getloadavg()[0], folder))
    for program in dict.fromkeys(linker.program for linker in linkers):
        print('%s: %s' % (os.path.basename(program), version(program)))


def main():
    parser = argparse.ArgumentParser(description='Times lk_ld beside the linkers that are installed.')
    parser.add_argument('--linker', default=os.path.join(HERE, '..', 'crates', 'lk_ld', 'out', 'lk_ld'))
    parser.add_argument('--rounds', type=int, default=21)
    parser.add_argument('--folder', help='where inputs and images stand, in a folder of their own (the temporary one)')
    parser.add_argument('--skip', action='append', default=[], metavar='PROGRAM')
    parser.add_argument('--install', action='store_true')
    parser.add_argument('cases', nargs='*', default=['small:2000', 'small:4000', 'large:300', 'names:4000', 'sections:2000'], metavar='KIND:COUNT')
    words = parser.parse_args()
    if words.install:
        install()
    linkers = installed(os.path.abspath(words.linker), words.skip)
    with tempfile.TemporaryDirectory(dir=words.folder) as folder:
        machine(folder, linkers)
        cases = [Case(what, folder) for what in words.cases]
        for turn in range(words.rounds):
            one_round(cases, linkers, turn)
        for case in cases:
            case.table(linkers)
        good = all(case.good for case in cases)
        print()
        good &= bars(cases)
    sys.exit(not good)


if __name__ == '__main__':
    main()
