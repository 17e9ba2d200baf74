"""Kills links at random moments, and looks at what they leave: `kills.py LINKER FOLDER`."""
import os, random, subprocess, sys, time

sys.path.insert(0, os.path.join(os.path.dirname(os.path.abspath(__file__)), '..', '..', 'bench'))
from programs import small

KILLS = 200
OBJECTS = 400
SEAL_AT, SEAL = 4088, b'LKSEAL01'


def objects_of(folder, count):
    """Writes the objects of a program of so many, and returns their names."""
    os.makedirs(folder)
    names = [f'{folder}/{i}.o' for i in range(count)]
    for i, name in enumerate(names):
        with open(name, 'wb') as file:
            file.write(small(i, count))
    return names


def link(linker, output, names):
    """Starts a link of these objects."""
    return subprocess.Popen([linker, '--no-threads', '-o', output, *names], stdin=subprocess.DEVNULL,
                            stdout=subprocess.DEVNULL, stderr=subprocess.DEVNULL)


def linked(linker, output, names):
    """The image of a whole link, and the seconds that it takes."""
    began = time.monotonic()
    if link(linker, output, names).wait() != 0:
        sys.exit('crash: a link that was let alone failed')
    seconds = time.monotonic() - began
    with open(output, 'rb') as file:
        return file.read(), seconds


def kind_of(file, old, new):
    """What a file is that a link left."""
    if file == old:
        return 'old'
    if file == new:
        return 'new'
    if len(file) <= 4096 or file[SEAL_AT:SEAL_AT + len(SEAL)] != SEAL:
        return 'open'
    return 'torn'


def killed(linker, output, names, old, moment):
    """The file that a link over the old image leaves which is killed at a moment, in seconds from its start."""
    with open(output, 'wb') as file:
        file.write(old)
    child = link(linker, output, names)
    time.sleep(moment)
    child.kill()
    child.wait()
    with open(output, 'rb') as file:
        return file.read()


def main():
    linker, folder = sys.argv[1:]
    random.seed(1)
    before = objects_of(f'{folder}/before', OBJECTS // 2)
    after = objects_of(f'{folder}/after', OBJECTS)
    old, _ = linked(linker, f'{folder}/old', before)
    new, _ = linked(linker, f'{folder}/new', after)
    output = f'{folder}/out'
    again, seconds = linked(linker, output, after)
    if again != new:
        sys.exit('crash: two links of the same objects differ')
    found = {'old': 0, 'new': 0, 'open': 0, 'torn': 0}
    wrong = 0
    for n in range(KILLS):
        file = killed(linker, output, after, old, random.uniform(0, 1.2 * seconds))
        found[kind_of(file, old, new)] += 1
        if linked(linker, output, after)[0] != new:
            wrong += 1
        if n % 50 == 49:
            print(f'crash: {n + 1} links killed', flush=True)
    print(f"crash: of {KILLS} links that were killed {found['old']} left the old image, {found['new']} the new one, "
          f"{found['open']} one without the seal, {found['torn']} another; {wrong} links made again were wrong")
    return 1 if found['torn'] or wrong else 0


if __name__ == '__main__':
    sys.exit(main())
