"""What a program of this repository was made from, told by bytes and not by the times of files.

    scripts/made_from.py is-current NAME KIND    status 0 where the program was made from the sources that stand here
    scripts/made_from.py sources NAME KIND       prints the checksum of these sources
    scripts/made_from.py note NAME KIND SUM      writes that the program was made from the sources of this checksum

NAME is `ol` or `ol-bench`, or for `sources` also `libolcheck`, the library for C; KIND is `proved`, or `unproved`, of the program that
`./ol` builds without a proof. Beside each program stands what it was made from, in three lines: the number of the kit's logic, the
checksum of the sources, and that of the program itself. So a program may be copied into a clone, with any times, and counts there if its sources are the ones that stand there; and it
doesn't where a source has another byte, where the kit at hand has another logic, or where another file was put in its place.

The sources of a program are, of its crate and of each crate below it, the line in crates.txt and the files of src/, specs/ and
proofs/; and HANDLES. An unproved program has no more than src/ of them.
"""
import hashlib
import os
import re
import shutil
import sys

TOP = os.path.dirname(os.path.dirname(os.path.realpath(__file__)))
CRATES = {'ol': 'ol', 'ol-bench': 'ol_bench_program'}
BUILT = {**CRATES, 'libolcheck': 'ol_check_c'}
PROVED_BY = {'ol': './prove', 'ol-bench': './prove ol-bench'}
PARTS = {'proved': ('src', 'specs', 'proofs'), 'unproved': ('src',)}
NO_KIT = 'unknown'


def program(name, kind):
    """The path of the program."""
    crate = CRATES[name]
    return f'{TOP}/crates/{crate}/out/{crate}' if kind == 'proved' else f'{TOP}/out/{name}-unproved'


def rows_below(crate):
    """The rows of crates.txt of this crate and of those that it stands on, by their names."""
    rows, found, todo = {}, {}, [crate]
    with open(TOP + '/crates.txt', encoding='utf-8') as file:
        for row in file:
            name, colon, rest = row.partition('#')[0].partition(':')
            if colon:
                rows[name.split()[0]] = (*name.split(), ':', *rest.split())
    while todo:
        it = todo.pop()
        if it in rows and it not in found:
            found[it] = rows[it]
            todo += rows[it][rows[it].index(':') + 1:]
    return found


def files_below(folder):
    """The paths of the files in a folder, in an order that is always the same."""
    for at, folders, names in os.walk(folder):
        folders.sort()
        yield from (f'{at}/{name}' for name in sorted(names))


def sum_of(path):
    with open(path, 'rb') as file:
        return hashlib.sha256(file.read()).hexdigest()


def sources(name, kind='proved'):
    """The checksum of the sources of a program, or of the library."""
    rows = rows_below(BUILT[name])
    total = hashlib.sha256(repr(sorted(rows.items())).encode())
    folders = [f'crates/{crate}/{part}' for crate in sorted(rows) for part in PARTS[kind]]
    paths = [it for folder in folders for it in files_below(f'{TOP}/{folder}')]
    for path in [f'{TOP}/HANDLES', *paths]:
        told = (os.path.relpath(path, TOP), sum_of(path) if os.path.isfile(path) else '')
        total.update(repr(told).encode())
    return total.hexdigest()


def logic():
    """The number of the logic of the kit whose command `rt` is on PATH, or None."""
    command = shutil.which('rt')
    kit = command and os.path.dirname(os.path.dirname(os.path.realpath(command)))
    try:
        with open(f'{kit}/KIT-ID', encoding='utf-8') as file:
            found = re.search(r'\blogic (\w+)', file.read())
    except OSError:
        return None
    return found and found.group(1)


def mark(path):
    """Where it stands what this program was made from."""
    return path + '.made-from'


def note(name, kind, of_sources):
    """Writes what the program was made from: the sources of this checksum."""
    path = program(name, kind)
    text = f'logic {logic() or NO_KIT}\nsources {of_sources}\nprogram {sum_of(path)}\n'
    with open(mark(path), 'w', encoding='ascii') as file:
        file.write(text)


def is_current(name, kind):
    """Whether the program was made from the sources that stand here, by the logic of the kit at hand, where there is one."""
    path = program(name, kind)
    try:
        with open(mark(path), encoding='ascii', errors='replace') as file:
            told = dict(line.split(' ') for line in file.read().splitlines())
        own = sum_of(path)
    except (OSError, ValueError):
        return False
    here = logic() or told.get('logic')
    return told == {'logic': here, 'sources': sources(name, kind), 'program': own}


def main(words):
    verb, name, kind = (words + ['', '', ''])[:3]
    if name in BUILT and kind in PARTS and (verb, len(words)) == ('sources', 3):
        return print(sources(name, kind))
    if name in CRATES and kind in PARTS:
        if (verb, len(words)) == ('is-current', 3):
            return 0 if is_current(name, kind) else 1
        if (verb, len(words)) == ('note', 4):
            return note(name, kind, words[3])
    print(__doc__, file=sys.stderr)
    return 2


if __name__ == '__main__':
    sys.exit(main(sys.argv[1:]))
