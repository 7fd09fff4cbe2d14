"""Proves the crates below a program by `rt ci`, and builds it. See ../prove.

`rt ci` runs in a folder of its own, out/prove, that has the sources of these crates by hard links, and neither must-fail edits nor the
other crates. It proves several crates side by side, each over the statements of those below it, and keeps what is proved beside the
kit: a call after one that was interrupted, in whatever clone of the same sources, goes on from there.
"""
import fcntl
import os
import re
import shutil
import signal
import subprocess
import sys
import time

import made_from

TOP = made_from.TOP
ROOM = TOP + '/out/prove'
LOGIC = 'dac8208d650f15bf'  # the program logic that the proofs were last checked with
SPACE = 7  # GB of disk: the proofs take 2, and `rt` keeps nothing if less than 5 are left
ROOMY = 12  # GB of free memory, with which there may be as many processes as processors (four take 9)


def tell(text):
    print('prove: ' + text, flush=True)


def stop(text):
    tell(text)
    sys.exit(1)


def check_the_machine():
    if not shutil.which('rt'):
        stop("`rt` isn't found: put the kit's folder bin/ on PATH (docs/use/INSTALL.md).")
    said = subprocess.run(['rt', 'version'], capture_output=True, text=True).stdout
    if LOGIC not in said:
        tell(f'this kit has another program logic than the proofs were last checked with ({LOGIC}): {said.strip()}. Going on.')
    if shutil.disk_usage(TOP).free < SPACE * 10**9:
        stop(f'less than {SPACE} GB of disk are free, which the proofs take.')


def free_memory():
    with open('/proc/meminfo', encoding='ascii') as file:
        sizes = dict(line.split(':') for line in file)
    return int(sizes['MemAvailable'].split()[0]) / 10**6


def clock(start):
    took = int(time.time() - start)
    return f'{took // 60:3}:{took % 60:02}'


def make_room(rows):
    """The folder in which `rt ci` runs, with the sources of these crates."""
    shutil.rmtree(ROOM, ignore_errors=True)
    os.makedirs(ROOM + '/.git')  # `rt ci` runs at the top of a repository only
    for crate in rows:
        shutil.copytree(f'{TOP}/crates/{crate}', f'{ROOM}/crates/{crate}', copy_function=os.link,
                        ignore=shutil.ignore_patterns('out', 'must-fail'))
    shutil.copy(TOP + '/HANDLES', ROOM)
    with open(ROOM + '/crates.txt', 'w', encoding='utf-8') as file:
        file.writelines(' '.join(row).replace(' :', ':') + '\n' for row in rows.values())


def prove(lanes, tell_of):
    """Proves all crates in the room by at most so many processes, or as many as `rt` finds memory for, tells of each when it is proved, and
    builds the program. What `rt` says of a crate comes before the line that the crate is proved, or isn't."""
    said, jobs = [], {'RT_JOBS': str(lanes)} if lanes else {}
    with subprocess.Popen(['rt', 'ci'], cwd=ROOM, env={**os.environ, **jobs}, stdin=subprocess.DEVNULL,
                          stdout=subprocess.PIPE, stderr=subprocess.STDOUT, text=True, errors='replace') as running:
        try:
            for line in running.stdout:
                said.append(line)
                if found := re.match(r'rt: (\w+) (proved|is kept|NOT PROVED)', line):
                    if found[2] == 'NOT PROVED':
                        print(''.join(said[:-1]), end='')
                        stop(f"{found[1]} is not proved: above is what `rt` printed; `rt check` in its folder says more.")
                    tell_of(found[1])
                    said = []
        finally:
            running.terminate()
    if running.returncode:
        print(''.join(said), end='')
        stop('the program is not built: above is what `rt` printed.')


def words_of(words):
    """The name of the program that is asked for, and by how many processes it is proved: 0 if memory is short and no number is given."""
    name = words.pop(0) if words and words[0] in made_from.CRATES else 'ol'
    if not words:
        return name, len(os.sched_getaffinity(0)) if free_memory() >= ROOMY else 0
    number = words.pop(0)
    if words or not number.isdecimal() or not int(number):
        stop('usage: ./prove [ol|ol-bench] [JOBS], where JOBS is a number from 1 on.')
    return name, int(number)


def only_one():
    """Waits until no other `./prove` runs in this checkout, and returns what keeps others out until this one ends."""
    os.makedirs(TOP + '/out', exist_ok=True)
    lock = open(TOP + '/out/prove.lock', 'w', encoding='ascii')
    try:
        fcntl.flock(lock, fcntl.LOCK_EX | fcntl.LOCK_NB)
    except BlockingIOError:
        tell('waiting for another ./prove in this checkout to end.')
        fcntl.flock(lock, fcntl.LOCK_EX)
    return lock


def main():
    name, lanes = words_of(sys.argv[1:])
    check_the_machine()
    crate, start, sources = made_from.CRATES[name], time.time(), made_from.sources(name)
    rows, ended = made_from.rows_below(crate), []

    def tell_of(crate):
        ended.append(crate)
        tell(f'{len(ended):2} of {len(rows)} {clock(start)}  {crate}')

    tell(f'{len(rows)} crates, by at most {lanes} processes.' if lanes else f'{len(rows)} crates, by as many processes as fit in the free memory.')
    with only_one():
        try:
            make_room(rows)
            prove(lanes, tell_of)
            made = made_from.program(name, 'proved')
            os.makedirs(os.path.dirname(made), exist_ok=True)
            shutil.move(f'{ROOM}/crates/{crate}/out/{crate}', made)
        finally:
            shutil.rmtree(ROOM, ignore_errors=True)
        made_from.note(name, 'proved', sources)
    tell(f"proved and built in{clock(start)}: {os.path.relpath(made)}. ./{name} runs it from now on.")


if __name__ == '__main__':
    signal.signal(signal.SIGTERM, lambda *_: sys.exit(1))
    try:
        main()
    except KeyboardInterrupt:
        stop('interrupted. What was proved is kept.')
