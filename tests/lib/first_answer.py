"""Tries the scripts `ol`, `ol-bench` and `prove` in a scratch folder, with programs and a command `rt` that only say what they are.

    tests/run first-answer

An unproved program must never pass for a proved one: whenever the program that runs isn't proved, or was made from other
sources than those that stand there, standard error says so; and when it is proved, nothing is said. What counts is what
the program was made from, and not the times of files. What is said is just what the other scripts of tests/ leave out.
The last line is 'N passed, M failed'.
"""
import contextlib
import os
import pathlib
import shutil
import subprocess
import sys
import tempfile
import time

import asking
import summing
import which_ol

ROOT = pathlib.Path(which_ol.TOP)
NOT_PROVED = "isn't proved on this machine yet. ./prove proves it."
COMMANDS = ('bash', 'sh', 'env', 'find', 'dirname', 'readlink', 'mkdir', 'chmod', 'printf', 'cat', 'sha256sum', 'grep')
KIT = 'kit logic dac8208d650f15bf\n'
# A command `rt` that proves all but what is broken, and builds a program that says that it is proved.
RT = r"""
[ "$1" = version ] && cat "${0%/*}/../KIT-ID" && exit 0
while IFS=: read -r crate rest; do
    grep -q broken "crates/$crate/src/main.rt" && echo 'no proof' && echo "rt: $crate NOT PROVED" && exit 1
    echo "rt: $crate proved" && mkdir -p "crates/$crate/out" && it=crates/$crate/out/$crate
    printf '#!/bin/sh\necho proved\n' >"$it" && chmod +x "$it"
done <crates.txt
"""
BUILDS = r"""
mkdir -p "$(dirname "$1")" && printf '#!/bin/sh\necho unproved\n' >"$1"; chmod +x "$1"
"""
TRIED = []


def expect(what, holds):
    print(('ok  ' if holds else 'BAD ') + what)
    TRIED.append(holds)


def script(path, text):
    path.parent.mkdir(parents=True, exist_ok=True)
    path.write_text('#!/bin/sh\n' + text)
    path.chmod(0o755)


def is_proved(ran):
    return ran.stdout == 'proved\n' and ran.stderr == ''


def is_unproved(ran, said=NOT_PROVED):
    """Whether an unproved program ran that says so, and says no more than the other scripts leave out."""
    return ran.stdout == 'unproved\n' and said in ran.stderr and which_ol.without_said(ran.stderr.encode()) == b''


class House:
    """A scratch copy of the scripts, over one source, in which nothing is built."""

    def __init__(self, folder, builds, has_rt):
        self.top, self.bin = folder / 'house', folder / 'kit/bin'
        for name in ('ol', 'ol-bench', 'prove', 'scripts/prove.py', 'scripts/start', 'scripts/made_from.py'):
            (self.top / name).parent.mkdir(parents=True, exist_ok=True)
            shutil.copy(ROOT / name, self.top / name)
        self.write('crates.txt', 'ol_cli:\nol: ol_cli\nol_bench:\nol_bench_program: ol_bench\nol_far:\n')
        self.write('HANDLES', 'Handles allowed: none.\n')
        for crate in ('ol', 'ol_cli', 'ol_bench', 'ol_bench_program', 'ol_far'):
            for name in ('src/main.rt', 'specs/Lib.antt', 'proofs/Lib.antt'):
                self.write(f'crates/{crate}/{name}', 'as it was\n')
        script(self.top / 'scripts/build-unproved', BUILDS if builds else 'echo broken >&2; exit 1')
        self.bin.mkdir(parents=True)
        for it in COMMANDS:
            os.symlink(shutil.which(it), self.bin / it)
        os.symlink(sys.executable, self.bin / 'python3')
        if has_rt:
            script(self.bin / 'rt', RT)
            (self.bin.parent / 'KIT-ID').write_text(KIT)

    def write(self, name, text):
        path = self.top / name
        path.parent.mkdir(parents=True, exist_ok=True)
        path.write_text(text)

    def turn_the_clock(self, seconds):
        """Gives each file the time of so many seconds ago."""
        for path in self.top.rglob('*'):
            os.utime(path, (time.time() - seconds,) * 2)

    def run(self, name, *words):
        return subprocess.run([str(self.top / name), *words], env={'PATH': str(self.bin)}, capture_output=True, text=True)


@contextlib.contextmanager
def house(builds=True, has_rt=True):
    with tempfile.TemporaryDirectory() as folder:
        yield House(pathlib.Path(folder), builds, has_rt)


def try_the_first_calls():
    with house() as it:
        first = it.run('ol')
        expect('the first call builds an unproved program and says so', is_unproved(first) and first.stderr.count('\n') == 2)
        second = it.run('ol')
        expect('later calls run it at once, and say so', is_unproved(second) and second.stderr.count('\n') == 1)
        it.write('crates/ol_cli/src/main.rt', 'changed\n')
        expect('where a source changed it is built anew', it.run('ol').stderr.count('\n') == 2)
        it.write('crates/ol_cli/specs/Lib.antt', 'changed\n')
        expect('a definition is none of its sources', it.run('ol').stderr.count('\n') == 1)
        proved = it.run('prove')
        expect('prove shows each crate and ends well', proved.returncode == 0 and ' 2 of 2' in proved.stdout)
        expect('then the proved program runs, and nothing is said', is_proved(it.run('ol')))
        expect('and again', is_proved(it.run('ol')))


def try_other_sources():
    """Whatever the times of files are, what counts is what they have in them."""
    with house() as it:
        it.run('prove')
        for name in ('crates/ol/src/main.rt', 'crates/ol_cli/specs/Lib.antt', 'crates/ol_cli/proofs/Lib.antt', 'HANDLES', 'crates.txt',
                     'crates/ol/specs/New.antt'):
            old = (it.top / name).read_text() if (it.top / name).exists() else None
            it.write(name, 'ol: ol_cli ol_bench\nol_cli:\nol_bench:\n' if name == 'crates.txt' else 'changed.\n')
            it.turn_the_clock(1000)
            expect(f'another {name} brings the line back', is_unproved(it.run('ol'), "isn't of these sources"))
            if old is None:
                (it.top / name).unlink()
            else:
                it.write(name, old)
            expect('and not where it is again as it was', is_proved(it.run('ol')))
        it.write('crates/ol_far/src/main.rt', 'changed\n')
        expect('what the program does not stand on is none of its sources', is_proved(it.run('ol')))


def try_copies():
    with house() as it, house() as other:
        it.run('prove')
        shutil.copytree(it.top / 'crates/ol/out', other.top / 'crates/ol/out', copy_function=shutil.copy)
        other.turn_the_clock(-1000)
        it.turn_the_clock(1000)
        expect('a copied program counts in a clone of the same sources', is_proved(other.run('ol')))
        other.write('crates/ol/proofs/Lib.antt', 'changed\n')
        other.turn_the_clock(2000)
        expect('and not where one of them differs', is_unproved(other.run('ol'), "isn't of these sources"))
        script(it.top / 'crates/ol/out/ol', 'echo another\n')
        expect('another program in its place is not the proved one', is_unproved(it.run('ol'), "isn't of these sources"))
    with house() as it:
        it.run('prove')
        (it.bin.parent / 'KIT-ID').write_text('kit logic 0000000000000000\n')
        expect("nor is one of another kit's logic", is_unproved(it.run('ol'), "isn't of these sources"))
        (it.bin / 'rt').unlink()
        expect('where no kit is at hand, that of the proof counts', is_proved(it.run('ol')))
        (it.top / 'crates/ol/out/ol.made-from').unlink()
        expect('without a word of what it was made from it is not the proved one', is_unproved(it.run('ol'), "isn't of these sources"))


def try_the_bench():
    with house() as it:
        expect('ol-bench is built and says so likewise', is_unproved(it.run('ol-bench'), './prove ol-bench proves it.'))
        proved = it.run('prove', 'ol-bench')
        expect('prove ol-bench proves it', proved.returncode == 0 and ' 2 of 2' in proved.stdout)
        expect('then it runs and says nothing', is_proved(it.run('ol-bench')))
        expect('and the other program is as unproved as before', is_unproved(it.run('ol')))


def try_what_fails():
    with house(builds=False) as it:
        broken = it.run('ol')
        expect('a build that fails is told, with status 70', broken.returncode == 70 and 'broken' in broken.stderr and broken.stdout == '')
    with house(has_rt=False) as it:
        bare = it.run('ol')
        expect('without rt the first call says what is wanted, with status 70', bare.returncode == 70 and 'PATH' in bare.stderr)
        bare = it.run('prove')
        expect('so does prove, with status 1', bare.returncode == 1 and 'PATH' in bare.stdout)
    with house() as it:
        it.write('crates/ol_cli/src/main.rt', 'broken\n')
        failed = it.run('prove')
        expect('prove says which crate is not proved, and why', failed.returncode == 1 and 'no proof\nprove: ol_cli' in failed.stdout)
        expect('and leaves no folder behind', not (it.top / 'out/prove').exists() and not (it.top / 'crates/ol/out').exists())
        for words in (['olx'], ['0'], ['ol', '2', '3']):
            bad = it.run('prove', *words)
            expect(f"prove {' '.join(words)} is told how it is used", bad.returncode == 1 and 'usage' in bad.stdout)


def main(words):
    asking.parser(__doc__).parse_args(words)
    for part in (try_the_first_calls, try_other_sources, try_copies, try_the_bench, try_what_fails):
        part()
    return summing.told(summing.Sum(sum(TRIED), len(TRIED) - sum(TRIED)))
