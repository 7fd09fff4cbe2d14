"""Refuses each allocation of the program in turn, one a run, and looks at what it writes and how it ends.

    tests/run refused-memory [--jobs N]

Each command below is run once for its first allocation, once for its second, and so on until a run has none left to refuse. Every run has
to write its whole text and end with its status, or to write nothing and end with status 6. A table says for each command how many
allocations were refused, and how many of these runs still wrote the whole text. In the last command each of four hands puts 256 cells into
its deque, which has room for 128: where it isn't let grow, the cell is found by the rounds of the workers, so at least four of these runs
write the whole text.

refused_memory.c refuses an allocation also if the C library makes it for a thread. It wants a C compiler, `cc`. `rt try --fail-alloc` runs
the program unproved, far slower, and counts only what the program itself asks for.
"""
import concurrent.futures
import os
import pathlib
import shutil
import struct
import subprocess
import sys
import tempfile

import asking
import summing
import which_ol
from hostile import LIMIT, TOO_DEEP, Row, in_table

TERM = r"(\x. x) (\y. y)"
TRACE = "ol trace 2\nbeta 1 0 1\ncross-croissant 2 2 3\ncross-croissant 3 4 1.1\ncroissant 4 1.0 2.0\n"
COMMANDS = [Row("1,001 deep", ["run", "-"], TOO_DEEP, LIMIT, r"\x. " * 1000 + "x"), *in_table("refused.txt")]

# Of the last command, how many refusals at least have to leave the whole text: the deque of each of four hands has to grow.
GROWTHS = 4


class Runner:
    """Runs the program in a folder of its own, with one allocation refused."""

    def __init__(self, folder, program, wrapper):
        self.folder, self.program, self.wrapper = folder, program, wrapper

    def run(self, words, given, refused):
        """Returns the text, the status, and how many allocations there were."""
        handle, path = tempfile.mkstemp(dir=self.folder)
        os.write(handle, struct.pack("LL", 0, refused))
        try:
            env = {"LD_PRELOAD": self.wrapper, "REFUSED_MEMORY": path}
            ran = subprocess.run([self.program, *words], input=given.encode(), stdout=subprocess.PIPE,
                                 stderr=subprocess.STDOUT, cwd=self.folder, env=env, timeout=120)
            count = struct.unpack("LL", os.pread(handle, 16, 0))[0]
        finally:
            os.close(handle)
            os.unlink(path)
        return ran.stdout, ran.returncode, count


def try_command(runner, jobs, words, given, text, status):
    """Refuses each allocation in turn. Returns the number refused, how many of these runs ended well, and the faults."""
    whole, faults, well = (text.encode(), status), [], 0
    out, code, count = runner.run(words, given, 0)
    if (out, code) != whole:
        return 0, 0, [f"nothing refused: status {code}, {out[:80]!r}"]
    number, step = 1, 64
    with concurrent.futures.ThreadPoolExecutor(jobs) as pool:
        while True:
            runs = list(pool.map(lambda n: runner.run(words, given, n), range(number, number + step)))
            for place, (out, code, count) in enumerate(runs, number):
                if count < place:  # nothing was left to refuse
                    if (out, code) != whole:
                        faults.append(f"nothing refused: status {code}, {out[:80]!r}")
                    return place - 1, well, faults
                if (out, code) == whole:
                    well += 1
                elif (out, code) != (b"", 6):
                    faults.append(f"allocation {place}: status {code}, {out[:80]!r}")
            number += step


def main(words):
    asked = asking.parser(__doc__)
    asked.add_argument("--jobs", type=asking.positive, default=os.cpu_count(), metavar="N", help="how many runs side by side")
    asked = asked.parse_args(words)
    program = which_ol.found()
    if not shutil.which("cc"):
        sys.exit("tests/run refused-memory wants a C compiler, `cc`, and finds none")
    failed = refused_all = 0
    with tempfile.TemporaryDirectory() as folder:
        code, wrapper = os.path.join(which_ol.TOP, "tests", "lib", "refused_memory.c"), f"{folder}/wrapper.so"
        subprocess.run(["cc", "-O1", "-shared", "-fPIC", "-o", wrapper, code, "-ldl"], check=True)
        pathlib.Path(f"{folder}/term").write_text(TERM)
        pathlib.Path(f"{folder}/journal").write_text(TRACE)
        runner = Runner(folder, program, wrapper)
        print(f"{'refused':>8} {'whole text':>10} {'status 6':>8}  command")
        for row in COMMANDS:
            words, given = row.words, row.given or ""
            refused, well, faults = try_command(runner, asked.jobs, words, given, row.text, row.status)
            if row is COMMANDS[-1] and well < GROWTHS:
                faults.append(f"{well} refusals left the whole text, and those of {GROWTHS} deques have to")
            refused_all += refused
            failed += bool(faults)
            shown = " ".join(words) + (f" < {given[:24]!r}" if given else "")
            print(f"{refused:8} {well:10} {max(0, refused - well - len(faults)):8}  {shown}", flush=True)
            for fault in faults[:5]:
                print(f"  FAILED: {fault}")
    if refused_all == 0:
        print("no allocation was refused: the wrapper was not in effect")
        failed = len(COMMANDS)
    return summing.told(summing.Sum(len(COMMANDS) - failed, failed))
