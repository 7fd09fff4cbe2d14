"""Sums of what passed and failed, and commands that end with a line 'N passed, M failed'."""
import collections
import re
import subprocess
import sys

Sum = collections.namedtuple("Sum", "passed failed")
LAST_LINE = re.compile(r"(\d+) passed, (\d+) failed")


def ran(words):
    """Runs a command and passes on what it writes: the sum of its last line. A status that isn't 0 is a failure, and so is another line."""
    last_line = b""
    with subprocess.Popen(words, stdin=subprocess.DEVNULL, stdout=subprocess.PIPE) as running:
        for line in running.stdout:
            sys.stdout.buffer.write(line)
            sys.stdout.flush()
            last_line = line.strip() or last_line
    found = LAST_LINE.fullmatch(last_line.decode("utf-8", "replace"))
    passed, failed = map(int, found.groups()) if found else (0, 1)
    return Sum(passed, max(failed, 1) if running.returncode else failed)


def told(total):
    """Prints the last line, and gives the status."""
    print(f"{total.passed} passed, {total.failed} failed", flush=True)
    return 1 if total.failed else 0


def told_each(found):
    """Prints what was found wrong of each case, where that isn't None or empty, and the last line. Gives the status."""
    bad = [it for it in found if it]
    print("".join(it + "\n" for it in bad), end="")
    return told(Sum(len(found) - len(bad), len(bad)))
