"""Which programs `ol` and `ol-bench` the scripts of tests/ run, and what an unproved one says besides.

A program is what the variable OL, or OL_BENCH, names; else the proved one of this repository, where it is there; else, of
`ol` alone, the `ol` on PATH; else the script of that name at the top, which builds an unproved program. Where the proved
one wasn't made from the sources that stand here (scripts/made_from.py), this is said.
"""
import os
import shutil
import subprocess
import sys

import made_from

TOP = made_from.TOP
VARIABLES = {"ol": "OL", "ol-bench": "OL_BENCH"}
MOST_SECONDS = 120
TOO_LONG = f"[over {MOST_SECONDS} seconds]\n"

# What the scripts `ol` and `ol-bench` say on standard error, each a line of its own, where the program isn't proved.
SAID = [f"{name}: {line}\n".encode() for name, prove in made_from.PROVED_BY.items() for line in (
    "building a program that isn't proved, once: under a minute on an idle machine.",
    f"the proved program isn't of these sources: this one isn't proved on this machine yet. {prove} proves it.",
    f"this program isn't proved on this machine yet. {prove} proves it.")]


def without_said(text):
    """The bytes without these lines. One may stand behind a line that wasn't ended yet."""
    for line in SAID:
        text = text.replace(line, b"")
    return text


def path_of(name):
    """The path of a program, whether or not it is there."""
    path = os.environ.get(VARIABLES[name])
    proved = made_from.program(name, "proved")
    if not path and os.access(proved, os.X_OK):
        path = proved
        if not made_from.is_current(name, "proved"):
            print(f"{os.path.relpath(proved, TOP)} isn't known to be the program of these sources. "
                  f"{made_from.PROVED_BY[name]} proves that.", file=sys.stderr)
    return path or name == "ol" and shutil.which("ol") or os.path.join(TOP, name)


def found(name="ol"):
    """The path of the program. It is run once, so that what it says is seen."""
    path = os.path.realpath(path_of(name))
    try:
        status = subprocess.run([path, *(["gen", "0"] if name == "ol" else ["--help"])], stdout=subprocess.DEVNULL).returncode
    except OSError as fault:
        sys.exit(f"{path} doesn't run: {fault.strerror}")
    if status:
        sys.exit(f"{path} doesn't run: its status is {status}")
    return path


def pass_on(said):
    """Writes what was said on standard error, but for these lines."""
    sys.stderr.buffer.write(without_said(said))
    sys.stderr.flush()


def ran(program, words, given=b"", timeout=MOST_SECONDS):
    """What `subprocess.run` gives for the program. What it says on standard error is passed on."""
    done = subprocess.run([program, *words], input=given, stdout=subprocess.PIPE, stderr=subprocess.PIPE, timeout=timeout)
    pass_on(done.stderr)
    return done


def answer(program, words, given=""):
    """The status of a call, and the text that it writes. Where it takes too long, the text says so."""
    try:
        done = ran(program, words, given.encode())
    except subprocess.TimeoutExpired:
        return None, TOO_LONG
    return done.returncode, done.stdout.decode()
