"""A script of tests/faults with a fault (docs/runtimes/DIAGNOSE.md).

    tests/run faults/broken FAULT [--seed S] [--net | --after L] < NET
    tests/run faults/broken FAULT [--start] < TERM
    tests/run faults/broken --show FAULT

tests/faults/faults.txt has the faults and their scripts. A fault is another line in the place of a line; --show writes the two.
"""
import os
import sys

from made_from import TOP

FOLDER = os.path.join(TOP, "tests", "faults")


def read(name):
    with open(os.path.join(FOLDER, name), encoding="utf-8") as file:
        return file.read()


# By the name of a fault its script, and its lines, a right one and the wrong one after it.
FAULTS = {}
for _head, *_lines in (section.splitlines() for section in read("faults.txt").strip().split("\n\n")[1:]):
    _name, _script = _head.split(":")[0].split()
    FAULTS[_name] = _script, _lines


def names_in(script, lines=(), main="planted"):
    """The functions and classes of a script with these lines, each of which the script has once."""
    text = read(script).split("\n")
    for right, wrong in zip(lines[::2], lines[1::2]):
        place, = (number for number, line in enumerate(text) if line.strip() == right[2:])
        text[place] = text[place].replace(right[2:], wrong[2:])
    path = os.path.join(FOLDER, script)
    names = {"__name__": main, "__file__": path}
    exec(compile("\n".join(text), path, "exec"), names)
    return names


def main(words):
    fault = words[-1] if words[:1] == ["--show"] else words[0] if words else ""
    if fault not in FAULTS:
        print(f"{__doc__}\nFAULT is one of: {' '.join(FAULTS)}", file=sys.stderr)
        return 2
    if words[0] == "--show":
        print("\n".join(FAULTS[fault][1]))
        return 0
    sys.argv[1:] = words[1:]
    names_in(*FAULTS[fault], "__main__")
    return 0
