"""Runs a script of tests/: `tests/run NAME WORD ..` calls `main` of the module whose name is NAME, with `_` for `/` and `-`. `main`
takes the words and returns the status. What can't be read or run is told in one line, with status 2.
"""
import glob
import importlib
import os
import sys

LIB = os.path.dirname(os.path.realpath(__file__))
TESTS = os.path.dirname(LIB)
sys.path += [os.path.join(TESTS, "vectors"), os.path.join(os.path.dirname(TESTS), "scripts")]


def names():
    """The names of all scripts: of the modules with a `main` that takes words."""
    found = {}
    for path in sorted(glob.glob(LIB + "/[a-z]*.py")):
        with open(path, encoding="utf-8") as file:
            if "\ndef main(words):" in file.read():
                module = os.path.basename(path)[:-3]
                found[module.replace("vectors_", "vectors/").replace("faults_", "faults/").replace("_", "-")] = module
    return found


def main(words):
    scripts = names()
    if not words or words[0] not in scripts:
        print(f"usage: tests/run NAME [WORD ..], where NAME is one of\n  {' '.join(scripts)}", file=sys.stderr)
        return 2
    sys.argv[0] = f"tests/run {words[0]}"
    try:
        return importlib.import_module(scripts[words[0]]).main(words[1:])
    except BrokenPipeError:  # whoever read the output has enough of it, as `head` does
        os.dup2(os.open(os.devnull, os.O_WRONLY), 1)
        return 141
    except OSError as fault:
        print(f"{sys.argv[0]}: {fault.filename}: {fault.strerror}", file=sys.stderr)
        return 2
    except KeyboardInterrupt:
        return 130


if __name__ == "__main__":
    sys.exit(main(sys.argv[1:]))
