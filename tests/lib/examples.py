"""Runs each term file of examples/ and compares what is printed with the file beside it.

    tests/run examples [--write] [FILE ..]

A term file NAME.lam says in its first lines how it is run, as `# ol run NAME.lam`. NAME.out has what that prints, and a line `[status N]`
where the status isn't 0. With --write the files NAME.out are made. The last line is 'N passed, M failed'.
"""
import glob
import itertools
import os

import pages
import which_ol


def commands(term):
    """The commands at the head of a term file, as a single one. Without a command it fails."""
    with open(term, encoding="utf-8") as file:
        lines = list(itertools.takewhile(lambda line: line.startswith("# ol "), file))
    return "cd examples\n" + ("\n".join(f"{line[2:].strip()} || echo [status $?]" for line in lines) or "false")


def page(term, is_new):
    """The file beside a term file, as a page."""
    path = os.path.realpath(term).removesuffix(".lam") + ".out"
    if is_new and not os.path.exists(path):
        open(path, "x", encoding="utf-8").close()
    text = commands(term)
    return pages.read(path, lambda lines: [[pages.Command(0, text, 0, len(lines) - 1, "")]])


def main(words):
    asked = pages.words_for(__doc__, words, "FILE")
    named = asked.pages or sorted(glob.glob(os.path.join(which_ol.TOP, "examples", "*.lam")))
    return pages.try_pages(asked, [page(it, asked.write) for it in named], {"ol": which_ol.found()})
