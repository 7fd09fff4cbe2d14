"""Finds a line of a runtime's journal after which its net is wrong, and before which it is right, with `ol-bench after`.

    tests/run vectors/bisect [--translation T | --net] [--each] COMMAND NAME

NAME is a file with a term, or with --net a net file. The shell runs COMMAND, for at most a minute each time, with the
net on standard input: as `ol view` shows it, or with --net the file itself. `COMMAND` writes a journal, in either form.
`COMMAND --after L` writes the net that the first L lines of this journal leave, as `ol-bench after L` does, under the
names of the journal: of its lines from the third on any order will do. Each call has to make the same run.

What `ol-bench explain` says of the journal is printed first. Of its good lines the net after the last one is asked. If
that is right, a last line says so; the status is 0 if the journal is one of a complete run, too. Else a line after which
the net is wrong, and before which it is right, is printed, and the lines in which the two nets differ, those of `ol-bench`
behind `<` and those of COMMAND behind `>`; the status is 1. A net that is wrong on the way alone isn't found so: what is
wrong may be erased later. With --each the net after each line is asked, one after another. Status 2: COMMAND or NAME is no
such thing. Which program `ol-bench` is run, tests/lib/which_ol.py says.
"""
import re
import sys

import asking
import runtimes
import which_ol

NOT_A_RUN = re.compile(r"(?:not a run|bad text) at line (\d+)")


class Search:
    """The journal of a command on the net of a file, and the nets after its lines."""

    def __init__(self, bench, command, options, name):
        self.bench, self.command, self.options, self.name = bench, command, options, name
        with open(name, encoding="utf-8") as file:
            self.given = file.read()
        if "--net" not in options:
            self.given = self.after(1, "ol trace 1\n")
        self.journal = runtimes.ended(command, self.given)

    def asked(self, words, journal):
        """The status and the text of a command of `ol-bench` that has this journal."""
        return which_ol.answer(self.bench, [*words, *self.options, self.name, "-"], journal)

    def after(self, line, journal):
        """The net after the first lines of a journal."""
        status, text = self.asked(["after", str(line)], journal)
        if status != 0:
            raise ValueError(f"no net by `ol-bench after {line}`: its status is {status}")
        return text

    def nets(self, line):
        """The lines of the net after this line: those of `ol-bench`, and those of the command."""
        theirs = runtimes.ended(f"{self.command} --after {line}", self.given).splitlines()
        if not theirs or not theirs[0].startswith("step "):
            raise ValueError(f"COMMAND --after {line} writes no line `step S` first, so no net")
        return self.after(line, self.journal).splitlines(), theirs

    def is_right(self, line):
        ours, theirs = self.nets(line)
        return ours[:2] == theirs[:2] and sorted(ours) == sorted(theirs)

    def first_wrong(self, last, each):
        """A line after which the net is wrong, and before which it is right; None if it is right after `last`, or with `each` after all."""
        if each:
            return next((line for line in range(1, last + 1) if not self.is_right(line)), None)
        if not self.is_right(1):
            return 1
        if last == 1 or self.is_right(last):
            return None
        low, high = 1, last
        while high - low > 1:
            middle = (low + high) // 2
            low, high = (middle, high) if self.is_right(middle) else (low, middle)
        return high


def told(search, each):
    """Prints what is found, and gives the status."""
    status, text = search.asked(["explain"], search.journal)
    print(text, end="")
    off = NOT_A_RUN.match(text)
    last = int(off.group(1)) - 1 if off else search.journal.count("\n")
    if last < 1:
        return 1
    wrong = search.first_wrong(last, each)
    if wrong is None:
        print(f"the nets are right up to line {last}" if each else f"the net is right after line {last}")
        return 1 if status else 0
    ours, theirs = search.nets(wrong)
    print(f"the net is wrong after line {wrong}: {search.journal.splitlines()[wrong - 1]}")
    print("".join(f"< {line}\n" for line in ours if line not in theirs), end="")
    print("".join(f"> {line}\n" for line in theirs if line not in ours), end="")
    return 1


def main(words):
    asked = asking.parser(__doc__)
    asked.add_argument("command", metavar="COMMAND", help="reads a net; writes a journal, or the net after lines of it")
    asked.add_argument("name", metavar="NAME", help="a file with a term or a net")
    asked.add_argument("--translation", metavar="T", choices=["1", "2"], default="2", help="of the term (2)")
    asked.add_argument("--net", action="store_true", help="NAME has a net")
    asked.add_argument("--each", action="store_true", help="ask the net after each line, and don't halve")
    asked = asked.parse_args(words)
    options = ["--net"] if asked.net else ["--translation", asked.translation]
    try:
        return told(Search(which_ol.found("ol-bench"), asked.command, options, asked.name), asked.each)
    except ValueError as fault:
        print(f"{sys.argv[0]}: {fault}", file=sys.stderr)
        return 2
