"""Runs the commands that the pages show, and compares what they print with what the pages say.

    tests/run pages [--write] [PAGE ..]

Without names the pages are README.md, CONTRIBUTING.md, and those below docs/, examples/, library/ and tests/vectors/. In
a page a command is a line of a fenced block that begins with `$ `, or an indented line that does; lines right below it
that begin with `> ` belong to it. The lines after these are what it has to print, on standard output and standard
error: in a fenced block those up to the next command or the end of the block, otherwise those with the same indent. If
its status isn't 0, a line `[status N]` is the last. A line `...` alone stands for any number of lines.

Each section of a page, from a heading `## ` to the next, is run by itself, in an empty folder that is thrown away at
the end. `ol`, `./ol`, `ol-bench` and `./ol-bench` are the programs there (tests/lib/which_ol.py says which), and
`examples` and `tests` are the folders of this repository. With --write each page gets the lines that were printed,
unless a `...` is among the old ones. The last line is 'N passed, M failed'.
"""
import collections
import concurrent.futures
import contextlib
import glob
import os
import re
import subprocess
import tempfile

import asking
import progress
import summing
import which_ol
from which_ol import TOP

FOLDERS = ("docs/**", "examples", "library", "tests/vectors")
MOST_SECONDS = 600
# A command: the number of its line, its text, the first line of what it prints and the line past that, and its indent.
Command = collections.namedtuple("Command", "line text first end indent")


def pages():
    found = [os.path.join(TOP, name) for name in ("README.md", "CONTRIBUTING.md")]
    for folder in FOLDERS:
        found += sorted(glob.glob(os.path.join(TOP, folder, "*.md"), recursive=True))
    return found


def sections(lines):
    """The commands of a page, which is given as its lines: a list for each section."""
    is_fenced, at, found = False, 0, [[]]
    while at < len(lines):
        is_fenced ^= lines[at].startswith("```")
        if lines[at].startswith("## ") and not is_fenced:
            found.append([])
        start = re.match(r"( *)\$ (.*)", lines[at])
        at += 1
        if start and bool(start.group(1)) != is_fenced:
            command = command_at(lines, at - 1, start.group(1), is_fenced and "```")
            found[-1].append(command)
            at = command.end
    return [it for it in found if it]


def command_at(lines, line, indent, mark):
    """The command of this line. What it prints ends above the next command, and above a line that begins with the mark; without a mark,
    above a line that is empty or has another indent."""
    at, text = line + 1, [lines[line][len(indent) + 2:]]
    while at < len(lines) and (lines[at] + " ").startswith(indent + "> "):
        text.append(lines[at][len(indent) + 2:])
        at += 1
    first = at
    while at < len(lines) and not lines[at].startswith(indent + "$ ") and \
            not (lines[at].startswith(mark) if mark else not lines[at].startswith(indent) or not lines[at].strip()):
        at += 1
    return Command(line, "\n".join(text), first, at, indent)


def fits(wanted, got):
    """Whether the printed lines are those of the page, where `...` stands for any."""
    if not wanted:
        return not got
    if wanted[0] == "...":
        return any(fits(wanted[1:], got[k:]) for k in range(len(got) + 1))
    return bool(got) and wanted[0] == got[0] and fits(wanted[1:], got[1:])


def printed(text, folder, environment):
    """The lines that a command prints."""
    try:
        ran = subprocess.run(["bash", "-c", text], cwd=folder, env=environment, stdin=subprocess.DEVNULL,
                             stdout=subprocess.PIPE, stderr=subprocess.STDOUT, timeout=MOST_SECONDS)
    except subprocess.TimeoutExpired:
        return [f"[over {MOST_SECONDS} seconds]"]
    got = which_ol.without_said(ran.stdout).decode("utf-8", "replace").split("\n")
    if got[-1] == "":
        got.pop()
    return got + ([f"[status {ran.returncode}]"] if ran.returncode else [])


@contextlib.contextmanager
def place_for(programs):
    """A folder for commands that call these programs by their names, and the variables for `printed`."""
    with tempfile.TemporaryDirectory() as folder:
        for name, program in programs.items():
            os.symlink(program, os.path.join(folder, name))
        for name in ("examples", "tests"):
            os.symlink(os.path.join(TOP, name), os.path.join(folder, name))
        named = {which_ol.VARIABLES[name]: program for name, program in programs.items()}
        yield folder, {**os.environ, **named, progress.OFF: "1", "PATH": folder + os.pathsep + os.environ["PATH"]}


class Page:
    """A text with sections of commands: its name, its lines, and the file into which outputs may be written."""

    def __init__(self, name, lines, cut=sections, path=None):
        self.name, self.lines, self.path = name, lines, path
        self.sections = cut(lines)

    def tried(self, programs, section):
        """For each command of a section, in order: the command, what it has to print, and what it prints."""
        with place_for(programs) as (folder, environment):
            return [(it, [line[len(it.indent):] for line in self.lines[it.first:it.end]], printed(it.text, folder, environment))
                    for it in section]

    def fault(self, command, wanted, got):
        place = f"{self.name}:{command.line + 1}: $ {command.text}"
        return "\n".join([place] + ["  wanted " + line for line in wanted] + ["  got    " + line for line in got])

    def change(self, changes):
        """Writes what was printed into the page."""
        for command, got in sorted(changes, reverse=True):
            self.lines[command.first:command.end] = [command.indent + line for line in got]
        with open(self.path, "w", encoding="utf-8") as file:
            file.write("\n".join(self.lines))
        print(f"{self.name}: {len(changes)} written")


def read(path, cut=sections):
    with open(path, encoding="utf-8") as file:
        return Page(os.path.relpath(path, TOP), file.read().split("\n"), cut, path)


def try_pages(asked, found, programs):
    """Tries these pages with these programs, and prints the sum."""
    cases = [(page, section) for page in found for section in page.sections]
    passed = failed = 0
    changes = collections.defaultdict(list)
    with concurrent.futures.ThreadPoolExecutor(os.cpu_count()) as pool:
        told = pool.map(lambda case: case[0].tried(programs, case[1]), cases)
        for (page, _), answers in zip(cases, progress.shown(told, len(cases))):
            for command, wanted, got in answers:
                is_right = fits(wanted, got)
                if not is_right and asked.write and page.path and "..." not in wanted:
                    changes[page].append((command, got))
                    is_right = True
                passed, failed = passed + is_right, failed + (not is_right)
                if not is_right:
                    print(page.fault(command, wanted, got), flush=True)
    for page, its in changes.items():
        page.change(its)
    return summing.told(summing.Sum(passed, failed))


def words_for(text, words, kind="PAGE"):
    asked = asking.parser(text)
    asked.add_argument("--write", action="store_true", help="put what is printed into the files")
    asked.add_argument("pages", nargs="*", metavar=kind)
    return asked.parse_args(words)


def main(words):
    asked = words_for(__doc__, words)
    programs = {name: which_ol.found(name) for name in which_ol.VARIABLES}
    return try_pages(asked, [read(os.path.realpath(it)) for it in asked.pages or pages()], programs)
