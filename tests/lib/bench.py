"""Runs the sessions of tests/sessions and the examples that `ol-bench COMMAND --help` shows, and compares what is printed with the texts.

    tests/run bench [--write] [SESSION ..]

A session is a file of commands and of what they print, as in a fenced block of a page (tests/run pages --help). A line that
begins with `# ` is a comment. Each session is run in an empty folder, with the programs and folders that a page has. With
--write each session gets the lines that were printed. Names of sessions leave out the examples of the help. The last
line is 'N passed, M failed'.
"""
import glob
import os
import re
import subprocess

import pages
import which_ol
from which_ol import TOP


def commands(lines):
    """The commands of a session: a single section."""
    lines, found, at = lines[:-1], [], 0
    while at < len(lines):
        at += 1
        if lines[at - 1].startswith("$ "):
            found.append(pages.command_at(lines, at - 1, "", "# "))
            at = found[-1].end
    return [found]


def help_of(program, command):
    """The help of a command, as a page."""
    words = [*command, "--help"]
    lines = subprocess.run([program, *words], stdout=subprocess.PIPE, check=True, text=True).stdout.split("\n")
    return pages.Page(" ".join(["ol-bench", *words]), lines)


def helps(program):
    """The help of each command."""
    listed = "\n".join(help_of(program, []).lines).split("\nCommands:\n")[1].split("\n\n")[0]
    return [help_of(program, [it]) for it in re.findall(r"^  (\w+)", listed, re.M) if it != "help"]


def main(words):
    asked = pages.words_for(__doc__, words, "SESSION")
    programs = {name: which_ol.found(name) for name in which_ol.VARIABLES}
    named = asked.pages or sorted(glob.glob(os.path.join(TOP, "tests", "sessions", "*.session")))
    found = [pages.read(os.path.realpath(it), commands) for it in named]
    return pages.try_pages(asked, found + ([] if asked.pages else helps(programs["ol-bench"])), programs)
