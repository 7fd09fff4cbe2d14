"""Builds library/check.c with the library for C, and compares what it prints with `ol check`, `ol-bench explain` and `ol run`;
and what the example of library/README.md prints with what the page says.

    tests/run library [FOLDER]

FOLDER has libolcheck.a and olcheck.h, as scripts/library makes them: out/library, if none is given. Where they aren't there or were
made from other sources than those that stand here, and where no C compiler is found (`cc`, or what CC names), this is said and nothing
is tried. The programs are those that tests/lib/which_ol.py finds. The last line is 'N passed, M failed'.
"""
import os
import re
import shutil
import subprocess
import tempfile
import textwrap

import asking
import made_from
import summing
import which_ol
from which_ol import TOP

ONCE = r"(\x. x) (\y. y)"
WHOLE = "ol trace 1\n0 1\n2 3\n4 1.1\n1.0 2.0\n"
NET = "ol net 1\nfree 2\nnode fan 0\nnode fan 0\nlink f0 0.1\nlink f1 1.1\nlink 0.0 1.0\nlink 0.2 1.2\n"
# A file with a term or a net, the words of the option before it, and a journal.
ROWS = [
    (ONCE, [], WHOLE),
    (ONCE, [], "".join(WHOLE.splitlines(True)[:3])),
    (ONCE, [], "ol trace 1\n"),
    (ONCE, [], "ol trace 1\n0 1\n2 3\n2 3\n"),
    (ONCE, [], "ol trace 1\n0 1\n3 2\n"),
    (ONCE, [], "ol trace 1\n0 1\n2 3"),
    (ONCE, [], "ol trace 3\n"),
    (ONCE, [], ""),
    (ONCE, [], "ol trace 2\nbeta 1 0 1\ncross-croissant 3 2 3\n"),
    (ONCE, [], "ol trace 2\nbeta 1 0 1\ncross-fan 2 2 3\n"),
    (r"(\x. x x) (\y. y)", ["-t", "1"], "ol trace 1\n0 1\n"),
    (r"(\x. x x) (\y. y)", ["-t", "2"], "ol trace 1\n0 1\n"),
    ("x $ y", [], WHOLE),
    ("\x00\xff", [], "\x00\xff"),
    ("(\\x. " * 1001 + "x" + ")" * 1001, [], WHOLE),
    (NET, ["-n"], "ol trace 1\n0 1\n"),
    (NET, ["-n"], "ol trace 1\n"),
    ("ol net 1\nfree 0\nnode fan\n", ["-n"], "ol trace 1\n"),
    ("ol net 1\nfree 1\n", ["-n"], "ol trace 1\n"),
]
RULES = ("beta", "fan", "croissant", "bracket", "cross-fan", "cross-croissant", "cross-bracket", "erase")
WORDS = ("complete", "run ", "not a run at line ", "bad text at line ")
TRIED = []


def expect(what, holds):
    print(('ok  ' if holds else 'BAD ') + what)
    TRIED.append(holds)


def built(source, folder, room, *options):
    """The path of a program that is built of this source."""
    program = os.path.join(room, os.path.basename(source)[:-2])
    subprocess.run([os.environ.get("CC", "cc"), "-O2", "-std=c99", "-Wall", "-Wextra", "-I", folder, source,
                    os.path.join(folder, "libolcheck.a"), *options, "-o", program], check=True)
    return program


def write(room, name, text):
    path = os.path.join(room, name)
    with open(path, "w", encoding="latin-1") as file:
        file.write(text)
    return path


def try_the_page(folder, room):
    """The example of library/README.md prints what the page says that it prints."""
    with open(os.path.join(TOP, "library", "README.md"), encoding="utf-8") as file:
        source, printed = re.search(r"^```c\n(.*?)^```\n.*?^It prints [^\n]*\n\n((?:    [^\n]*\n)+)", file.read(), re.M | re.S).groups()
    program = built(write(room, "page.c", source), folder, room)
    done = subprocess.run([program], stdout=subprocess.PIPE, text=True)
    expect("the example of library/README.md", done.stdout == textwrap.dedent(printed))


def try_row(number, row, programs, room):
    """What the library tells is what the two programs print."""
    text, option, journal = row
    files = [write(room, "file", text), write(room, "journal", journal)]
    printed = subprocess.run([programs["check"], *option, *files], stdout=subprocess.PIPE, text=True).stdout
    told, verdict = printed[:printed[:-1].rfind("\n") + 1], printed.splitlines()[-1]
    words = {"-t": ["--translation", option[-1]] if option else [], "-n": ["--net"]}.get(option[0], []) if option else []
    said = subprocess.run([programs["ol-bench"], "explain", *words, *files], stdout=subprocess.PIPE, stderr=subprocess.STDOUT, text=True)
    expect(f"row {number}: the text of ol-bench explain: {told.splitlines()[:1]}", told == which_ol.without_said(said.stdout.encode()).decode())
    if option[:1] != ["-n"]:
        line = which_ol.ran(programs["ol"], ["check", *words, *files]).stdout.decode()
        expect(f"row {number}: its first line is that of ol check", line == told.splitlines(True)[0])
    kind = next((at for at, it in enumerate(WORDS) if told.startswith(it)), 4)
    numbers = told.splitlines()[0].split()[-1] if kind in (1, 2, 3) else "0"
    expect(f"row {number}: the verdict {verdict}", verdict.startswith(f"{kind} {numbers}: "))
    if kind == 0 and option[:1] != ["-n"]:
        lines = which_ol.ran(programs["ol"], ["run", *words, files[0]]).stdout.decode().splitlines()[1:9]
        expect(f"row {number}: the counts are those of ol run", [f"{a} {b}" for a, b in zip(RULES, verdict.split(": ")[1].split())] == lines)


def try_all(folder):
    programs = {name: which_ol.found(name) for name in ("ol", "ol-bench")}
    with tempfile.TemporaryDirectory() as room:
        programs["check"] = built(os.path.join(TOP, "library", "check.c"), folder, room)
        for number, row in enumerate(ROWS, 1):
            try_row(number, row, programs, room)
        try_the_page(folder, room)
        edges = built(os.path.join(TOP, "tests", "lib", "library_edges.c"), folder, room, "-D_GNU_SOURCE", "-pthread", "-Wl,--wrap=malloc,--wrap=realloc")
        done = subprocess.run([edges], stdout=subprocess.PIPE, text=True)
        print(done.stdout, end="")
        TRIED.extend(line.startswith("ok") for line in done.stdout.splitlines() if line[:3] in ("ok ", "BAD"))
        expect("the edges end well", done.returncode == 0)


def why_not(folder):
    """Why nothing is tried, if nothing is."""
    if not shutil.which(os.environ.get("CC", "cc")):
        return "no C compiler is found"
    try:
        with open(os.path.join(folder, "made-from"), encoding="ascii") as file:
            sources = file.read()
    except OSError:
        return f"{os.path.relpath(folder, TOP)} isn't there: scripts/library makes it"
    if sources != f"sources {made_from.sources('libolcheck')}\n":
        return f"{os.path.relpath(folder, TOP)} isn't of these sources: scripts/library makes it anew"
    return ""


def main(words):
    asked = asking.parser(__doc__)
    asked.add_argument("folder", nargs="?", default=os.path.join(TOP, "out", "library"), metavar="FOLDER")
    folder = asked.parse_args(words).folder
    reason = why_not(folder)
    if reason:
        print(f"the library for C isn't tried: {reason}")
    else:
        try_all(folder)
    return summing.told(summing.Sum(sum(TRIED), len(TRIED) - sum(TRIED)))
