"""The frame of the scripts that compare the programs with code of their own on random terms: the words, the terms, the calls, the sums.

A term is a tuple: ("name", text), a name that nothing binds; ("variable", k), bound by the k-th abstraction outwards,
counted from 0; ("abstraction", body); or ("application", function, argument).
"""
import contextlib
import os
import random
import subprocess
import sys
import tempfile

import asking
import faults_broken
import progress
import summing
import which_ol

READER = faults_broken.names_in("reader")
sys.setrecursionlimit(20_000)


def nameless(term, scope=()):
    """A term of tests/faults/reader with its variables counted."""
    if term[0] == "variable":
        return ("variable", scope.index(term[1])) if term[1] in scope else ("name", term[1])
    if term[0] == "abstraction":
        return ("abstraction", nameless(term[2], (term[1], *scope)))
    return ("application", *(nameless(part, scope) for part in term[1:]))


def read(text):
    return nameless(READER["Reader"](text).whole())


def text_of(term, depth=0):
    """A text of the term: the variable of the abstraction at depth d is named xd."""
    if term[0] == "name":
        return term[1]
    if term[0] == "variable":
        return f"x{depth - 1 - term[1]}"
    if term[0] == "abstraction":
        return f"(\\x{depth}. {text_of(term[1], depth + 1)})"
    return f"({text_of(term[1], depth)} {text_of(term[2], depth)})"


def drawn(chance, size, depth=0):
    """A random term of about this many constructors, under so many abstractions."""
    if size <= 1:
        is_bound = depth and chance.random() < 0.9
        return ("variable", chance.randrange(depth)) if is_bound else ("name", chance.choice("fgh"))
    if size == 2 or chance.random() < 0.4:
        return ("abstraction", drawn(chance, size - 1, depth + 1))
    first = chance.randint(1, size - 2)
    return ("application", drawn(chance, first, depth), drawn(chance, size - 1 - first, depth))


COMBINATORS = [read(text) for text in (
    r"\x. x", r"\x y. x", r"\x y z. x z (y z)", r"\x y z. x (y z)", r"\x y z. x z y", r"\x. x x", r"\f x. f (f x)",
    r"\f x. f (f (f x))", r"\a b s. s a b", r"\n f x. f (n f x)", r"\m n f x. m f (n f x)", r"\f. f a (f b)", "c")]


def combined(chance, leaves):
    """Random applications of so many combinators, in which more is shared than in a term of `drawn`."""
    if leaves == 1:
        return chance.choice(COMBINATORS)
    first = chance.randint(1, leaves - 1)
    return ("application", combined(chance, first), combined(chance, leaves - first))


def kind_of(chance, largest=12):
    """A way to draw a term, and the greatest size by it."""
    return chance.choice([(drawn, largest), (combined, 5)])


def written(chance, draw, size):
    """The text of a term that is drawn in that way."""
    return text_of(draw(chance, chance.randint(2, size)))


@contextlib.contextmanager
def in_file(text):
    """The name of a file that has this text."""
    with tempfile.TemporaryDirectory() as folder:
        name = os.path.join(folder, "term")
        with open(name, "w", encoding="utf-8") as file:
            file.write(text)
        yield name


def answer(program, words, given=""):
    """The status of a call, and what it writes on standard output: `ol-bench` says on standard error why it refuses, which isn't told."""
    try:
        done = subprocess.run([program, *words], input=given.encode(), stdout=subprocess.PIPE, stderr=subprocess.DEVNULL,
                              timeout=which_ol.MOST_SECONDS)
    except subprocess.TimeoutExpired:
        return None, which_ol.TOO_LONG
    return done.returncode, done.stdout.decode()


class Term:
    """A term in a file. `ol` and `bench` call the programs: they take the words, and the text of standard input, and give the status and
    what was written. Numbers among the words become text."""

    def __init__(self, text, file, programs):
        self.text, self.file, self.programs = text, file, programs

    def ol(self, *words, given=""):
        return answer(self.programs[0], list(map(str, words)), given)

    def bench(self, *words, given=""):
        return answer(self.programs[1], list(map(str, words)), given)

    def view(self):
        return self.ol("view", self.file)[1]

    def checked(self, journal):
        """What `ol check` says of a journal."""
        return self.ol("check", self.file, "-", given=journal)[1]

    def explained(self, journal):
        return self.bench("explain", self.file, "-", given=journal)[1]


def draw_small(chance):
    return written(chance, *kind_of(chance))


def try_terms(text, words, faults, draw=draw_small, told_last=lambda: None, count=1000):
    """The script whose head has this text, and these words. `draw` gets the random numbers and gives the text of a term; `faults` gets the
    Term and the random numbers, and gives a line for each thing that is wrong, or None if the term is none to try. `told_last` prints
    what is told above the last line."""
    asked = asking.parser(text)
    asked.add_argument("--terms", type=asking.positive, default=count, metavar="N", help=f"how many terms ({count})")
    asked.add_argument("--seed", type=int, default=1, metavar="S", help="where the drawing begins (1)")
    asked = asked.parse_args(words)
    chance, programs = random.Random(asked.seed), (which_ol.found(), which_ol.found("ol-bench"))

    def told():
        count = 0
        while count < asked.terms:
            term = draw(chance)
            with in_file(term) as file:
                found = faults(Term(term, file, programs), chance)
                lines = None if found is None else [f"{term}: {line}" for line in found]
            if lines is not None:
                count += 1
                print("".join(line + "\n" for line in lines), end="", flush=True)
                yield bool(lines)

    failed = sum(progress.shown(told(), asked.terms))
    told_last()
    return summing.told(summing.Sum(asked.terms - failed, failed))
