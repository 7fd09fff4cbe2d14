"""Compares the `beta` of `ol demand`, and the columns of `ol-bench counts` that have beta steps of the term, with own counts.

    tests/run counts [--terms N] [--seed S]

**Families.** Redexes of one family are those that an optimal evaluator contracts at once (J.-J. Lévy, Réductions correctes et optimales dans
le lambda-calcul, 1978; A. Asperti and S. Guerrini, The Optimal Implementation of Functional Programming Languages, 1998). They are told by
labels: each subterm has one, in the first term atoms that differ, later two in a row, one overlined, one underlined. A beta step on an
application labelled w, of an abstraction \\x. M labelled d, to N leaves M[x := N], where M gets w and d overlined before its own label, and
for each x labelled v, N gets v and d underlined before its own label. The label d is the degree of the step. Two steps are of one family
exactly where their degrees are equal. `ol demand` has to count the families of the leftmost reduction, by both translations.

**Orders.** Leftmost and applicative order are counted by substitution: applicative order reduces the function first, then the argument, then
the redex of both, then what it gives. Call by need is counted by a small machine of closures, terms with environments. It reduces a closure
to weak head normal form: of an application the function first, while the argument is put by as a closure; an abstraction takes the next
argument, one beta step; a variable goes on with its closure. Then it goes into the body of the abstraction, or into the arguments from the
left. By need, what comes out of a closure is written over it. If nothing is written over, the machine has to count the leftmost steps.

The last line is 'N passed, M failed'; above it: how many steps and families there were.
"""
import collections
import typing

import random_terms

# How many steps are counted by substitution, how large a term and a label may become, and how far the machine goes.
MOST_STEPS, MOST_SIZE, MOST_LETTERS, MOST_PLACES = 150, 2_000, 20_000, 1_000
COLUMNS = ["counts", "--no-run", "--no-demand", "--need", "--most", MOST_STEPS, "--moves", 100_000]


class TooMany(Exception):
    """More steps than are followed: the program's column is cut."""


class TooLarge(Exception):
    """A term, a label or a normal form grew past what is followed here."""


class Count(typing.NamedTuple):
    """A number, and whether the count has ended. If it was cut, there may be more."""
    number: int
    ended: bool = True

    def __str__(self):
        return str(self.number) + ("" if self.ended else "+")


def read(cell):
    """The count that a cell of the table has; None for a hyphen."""
    return None if cell == "-" else Count(int(cell.removesuffix("+")), not cell.endswith("+"))


class Letters:
    """The letters of labels. A label is a tuple of letters: an atom, a label overlined, or a label underlined."""

    def __init__(self):
        self.known = {}

    def of(self, sign, label):
        """One number for each sign and label, so that labels are equal exactly where their tuples are."""
        return (self.known.setdefault((sign, label), len(self.known)),)


class NoLetters:
    """Where no label is asked for, each is empty."""

    known = ()

    def of(self, _sign, _label):
        return ()


def labelled(term, letters):
    """The term with a label, an atom of its own, as the second part of each subterm."""
    parts = (part if isinstance(part, (str, int)) else labelled(part, letters) for part in term[1:])
    return (term[0], letters.of("atom", len(letters.known)), *parts)


def prefixed(label, term):
    """The term with this label before its own."""
    if len(label) + len(term[1]) > MOST_LETTERS:
        raise TooLarge
    return (term[0], label + term[1], *term[2:])


def inside(term, change, depth):
    """The term with each of its parts changed, given the abstractions around the part."""
    depth += term[0] == "abstraction"
    return (*term[:2], *(change(part, depth) if isinstance(part, tuple) else part for part in term[2:]))


def lifted(term, by, depth=0):
    """The term under so many more abstractions: each variable that is bound outside of it is counted anew."""
    if term[0] == "variable":
        return (*term[:2], term[2] + by) if term[2] >= depth else term
    return inside(term, lambda part, depth: lifted(part, by, depth), depth)


def substituted(body, argument, underlined, depth=0):
    """The body with the argument for its outermost variable."""
    if body[0] == "variable":
        if body[2] == depth:
            return prefixed(body[1] + underlined, lifted(argument, depth))
        return (*body[:2], body[2] - 1) if body[2] > depth else body
    return inside(body, lambda part, depth: substituted(part, argument, underlined, depth), depth)


def size(term):
    return 1 + sum(size(part) for part in term[2:] if isinstance(part, tuple))


def contracted(term, letters):
    """What a step on this redex leaves."""
    _, label, (_, degree, body), argument = term
    return prefixed(label + letters.of("over", degree), substituted(body, argument, letters.of("under", degree)))


def stepped(term, letters):
    """The term after one leftmost step, and the degree of the step; None where there is none."""
    if term[0] == "application" and term[2][0] == "abstraction":
        return contracted(term, letters), term[2][1]
    for place in range(2, len(term)):
        after = stepped(term[place], letters) if isinstance(term[place], tuple) else None
        if after:
            return (*term[:place], after[0], *term[place + 1:]), after[1]
    return None


def leftmost(term):
    """How many leftmost steps there are, and of how many families."""
    letters, degrees = Letters(), []
    term = labelled(term, letters)
    while after := stepped(term, letters):
        term = after[0]
        degrees.append(after[1])
        if len(degrees) > MOST_STEPS:
            raise TooMany
        if size(term) > MOST_SIZE:
            raise TooLarge
    return len(degrees), len(set(degrees))


def applicative(term):
    """How many steps there are in applicative order."""
    letters, steps = NoLetters(), 0

    def normal(term):
        nonlocal steps
        while term[0] == "application":
            term = (*term[:2], normal(term[2]), normal(term[3]))
            if term[2][0] != "abstraction":
                return term
            steps += 1
            if steps > MOST_STEPS:
                raise TooMany
            term = contracted(term, letters)
            if size(term) > MOST_SIZE:
                raise TooLarge
        return (*term[:2], normal(term[2])) if term[0] == "abstraction" else term

    normal(labelled(term, letters))
    return steps


class Closure:
    """A term with its environment, a chain (closure, rest); or, by need, what came out of it."""

    def __init__(self, term, environment, value=None):
        self.term, self.environment, self.value = term, environment, value


def looked_up(number, environment):
    """The closure that is bound to a variable."""
    for _ in range(number):
        environment = environment[1]
    return environment[0]


class Machine:
    def __init__(self, by_need, most):
        self.by_need, self.most, self.steps = by_need, most, 0

    def weak(self, closure):
        """The weak head normal form: (abstraction, its environment, no arguments), or (name, None, arguments)."""
        term, environment = ("variable", 0), (closure, None)
        stack = []  # arguments, and closures to write over
        while True:
            if term[0] == "application":
                is_variable = term[2][0] == "variable"  # whose closure is put by itself, so that none leads on to another
                stack.append(("argument", looked_up(term[2][1], environment) if is_variable else Closure(term[2], environment)))
                term = term[1]
                continue
            if term[0] == "variable":
                closure = looked_up(term[1], environment)
                if closure.value is None:
                    if self.by_need:
                        stack.append(("write", closure))
                    term, environment = closure.term, closure.environment
                    continue
                term, environment, arguments = closure.value
            else:
                arguments = ()
            while stack:  # term is an abstraction without arguments, or a name with these
                kind, closure = stack.pop()
                if kind == "write":
                    closure.value = term, environment, arguments
                elif term[0] == "name":
                    arguments += (closure,)
                else:
                    self.steps += 1
                    if self.steps > self.most:
                        raise TooLarge
                    term, environment = term[1], (closure, environment)
                    break
            else:
                return term, environment, arguments

    def normal(self, term):
        """Goes through the whole normal form, and returns how many steps that took."""
        left, places = [Closure(term, None)], 0
        while left:
            places += 1
            if places > self.most:
                raise TooLarge
            term, environment, arguments = self.weak(left.pop())
            if term[0] == "abstraction":
                fresh = Closure(None, None, (("name", "new"), None, ()))
                left.append(Closure(term[1], (fresh, environment)))
            left += arguments[::-1]
        return self.steps


def counted(term):
    """What the program's columns have to be. A column isn't there where this script gives up, and families only where the leftmost
    reduction ends."""
    found = {}
    for titles, count in ((["leftmost", "families"], leftmost), (["applicative"], lambda term: [applicative(term)]),
                          (["need"], lambda term: [Machine(True, MOST_PLACES).normal(term)])):
        try:
            found.update(zip(titles, map(Count, count(term))))
        except TooMany:
            found[titles[0]] = Count(MOST_STEPS, False)
        except TooLarge:
            pass
    return found


def columns(table):
    """The count of beta steps in each column, None for a hyphen."""
    titles, (beta, *cells) = (line.split() for line in table.splitlines()[:2])
    return dict(zip(titles, map(read, cells))) if beta == "beta" else {}


def draw(chance):
    return random_terms.written(chance, *chance.choice([(random_terms.drawn, 60), (random_terms.combined, 9)]))


def main(words):
    sums = collections.Counter()

    def faults(term, chance):
        tree = random_terms.read(term.text)
        own = counted(tree)
        if "leftmost" not in own:
            return None
        told = []
        if own["leftmost"].ended:
            steps, families = own["leftmost"].number, own["families"].number
            sums.update(terms=1, steps=steps, families=families, fewer=families < steps)
            if Machine(False, MOST_SIZE).normal(tree) != steps:
                told.append("the machine and substitution count different leftmost steps")
            for translation in (1, 2):
                status, text = term.ol("demand", "--translation", translation, "--heads", 100_000, term.file)
                normal_form, *counts = text.split("\n")
                if (status, counts[:1], "..." in normal_form) != (0, [f"beta {families}"], False):
                    told.append(f"translation {translation}: {counts[:1]} with status {status}, and {families} families")
        shown = [f"--{title}" for title in ("applicative", "families") if title in own]
        status, table = term.bench(*COLUMNS, *shown, term.file)
        found = columns(table)
        told += [f"{title}: {found.get(title)} in the table, and {count} by this script" for title, count in own.items()
                 if found.get(title) != count]
        if set(found) != {*own, "need"} or status != (0 if all(count and count.ended for count in found.values()) else 1):
            told.append(f"columns {' '.join(found)} with status {status}")
        return told

    def told_last():
        print("{terms} terms whose leftmost reduction is short: {steps} steps of {families} families; {fewer} have fewer".format_map(sums))

    return random_terms.try_terms(__doc__, words, faults, draw, told_last, 5_200)
