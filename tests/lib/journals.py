"""Compares `ol-bench journal` and `ol-bench after` with a replay of the same pairs by the plain runtime tests/faults/runtime.

    tests/run journals [--terms N] [--seed S]

Each term has journals: that of `ol trace`, and one of each order of `ol-bench journal`. `ol-bench after` has to show the net after some line
of each, and nothing past its last line, or past a line whose names are turned. Each journal has to be accepted by `ol check`, and complete
where the order ended. The order `rounds` is played here: the runtime looks for the pairs of the net, rewrites each of them once, by
increasing names, and looks for pairs again. Text and status have to be the same, also where the fuel ends within a round, and the wave of
each line has to be the number of its round. The last line is 'N passed, M failed'; above it: how many rounds and pairs there were.
"""
import collections

import netfiles
import plain
import random_terms

ORDERS = {"least": True, "demand": False, "rounds": True}
COUNTS = collections.Counter()


def journals(term):
    """The journals of a term: for each order the status and the text, and whether the order is to come to an end."""
    yield "trace", term.ol("trace", "--fuel", 300, term.file), False
    for order, whole in ORDERS.items():
        yield order, term.bench("journal", "--order", order, "--fuel", 300, term.file), whole


def with_turned_names(lines, at):
    """The journal in which the two names of this line are in the other order."""
    words = lines[at].split()
    return "\n".join([*lines[:at], " ".join([*words[:2], *words[:1:-1]]), *lines[at + 1:]]) + "\n"


def pairs_of(runtime):
    """The active pairs, in the order of their smaller names."""
    pairs = [pair for pair in netfiles.facing(runtime.net()) if runtime.rule(*pair) or runtime.rule(*pair[::-1])]
    return sorted(pairs, key=lambda pair: min(runtime.names[n] for n in pair))


def played(view, fuel):
    """The rounds from a net: the lines of each, and whether no pair is left."""
    runtime, rounds = plain.begun(view), []
    while pairs := pairs_of(runtime):
        rounds.append([plain.play(runtime, *pair) for pair in pairs[:fuel - runtime.tickets]])
        if len(rounds[-1]) < len(pairs):
            return rounds, False
    return rounds, True


def round_faults(term, view, fuel):
    got = term.bench("journal", "--order", "rounds", "--fuel", fuel, term.file)
    rounds, ended = played(view, fuel)
    COUNTS.update(pairs=sum(map(len, rounds)), rounds=len(rounds), spent=int(not ended))
    wanted = "ol trace 2\n" + "".join(line + "\n" for lines in rounds for line in lines)
    if got != (0 if ended else 1, wanted):
        yield f"{got!r}, not {wanted!r}"
    yield from (f"`{line}` in round {k}" for k, lines in enumerate(rounds, 1) for line in lines if line.split()[1] != str(k))


def faults(term, chance):
    view = term.view()
    for order, (status, text), whole in journals(term):
        def after(line, journal):
            return term.bench("after", line, term.file, "-", given=journal)

        found = term.checked(text)
        if not found.startswith(("complete", "run")) or whole and (found == "complete\n") != (status == 0):
            yield f"{order}: {found.strip()} with status {status}"
        lines = text.splitlines()
        last = chance.randint(1, len(lines))
        if after(last, text) != (0, plain.replayed(view, lines[1:last]).view()):
            yield f"{order}: the net after line {last} is another"
        if after(len(lines) + 1, text) != (1, ""):
            yield f"{order}: a net past the last line"
        if len(lines) > 1:
            at = chance.randint(1, len(lines) - 1)
            if after(at + 1, with_turned_names(lines, at)) != (1, ""):
                yield f"{order}: a net past a bad line"
    yield from round_faults(term, view, chance.choice([chance.randint(0, 30), 300]))


def main(words):
    def told_last():
        print("{rounds} rounds of {pairs} pairs, {spent} times the fuel was spent".format_map(COUNTS))

    return random_terms.try_terms(__doc__, words, faults, told_last=told_last)
