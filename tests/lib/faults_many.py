"""Tries the runtime tests/faults/runtime, without a fault and with each, on terms whose runs have at most 500 interactions.

    tests/run faults/many [--terms N] [--seed S]

Without a fault the journal has to be `complete` by `ol-bench explain`, the last net that of `ol net` by `ol-bench same`, and the net after
some line of the journal that of `ol-bench after`. A line for each fault says on how many terms it is found by `explain`, on how many more by
`same`, and on how many the runtime itself falls. The last line is 'N passed, M failed', and counts the runs without a fault.
"""
import collections

import faults_broken
import netfiles
import random_terms

FAULTS = {"none": [], **{fault: lines for fault, (script, lines) in faults_broken.FAULTS.items() if script == "runtime"}}
RUNTIMES = {fault: faults_broken.names_in("runtime", lines)["ran"] for fault, lines in FAULTS.items()}


def finds(term, view, last, ran, seed):
    """What finds the fault, or None. The journal is looked at first, also if no last net can be made."""
    try:
        whole = ran(view, seed=seed)
        if term.explained(whole.journal()) != "complete\n":
            return "explain"
        return None if term.bench("same", last, "-", given=netfiles.write(whole.net())) == (0, "same\n") else "same"
    except (KeyError, TypeError):
        return "falls"


def main(words):
    found = collections.Counter()

    def faults(term, chance):
        view, seed, ran = term.view(), chance.randint(1, 1000), RUNTIMES["none"]
        status, last = term.ol("net", "--fuel", 500, "-", given=term.ol("net", "--from-term", term.file)[1])
        if status:
            return None
        with random_terms.in_file(last[last.find("ol net 1"):]) as file:
            told = {fault: finds(term, view, file, ran, seed) for fault, ran in RUNTIMES.items()}
        found.update(told.items())
        journal = ran(view, seed=seed).journal()
        line = chance.randint(1, journal.count("\n"))
        after = term.bench("after", line, term.file, "-", given=journal)
        bad = [f"`{told['none']}` finds a fault"] * (told["none"] is not None)
        bad += [f"the net after line {line} is another"] * (after != (0, ran(view, line - 1, seed).view()))
        return [f"seed {seed}: {it}" for it in bad]

    def told_last():
        for fault in FAULTS:
            print(fault, *(f"{by} {found[fault, by]}" for by in ("explain", "same", "falls")))

    return random_terms.try_terms(__doc__, words, faults, lambda chance: random_terms.written(chance, *random_terms.kind_of(chance, 25)), told_last, 300)
