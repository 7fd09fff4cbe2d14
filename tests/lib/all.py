"""Runs the scripts of tests/ one after another, and tells how many of all that they tried passed.

    tests/all [--long]

By default the short ones are run, with the programs that tests/lib/which_ol.py finds; the longer ones, which are named at the end, with
--long too. tests/README.md says what each tries. The last line is 'N passed, M failed', over all.
"""
import os

import asking
import summing
from which_ol import TOP

RANDOM = ["counts", "journals", "explains", "sames", "objects"]
SHORT = ["scripts", "first-answer", "pages", "examples", "vectors/check", "bench", "library", "counts --terms 120",
         *(f"{it} --terms 60" for it in RANDOM[1:])]
LONG = ["hostile", "refused-memory", "workers", *RANDOM, "faults/many", "speed"]


def main(words):
    asked = asking.parser(__doc__)
    asked.add_argument("--long", action="store_true", help="run the longer ones too")
    is_long = asked.parse_args(words).long
    sums = []
    for name in SHORT + LONG * is_long:
        print(f"tests/run {name}", flush=True)
        sums.append(summing.ran([os.path.join(TOP, "tests", "run"), *name.split()]))
    if not is_long:
        print(f"Not run, without --long: {' '.join(LONG)}")
    return summing.told(summing.Sum(sum(it.passed for it in sums), sum(it.failed for it in sums)))
