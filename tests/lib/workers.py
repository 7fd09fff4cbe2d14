"""Runs ten small terms again and again with 2 to 64 workers: each run has to write what one worker writes.

    tests/run workers [--runs N] [--jobs N]

By default 10,000 runs are made, so each term is run about 16 times with each number of workers. The numbers are drawn by a generator
that begins the same each time; how the workers' steps interleave is the machine's. The last line is 'N passed, M failed'.
"""
import concurrent.futures
import os
import random
import subprocess
import sys

import asking
import progress
import summing
import which_ol

TERMS = [
    r"(\x. x x) (\y. y)",
    r"(\x. x) (\y. y)",
    r"let t = \f x. f (f x) in t t",
    r"(\x y. x) (\z. z) (\z. z z)",
    r"(\a. a a a) (\f x. f x)",
    r"(\x y z. x z (y z)) (\x y. x) (\x y. x) w",
    r"(\n. n (\p. p) n) (\f x. f (f x))",
    r"(\t. t t) (\f x. f (f (f x)))",
    r"let p = \a b f. f a b in p (\x. x) (\y. y) (\a b. b a)",
    r"(\t. (\s. s s) (t t)) (\f. \x. f (f x))",
]


def run(program, term, workers):
    """Returns the status and the text of a run."""
    try:
        ran = subprocess.run([program, "run", "--workers", str(workers), "-"], input=term.encode(), stdout=subprocess.PIPE,
                             stderr=subprocess.STDOUT, timeout=which_ol.MOST_SECONDS)
    except subprocess.TimeoutExpired:
        return None, which_ol.TOO_LONG.encode()
    return ran.returncode, ran.stdout


def main(words):
    asked = asking.parser(__doc__)
    asked.add_argument("--runs", type=asking.positive, default=10_000, metavar="N", help="how many runs (10,000)")
    asked.add_argument("--jobs", type=asking.positive, default=os.cpu_count(), metavar="N", help="how many side by side")
    asked = asked.parse_args(words)
    program = which_ol.found()
    wanted = [run(program, term, 1) for term in TERMS]
    for term, (status, text) in zip(TERMS, wanted):
        if status != 0:
            sys.exit(f"{term}: status {status} with one worker: {text[:80]!r}")
    drawn = random.Random(1)
    jobs = [(place % len(TERMS), drawn.randint(2, 64)) for place in range(asked.runs)]
    others = 0
    with concurrent.futures.ThreadPoolExecutor(asked.jobs) as pool:
        answers = pool.map(lambda job: run(program, TERMS[job[0]], job[1]), jobs)
        for (place, workers), answer in progress.shown(zip(jobs, answers), len(jobs)):
            if answer != wanted[place]:
                others += 1
                print(f"{TERMS[place]}: {workers} workers: status {answer[0]}, {answer[1][:80]!r}")
    return summing.told(summing.Sum(asked.runs - others, others))
