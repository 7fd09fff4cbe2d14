"""How far a script is, on standard error, each ten seconds: nothing where it takes less, or where the variable below is set, as it is
for the commands of a page, whose whole output is compared."""
import concurrent.futures
import os
import sys
import time

EVERY = 10  # seconds
OFF = "NO_PROGRESS"


def shown(things, count):
    """The things one after another. Where they take long, a line tells how many of them were handed out and done."""
    begun = told = time.monotonic()
    for done, thing in enumerate(things):
        now = time.monotonic()
        if now - told >= EVERY and OFF not in os.environ:
            told = now
            print(f"{sys.argv[0]}: {done} of {count}, {now - begun:.0f} s", file=sys.stderr, flush=True)
        yield thing


def in_pool(call, cases):
    """What the call gives for each case, by as many threads as there are processors."""
    with concurrent.futures.ThreadPoolExecutor(os.cpu_count() or 2) as pool:
        return list(shown(pool.map(call, cases), len(cases)))
