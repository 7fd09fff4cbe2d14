"""How long the program takes, and how much memory: the tables of docs/runtimes/PERFORMANCE.md, of `run` and of `demand`.

    tests/run speed [--times N] [--of run|demand] [--processor]

Each row is one whole command. The program is run N times (7), with large pages as the script `ol` runs it, and the least of its seconds by
the clock is printed with its peak of memory. Rows of `demand` also have how many interactions the answer counts. Each run of a row has to
write the same bytes and end with the same status. With --processor the seconds are those of the processors, user and system: worth more where
the machine does other work too. The last line is 'N passed, M failed', of the rows.
"""
import datetime
import os
import resource
import subprocess
import tempfile
import time

import asking
import summing
import which_ol

EXAMPLES = os.path.join(which_ol.TOP, "examples")
TWO = r"(\f x. f (f x))"
FORMS = {
    "14": "the generator's 14, translation 1",
    "omega": r"2,000,000 steps of `(\x. x x) (\x. x x)`",
    "id": r"`\x. x`",
}
# What a row is called, the term, and the words of its command.
RUNS = [
    (f"{FORMS['14']}, 1 worker", "14", "--translation 1 --fuel 400000 --workers 1"),
    (f"{FORMS['14']}, 2 workers", "14", "--translation 1 --fuel 400000 --workers 2"),
    (f"{FORMS['14']}, 4 workers", "14", "--translation 1 --fuel 400000 --workers 4"),
    (f"{FORMS['14']}, `--fuel 0`", "14", "--translation 1 --fuel 0 --workers 1"),
    (f"{FORMS['omega']}, 1 worker", "omega", "--fuel 2000000 --workers 1"),
    (f"{FORMS['omega']}, 4 workers", "omega", "--fuel 2000000 --workers 4"),
    (f"{FORMS['id']}, all settings as they are", "id", ""),
]
MUCH = "--fuel 8000000 --heads 100000"
DEMANDS = [
    ("`tower.lam`, two to the two to the two to the two", "tower", MUCH),
    *((f"the numeral {k}, of two and the identity", f"power {k}", MUCH) for k in (12, 14, 16, 18)),
    *((f"the numeral {k}, of two", f"numeral {k}", MUCH) for k in (10, 12, 14)),
    *((f"the generator's {k}", str(k), MUCH) for k in (6, 8, 10, 12, 14)),
    *((f"the factorial of {k} by a fixed point", f"factorial {k}", MUCH) for k in (4, 5, 6, 7)),
    (r"8,000,000 steps of `(\x. x x) (\x. x x)`", "omega", MUCH),
]


def doubled(times, text):
    """The term of this text applied to itself, so often."""
    for _ in range(times):
        text = f"({text} {text})"
    return text


def nested(depth, inner="x x", head="x"):
    """A term with so many nested arguments, the last of which is the inner one."""
    return f"{head} (" * depth + inner + ")" * depth


def numeral(number):
    """The Church numeral, in brackets."""
    return rf"(\f x. {nested(number, 'x', 'f')})"


def term(name):
    """The text of the term that a row calls so."""
    kind, _, number = name.partition(" ")
    if kind.isdigit():
        return doubled(int(kind), r"((\x. x x) (\y. y))") + "\n"  # `gen` itself takes at most 10
    if kind == "power":
        return numeral(int(number)) + " " + TWO + r" (\y. y)" + "\n"
    if kind == "numeral":
        return numeral(int(number)) + " " + TWO + "\n"
    if kind == "omega":
        return r"(\x. x x) (\x. x x)" + "\n"
    if kind == "id":
        return r"\x. x" + "\n"
    example = "fixed_point_factorial.lam" if kind == "factorial" else "tower.lam"
    with open(os.path.join(EXAMPLES, example), encoding="ascii") as file:
        text = file.read()
    if kind == "factorial":
        return text.replace(r"factorial (\f x. f (f (f x)))", "factorial " + numeral(int(number)))
    return text


def interactions(answer):
    """How many interactions an answer of `demand` counts: its eight counts, or all of its fuel."""
    lines = answer.decode().split("\n")
    if lines[0].startswith("fuel "):
        return int(lines[0].split()[1])
    return sum(int(line.split()[1]) for line in lines[1:9])


def measured(program, words, environment, of_processors):
    """The seconds, the peak of memory in MB (2^20 bytes), and what was answered: the status and the text."""
    with tempfile.TemporaryFile() as out:
        begun = time.perf_counter()
        child = subprocess.Popen([program, *words], stdin=subprocess.DEVNULL, stdout=out, stderr=subprocess.PIPE, env=environment)
        said = child.stderr.read()
        _, status, usage = os.wait4(child.pid, 0)
        seconds = time.perf_counter() - begun
        child.returncode = os.waitstatus_to_exitcode(status)
        which_ol.pass_on(said)
        out.seek(0)
        if of_processors:
            seconds = usage.ru_utime + usage.ru_stime
        return seconds, usage.ru_maxrss / 1024, (child.returncode, out.read())


def megabytes(peak):
    """A peak of memory as text. One that isn't above this script's own can't be told: a child begins with it."""
    least = resource.getrusage(resource.RUSAGE_SELF).ru_maxrss / 1024
    return f"{peak:.0f}" if peak > least + 1 else f"at most {least + 1:.0f}"


def print_table(verb, rows, chosen, program, folder):
    """Prints the table of these rows. The names of those in which answers differ are handed back."""
    tuned = {"GLIBC_TUNABLES": "glibc.malloc.hugetlb=1", **os.environ}
    counts = verb == "demand"
    print(f"| `{verb}` |{' interactions |' * counts} seconds | memory, MB |\n|---|{'---|' * counts}---|---|")
    differ = []
    for what, name, options in rows:
        path = os.path.join(folder, name.replace(" ", "_") + ".lam")
        with open(path, "w", encoding="ascii") as file:
            file.write(term(name))
        runs = [measured(program, [verb, *options.split(), path], tuned, chosen.processor) for _ in range(chosen.times)]
        row = f"| {what} |" + (f" {interactions(runs[0][2][1]):,} |" if counts else "")
        print(f"{row} {min(run[0] for run in runs):.3f} | {megabytes(max(run[1] for run in runs))} |", flush=True)
        if len({run[2] for run in runs}) > 1:
            differ.append(what)
    print()
    return differ


def words_of(words):
    asked = asking.parser(__doc__)
    asked.add_argument("--times", type=asking.positive, default=7, metavar="N", help="how often each command is run (7)")
    asked.add_argument("--of", choices=("run", "demand"), help="the table of this command alone")
    asked.add_argument("--processor", action="store_true", help="seconds of the processors, not by the clock")
    return asked.parse_args(words)


def main(words):
    chosen = words_of(words)
    program = which_ol.found()
    load = os.getloadavg()[0]
    kind = ", seconds of the processors" if chosen.processor else ""
    print(f"{datetime.date.today()}, {os.cpu_count()} processors, load {load:.1f} when it began, the least of {chosen.times}{kind}\n")
    differ, count = [], 0
    with tempfile.TemporaryDirectory() as folder:
        for verb, rows in (("run", RUNS), ("demand", DEMANDS)):
            if chosen.of in (None, verb):
                differ += print_table(verb, rows, chosen, program, folder)
                count += len(rows)
    for what in differ:
        print(f"answers differ: {what}")
    return summing.told(summing.Sum(count - len(differ), len(differ)))
