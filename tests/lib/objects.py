"""Reads the objects that `ol-bench check`, `explain` and `counts` write with `--json`, and compares with the plain answers.

    tests/run objects [--terms N] [--seed S]

Of each term some columns of `counts` are asked, with bounds that some ways pass. Then a journal of the term is taken whole, cut, or with a
byte changed. Each call is made twice, with `--json` and without. The statuses have to be the same. The object has to be one line that
Python's json reads, with just the members that the plain answer has (docs/runtimes/FORMATS.md). The last line is 'N passed, M failed'.
"""
import json
import re

import counts
import random_terms

FIRST_LINE = re.compile(r"(complete|run|not a run at line|bad text at line) ?(\d*)")
SHOWN = ["--no-run", "--no-demand", "--no-leftmost", "--applicative", "--need"]


def of_lines(text, with_why):
    """The object for the plain answer of `check`, or of `explain`."""
    first, *below = text.splitlines()
    words, number = FIRST_LINE.fullmatch(first).groups()
    found = {"verdict": words.removesuffix(" at line")}
    if number:
        found["entries" if words == "run" else "line"] = int(number)
    return {**found, "why": below} if with_why else found


def of_table(text):
    """The object for the plain answer of `counts`."""
    titles, *rows = map(str.split, text.splitlines())
    columns = {title: {} for title in titles}
    for name, *cells in rows:
        for title, count in zip(titles, map(counts.read, cells)):
            if count:
                columns[title].update({name: count.number, "ended": count.ended})
    return {"columns": {title: numbers or None for title, numbers in columns.items()}}


def fault(term, words, given, read):
    """What is wrong with the object of a call, which is that of its plain answer, or None."""
    status, plain = term.bench(*words, given=given)
    object_status, text = term.bench(words[0], "--json", *words[1:], given=given)
    if status != object_status:
        return f"{words}: status {object_status} with --json, and {status} without"
    if text.count("\n") != 1 or not text.isascii() or list(json.loads(text).items()) != list(read(plain).items()):
        return f"{words}: {text!r} for {plain!r}"
    return None


def spoilt(chance, text):
    """The text whole, cut, or with one byte changed."""
    at = chance.randrange(len(text))
    return chance.choice([text, text[:text.rfind("\n", 0, at) + 1], text[:at] + chance.choice("0123 .x\n") + text[at + 1:]])


def faults(term, chance):
    shown = [word for word in SHOWN if chance.randint(0, 1)]
    bounds = ["--fuel", chance.choice([0, 10, 1000]), "--most", chance.choice([1, 100]), "--moves", chance.choice([3, 1000])]
    text = spoilt(chance, term.bench("journal", "--order", "least", "--fuel", 100, term.file)[1])
    told = [fault(term, ["counts", *shown, *bounds, term.file], "", of_table)]
    for command in ("check", "explain"):
        told.append(fault(term, [command, term.file, "-"], text, lambda plain: of_lines(plain, command == "explain")))
    return filter(None, told)


def main(words):
    return random_terms.try_terms(__doc__, words, faults)
