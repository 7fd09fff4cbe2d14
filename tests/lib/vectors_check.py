"""Compares `ol`, or another runtime, with the recorded terms and nets of tests/vectors.

    tests/run vectors/check [--write]
    tests/run vectors/check [--runtime COMMAND] [--terms COMMAND] [--start COMMAND] [--journals COMMAND] [--translation T] [--every N]
    tests/run vectors/check --show NAME

Without a COMMAND each recorded answer has to be what `ol` prints today, each recorded trace and each of today complete by `ol check`, and
each last net the recorded one up to the numbers of nodes. If both translations print a term, it has to be the same. A term that is refused
by its syntax is tried once, since the parser comes before the translation. --write puts the answers of today into the files. --show writes
the net of nets.txt with that name.

A COMMAND is run by the shell for each case, with the case on standard input, for at most a minute; with --every N for each Nth case.
tests/vectors/README.md says what it reads and writes: --runtime a net and its last net, --terms a term and what `ol run -` prints, --start a
term and its net, --journals a net and a journal, which `ol check` looks at. The last line is 'N passed, M failed'.
"""
import collections
import hashlib
import itertools
import os
import sys

import asking
import netfiles
import progress
import random_terms
import runtimes
import summing
import which_ol

SYNTAX = 2
LISTS = ("random-1.txt", "random-2.txt", "broken-3.txt")
# The sections of a term that have to be what `ol` prints today, and the words of its command.
TODAY = {"start": ["view"], "run": ["run", "--fuel", "200"], "end": ["view", "--after", "2000000"], "walk": ["walk"]}


def records(translation):
    return netfiles.sections(f"vectors-{translation}.txt", "term")


def term_of(record):
    return record["term"][1].rstrip("\n")


def lines_of(name):
    with open(os.path.join(netfiles.HERE, name), encoding="utf-8") as file:
        return file.read().splitlines()


def write(name, text):
    with open(os.path.join(netfiles.HERE, name), "w", encoding="utf-8") as file:
        file.write(text)


def nets():
    """Each recorded net, as its name, its text, its last net with the counts, and how often each rule occurs in each wave, or None."""
    for translation in ("1", "2"):
        for record in records(translation):
            lines = record["run"][1].splitlines(True)[1:]
            last = netfiles.read(record["end"][1])._replace(counts="".join(lines).splitlines())
            waves = counted(record["trace"][1].splitlines()[1:], 2)
            yield f"{term_of(record)}, translation {translation}", netfiles.write(netfiles.read(record["start"][1])), last, waves
    for record in netfiles.sections("nets.txt", "shows"):
        yield record["shows"][1].rstrip(), record["net"][1], netfiles.read(record["last"][1]), None


def counted(lines, words):
    """How often each beginning of so many words occurs in the lines."""
    return collections.Counter(" ".join(line.split()[:words]) for line in lines)


def difference(text, last, waves):
    """Where what a runtime wrote differs from what is recorded, or None."""
    lines = text.splitlines()
    if lines[:1] == ["ol trace 2"]:
        end = next((k for k, line in enumerate(lines) if k and len(line.split()) != 4), len(lines))
        recorded = collections.Counter({name: int(count) for name, count in map(str.split, last.counts[:8])})
        for words, wanted in ((1, recorded), (2, waves or counted(lines[1:end], 2))):
            told = counted(lines[1:end], words)
            for key in sorted(told | wanted):
                if told[key] != wanted[key]:
                    return f"lines `{key}` of the trace: {told[key]} and {wanted[key]}"
        if end == len(lines):
            return None
        text = "".join(line + "\n" for line in lines[end:])
    return netfiles.difference(netfiles.read(text), last)


def net_fault(command, case):
    """What is wrong with the last net that the command makes of a net, or None."""
    named, given, last, waves = case
    return fault_of(named, lambda: difference(runtimes.ended(command, given), last, waves))


def start_fault(command, record):
    """What is wrong with the net that the command makes of a term, or None."""
    start = netfiles.read(record["start"][1])
    return fault_of(term_of(record), lambda: netfiles.difference(netfiles.read(runtimes.ended(command, term_of(record))), start))


def fault_of(named, difference_of):
    try:
        apart = difference_of()
    except ValueError as fault:
        return f"{named}: {fault}"
    return f"{named}: different at {apart}" if apart else None


def journal_fault(program, command, case):
    """What is wrong with the journal that the command writes of a term's net, by `ol check`, or None. Where the command doesn't end within
    a minute, what it wrote until then is given to `ol check`."""
    translation, record = case
    status, journal = runtimes.ran(command, record["start"][1])
    with random_terms.in_file(term_of(record)) as file:
        said = which_ol.answer(program, ["check", "--translation", translation, file, "-"], journal)[1].rstrip("\n")
    said = f"{runtimes.NO_END}: {said}" if status is None else said
    return None if said == "complete" else f"{term_of(record)}, translation {translation}: {said}"


def inputs():
    """Each term of the lists, with its place."""
    for name in LISTS:
        for k, term in enumerate(lines_of(name)):
            yield f"{name}:{k + 1}", term


def in_short(status, text):
    """The status, a digest of the whole text, and its first line where that is short."""
    first = text.split("\n")[0]
    return f"{status} {hashlib.sha256(text.encode()).hexdigest()[:16]} {first if len(first) <= 40 else '-'}"


def recorded(translation):
    """The recorded answers in short, by the places of the terms. The second file has only those that differ from the first."""
    found = {}
    for name in ("answers-1.txt", "answers-2.txt")[:int(translation)]:
        found.update(line.split(" ", 1) for line in lines_of(name))
    return found


def recorded_runs(translation):
    """Each term whose run is recorded, except those that the fuel ends: its name, its text, the answer in short, and its whole text, where
    that is recorded, or an empty one."""
    for record in records(translation):
        yield term_of(record), term_of(record), in_short(*record["run"]), record["run"][1]
    answers = recorded(translation)
    for place, term in inputs():
        if not answers[place].startswith("3 "):
            yield f"{place}: {term}", term, answers[place], ""


def run_fault(command, case):
    """What is wrong with the text and the status that the command has of a term, or None."""
    named, term, wanted, whole = case
    status, text = runtimes.ran(command, term)
    told = runtimes.NO_END if status is None else in_short(status, text)
    if told == wanted:
        return None
    lines = itertools.zip_longest(text.splitlines(), whole.splitlines(), fillvalue="no line")
    apart = [(one, other) for one, other in lines if one != other] if status == 0 and whole else []
    return "{}: different at `{}` and `{}`".format(named, *(apart or [(told, wanted)])[0])


def today(program, translation, words, term):
    return which_ol.answer(program, [words[0], "--translation", translation, *words[1:], "-"], term)


def record_faults(program, case):
    """What isn't as it is recorded of a term."""
    translation, record = case
    term = term_of(record)
    for name, words in TODAY.items():
        if today(program, translation, words, term) != record[name]:
            yield f"{term}: {name} {translation}"
    with random_terms.in_file(term) as file:
        for text in (record["trace"][1], today(program, translation, ["trace"], term)[1]):
            if which_ol.answer(program, ["check", "--translation", translation, file, "-"], text) != (0, "complete\n"):
                yield f"{term}: trace {translation}"


def answers_of(program, term):
    """The answers to a term by both translations: the second is None where the first refuses the syntax."""
    first = today(program, "1", ["run", "--fuel", "2000"], term)
    return first, None if first[0] == SYNTAX else today(program, "2", ["run", "--fuel", "2000"], term)


def try_lists(program, has_to_write):
    """What is wrong with each answer to the terms of the lists, or None."""
    cases = list(inputs())
    found = progress.in_pool(lambda case: answers_of(program, case[1]), cases)
    if has_to_write:
        rows = [(f"{place} {in_short(*one)}\n", f"{place} {in_short(*(other or one))}\n") for (place, _), (one, other) in zip(cases, found)]
        write("answers-1.txt", "".join(one for one, _ in rows))
        write("answers-2.txt", "".join(other for one, other in rows if one != other))
    wanted = {translation: recorded(translation) for translation in ("1", "2")}
    for (place, _), (one, other) in zip(cases, found):
        for translation, answer in (("1", one), ("2", other)):
            if answer:
                right = wanted[translation].get(place, "no line")
                yield None if in_short(*answer) == right else f"{place}, translation {translation}: {in_short(*answer)}\n  wanted {right}"
        terms = [text.split("\n")[0] for status, text in filter(None, (one, other)) if status == 0]
        if len(set(terms)) > 1:
            yield f"{place}: {terms[0]}\n  by translation 2 {terms[1]}"


def write_records(program):
    """Puts the answers of today into the records in which an answer is another."""
    for translation in ("1", "2"):
        found = list(records(translation))
        for record in found:
            if any(record_faults(program, (translation, record))):
                made = {**TODAY, "trace": ["trace", "--workers", "1"]}
                record.update((name, today(program, translation, words, term_of(record))) for name, words in made.items())
        write(f"vectors-{translation}.txt", netfiles.written(found))
    found = list(netfiles.sections("nets.txt", "shows"))
    for record in found:
        if net_fault([program, "net", "-"], ("", record["net"][1], netfiles.read(record["last"][1]), None)):
            record["last"] = which_ol.answer(program, ["net", "--fuel", "200", "-"], record["net"][1])
    write("nets.txt", netfiles.written(found))


def try_program(has_to_write):
    """What is wrong with each answer of `ol`, or None."""
    program = which_ol.found()
    if has_to_write:
        write_records(program)
    told = progress.in_pool(lambda case: net_fault([program, "net", "-"], case), list(nets()))
    told += try_lists(program, has_to_write)
    cases = [(translation, record) for translation in ("1", "2") for record in records(translation)]
    return told + ["\n".join(lines) for lines in progress.in_pool(lambda case: list(record_faults(program, case)), cases)]


def try_runtime(asked):
    """What is wrong with each answer of another runtime, or None."""
    both = [(translation, record) for translation in ("1", "2") for record in records(translation)] if asked.journals else []
    program = which_ol.found() if asked.journals else None
    tries = [(asked.start, start_fault, records(asked.translation)), (asked.terms, run_fault, recorded_runs(asked.translation)),
             (asked.runtime, net_fault, nets()), (asked.journals, lambda command, case: journal_fault(program, command, case), both)]
    told = []
    for command, fault, cases in tries:
        if command:
            told += progress.in_pool(lambda case: fault(command, case), list(cases)[::asked.every])
    return told


def show(name):
    for found in netfiles.sections("nets.txt", "shows"):
        if found["shows"][1] == name + "\n":
            sys.stdout.write(found["net"][1])
            return 0
    print(f"no net of nets.txt shows: {name}", file=sys.stderr)
    return 1


def main(words):
    asked = asking.parser(__doc__)
    asked.add_argument("--write", action="store_true", help="put the answers of today into the files")
    asked.add_argument("--show", metavar="NAME", help="write a net of nets.txt")
    for name, what in (("runtime", "its last net of each net"), ("terms", "what it prints of each term"), ("start", "its net of each term"),
                       ("journals", "its journal of each term's net")):
        asked.add_argument("--" + name, metavar="COMMAND", help=f"try a runtime: {what}")
    asked.add_argument("--translation", metavar="T", choices=["1", "2"], default="2", help="of --terms and --start (2)")
    asked.add_argument("--every", metavar="N", type=asking.positive, default=1, help="try a runtime on each Nth case (1)")
    asked = asked.parse_args(words)
    if asked.show is not None:
        return show(asked.show)
    try:
        told = try_runtime(asked) if asked.runtime or asked.terms or asked.start or asked.journals else try_program(asked.write)
    except ValueError as fault:
        told = [f"a recorded file is in no format that is known: {fault}"]
    return summing.told_each(told)
