"""Compares `ol-bench explain` with a replay by the plain runtime tests/faults/runtime.

    tests/run explains [--terms N] [--seed S]

The journal of each term is that of `ol-bench journal`, in either form and by either translation. Of one in three only the first lines are
taken; in the others something is changed in one line. The first line of `explain` has to be that of `ol check`, and below it has to be the
cause of a line that isn't one of a run, or the pairs that are left, each of which continues the journal by `ol check`. Then some bytes of
the text are changed, twice; where `ol check` finds bad text, the second line of `explain` has to say at which byte the line breaks off, and
which bytes are wanted there, by a grammar of this script's own. The last line is 'N passed, M failed'; above it: how often each cause came.
"""
import collections
import re

import netfiles
import plain
import random_terms
from plain import key


def left(view, entries):
    """What `explain` has to say of the pairs that are left after these entries, and all lines that tell one."""
    runtime, pairs = plain.replayed(view, entries), []
    names = plain.names(runtime)
    for x, y in netfiles.facing(runtime.net()):
        rule = runtime.rule(x, y) or runtime.rule(y, x)
        if rule:
            pairs.append((*sorted((names[x], names[y]), key=key), rule, 1 + runtime.weights[x, 0]))
    lines = [f"{rule} {wave} {first} {second}\n" for first, second, rule, wave in sorted(pairs, key=lambda pair: key(pair[0]))]
    return "".join(lines[:20]) + (f"and {len(lines) - 20} more\n" if lines[20:] else ""), lines


def cause(view, entries, line, told):
    """What is wrong with a line after these entries, of which the rule and the wave are told or not."""
    runtime = plain.replayed(view, entries)
    net, names = runtime.net(), plain.names(runtime)
    first, second = line.split()[-2:]
    for name in (first, second):
        if name in names and names.index(name) in net.nodes:
            continue
        if "." in name and int(name.split(".")[0]) >= len(entries):
            return f"{name} isn't created yet"
        by = [k + 2 for k, entry in enumerate(entries) if name in entry.split()[-2:]]
        if by:
            return f"{name} is gone, by line {by[0]}"
        return f"line {int(name.split('.')[0]) + 2} created no {name}" if "." in name else f"the net has no node {name}"
    x, y = names.index(first), names.index(second)
    for node, named in ((x, second), (y, first)):
        place = net.linked[node, 0]
        if place[0] != "f" and place[1] == 0 and "." in named:
            faced, ticket = names[place[0]], named.split(".")[0]
            if faced != named and faced.split(".")[0] == ticket and "." in faced:
                return (f"{names[node]} is linked to {faced}: line {int(ticket) + 2} numbers its nodes otherwise, links are crossed, "
                        "or the first net differs; see bisect")
    place = net.linked[x, 0]
    if place[0] == "f":
        return f"{first} is linked to free port {place[1]}"
    if place != (y, 0):
        return f"{first} is linked to port {place[1]} of {names[place[0]]}"
    rule = runtime.rule(x, y) or runtime.rule(y, x)
    if not rule:
        return f"{first} and {second} have no rule"
    if told and told[0] != rule:
        return f"the rule is {rule}"
    wave = 1 + runtime.weights[x, 0]
    return f"the wave is {wave}: {joined(view, entries, first, second)}, of weight {wave - 1}" if told and int(told[1]) != wave else None


def joined(view, entries, first, second):
    """By which line the link of these two came: the first net after which they are joined."""
    for count in range(len(entries) + 1):
        runtime = plain.replayed(view, entries[:count])
        linked, names = runtime.net().linked, plain.names(runtime)
        if first in names and second in names and linked.get((names.index(first), 0)) == (names.index(second), 0):
            return f"line {count + 1} created the link" if count else "the first net has the link"


def changed(chance, lines, at):
    """A line of a journal with something else in it."""
    rule, wave, first, second = lines[at].split()
    what = chance.choice(["rule", "wave", "first", "second", "both", "copy"])
    if what == "rule":
        rule = chance.choice(["beta", "fan", "croissant", "bracket", "cross-fan", "cross-croissant", "erase"])
    elif what == "wave":
        wave = str(chance.randint(1, 9))
    elif what == "copy":
        first, second = (name if "." not in name else f"{name.split('.')[0]}.{chance.randint(0, 3)}" for name in (first, second))
        first, second = sorted((first, second), key=key)
    else:
        known = [name for line in lines[1:] for name in line.split()[2:]]
        drawn = lambda: chance.choice(known + [f"{chance.randint(0, len(lines))}.{chance.randint(0, 3)}", str(chance.randint(0, 30))])
        first = first if what == "second" else drawn()
        second = second if what == "first" else drawn()
        if key(first) > key(second):
            first, second = second, first
    return [rule, wave, first, second]


# The lines of a journal, names in any order: the first line, and those of the two forms. To tell whether some line begins
# so, each of a few endings is tried: behind the beginning of a line stands the rest of one of these samples.
RULES = ["beta", "fan", "croissant", "bracket", "cross-fan", "cross-croissant", "cross-bracket", "erase"]
NUMBER = "(?:0|[1-9][0-9]*)"
NAME = rf"{NUMBER}(?:\.[0-3])?"
GRAMMARS = [r"ol trace [12]\n", rf"{NAME} {NAME}\n", rf"(?:{'|'.join(RULES)}) {NUMBER} {NAME} {NAME}\n"]
SAMPLES = [["ol trace 1\n", "ol trace 2\n"], ["0.0 0.0\n"], [rule + " 0 0.0 0.0\n" for rule in RULES]]
ENDINGS = [sorted({sample[at:] for sample in samples for at in range(len(sample) + 1)}) for samples in SAMPLES]
NAMED = {"\n": "a line feed", " ": "a space", ".": "a dot"}


def is_line(form, line):
    if not re.fullmatch(GRAMMARS[form], line):
        return False
    return not form or all(int(number) <= 4294967295 for number in re.findall("[0-9]+", line))


def begins(form, text):
    return any(is_line(form, text + ending) for ending in ENDINGS[form])


def wanted(text, line):
    """The byte at which this bad line of the text breaks off, and what is wanted there, as `explain` tells it."""
    form = 0 if line == 1 else int(text[9])
    start = 0
    for _ in range(line - 1):
        start = text.index("\n", start) + 1
    first, *_ = rest = text[start:].split("\n", 1)
    if form and len(rest) > 1 and is_line(form, first + "\n"):
        a, b = first.split(" ")[-2:]
        return f"byte {start + len(first) - len(b)}: wanted a name greater than {a}\n"
    at = start
    while at < len(text) and begins(form, text[start:at + 1]):
        at += 1
    found = [chr(byte) for byte in range(256) if begins(form, text[start:at] + chr(byte))]
    if all(digit in found for digit in "0123456789"):
        found = [sign for sign in found if not "0" < sign <= "9"]
        found[found.index("0")] = "a digit"
    return f"byte {at}: wanted {' or '.join(NAMED.get(sign, sign) for sign in found)}\n"


def spoilt(chance, text):
    """A text with some bytes changed."""
    for _ in range(chance.randint(1, 2)):
        at = chance.choice([chance.randint(0, len(text)), chance.randint(0, min(12, len(text)))])
        piece = chance.choice([*"0123456789. \n-abcefortsolX\r\t", "4294967295", "4294967296", "429496729", "00", "1.4", "2."])
        text = text[:at] + chance.choice([piece, piece, ""]) + text[at + chance.randint(0, 1):]
    return text[:chance.randint(0, len(text))] if chance.randint(0, 9) == 0 else text


def text_fault(text, term, chance, causes):
    text = spoilt(chance, text)
    found = told = term.checked(text)
    if not found.startswith("bad text at line "):
        return None
    told += wanted(text, int(found.split()[-1]))
    causes[" ".join(told.split()[7:]) if "greater" not in told else "a greater name"] += 1
    got = term.explained(text)
    return None if got == told else f"{text!r}: {got!r}, not {told!r}"


def journal_of(form, entries):
    """A journal in one of the two forms, of entries in the second."""
    return f"ol trace {form}\n" + "".join(" ".join(entry if form == 2 else entry[2:]) + "\n" for entry in entries)


def journal_fault(view, form, entries, term, causes):
    """What is wrong with what is said of this journal, of whose lines one may have been changed, or None."""
    text = journal_of(form, entries)
    told = text.splitlines()[1:]
    found = wanted_answer = term.checked(text)
    if found.startswith("not a run at line "):
        bad = int(found.split()[-1]) - 2
        why = cause(view, told[:bad], told[bad], told[bad].split()[:2] if form == 2 else None)
        wanted_answer += f"{why}\n"
        if term.ol("check", "--translation", 1, term.file, "-", given=text)[1].startswith(("complete", "run ")):
            wanted_answer += "it is a run of translation 1\n"
            causes["a run of translation 1"] += 1
        causes[" ".join(word for word in str(why).split() if not word[0].isdigit())] += 1
    if found.startswith("run "):
        more_told, more = left(view, told)
        wanted_answer += more_told
        causes["pairs told, " + ("all" if len(more) <= 20 else "20 of more")] += min(len(more), 20)
        for line in more[:20]:
            longer = text + " ".join(line.split()[4 - 2 * form:]) + "\n"
            verdict = term.checked(longer)
            if verdict not in ("complete\n", f"run {len(told) + 1}\n"):
                return f"{longer!r}: {verdict!r}"
    got = term.explained(text)
    return None if got == wanted_answer else f"{text!r}: {got!r}, not {wanted_answer!r}"


def drawn(chance):
    """The text of a term. Some terms have many redexes."""
    kind = random_terms.kind_of(chance)
    if chance.randint(1, 6) > 1:
        return random_terms.written(chance, *kind)
    return "f" + "".join(f" ({random_terms.written(chance, *kind)})" for _ in range(chance.randint(10, 40)))


def main(words):
    causes = collections.Counter()

    def faults(term, chance):
        view, whole = term.view(), not term.text.startswith("f") and chance.randint(1, 4) > 1
        order, translation = chance.choice(["least", "demand"]), chance.choice("12222")
        lines = term.bench("journal", "--order", order, "--translation", translation, "--fuel", 200, term.file)[1].splitlines()
        if len(lines) < 2:
            return
        at = chance.randint(1, len(lines) - 1)
        changed_words = changed(chance, lines, at)
        form = chance.choice([1, 2])
        if key(changed_words[2]) == key(changed_words[3]):
            return
        entries = [line.split() for line in lines[1:]]
        tried = [*entries[:at - 1], changed_words, *entries[at:]] if whole else entries[:chance.choice([1, at]) - 1]
        told = [journal_fault(view, form, tried, term, causes)]
        told += [text_fault(journal_of(form, entries), term, chance, causes) for _ in range(2)]
        yield from filter(None, told)

    def told_last():
        for what, count in sorted(causes.items()):
            print(f"{count} {what}")

    return random_terms.try_terms(__doc__, words, faults, drawn, told_last)
