"""Nets as `ol net` and `ol view` write them: read, written, and compared up to the numbers of their nodes."""
import collections
import os
import re

HERE = os.path.dirname(os.path.realpath(__file__))

SLOTS = {"lam": 3, "app": 3, "fan": 3, "croissant": 2, "bracket": 2, "eraser": 1}
RULES = ["beta", "fan", "croissant", "bracket", "cross-fan", "cross-croissant", "cross-bracket", "erase"]
MOST_UNREACHED = 2000

# A port is ("f", K), free port K, or (N, S), slot S of node N. `nodes` has the kind and the index of each node by its
# number, the index as it is written; `linked` has the partner of each port. `counts` are the nine lines before a net
# and `pairs` its stuck pairs, where they are told.
Net = collections.namedtuple("Net", "free nodes linked counts pairs")

PORT = r"(?:f[0-9]+|[0-9]+\.[0-2])"
NODE = "(?:(?:" + "|".join(kind for kind in SLOTS if kind != "eraser") + ") [0-9]+|eraser -)"
FREE_LINE = re.compile("free 0*[0-9]{1,7}")
FILE_LINE = re.compile(f"node {NODE}|link {PORT} {PORT}")
STEP_LINE, NODES_LINE = re.compile("step [0-9]+"), re.compile("nodes [0-9]+")
VIEW_LINE = re.compile(f"f[0-9]+ {PORT}|[0-9]+ {NODE}(?: {PORT}){{1,3}}")
COUNT_LINE, PAIR_LINE = re.compile("[a-z-]+ [0-9]+"), re.compile("pair [0-9]+ [0-9]+")


class NoNet(ValueError):
    """A text that is no net. Its words say why, in those of a net and not in Python's."""


def expect(lines, first, *forms):
    """Looks whether these lines have these forms, the last form standing for all that are left. `first` is the number of the first."""
    for k, line in enumerate(lines):
        if not forms[min(k, len(forms) - 1)].fullmatch(line):
            raise NoNet(f"line {first + k} is none of a net: `{line}`")


def port(word):
    """The port that a word names."""
    return ("f", int(word[1:])) if word[0] == "f" else tuple(map(int, word.split(".")))


def name(place):
    """The word that names a port."""
    return f"f{place[1]}" if place[0] == "f" else f"{place[0]}.{place[1]}"


def join(linked, one, other):
    for place in (one, other):
        if place in linked:
            raise NoNet(f"{name(place)} is linked twice")
    linked[one], linked[other] = other, one


def ports_of(free, nodes):
    """The ports in their order: free ports first, then nodes by number and slot."""
    return [("f", k) for k in range(free)] + [(n, s) for n in sorted(nodes) for s in range(SLOTS[nodes[n][0]])]


def whole(net):
    """The net, after a look whether each port that it has is linked, and no other."""
    ports = set(ports_of(net.free, net.nodes))
    for place in sorted(ports ^ set(net.linked), key=name):
        raise NoNet(f"{name(place)} is " + ("not linked" if place in ports else "no port"))
    return net


def read_file(lines, counts, pairs, first):
    """A net in the form that begins with `ol net 1`, which is line `first` of the text."""
    expect(lines[1:], first + 1, FREE_LINE, FILE_LINE)
    if len(lines) < 2:
        raise NoNet("the line `free` is missing")
    free, nodes, linked = int(lines[1].removeprefix("free ")), {}, {}
    for line in lines[2:]:
        word, one, other = line.split()
        if word == "node":
            nodes[len(nodes)] = one, other
        else:
            join(linked, port(one), port(other))
    return whole(Net(free, nodes, linked, counts, pairs))


def read_view(lines):
    """A net in the form of `ol view`."""
    expect(lines, 1, STEP_LINE, NODES_LINE, VIEW_LINE)
    free, nodes, linked = 0, {}, {}
    for words in map(str.split, lines[2:]):
        if words[0][0] == "f":
            free, linked["f", int(words[0][1:])] = free + 1, port(words[1])
        else:
            nodes[int(words[0])] = words[1], words[2]
            linked.update({(int(words[0]), s): port(word) for s, word in enumerate(words[3:])})
    for one, other in linked.items():
        if linked.get(other) != one:
            raise NoNet(f"{name(one)} has the partner {name(other)}, which has another one or none")
    return whole(Net(free, nodes, linked, None, None))


def read(text):
    """The net of a net file, of what `ol net` answers or of what `ol view` writes. NoNet: it is none of these."""
    lines = text.splitlines()
    if lines and lines[0].startswith("step "):
        return read_view(lines)
    if "ol net 1" not in lines:
        raise NoNet("no line is `ol net 1`, and the first one isn't `step S`")
    title = lines.index("ol net 1")
    if not title:
        return read_file(lines, None, None, 1)
    expect(lines[:title], 1, *[COUNT_LINE] * 9, PAIR_LINE)
    if title < 9:
        raise NoNet(f"line {title + 1}: before a net there are nine counts, or none")
    return read_file(lines[title:], lines[:9], [tuple(map(int, line.split()[1:])) for line in lines[9:title]], title + 1)


def write(net):
    """The text of a net file, nodes in the order of their numbers."""
    rank = {number: k for k, number in enumerate(sorted(net.nodes))}
    order = ports_of(net.free, net.nodes)
    at = {place: k for k, place in enumerate(order)}
    word = {place: name(place if place[0] == "f" else (rank[place[0]], place[1])) for place in order}
    text = [f"ol net 1\nfree {net.free}\n"] + ["node %s %s\n" % what for _, what in sorted(net.nodes.items())]
    links = [(one, net.linked[one]) for one in order if at[one] < at[net.linked[one]]]
    return "".join(text + [f"link {word[one]} {word[other]}\n" for one, other in links])


def facing(net):
    """The pairs of nodes whose slots 0 are joined, the smaller number first."""
    ahead = [(n, net.linked[n, 0]) for n in sorted(net.nodes)]
    return [(n, other[0]) for n, other in ahead if other[0] != "f" and other[1] == 0 and n < other[0]]


def sections(file, first):
    """Each record of a file beside this one, as a dict from a section's name to its status and text. A record begins
    with the section `first`."""
    lines = open(os.path.join(HERE, file), encoding="utf-8").read().split("\n")
    at, record = 0, {}
    while at < len(lines) - 1:
        section, status, count = lines[at].split()
        if section == first and record:
            yield record
            record = {}
        record[section] = int(status), "".join(line + "\n" for line in lines[at + 1:at + 1 + int(count)])
        at += 1 + int(count)
    if record:
        yield record


def renumbered(net, numbers):
    """The net with other numbers of nodes."""
    to = dict(zip(net.nodes, numbers))
    moved = {place: place if place[0] == "f" else (to[place[0]], place[1]) for place in net.linked}
    nodes = {to[n]: what for n, what in net.nodes.items()}
    return net._replace(nodes=nodes, linked={moved[p]: moved[q] for p, q in net.linked.items()})


def changed(net, numbers):
    """The net with two links exchanged, where it has two."""
    links = [(p, q) for p, q in net.linked.items() if name(p) < name(q)]
    if len(links) < 2:
        return net
    (p, q), (r, s) = numbers.sample(links, 2)
    return net._replace(linked={**net.linked, p: r, r: p, q: s, s: q})


def written(records):
    """The text of a file of records, as `sections` reads it."""
    return "".join(f"{name} {status} {text.count(chr(10))}\n{text}" for record in records for name, (status, text) in record.items())


def told(net, number):
    return f"{net.nodes[number][0]} {net.nodes[number][1]}"


def follow(a, b, one, other, way, there, back):
    """Walks both nets from two nodes: None, or where they differ. `there` and `back` get which node is which."""
    waiting = [(one, other, way)]
    while waiting:
        one, other, way = waiting.pop()
        if there.get(one, other) != other or back.get(other, one) != one:
            return f"{way}: the walks meet again in one net alone"
        if one in there:
            continue
        if a.nodes[one] != b.nodes[other]:
            return f"{way}: {told(a, one)} and {told(b, other)}"
        there[one], back[other] = other, one
        for s in range(SLOTS[a.nodes[one][0]]):
            p, q, on = a.linked[one, s], b.linked[other, s], f"{way}, out by slot {s}"
            if (p[0] == "f") != (q[0] == "f") or p[1] != q[1]:
                return f"{on}: {arrival(p)} and {arrival(q)}"
            if p[0] != "f":
                waiting.append((p[0], q[0], f"{on}, in by slot {p[1]}"))
    return None


def arrival(place):
    return name(place) if place[0] == "f" else f"slot {place[1]} of a node"


def difference(a, b):
    """None where the two nets are one up to the numbers of nodes, with the same counts, and else where they differ."""
    if a.counts and b.counts and a.counts != b.counts:
        return next(f"counts: {x} and {y}" for x, y in zip(a.counts, b.counts) if x != y)
    for net in (a, b):
        if net.pairs is not None and (net.pairs != facing(net) or net.counts[8] != f"stuck {len(net.pairs)}"):
            return "the lines of pairs aren't the pairs of the net below them"
    for what, one, other in (("free ports", a.free, b.free), ("nodes", len(a.nodes), len(b.nodes))):
        if one != other:
            return f"the numbers of {what}: {one} and {other}"
    there, back = {}, {}
    for k in range(a.free):
        p, q = a.linked["f", k], b.linked["f", k]
        if (p[0] == "f") != (q[0] == "f") or p[1] != q[1]:
            return f"f{k}: {arrival(p)} and {arrival(q)}"
        if p[0] != "f":
            apart = follow(a, b, p[0], q[0], f"f{k}, in by slot {p[1]}", there, back)
            if apart:
                return apart
    return unreached(a, b, there, back)


def unreached(a, b, there, back):
    """The same of the parts that no free port reaches: each part of the one net is tried against each of the other."""
    if len(a.nodes) - len(there) > MOST_UNREACHED:
        raise ValueError(f"more than {MOST_UNREACHED} nodes that no free port reaches")
    for one in a.nodes:
        if one in there:
            continue
        for other in b.nodes:
            tried, turned = {}, {}
            if other not in back and not follow(a, b, one, other, "", tried, turned):
                there.update(tried)
                back.update(turned)
                break
        else:
            part = f"node {one} of the first net, {told(a, one)}, which no free port reaches"
            return f"{part}: the second net has no such part"
    return None
