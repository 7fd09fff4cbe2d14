"""Compares `ol-bench same` with the comparison of tests/vectors/netfiles.py.

    tests/run sames [--terms N] [--seed S]

The net of each term, after some interactions, is given other numbers of nodes: the two are `same`. Then two of its links are exchanged, or a
node gets another index: `ol-bench same` has to agree with netfiles.py, and, where the two differ, to print the port and what it is joined
to by a walk of this script's own. What `ol net` writes, counts and all, is `same` as itself. The last line is 'N passed, M failed'.
"""
import netfiles
import random_terms


def turned(net, chance):
    """The net with its nodes in another order."""
    return netfiles.read(netfiles.write(netfiles.renumbered(net, chance.sample(range(len(net.nodes)), len(net.nodes)))))


def raised(net, chance):
    """The net with another index at one node, where it has a node with an index."""
    nodes = [n for n, (_, index) in net.nodes.items() if index != "-"]
    if not nodes:
        return net
    n = chance.choice(nodes)
    kind, index = net.nodes[n]
    return net._replace(nodes={**net.nodes, n: (kind, str(int(index) + 1))})


def words(net, port):
    """A port, and after a slot the kind and the index of its node."""
    if port is None:
        return "nothing"
    return f"f{port[1]}" if port[0] == "f" else f"{port[0]}.{port[1]} of {' '.join(net.nodes[port[0]])}"


def first_unlike(here, there):
    """The line of the first port of the walk where two nets differ, or None where all that free ports reach is alike."""
    if here.free != there.free:
        return f"different at f{min(here.free, there.free)}: {'here' if here.free > there.free else 'there'} alone\n"
    places = [(("f", k), ("f", k)) for k in range(here.free)]
    fellow, back = {}, {}
    for p, q in places:  # grows while it is gone through
        x, y = here.linked.get(p), there.linked.get(q)
        if x is None and y is None or x is not None and x == y and x[0] == "f":
            continue
        if x and y and x[0] != "f" != y[0] and x[1] == y[1]:
            if fellow.get(x[0]) == y[0]:
                continue
            if x[0] not in fellow and y[0] not in back and here.nodes[x[0]] == there.nodes[y[0]]:
                fellow[x[0]], back[y[0]] = y[0], x[0]
                places += [((x[0], s), (y[0], s)) for s in range(3)]
                continue
        return f"different at {words(here, p).split()[0]}: {words(here, x)} here, {words(there, y)} there\n"
    return None


def faults(term, chance):
    net = netfiles.read(netfiles.write(netfiles.read(term.ol("view", "--after", chance.randint(0, 12), term.file)[1])))

    def compared(one, other):
        with random_terms.in_file(one) as file:
            return term.bench("same", file, "-", given=other)

    got = compared(netfiles.write(net), netfiles.write(turned(net, chance)))
    if got != (0, "same\n"):
        yield f"other numbers: {got}"
    for change in (netfiles.changed, raised):
        other = turned(change(net, chance), chance)
        is_one = netfiles.difference(net, other) is None
        status, text = compared(netfiles.write(net), netfiles.write(other))
        if (status, text == "same\n", text.startswith("different ")) != (int(not is_one), is_one, not is_one):
            yield f"{change.__name__}: {status} {text}"
        told = first_unlike(net, other)
        if told and text != told:
            yield f"{change.__name__}: {text!r}, not {told!r}"
    status, written = term.ol("net", "--fuel", 20000, "-", given=netfiles.write(net))
    if status == 0 and (got := compared(written, written)) != (0, "same\n"):  # with another status the fuel was used up, and there is no net
        yield f"counts before the net: {got}"


def main(words):
    return random_terms.try_terms(__doc__, words, faults)
