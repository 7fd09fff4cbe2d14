#!/usr/bin/env python3
"""A runtime of one thread: reads a net as `ol view` prints it, rewrites its pairs in any order, and writes the trace.

    ol view TERM | python3 examples/runtime.py > JOURNAL && ol check TERM JOURNAL
"""
import random
import sys

SLOTS = {"lam": 3, "app": 3, "fan": 3, "croissant": 2, "bracket": 2, "eraser": 1}
SHIFT = {"eraser": 0, "fan": 0, "croissant": -1, "bracket": 1}
nodes, linked = {}, {}  # kind and index by name, a name being (0, k) or (1, ticket, place); ports are (name, slot) and ("f0", 0)


def port(text):
    return (text, 0) if text[0] == "f" else ((0, int(text.split(".")[0])), int(text.split(".")[1]))


for words in map(str.split, sys.stdin.read().splitlines()[2:]):
    if words[0][0] == "f":
        linked[port(words[0])] = port(words[1])
    else:
        nodes[0, int(words[0])] = words[1], int(words[2].replace("-", "0"))
        linked.update({((0, int(words[0])), s): port(text) for s, text in enumerate(words[3:])})


def rule(f, g):
    (k, i), (l, j) = nodes[f], nodes[g]
    if i == j and l != "eraser" and ({k, l} == {"app", "lam"} or k == l in SHIFT):
        return "meet"
    return "cross" if k == "eraser" or i < j and k in SHIFT and l != "eraser" else None


def join(x, y, gone):
    x, y = (linked.pop(p) if p[0] in gone else p for p in (x, y))  # a slot that goes stands for what it is linked to
    linked[x], linked[y] = y, x


ticket = 0
print("ol trace 1")
while pairs := [(f, linked[f, 0][0]) for f in nodes if linked[f, 0][1] == 0 and linked[f, 0][0] in nodes and rule(f, linked[f, 0][0])]:
    f, g = random.choice(pairs)
    print(*(".".join(map(str, name[1:])) for name in sorted((f, g))))
    done, (k, i), (l, j) = rule(f, g), nodes.pop(f), nodes.pop(g)
    if done == "meet":
        for s in range(1, SLOTS[k]):
            join((f, s), (g, s), (f, g))
    else:
        of_f = {q: (1, ticket, q - 1) for q in range(1, SLOTS[l])}  # the copy of f at slot q of g
        of_g = {p: (1, ticket, SLOTS[l] + p - 2) for p in range(1, SLOTS[k])}  # the copy of g at slot p of f
        nodes.update({name: (k, i) for name in of_f.values()} | {name: (l, j + SHIFT[k]) for name in of_g.values()})
        for q, name in of_f.items():
            join((name, 0), (g, q), (f, g))
        for p, name in of_g.items():
            join((name, 0), (f, p), (f, g))
        for q in of_f:
            for p in of_g:
                join((of_f[q], p), (of_g[p], q), (f, g))
    ticket += 1
