"""Nets that are rewritten by the plain runtime tests/faults/runtime, pair by pair."""
import faults_broken
import netfiles

NAMES = faults_broken.names_in("runtime")
Runtime = NAMES["Runtime"]


def begun(view):
    """The runtime on the net of a text, before its first pair."""
    return Runtime(netfiles.read(view), 0, 1)


def play(runtime, f, g):
    """Rewrites the pair of these nodes, in either order, and gives the line of the journal."""
    runtime.tickets += 1
    return runtime.rewrite(*((f, g) if runtime.rule(f, g) else (g, f)), runtime.tickets - 1)


def replayed(view, entries):
    """The runtime after these entries of a journal."""
    runtime = begun(view)
    for entry in entries:
        play(runtime, *(runtime.names.index(key(name)) for name in entry.split()[-2:]))
    return runtime


def names(runtime):
    """The names of all nodes that there were, by their numbers."""
    return list(map(NAMES["written"], runtime.names))


def key(name):
    """Names of nodes are ordered by this: those of the first net before those that are born."""
    return tuple(map(int, name.split("."))) if "." in name else (-1, int(name))
