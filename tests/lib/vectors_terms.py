"""Writes random terms, one a line.

    tests/run vectors/terms SEED COUNT SIZE          terms of 1 to SIZE nodes
    tests/run vectors/terms --broken SEED COUNT SIZE the same, each with one byte taken out, put in or changed

The numbers come from x := (6364136223846793005 x + 1442695040888963407) mod 2^64, beginning with x = SEED; a number below n
is the integer part of x / 2^33, mod n, after one such step. So any language can make the same terms.
"""
import sys


class Numbers:
    def __init__(self, seed):
        self.x = seed

    def below(self, n):
        self.x = (6364136223846793005 * self.x + 1442695040888963407) % 2**64
        return (self.x >> 33) % n


LETTERS = "xyzuvwpqrst"
FREE = "abc"


def term(numbers, size, bound):
    """A term of that many nodes, as its text and whether it is an atom, an abstraction or an application."""
    if size == 1:
        free = not bound or numbers.below(10) == 0
        return (FREE[numbers.below(3)] if free else bound[-1 - numbers.below(len(bound))]), "name"
    if size == 2 or numbers.below(3) == 0:
        name = LETTERS[numbers.below(len(LETTERS))]
        return f"\\{name}. " + term(numbers, size - 1, bound + [name])[0], "abstraction"
    left = 1 + numbers.below(size - 2)
    function, kind = term(numbers, left, bound)
    if left > 1 and numbers.below(2) == 0:
        name = LETTERS[numbers.below(len(LETTERS))]
        function, kind = f"\\{name}. " + term(numbers, left - 1, bound + [name])[0], "abstraction"
    argument, other = term(numbers, size - 1 - left, bound)
    function = f"({function})" if kind == "abstraction" else function
    return function + " " + (argument if other == "name" else f"({argument})"), "application"


def broken(numbers, text):
    at = numbers.below(len(text))
    byte = "()\\.= x1'#$"[numbers.below(11)]
    return [text[:at] + text[at + 1:], text[:at] + byte + text[at:], text[:at] + byte + text[at + 1:]][numbers.below(3)]


def main(words):
    breaks = words[:1] == ["--broken"]
    words = words[breaks:]
    if len(words) != 3 or not all(word.isdecimal() for word in words):
        print(__doc__, file=sys.stderr)
        return 2
    seed, count, size = map(int, words)
    if not size:
        print("SIZE is at least 1", file=sys.stderr)
        return 2
    numbers = Numbers(seed)
    for _ in range(count):
        text = term(numbers, 1 + numbers.below(size), [])[0]
        print(broken(numbers, text) if breaks else text)
    return 0
