#!/usr/bin/env python3
"""Shows the place that `syntax at byte B` names, with line, column and a caret below it; passes everything else on.

    ol run NAME | python3 examples/caret.py NAME

Lines and columns are counted from 1. A column is a character: λ, two bytes, is one. Where the text ended too early,
the caret stands behind what is there. NAME is the file that `ol` read: `-` can't be read again, since standard input is
the answer here. The status is 2 where a place is shown, 1 where NAME isn't said or, for a place, can't be read, else 0.
"""
import codecs
import re
import sys

if len(sys.argv) != 2:
    sys.exit("usage: ol run NAME | python3 examples/caret.py NAME")
answer = sys.stdin.read()
found = re.fullmatch(r"syntax at byte (\d+)\n", answer)
if not found:
    sys.stdout.write(answer)
    sys.exit(0)
try:
    with open(sys.argv[1], "rb") as file:
        text = file.read()
except OSError as fault:
    why = "standard input is the answer of `ol`: put the term into a file" if sys.argv[1] == "-" else fault.strerror
    sys.stdout.write(answer)
    sys.exit(f"caret.py: {sys.argv[1]} can't be read: {why}")
before = text[:int(found.group(1))]
at_end = len(before) == len(text)
if at_end:
    before = text.rstrip()
begin = before.rfind(b"\n") + 1
line = before.count(b"\n") + 1
left = codecs.getincrementaldecoder("utf-8")("replace").decode(before[begin:])
whole = text[begin:].split(b"\n")[0].decode("utf-8", "replace")
print(f"line {line}, column {len(left) + 1}{', the end of the text' if at_end else ''}: {answer}{whole}")
print("".join("\t" if sign == "\t" else " " for sign in left) + "^")
sys.exit(2)
