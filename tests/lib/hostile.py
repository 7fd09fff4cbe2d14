"""Runs the built programs on limits, each at its edge and one past it, and on bad input, and prints one table.

    tests/run hostile [--only WORD]

Each row is one run: the status, the seconds by the clock, the greatest memory in MB (at least what this runner itself needs), and what was
asked for. A row fails where the text or the status isn't the one that the definition of the answer gives, where the run takes more than 10
seconds (60 of `ol-bench`), or more than 3,072 MB. Plain rows are in hostile.txt beside this script. The texts that are expected are made
here, and never by the program.
"""
import collections
import os
import pathlib
import re
import resource
import shlex
import subprocess
import tempfile
import threading
import time

import asking
import netfiles
import summing
import which_ol
from random_terms import READER
from speed import doubled, nested

MOST_SECONDS, MOST_BENCH_SECONDS, MOST_MB = 10, 60, 3072
USAGE = "usage: ol run|walk|view|trace|check|gen|demand|certify|net|equal [options] NAME\n"
ROW_2, ROW_3 = r"(\x. x) (\y. y)", r"(\x. x x) (\y. y)"
OMEGA = r"(\x. x x) (\x. x x)"
LONG_BYTES, LONG_JOURNAL, LONG_NET = 1_048_576, 402_653_184, 33_554_432
PIECE = 1 << 20

# The statuses by their numbers.
DONE, BAD_WORDS, SYNTAX, SPENT, READ_FAULT, WRITE_FAULT, NO_MEMORY, LIMIT = range(8)
BAD_NET = 9
TOO_LONG, TOO_DEEP, TOO_LARGE = "limit bytes 1048576\n", "limit depth 1000\n", "limit nodes 200000\n"

# The least and the greatest value of each option, the options of each command, and the names of those that don't have one alone.
BOUNDS = {"workers": (1, 64), "fuel": (0, 8_000_000), "heads": (1, 100_000), "edges": (1, 10_000_000), "after": (0, 8_000_000),
          "steps": (0, 10_000), "translation": (1, 2)}
GREATEST = ["--workers", "64", "--fuel", "8000000", "--heads", "100000"]
OPTIONS = {"run": "workers fuel heads translation", "walk": "edges heads translation", "view": "after translation",
           "trace": "workers fuel translation", "demand": "fuel heads translation", "certify": "steps workers fuel heads translation",
           "net": "workers fuel translation", "equal": "workers fuel heads translation", "check": "translation", "gen": "translation"}
NAMES = {"equal": ["once", "-"], "check": ["once", "-"], "gen": ["1"]}

# One run: its words, what it is to write, how it is to end, and its input; `out` is where it writes, and `closes` after how many bytes
# nobody reads on. Of `ol-bench`, which is then the first word, the first line is looked at.
Row = collections.namedtuple("Row", "name words text status given out stack closes", defaults=(None,) * 4)


def lines_of(counts=(0,) * 9):
    """Returns the lines of nine counts."""
    return "".join(f"{name} {count}\n" for name, count in zip([*netfiles.RULES, "stuck"], counts))


def counted(term, counts=(0,) * 9):
    """Returns what `run` writes of a term and nine counts."""
    return f"{term}\n" + lines_of(counts)


def binder(number):
    """Returns the binder's name of this number."""
    letter, round = chr(97 + number % 26), number // 26
    return letter + (str(round) if round else "")


def balanced(names):
    """Returns an application tree of the names, as a file has it, and as it is printed."""
    if len(names) == 1:
        return names[0], names[0], True
    half = len(names) // 2
    first, shown_first, _ = balanced(names[:half])
    second, shown_second, is_leaf = balanced(names[half:])
    return f"({first} {second})", f"{shown_first} {shown_second if is_leaf else f'({shown_second})'}", False


def many_nodes(last, translation=2):
    """Returns a term applied to a variable: it is x alone, and its net has 199,997 nodes by translation 1, or 199,999 by translation 2."""
    most, *depths = {1: (15, 14, 9, 8, 6, 4), 2: (16, 10, 6, 5, 3, 1, 0, 0)}[translation]
    term = doubled(most, "x")
    for depth in depths:
        term = f"({term} {doubled(depth, 'x')})"
    return f"{term} {last}"


def net_text(free, nodes, links):
    """Returns the text of a net: a kind with its index for each node, and two ports for each link, each port a pair of a node, or -1, and a number."""
    spelled = lambda port: f"f{port[1]}" if port[0] < 0 else f"{port[0]}.{port[1]}"
    lines = [f"ol net 1\nfree {free}\n"] + [f"node {node}\n" for node in nodes]
    lines += [f"link {spelled(p)} {spelled(q)}\n" for p, q in sorted(tuple(sorted(link)) for link in links)]
    return "".join(lines)


def largest_net():
    """Returns the text of a net with as many nodes and free ports as a file may have, and the greatest indexes."""
    links = [((-1, k), (k // 3, k % 3)) for k in range(600_000)] + [((-1, k), (-1, k + 1)) for k in range(600_000, 1_000_000, 2)]
    return net_text(1_000_000, ["fan 1000000"] * 200_000, links)


def paired(kind, loops):
    """Returns the text of a net of 200,000 nodes in pairs that face each other, each joined with itself where it has more slots."""
    links = [((k, 0), (k + 1, 0)) for k in range(0, 200_000, 2)]
    return net_text(0, [kind] * 200_000, links + [((k, 1), (k, 2)) for k in range(200_000) if loops])


def doubling_net(croissants):
    """Returns the text of a net in which a fan crosses so many croissants, one after another, and doubles each."""
    chain = [((k, 1), (k + 1, 0)) for k in range(1, croissants)]
    ends = [((-1, 0), (0, 1)), ((-1, 1), (0, 2)), ((0, 0), (1, 0)), ((-1, 2), (croissants, 1))]
    return net_text(3, ["fan 0"] + ["croissant 1"] * croissants, chain + ends)


def translated(term):
    """Returns the text of the net of a term, by translation 2."""
    return netfiles.write(READER["Translation"](READER["Reader"](term).whole()).file())


def in_table(name):
    """The rows of a text beside this script."""
    with open(os.path.join(which_ol.TOP, "tests", "lib", name), encoding="utf-8") as file:
        lines = [line for line in file.read().splitlines() if line and line[0] != "#"]
    for line in lines:
        status, words, given, text, name = (part.strip(" ") for part in (line + " ").split("| "))
        given, text = (part.translate({0x2400 + byte: byte for byte in (0, 10, 13)}) for part in (given, text + "\n"))
        text = USAGE if text == "usage\n" else re.sub("^# (.*)\n", lambda found: lines_of(found.group(1).split()), text, flags=re.M)
        yield Row(f"{words} {name}", shlex.split(words), text, int(status), given or None)


def of_options():
    """Options at one less than the least value, at one more than the greatest, and at 2^31."""
    for command, options in OPTIONS.items():
        for option in options.split():
            low, high = BOUNDS[option]
            for number in (low - 1, high + 1, 2**31):
                words = [command, f"--{option}", str(number), *NAMES.get(command, ["-"])]
                yield Row(" ".join(words), words, USAGE, BAD_WORDS, ROW_3)


def terms_at_limits():
    """Terms at the limits of their bytes, their depth and their nodes, and one past them."""
    deep = r"\x. " * 999 + "x"
    names = " ".join(binder(k) for k in range(999))
    yield Row("bytes of a term: the most", ["run", "-"], counted("x"), DONE, "x" + " " * (LONG_BYTES - 1))
    yield Row("one more, and no term", ["run", "-"], TOO_LONG, LIMIT, "(" + " " * LONG_BYTES)
    yield Row("depth: 1,000", ["run", "-"], counted(f"\\{names}. {binder(998)}"), DONE, deep)
    for words in (["run"], ["net", "--from-term"], ["equal", "once"]):
        yield Row(f"{' '.join(words)}: a term of one byte more", [*words, "-"], TOO_LONG, LIMIT, "x" + " " * LONG_BYTES)
        yield Row(f"{' '.join(words)}: 1,001 deep", [*words, "-"], TOO_DEEP, LIMIT, r"\x. " + deep)
    for translation, arguments in (("1", 21), ("2", 24)):
        words = ["run", "--translation", translation, "--heads", "1", "-"]
        shown = counted("x" + " ..." * arguments)
        yield Row(f"nodes by translation {translation}: 200,000", words, shown, DONE, many_nodes("y", int(translation)))
        yield Row(f"nodes by translation {translation}: 200,001", words, TOO_LARGE, LIMIT, many_nodes("x", int(translation)))
    for words in (["net", "--from-term"], ["equal", "once"], ["demand"], ["trace"]):
        yield Row(f"{' '.join(words)}: 200,001 nodes", [*words, "-"], TOO_LARGE, LIMIT, many_nodes("x"))
    most = many_nodes("y")
    yield Row("net --from-term: 200,000 nodes", ["net", "--from-term", "-"], translated(most), DONE, most)
    yield Row("demand: 200,000 nodes", ["demand", "--heads", "1", "-"], counted("x" + " ..." * 24), DONE, most)
    yield Row("trace: 200,000 nodes, none to rewrite", ["trace", "-"], "ol trace 2\n", DONE, most)
    yield Row("gen 10", ["gen", "10"], doubled(10, f"({ROW_3})") + "\n", DONE)


def deep_terms(stack=None):
    """Terms that are nested as far as a file allows."""
    small = " (1 MB of stack)" if stack else ""
    def row(name, text, status, given, words=("run", "-")):
        return Row(name + small, list(words), text, status, given, stack=stack)
    yield row("x in 400,000 pairs of brackets", counted("x"), DONE, "(" * 400_000 + "x" + ")" * 400_000)
    deepest = nested(998)
    endless = "x" + f" ({OMEGA})" * 990
    yield row("990 heads that use up their crossings", "x" + " ..." * 990 + "\n", DONE, endless, ("walk", "-"))
    yield row("998 nested arguments", counted(deepest), DONE, deepest)
    yield row("998 nested arguments on demand", counted(deepest), DONE, deepest, ("demand", "-"))
    yield row("998 nested arguments reduced", "agreed\nsteps 0\n", DONE, deepest, ("certify", "-"))
    yield row("998 nested arguments compared", "equal\n", DONE, deepest, ("equal", "nested", "-"))
    yield row("500,000 opening brackets alone", "syntax at byte 500000\n", SYNTAX, "(" * 500_000)
    yield row("500,000 closing brackets", "syntax at byte 1\n", SYNTAX, "x" + ")" * 500_000)
    yield row("500,000 nested abstractions", TOO_DEEP, LIMIT, "\\" + "x " * 500_000 + ". x")
    yield row("90,000 lets, one in the other's body", TOO_DEEP, LIMIT, "let x=x in " * 90_000 + "x")
    yield row("100,000 lets", TOO_LONG, LIMIT, "let x=x in " * 100_000 + "x")
    yield row("90,000 lets, one in the other's term", TOO_DEEP, LIMIT, "let x=" * 90_000 + "x" + " in x" * 90_000)
    yield row("499 lets in bodies", counted("x", [499, 0, 0, 0, 0, 0, 0, 0, 0]), DONE, "let y=z in " * 499 + "x")
    many = [f"n{k}" for k in range(30_000)]
    yield row("30,000 names side by side", TOO_DEEP, LIMIT, " ".join(many))
    yield row("30,000 names in a tree", TOO_LARGE, LIMIT, balanced(many)[0])
    term, shown, _ = balanced(many[:16_384])
    for command in ("run", "demand"):
        yield row(f"{command}: 16,384 names in a tree", counted(shown), DONE, term, (command, "--heads", "100000", "-"))
    yield row("nodes: 200,000", counted("x" + " ..." * 24), DONE, many_nodes("y"), ("run", "--heads", "1", "-"))
    names = " ".join(binder(k) for k in range(999))
    yield row("depth: 1,000", counted(f"\\{names}. {binder(998)}"), DONE, r"\x. " * 999 + "x")
    yield row("entries of a trace: 8,000,000", "run 8000000\n", DONE, None, ("check", "omega", "entries"))
    ten = counted(r"\a. a", [3071, 1024, 3071, 0, 2048, 6142, 0, 0, 0])
    yield row("gen --run 10", ten, DONE, None, ("gen", "--run", "10"))


def nets():
    """Large nets."""
    def row(name, text, status, given, words=("net", "-"), **more):
        return Row(f"net: {name}", list(words), text, status, given, **more)
    yield row("100,000 digits in line 2", "bad net at line 2\n", BAD_NET, f"ol net 1\nfree {'9' * 100_000}\n")
    yield row("200,001 nodes", "bad net at line 200003\n", BAD_NET, "ol net 1\nfree 0\n" + "node eraser -\n" * 200_001)
    yield row("standard input closed", "read fault\n", READ_FAULT, "closed")
    yield row("a full output", "", WRITE_FAULT, None, ("net", "largest-net"), out="/dev/full")
    yield row("200,000 nodes and 1,000,000 free ports", lines_of() + largest_net(), DONE, None, ("net", "largest-net"))
    stuck, text = [f"pair {k} {k + 1}\n" for k in range(0, 200_000, 2)], paired("lam 0", True)
    yield row("100,000 pairs that are stuck", lines_of([0] * 8 + [100_000]) + "".join(stuck) + text, DONE, text)
    yield row("200,001 nodes are left", TOO_LARGE, LIMIT, doubling_net(100_000))
    words = ["net", "--fuel", "199998", "-"]
    yield row("399,999 nodes would be left, fuel one too few", "fuel 199998\n", SPENT, doubling_net(199_999), words)


def comparisons():
    """Two large terms."""
    def row(name, words, text, status=DONE, given=None):
        return Row(f"equal: {name}", ["equal", *words], text, status, given)
    yield row("the first isn't there", ["no-such-file", "-"], "read fault\n", READ_FAULT, "endless")
    yield row("the second is no term", ["once", "-"], "syntax at byte 0\n", SYNTAX, ")" * 500_000)
    names = [f"n{k}" for k in range(16_384)]
    last = ".".join(str(k) for k in range(14, 0, -1))
    yield row("16,384 names", ["--heads", "100000", "names", "-"], "equal\n", DONE, balanced(names)[0])
    yield row("16,384 names, the last another", ["--heads", "100000", "names", "-"], f"different at {last}\n", DONE, balanced(names[:-1] + ["z"])[0])
    deepest = "1." * 998 + "1"
    yield row("the last of 998 nested arguments", ["nested", "-"], f"different at {deepest}\n", DONE, nested(998, "x y"))
    yield row("it is cut", ["--heads", "999", "nested", "-"], f"cut at {deepest}\n", DONE, nested(998, "x y"))


def certificates():
    """Large terms and their leftmost reduction."""
    def row(name, text, given, steps=10_000, options=()):
        return Row(f"certify: {name}", ["certify", "--steps", str(steps), *options, "-"], text, DONE, given)
    def agreed(addresses):
        return f"agreed\nsteps {len(addresses)}\n" + "".join(f"{address or '.'}\n" for address in addresses)
    ten, addresses = ROW_3, ["", ""]
    for _ in range(10):
        ten, addresses = f"({ten}) ({ten})", ["1" + a for a in addresses] + [""] + addresses
    yield row("3,071 steps, the greatest options", agreed(addresses), ten, options=GREATEST)
    yield row("3,071 steps, just enough", agreed(addresses), ten, 3071)
    yield row("3,071 steps, one too few", "beta steps 3070\n", ten, 3070)
    yield row("a part is cut", "incomplete\n", nested(998), options=["--heads", "999"])
    for depth, text in ((498, agreed(["2", "2", "2" * 499])), (499, "past at step 2\n")):
        yield row(f"a redex below {depth} others", text, rf"x ((\f. f (f y)) (\z. {nested(depth - 1, 'x z')}))")
    yield row("deep: 1,001", "deep 1001\n", rf"(\f. f (f y)) (\z. {nested(499, 'x z')})")
    half, whole = (balanced(["x"] * leaves)[0] for leaves in (24_999, 49_999))
    yield row("a source of 100,000 constructors", agreed([""]), rf"(\y. z) {whole}")
    yield row("a source of 100,001 constructors", "past at step 0\n", rf"(\y p. z) {whole}")
    yield row("step 1 makes 100,000 constructors", agreed(["", ""]), rf"(\n. (\y p q. z) (n n)) {half}")
    yield row("step 1 makes 100,001 constructors", "past at step 1\n", rf"(\n. (\y p q r. z) (n n)) {half}")


def bad_files_and_words():
    """Files, outputs and lists of words that fail."""
    yield Row("a name of 5,000 bytes", ["run", "n" * 5000], "read fault\n", READ_FAULT)
    yield Row("standard input closed", ["run", "-"], "read fault\n", READ_FAULT, "closed")
    yield Row("endless standard input", ["run", "-"], TOO_LONG, LIMIT, "endless")
    yield Row("a name with line feeds", ["run", "a\nname\n"], counted(r"\a. a", [1, 0, 1, 0, 0, 2, 0, 0, 0]), DONE)
    yield Row("such a name that isn't there", ["run", "no\nname"], "read fault\n", READ_FAULT)
    yield Row("a full output", ["run", "once"], "", WRITE_FAULT, out="/dev/full")
    yield Row("a closed output", ["run", "once"], "", WRITE_FAULT, out="closed")
    yield Row("a full output, usage", ["run"], "", WRITE_FAULT, out="/dev/full")
    yield Row("a pipe that nobody reads", ["run", "once"], "", WRITE_FAULT, closes=0)
    yield Row("a pipe that closes after one byte", ["view", "large"], "s", WRITE_FAULT, closes=1)
    yield Row("words that aren't UTF-8", [b"run", b"\xff\xfe"], USAGE, BAD_WORDS)
    yield Row("100,000 words", ["run"] + ["a"] * 99_999, USAGE, BAD_WORDS)
    yield Row("a word of 100,000 bytes", ["run", "--fuel", "9" * 100_000, "-"], USAGE, BAD_WORDS)
    yield Row("100,000 settings of one option", ["run"] + ["--fuel=1"] * 50_000 + ["-"], USAGE, BAD_WORDS)


# Files that rows name: texts, and those of one piece again and again: the piece, the size, the beginning and the end.
TEXTS = {"once": lambda: ROW_2, "a\nname\n": lambda: ROW_2, "omega": lambda: OMEGA, "gen-6": lambda: doubled(6, f"({ROW_3})"),
         "large": lambda: many_nodes("y"), "nested": lambda: nested(998), "names": lambda: balanced([f"n{k}" for k in range(16_384)])[0],
         "largest-net": largest_net, "wire": lambda: net_text(2, [], [((-1, 0), (-1, 1))]), "erasers": lambda: paired("eraser -", False)}
REPEATED = {"line-feeds": (b"\n", LONG_JOURNAL), "line-feeds+1": (b"\n", LONG_JOURNAL + 1), "digits": (b"7", LONG_JOURNAL),
            "first-lines": (b"ol trace 1\n", LONG_JOURNAL), "one-entry": (b"0 1\n", LONG_JOURNAL, b"ol trace 1\n"),
            "long-line": (b"7", LONG_JOURNAL, b"ol trace 1\n", b"\n"), "net-of-line-feeds": (b"\n", LONG_NET), "net+1": (b"\n", LONG_NET + 1)}


def fill(path, piece, size, first=b"", last=b""):
    """Writes a file piece by piece, since this runner's own memory counts."""
    whole = piece * (PIECE // len(piece))
    with open(path, "wb") as file:
        file.write(first)
        left = size - len(first) - len(last)
        while left > 0:
            file.write(whole[:left])
            left -= len(whole)
        file.write(last)


def make(name, program, folder):
    """Writes a file that a row names, if it isn't there."""
    path = folder / name
    if path.exists():
        return
    if name in TEXTS:
        path.write_text(TEXTS[name]())
    elif name in REPEATED:
        fill(path, *REPEATED[name])
    elif name in ("net-of-links", "net-of-links-1"):
        with open(path, "w", encoding="ascii") as file:
            file.write("ol net 1\nfree 0\nlink f10000 f4294967295\n")
            file.writelines(f"link f{10**9 + k} f4294967295\n" for k in range(1_157_048))
            if file.tell() != LONG_NET:
                print(f"FAILED: a net file of {LONG_NET} bytes has {file.tell()}")
            file.truncate(LONG_NET - name.endswith("1"))
    elif name in ("entries", "entries+1"):
        with open(path, "wb") as file:
            subprocess.run([program, "trace", "--fuel", "8000000", "omega"], stdout=file, cwd=folder, timeout=120)
            file.write(b"0 1\n" * name.endswith("1"))


def feeder(folder, given):
    """A process that writes what is given into a pipe, until that is all or nobody reads it."""
    (folder / "given").write_text(given)
    return subprocess.Popen(["yes"] if given == "endless" else ["cat", folder / "given"], stdout=subprocess.PIPE)


def run(words, folder, row):
    """Runs a row by these words. Returns the text, the status, the seconds and the memory."""
    def begin():
        resource.setrlimit(resource.RLIMIT_CORE, (0, 0))
        if row.stack:
            resource.setrlimit(resource.RLIMIT_STACK, (row.stack, row.stack))
        if row.given == "closed":
            os.close(0)
        if row.out == "closed":
            os.close(1)

    path, reader = folder / "written", None
    source = feeder(folder, row.given) if row.given not in (None, "closed") else None
    if row.closes is None:
        sink = os.open(row.out if row.out and row.out != "closed" else path, os.O_WRONLY | os.O_CREAT | os.O_TRUNC)
    else:
        reader, sink = os.pipe()
    start = time.monotonic()
    child = subprocess.Popen(words, stdin=source.stdout if source else subprocess.DEVNULL, stdout=sink,
                             stderr=subprocess.STDOUT if row.out is None else subprocess.DEVNULL, cwd=folder, preexec_fn=begin,
                             env={"GLIBC_TUNABLES": "glibc.malloc.hugetlb=1"})
    os.close(sink)
    if source:
        source.stdout.close()
    text = b""
    if reader is not None:
        text = os.read(reader, row.closes) if row.closes else b""
        os.close(reader)
    killer = threading.Timer(MOST_BENCH_SECONDS, child.kill)
    killer.start()
    _, ended, used = os.wait4(child.pid, 0)
    seconds = time.monotonic() - start
    killer.cancel()
    child.returncode = os.waitstatus_to_exitcode(ended)
    if source:
        source.wait()
    if reader is None and row.out is None:
        text = path.read_bytes()
    return which_ol.without_said(text), child.returncode, seconds, used.ru_maxrss / 1024


def tried(programs, folder, row):
    """Runs a row and prints its line, with what is wrong. Returns whether something is."""
    of_bench = row.words[:1] == ["ol-bench"]
    words = [programs[1], *row.words[1:]] if of_bench else [programs[0], *row.words]
    text, status, seconds, mb = run(words, folder, row)
    bad = [f"status {status} and not {row.status}"] * (status != row.status)
    if not (text.startswith(row.text.encode()) if of_bench else text == row.text.encode()):
        bad.append(f"wrote {text[:60]!r} and not {row.text[:60]!r}")
    if seconds > (MOST_BENCH_SECONDS if of_bench else MOST_SECONDS) or mb > MOST_MB:
        bad.append(f"past {MOST_SECONDS} seconds or {MOST_MB:,} MB")
    print(f"{seconds:8.2f} {mb:6.0f} {status:6}  {row.name}" + "".join(f"\n  FAILED: {it}" for it in bad), flush=True)
    return bool(bad)


def main(words):
    asked = asking.parser(__doc__)
    asked.add_argument("--only", default="", metavar="WORD", help="only the rows that have this word")
    only = asked.parse_args(words).only
    programs = [which_ol.found(), which_ol.found("ol-bench")]
    groups = [in_table("hostile.txt"), of_options(), terms_at_limits(), deep_terms(), deep_terms(stack=1 << 20), nets(), comparisons(), certificates(),
              bad_files_and_words()]
    told = []
    with tempfile.TemporaryDirectory() as name:
        folder = pathlib.Path(name)
        make("once", programs[0], folder)
        print(f"{'seconds':>8} {'MB':>6} {'status':>6}  row")
        for row in (row for rows in groups for row in rows if only in row.name):
            for word in row.words[:6]:
                make(os.fsdecode(word)[:99], programs[0], folder)
            told.append(tried(programs, folder, row))
    return summing.told(summing.Sum(told.count(False), told.count(True)))
