"""Looks at the scripts themselves: those of this repository that are Python or shell.

    tests/run scripts

Each Python file has to compile, to use each name that it imports, and to have each name that it uses. `shellcheck`, where it is on this
machine, has to find nothing in a shell script. Each script is called with a word that it doesn't know, `--no-such-word`: its status has to
be another than 0, and its answer no error of Python's. All scripts outside crates/ together may have 6,000 lines. The last line is
'N passed, M failed'.
"""
import ast
import builtins
import concurrent.futures
import os
import shutil
import subprocess

import asking
import progress
import summing
from which_ol import TOP

MOST_LINES = 6_000
# These hand their words on, or take any.
TAKE_ALL = ("ol", "ol-bench", ".ci/run", "scripts/start", "scripts/build-unproved")
BAD_WORD = "--no-such-word"
RUN = os.path.join(TOP, "tests", "run")


def scripts():
    """The scripts outside crates/, each as its path from the top and its lines."""
    listed = subprocess.run(["git", "ls-files", "-co", "--exclude-standard", ":!crates"], cwd=TOP, stdout=subprocess.PIPE, check=True, text=True)
    for path in filter(lambda path: os.path.isfile(os.path.join(TOP, path)), listed.stdout.splitlines()):
        with open(os.path.join(TOP, path), encoding="utf-8", errors="replace") as file:
            lines = file.readlines()
        if path.endswith(".py") or lines and lines[0].startswith("#!"):
            yield path, lines


def size_faults(count):
    return [f"the scripts outside crates/ have {count} lines, and may have {MOST_LINES}"] * (count > MOST_LINES)


def names_in(tree):
    """The names that are imported at the head, those that are bound anywhere, and those that are used."""
    imported, bound, used = set(), set(dir(builtins)) | {"__file__", "__doc__", "__name__"}, set()
    for node in ast.walk(tree):
        if isinstance(node, (ast.Import, ast.ImportFrom)):
            imported |= {(it.asname or it.name).split(".")[0] for it in node.names}
        elif isinstance(node, (ast.FunctionDef, ast.ClassDef)):
            bound.add(node.name)
        elif isinstance(node, ast.arg):
            bound.add(node.arg)
        elif isinstance(node, ast.ExceptHandler) and node.name:
            bound.add(node.name)
        elif isinstance(node, ast.Name):
            (used if isinstance(node.ctx, ast.Load) else bound).add(node.id)
    return imported, bound, used


def python_faults(path):
    with open(os.path.join(TOP, path), encoding="utf-8") as file:
        text = file.read()
    try:
        tree = ast.parse(text, path)
    except SyntaxError as fault:
        return [f"{path}:{fault.lineno}: {fault.msg}"]
    imported, bound, used = names_in(tree)
    return [f"{path}: {name} is imported and not used" for name in sorted(imported - used)] + \
           [f"{path}: {name} is used and not known" for name in sorted(used - bound - imported)]


def shell_faults(path):
    if not shutil.which("shellcheck"):
        return []
    return subprocess.run(["shellcheck", path], cwd=TOP, stdout=subprocess.PIPE, text=True).stdout.splitlines()


def call_faults(words):
    """What is wrong with the answer to a bad call."""
    ran = subprocess.run([os.path.join(TOP, words[0]), *words[1:], BAD_WORD], stdin=subprocess.DEVNULL, stdout=subprocess.PIPE,
                         stderr=subprocess.STDOUT, text=True, errors="replace", timeout=600)
    if ran.returncode == 0 or "Traceback" in ran.stdout:
        return [f"{' '.join(words)} {BAD_WORD}: status {ran.returncode}", *ran.stdout.splitlines()]
    return []


def cases():
    """Each thing to look at: a function, and the path or the call that it is given."""
    found = dict(scripts())
    yield size_faults, sum(map(len, found.values()))
    for path, lines in found.items():
        yield (python_faults if "python" in lines[0] or path.endswith(".py") else shell_faults), path
        if os.access(os.path.join(TOP, path), os.X_OK) and path not in TAKE_ALL:
            yield call_faults, [path]
    for name in subprocess.run([RUN], stderr=subprocess.PIPE, text=True).stderr.splitlines()[1].split():
        yield call_faults, ["tests/run", name]


def main(words):
    asking.parser(__doc__).parse_args(words)
    found = list(cases())
    failed = 0
    with concurrent.futures.ThreadPoolExecutor(os.cpu_count()) as pool:
        for told in progress.shown(pool.map(lambda case: case[0](case[1]), found), len(found)):
            failed += bool(told)
            print("".join(line + "\n" for line in told), end="")
    if not shutil.which("shellcheck"):
        print("shellcheck isn't on this machine: shell scripts were only called")
    return summing.told(summing.Sum(len(found) - failed, failed))
