"""The command of another runtime. The shell runs it, with a text on standard input, for a minute at most."""
import collections
import os
import signal
import subprocess
import sys

import which_ol

MOST_SECONDS = 60
NO_END = "no end within a minute"

# What a command did: its status, None where it didn't end within the minute, and the text that it wrote until then.
Ran = collections.namedtuple("Ran", "status text")


def ran(command, given):
    """Runs a command, a text for the shell, or the words of `ol`, whose line that it isn't proved is left out."""
    is_text = isinstance(command, str)
    with subprocess.Popen(command, shell=is_text, stdin=subprocess.PIPE, stdout=subprocess.PIPE,
                          stderr=None if is_text else subprocess.PIPE, start_new_session=True) as running:
        try:
            text, said = running.communicate(given.encode(), timeout=MOST_SECONDS)
            status = running.returncode
        except subprocess.TimeoutExpired:
            os.killpg(running.pid, signal.SIGKILL)
            text, said = running.communicate()
            status = None
    sys.stderr.write(which_ol.without_said(said or b"").decode("utf-8", "replace"))
    return Ran(status, text.decode("utf-8", "replace"))


def ended(command, given):
    """The text that a command writes. ValueError: it didn't end within the minute, or with another status than 0."""
    status, text = ran(command, given)
    if status != 0:
        raise ValueError(NO_END if status is None else f"status {status}")
    return text
