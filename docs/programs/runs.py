"""runs: what one run of a program costs. The scripts beside this one take it.

Memory is the most that the system counted for the process, which begins with what this Python itself has: nothing
under some 12 MB is told apart.
"""
import os
import resource
import subprocess
from typing import NamedTuple


class Run(NamedTuple):
    """The status (128 and more where a signal ended it), processor seconds, megabytes, and the last line printed."""

    status: int
    seconds: float
    megabytes: float
    last: str


def last_line(path):
    with open(path, "rb") as file:
        file.seek(max(0, os.path.getsize(path) - 400))
        lines = file.read().decode("utf-8", "replace").splitlines()
    return lines[-1] if lines else ""


def run(words, source, printed, seconds=300, megabytes=8000):
    """Runs the words on the file `source`, what they print into the file `printed`, within these limits."""

    def limit():
        resource.setrlimit(resource.RLIMIT_CPU, (seconds, seconds + 5))
        resource.setrlimit(resource.RLIMIT_AS, (megabytes << 20, megabytes << 20))

    with open(source, "rb") as script, open(printed, "wb") as out:
        child = subprocess.Popen(words, stdin=script, stdout=out, stderr=subprocess.DEVNULL, preexec_fn=limit)
        _, status, used = os.wait4(child.pid, 0)
    child.returncode = os.waitstatus_to_exitcode(status)
    ended = child.returncode if child.returncode >= 0 else 128 - child.returncode
    return Run(ended, used.ru_utime + used.ru_stime, used.ru_maxrss / 1024, last_line(printed))


def least(runs):
    """The least seconds and megabytes of several runs, with the worst status and its last line."""
    worst = max(runs, key=lambda one: one.status)
    return Run(worst.status, min(one.seconds for one in runs), min(one.megabytes for one in runs), worst.last)
