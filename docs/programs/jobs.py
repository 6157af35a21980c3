#!/usr/bin/env python3
"""jobs: what it costs to compact a folder of many small files, and what a query over it takes before and after.

usage: jobs.py PROGRAM FOLDER [ROWS [INSERTS [PARTITIONS [ROUNDS]]]]

PROGRAM is the built program (`./hive-run --path`). FOLDER/wh is made first where it isn't there: ROWS rows (100,000) of
(INT, BIGINT, STRING, INT) by INSERTS statements (143), each of which puts a file into each of PARTITIONS partitions (28).
Then, ROUNDS times (3), each over a copy of its own: a run of a `!compact` for each partition, of which the first asks for
what is due, and a run of a `!clean`; before and after a query by partitions. Told are processor seconds, those of the
queries the least of five; what a run of `SELECT 1 AS one` takes, which is mostly opening the folder, is taken off. Memory
is the most that the run of the compactions had (VmHWM), that of opening taken off, beside the largest file that was made.
The status is 1 where a compaction was given up or was no major one, where the query answers otherwise after, or where
files are left that the compactions covered.
"""
import os
import shutil
import subprocess
import sys
import tempfile
import time
from typing import NamedTuple

sys.dont_write_bytecode = True
from opening import row

QUERY = "SELECT p, COUNT(*) AS n, SUM(b) AS s FROM t GROUP BY p;\n"
NOTHING = "SELECT 1 AS one;\n"


class Ran(NamedTuple):
    """What a run printed, its processor seconds, and the most memory that it had, in bytes."""

    lines: list
    seconds: float
    memory: int


def most_memory(pid):
    try:
        with open(f"/proc/{pid}/status", encoding="ascii") as status:
            return next((int(line.split()[1]) * 1024 for line in status if line.startswith("VmHWM:")), 0)
    except OSError:
        return 0


def run(program, folder, place, text):
    with open(f"{place}/script", "w", encoding="ascii") as script:
        script.write(text)
    with open(f"{place}/script", "rb") as script, open(f"{place}/printed", "wb") as printed:
        child = subprocess.Popen([program, folder, "run"], stdin=script, stdout=printed, stderr=subprocess.DEVNULL)
        memory, ended = 0, 0
        while not ended:
            memory = max(memory, most_memory(child.pid))
            time.sleep(0.002)
            ended, status, used = os.wait4(child.pid, os.WNOHANG)
    child.returncode = os.waitstatus_to_exitcode(status)
    with open(f"{place}/printed", encoding="utf-8") as printed:
        lines = printed.read().splitlines()
    if child.returncode:
        sys.exit(f"status {child.returncode}: {lines[-3:]}")
    return Ran(lines, used.ru_utime + used.ru_stime, memory)


def least(program, folder, place, text, rounds=5):
    """The run of least seconds of several."""
    return min((run(program, folder, place, text) for _ in range(rounds)), key=lambda one: one.seconds)


def statements(rows, inserts, partitions):
    yield "CREATE TABLE t (a INT, b BIGINT, c STRING, d INT) PARTITIONED BY (p INT);\n"
    for part in range(inserts):
        values = (row(number) for number in range(part * rows // inserts, (part + 1) * rows // inserts))
        yield "INSERT INTO t VALUES " + ", ".join(f"({a}, {b}, '{c}', {d}, {a % partitions})" for a, b, c, d in values) + ";\n"


def make(program, folder, place, texts):
    """Does the statements in runs of as many as a script may hold."""
    script = ""
    for text in [*texts, None]:
        if text is None or len(script) + len(text) > 15 << 20:
            run(program, folder, place, script)
            script = ""
        script += text or ""


def files(folder):
    """The sizes of the files of tables, largest first."""
    found = [os.path.join(at, name) for at, _, names in os.walk(folder) for name in names if at != folder]
    return sorted((os.path.getsize(path) for path in found), reverse=True)


class Round(NamedTuple):
    """The processor seconds of a round, opening apart, the memory of its compactions, what files it left, and what was wrong."""

    compact: float
    clean: float
    memory: int
    before: float
    after: float
    made: list
    wrong: list


def play(program, folder, place, partitions):
    opened = least(program, folder, place, NOTHING)
    before = least(program, folder, place, QUERY)
    opening = run(program, folder, place, NOTHING)
    compacted = run(program, folder, place, "!compact\n" * partitions)
    cleaned = run(program, folder, place, "!clean\n")
    opened_then = least(program, folder, place, NOTHING)
    after = least(program, folder, place, QUERY)
    listed = run(program, folder, place, "SHOW COMPACTIONS;\n").lines[1:]
    made, wrong = files(folder), []
    if sorted(before.lines) != sorted(after.lines) or len(after.lines) != partitions + 1:
        wrong.append("the query answers otherwise")
    if sum(line.split("\t")[3:5] == ["major", "succeeded"] for line in listed) != partitions or len(listed) != partitions:
        wrong.append(f"not all were major ones that succeeded: {listed[:3]}")
    if len(made) != partitions:
        wrong.append(f"{len(made)} files are left")
    return Round(compacted.seconds - opening.seconds, cleaned.seconds - opening.seconds, compacted.memory - opening.memory,
                 before.seconds - opened.seconds, after.seconds - opened_then.seconds, made, wrong)


def main(words):
    if not 2 <= len(words) <= 6:
        print(__doc__, file=sys.stderr)
        return 2
    program, folder = os.path.abspath(words[0]), words[1]
    rows, inserts, partitions, rounds = [int(word) for word in words[2:]] + [100000, 143, 28, 3][len(words) - 2 :]
    os.makedirs(folder, exist_ok=True)
    if not os.path.exists(f"{folder}/wh"):
        make(program, f"{folder}/wh", folder, statements(rows, inserts, partitions))
    sizes = files(f"{folder}/wh")
    print(f"{rows} rows in {len(sizes)} files of {partitions} partitions, {sum(sizes)} bytes", flush=True)
    print(f"{'jobs':>8} {'rows/s':>9} {'clean':>8} {'query':>8} {'after':>8} {'times':>6} {'memory':>10} {'largest':>9} {'times':>6}")
    wrong = []
    for _ in range(rounds):
        with tempfile.TemporaryDirectory(dir=folder) as place:
            shutil.copytree(f"{folder}/wh", f"{place}/wh")
            one = play(program, f"{place}/wh", place, partitions)
        speed, faster = rows / max(one.compact, 0.001), one.before / max(one.after, 0.001)
        largest = one.made[0]
        print(f"{one.compact:8.3f} {speed:9.0f} {one.clean:8.3f} {one.before:8.3f} {one.after:8.3f} {faster:6.1f}"
              f" {one.memory:10} {largest:9} {one.memory / largest:6.1f}", flush=True)
        wrong += one.wrong
    for line in wrong:
        print(line)
    return 1 if wrong else 0


if __name__ == "__main__":
    sys.exit(main(sys.argv[1:]))
