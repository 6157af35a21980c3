#!/usr/bin/env python3
"""partitions: what a statement costs that needs one of 28 partitions, beside one that needs all.

usage: partitions.py PROGRAM FOLDER [ROUNDS [TIMES]]

PROGRAM is the built program (`./hive-run --path`). FOLDER/wh is made first where it isn't there: 100,100 rows of (INT,
STRING, BIGINT) in 28 partitions of 4 buckets, by 143 INSERTs of 700 rows, 4,004 files. Then a SELECT, an UPDATE and a
DELETE, each once of one partition and once of all, ROUNDS times (5), each over a copy of that folder and a run of its
own; the least processor seconds count, and what a run of `SELECT 1` takes is told first and taken off. Where TIMES is
above 1 (1), a run does its statement so many times, each DELETE of other rows, and what one of them takes is told.
"""
import os
import shutil
import sys

sys.dont_write_bytecode = True
from runs import run

STATEMENTS = [
    ("SELECT", "SELECT COUNT(*) AS n, SUM(b) AS s FROM p"),
    ("UPDATE", "UPDATE p SET b = b + 1"),
    ("DELETE", "DELETE FROM p"),
]


def script(name, statement, wanted, times):
    """The statement so many times; a DELETE takes the rows of one remainder at each."""
    for turn in range(times):
        conditions = [*wanted, *([f"a DIV 28 % {times} = {turn}"] if name == "DELETE" and times > 1 else [])]
        yield statement + (" WHERE " + " AND ".join(conditions) if conditions else "") + ";"


def told(program, folder, store, text):
    """A run of these statements over the store, which none of them may fail."""
    with open(f"{folder}/script", "w") as file:
        file.write(text)
    done = run([program, f"{folder}/{store}", "run"], f"{folder}/script", f"{folder}/printed")
    if done.status:
        sys.exit(f"status {done.status}: {done.last}")
    return done.seconds


def make(program, folder):
    if os.path.exists(f"{folder}/wh"):
        return
    text = ["CREATE TABLE p (a INT, s STRING, b BIGINT) PARTITIONED BY (k INT) CLUSTERED BY (a) INTO 4 BUCKETS;"]
    for part in range(143):
        rows = (f"({n}, 'row {n % 97}', {n * 1000003}, {n % 28})" for n in range(part * 700, part * 700 + 700))
        text.append("INSERT INTO p VALUES " + ", ".join(rows) + ";")
    told(program, folder, "wh", "\n".join(text))


def cost(program, folder, rounds, text):
    least = None
    for _ in range(rounds):
        shutil.rmtree(f"{folder}/copy", ignore_errors=True)
        shutil.copytree(f"{folder}/wh", f"{folder}/copy")
        seconds = told(program, folder, "copy", text)
        least = seconds if least is None else min(least, seconds)
    return least


def main():
    program, folder = sys.argv[1:3]
    rounds = int(sys.argv[3]) if len(sys.argv) > 3 else 5
    times = int(sys.argv[4]) if len(sys.argv) > 4 else 1
    os.makedirs(folder, exist_ok=True)
    make(program, folder)
    opening = cost(program, folder, rounds, "SELECT 1 AS one;")
    print(f"opening {opening:.3f} s; behind it, in processor seconds:")
    for name, statement in STATEMENTS:
        one, every = (
            (cost(program, folder, rounds, "\n".join(script(name, statement, wanted, times))) - opening) / times
            for wanted in (["k = 5"], [])
        )
        print(f"{name}: one of 28 {one:.3f}, all {every:.3f}, {every / one if one > 0 else 0:.1f} times")


main()
