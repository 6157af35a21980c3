#!/usr/bin/env python3
"""queries: what queries over a folder cost, beside SQLite over a file of the same rows.

usage: queries.py PROGRAM FOLDER [ROWS [FILES [ROUNDS]]]

PROGRAM is the built program (`./hive-run --path`), FOLDER as of opening.py, which makes it where it isn't there:
ROWS rows (200,000) of (INT, BIGINT, STRING, INT) by FILES statements (286). Needs the command `sqlite3`. Each query is
a run of its own, ROUNDS times (7) of each in turn, of which the least processor seconds count. What opening takes, a
run of `SELECT 1 AS one` of each, is told first and taken off the queries of each. What both print is compared, as
lines in any order; a query at which they differ is marked, and the status is 1 then. The last column is the memory
that a query takes beyond opening, in bytes for each row of the table.
"""
import os
import subprocess
import sys
import tempfile

sys.dont_write_bytecode = True
from opening import make
from runs import run

QUERIES = [
    ("count all", "SELECT COUNT(*) AS n FROM t"),
    ("filter and count", "SELECT COUNT(*) AS n FROM t WHERE d < 30 AND b % 7 = 3"),
    ("LIKE and count", "SELECT COUNT(*) AS n FROM t WHERE c LIKE 'item 1%of 7'"),
    ("groups by 4", "SELECT d % 4 AS g, COUNT(*) AS n, SUM(b) AS s FROM t GROUP BY d % 4"),
    ("groups by 2,000", "SELECT a % 2000 AS g, COUNT(*) AS n, SUM(b) AS s FROM t GROUP BY a % 2000"),
    ("join, row by row", "SELECT COUNT(*) AS n, SUM(x.b) AS s FROM t x JOIN t y ON x.a = y.a"),
    ("ORDER BY, LIMIT 10", "SELECT c, a FROM t ORDER BY c DESC, a LIMIT 10"),
    ("DISTINCT", "SELECT DISTINCT c FROM t"),
    ("sort of all", "SELECT b, a, c, d FROM t ORDER BY b"),
    ("list all", "SELECT * FROM t"),
]


def lines(path, skipped):
    """A sum over the lines of a file, in any order, without the first ones."""
    words = f"tail -n +{skipped + 1} '{path}' | LC_ALL=C sort | sha256sum"
    return subprocess.run(["bash", "-c", words], stdout=subprocess.PIPE, check=True).stdout


def both(program, folder, place, query, rounds):
    """What the query costs here and with SQLite, least of the rounds, and whether both print the same."""
    with open(f"{place}/script", "w", encoding="utf-8") as script:
        script.write(query + ";\n")
    ours, theirs = [], []
    for _ in range(rounds):
        ours.append(run([program, f"{folder}/wh", "run"], f"{place}/script", f"{place}/ours"))
        theirs.append(run(["sqlite3", "-batch", "-noheader", "-separator", "\t", f"{folder}/rows.db"], f"{place}/script", f"{place}/theirs"))
    same = all(one.status == 0 for one in ours + theirs) and lines(f"{place}/ours", 1) == lines(f"{place}/theirs", 0)
    return [(min(one.seconds for one in runs), min(one.megabytes for one in runs)) for runs in (ours, theirs)], same


def main(words):
    if not 2 <= len(words) <= 5:
        print(__doc__, file=sys.stderr)
        return 2
    program, folder = os.path.abspath(words[0]), words[1]
    rows, files, rounds = ([int(word) for word in words[2:]] + [200000, 286, 7][len(words) - 2:])
    os.makedirs(folder, exist_ok=True)
    make(program, folder, rows, files)
    wrong = 0
    with tempfile.TemporaryDirectory() as place:
        (opened, base), same = both(program, folder, place, "SELECT 1 AS one", rounds)
        print(f"opening: {opened[0]:.3f} s {opened[1]:.0f} MB; SQLite {base[0]:.3f} s {base[1]:.0f} MB")
        print(f"{'query':20} {'here':>8} {'SQLite':>8} {'times':>6} {'bytes a row':>12}")
        for name, query in QUERIES:
            (ours, theirs), same = both(program, folder, place, query, rounds)
            here, there = max(ours[0] - opened[0], 0.001), max(theirs[0] - base[0], 0.001)
            memory = (ours[1] - opened[1]) * 1048576 / rows
            print(f"{name:20} {here:8.3f} {there:8.3f} {here / there:6.2f} {memory:12.0f}{'' if same else '  NOT THE SAME'}", flush=True)
            wrong += not same
    return 1 if wrong else 0


if __name__ == "__main__":
    sys.exit(main(sys.argv[1:]))
