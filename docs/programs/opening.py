#!/usr/bin/env python3
"""opening: what it costs to open a folder of many INSERTs, beside SQLite over a file of the same rows.

usage: opening.py PROGRAM FOLDER [ROWS [FILES]]

PROGRAM is the built program (`./hive-run --path`). FOLDER/wh and FOLDER/rows.db are made first where they aren't
there: ROWS rows (200,000) of (INT, BIGINT, STRING, INT) by FILES statements (286). Then each is opened ten times
and asked for nothing (the program runs an empty script, SQLite reads its schema), and once for a count of all rows.
Printed are the least processor seconds and the most memory.
"""
import os
import resource
import sqlite3
import subprocess
import sys


def row(number):
    return number, number * 1000003 % 2**40, f"item {number % 997:03} of {number % 13}", number % 100


def statements(rows, files):
    yield "CREATE TABLE t (a INT, b BIGINT, c STRING, d INT);"
    for part in range(files):
        values = (row(number) for number in range(part * rows // files, (part + 1) * rows // files))
        yield "INSERT INTO t VALUES " + ", ".join(f"({a}, {b}, '{c}', {d})" for a, b, c, d in values) + ";"


def scripts(rows, files):
    """The statements as scripts, none of them longer than a script may be."""
    script, length = [], 0
    for statement in statements(rows, files):
        if len(statement) > 32768:
            sys.exit(f"a statement of {len(statement)} bytes: say more FILES")
        if length + len(statement) > 15 << 20:
            yield "\n".join(script)
            script, length = [], 0
        script.append(statement)
        length += len(statement) + 1
    yield "\n".join(script)


def make(program, folder, rows, files):
    if not os.path.exists(f"{folder}/wh"):
        for script in scripts(rows, files):
            subprocess.run([program, f"{folder}/wh", "run"], input=script.encode(), stdout=subprocess.DEVNULL, check=True)
    if not os.path.exists(f"{folder}/rows.db"):
        base = sqlite3.connect(f"{folder}/rows.db")
        base.execute("CREATE TABLE t (a INTEGER, b INTEGER, c TEXT, d INTEGER)")
        base.executemany("INSERT INTO t VALUES (?, ?, ?, ?)", (row(number) for number in range(rows)))
        base.commit()
        base.close()


def cost(words, text):
    """The processor seconds and the megabytes of one run."""
    read, write = os.pipe()
    child = os.fork()
    if child == 0:
        os.close(read)
        subprocess.run(words, input=text, stdout=subprocess.DEVNULL, stderr=subprocess.DEVNULL)
        used = resource.getrusage(resource.RUSAGE_CHILDREN)
        os.write(write, f"{used.ru_utime + used.ru_stime} {used.ru_maxrss / 1024}".encode())
        os._exit(0)
    os.close(write)
    with os.fdopen(read) as told:
        seconds, megabytes = told.read().split()
    os.waitpid(child, 0)
    return float(seconds), float(megabytes)


def least(words, text, rounds=10):
    runs = [cost(words, text) for _ in range(rounds)]
    return f"{min(run[0] for run in runs):.3f} s, {max(run[1] for run in runs):.0f} MB"


def main(words):
    if not 2 <= len(words) <= 4:
        print(__doc__, file=sys.stderr)
        return 2
    program, folder = os.path.abspath(words[0]), words[1]
    rows = int(words[2]) if len(words) > 2 else 200000
    files = int(words[3]) if len(words) > 3 else 286
    os.makedirs(folder, exist_ok=True)
    make(program, folder, rows, files)
    print(f"journal: {os.path.getsize(f'{folder}/wh/journal')} bytes")
    ours = [program, f"{folder}/wh", "run"]
    theirs = [sys.executable, "-c", "import sqlite3, sys; print(sqlite3.connect(sys.argv[1]).execute(sys.argv[2]).fetchall())",
              f"{folder}/rows.db"]
    print("opened:          ", least(ours, b""))
    print("opened by SQLite:", least(theirs + ["SELECT name FROM sqlite_master"], b""), "(Python's own start included)")
    print("counted:          ", least(ours, b"SELECT COUNT(*) FROM t;\n"))
    print("counted by SQLite:", least(theirs + ["SELECT COUNT(*) FROM t"], b""), "(Python's own start included)")
    return 0


if __name__ == "__main__":
    sys.exit(main(sys.argv[1:]))
