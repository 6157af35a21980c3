#!/usr/bin/env python3
"""random_compactions: whether compactions and passes change an answer, in random scripts of several sessions.

usage: random_compactions.py PROGRAM [ROUNDS [SEED]]

PROGRAM is the built program (`./hive-run --path`). In each of ROUNDS rounds (100) a script is made of statements of four
sessions, some of them held and released later, over a table and one with partitions and buckets: inserts, updates,
deletes, merges, overwrites, truncations, drops and aborts of each other's transactions. It is run over a new folder, and
once more over another one with `!compact` and `!clean` between its items at random: directives take no transaction, so
both must print the same bytes and end with the same status. Then each folder is read, compacted and cleaned to the end,
and read again. What differs is printed with both scripts, and the status is 1. The last line says how many compactions
came to what.
"""
import os
import random
import subprocess
import sys
import tempfile
from collections import Counter

SESSIONS = ["ada", "bo", "cy", "main"]
TABLES = {
    "t": "CREATE TABLE t (a INT, b INT)",
    "p": "CREATE TABLE p (a INT, b INT) PARTITIONED BY (k INT) CLUSTERED BY (a) INTO 2 BUCKETS",
}
READ = "SELECT * FROM t; SELECT * FROM p; SELECT k, COUNT(*) AS n, SUM(b) AS s FROM p GROUP BY k;"


def rows(pick, table):
    def one():
        values = [pick.randrange(6), pick.randrange(100)] + ([pick.randrange(3)] if table == "p" else [])
        return "(" + ", ".join(map(str, values)) + ")"

    return ", ".join(one() for _ in range(pick.randrange(1, 4)))


def condition(pick, table):
    return pick.choice(["a = {}", "a < {}", "b > {}", "a + b = {}"] + ["k = {}"] * (table == "p")).format(pick.randrange(6))


def statement(pick, opened):
    """A statement over one of the tables; `opened` is how many were opened before it, at most."""
    table = pick.choice(["t", "p", "p"])
    other = "t" if table == "p" else "p"
    taken = "a, b" + ", {}".format(pick.randrange(3)) * (table == "p")
    return pick.choice([
        *[f"INSERT INTO {table} VALUES {rows(pick, table)}"] * 6,
        *[f"UPDATE {table} SET b = b + 1 WHERE {condition(pick, table)}"] * 3,
        *[f"DELETE FROM {table} WHERE {condition(pick, table)}"] * 2,
        f"MERGE INTO {table} USING (SELECT a, max(b) AS b FROM {other} GROUP BY a) AS s ON {table}.a = s.a "
        f"WHEN MATCHED AND s.b > 50 THEN DELETE WHEN MATCHED THEN UPDATE SET b = s.b "
        f"WHEN NOT MATCHED THEN INSERT VALUES (s.a, s.b{', 1' if table == 'p' else ''})",
        f"INSERT INTO {table} SELECT {taken} FROM {other} WHERE {condition(pick, other)}",
        f"INSERT OVERWRITE TABLE {table} SELECT {taken} FROM {table} WHERE {condition(pick, table)}",
        "TRUNCATE TABLE t" if table == "t" else f"TRUNCATE TABLE p PARTITION (k = {pick.randrange(3)})",
        *[f"SELECT * FROM {table}"] * 4,
        f"SELECT x.a, x.b, y.b AS c FROM t x JOIN p y ON x.a = y.a WHERE {condition(pick, 't').replace('a ', 'x.a ').replace('b ', 'x.b ')}",
        f"ABORT TRANSACTIONS {max(1, opened - pick.randrange(6))}",
        *[f"DROP TABLE {table}", TABLES[table]] * (pick.random() < 0.2),
    ])


def script(pick, steps):
    """The items of a script, each one line or a hold with its statement."""
    items = [TABLES["t"] + ";", TABLES["p"] + ";", f"SET hive.compactor.delta.num.threshold={pick.randrange(4)};",
             f"SET hive.compactor.delta.pct.threshold={pick.choice(['0.5', '5', '999', '999'])};"]
    held, opened = [], len(items)
    for _ in range(steps):
        if held and pick.random() < 0.3:
            items.append("!go " + held.pop(pick.randrange(len(held))))
            continue
        session = pick.choice([name for name in SESSIONS if name not in held])
        items.append("!session " + session)
        said = statement(pick, opened) + ";"
        opened += 1
        if len(held) < 3 and pick.random() < 0.4:
            said = f"!hold {pick.choice(['start', 'read', 'commit'])}\n" + said
            held.append(session)
        items.append(said)
    return items + ["!go " + session for session in held]


def with_passes(pick, items):
    found = []
    for item in items:
        while pick.random() < 0.35:
            found.append(pick.choice(["!compact", "!compact", "!clean"]))
        found.append(item)
    return found


def run(program, folder, text):
    ran = subprocess.run([program, folder, "run"], input=text.encode(), stdout=subprocess.PIPE, stderr=subprocess.DEVNULL, timeout=600)
    return ran.returncode, ran.stdout.decode()


def round_of(program, seed, came):
    pick = random.Random(seed)
    plain = script(pick, pick.randrange(10, 60))
    passes = with_passes(pick, plain)
    with tempfile.TemporaryDirectory() as place:
        one, two = f"{place}/one", f"{place}/two"
        texts = ["\n".join(items) + "\n" for items in (plain, passes)]
        answers = [run(program, one, texts[0]), run(program, two, texts[1])]
        found = [run(program, folder, READ) for folder in (one, two)]
        run(program, two, "SET hive.compactor.delta.num.threshold=1;\n" + "!compact\n" * 12 + "!clean\n")
        found.append(run(program, two, READ))
        listed = run(program, two, "SHOW COMPACTIONS;")[1].splitlines()[1:]
    came.update(" ".join(line.split("\t")[3:5]) for line in listed)
    is_so = answers[0] == answers[1] and answers[0][0] < 2 and found[0] == found[1] == found[2]
    if not is_so:
        print(f"seed {seed}: not the same\n---- without\n{texts[0]}---- {answers[0]}\n---- with\n{texts[1]}---- {answers[1]}\n---- then {found}")
    return is_so


def main(words):
    if not 1 <= len(words) <= 3:
        print(__doc__, file=sys.stderr)
        return 2
    program = os.path.abspath(words[0])
    rounds, seed = [int(word) for word in words[1:]] + [100, 1][len(words) - 1 :]
    came, wrong = Counter(), 0
    for number in range(seed, seed + rounds):
        wrong += not round_of(program, number, came)
    print(f"{rounds} rounds, {wrong} not the same; compactions: " + ", ".join(f"{count} {what}" for what, count in sorted(came.items())))
    return 1 if wrong else 0


if __name__ == "__main__":
    sys.exit(main(sys.argv[1:]))
