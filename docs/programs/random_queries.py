#!/usr/bin/env python3
"""random_queries: queries at random, by one worker and by several.

usage: random_queries.py PROGRAM [COUNT] [SEED]

PROGRAM is the built program of tests_types. It analyses each line, runs each query over 13 rows made for each
table by one worker and by 1, 3 and 8 in parts of one row, and says where the rows differ. COUNT queries (400) of
every form are written: conditions, joins of each kind with a residue, groups with HAVING, DISTINCT, unions,
subqueries in FROM, lateral views, ORDER BY with LIMIT. A query that is refused doesn't count;
so many are written that COUNT are run. The status is 1 where rows differ, where a line is no statement, or where
the program's own count isn't COUNT.
"""
import random
import re
import subprocess
import sys

TABLES = [
    "CREATE TABLE t (b BOOLEAN, i INT, l BIGINT, s STRING, d DATE, a ARRAY<INT>)",
    "CREATE TABLE u (k INT, v STRING)",
    "CREATE TABLE w (k INT, m BIGINT, e DATE)",
]
COLUMNS = {
    "t": {"b": "truth", "i": "number", "l": "number", "s": "text", "d": "day"},
    "u": {"k": "number", "v": "text"},
    "w": {"k": "number", "m": "number", "e": "day"},
}
LITERALS = {
    "truth": ["TRUE", "FALSE", "NULL"],
    "number": ["0", "1", "2", "-1", "1L", "NULL"],
    "text": ["''", "'1'", "'x'", "NULL"],
    "day": ["DATE '1970-01-01'", "DATE '1970-01-02'", "NULL"],
}
REFUSED = re.compile(r"\d+ [A-Z]\w+$")
COMPARED = ["=", "<>", "<", "<=", ">", ">=", "<=>"]


def columns(sources, kind=None):
    """The columns that can be named, by the sources' names and tables."""
    return [f"{name}.{column}" for name, table in sources for column, of in COLUMNS[table].items()
            if kind in (None, of)]


def value(rng, sources, kind, deep=0):
    """An expression of a kind."""
    found = columns(sources, kind)
    turn = rng.random()
    if deep < 2 and turn < 0.25:
        if kind == "number":
            return f"({value(rng, sources, kind, deep + 1)} {rng.choice('+-*')} {value(rng, sources, kind, deep + 1)})"
        if kind == "text":
            return f"concat({value(rng, sources, kind, deep + 1)}, {value(rng, sources, kind, deep + 1)})"
        if kind == "truth":
            return condition(rng, sources, deep + 1)
        return f"date_add({value(rng, sources, kind, deep + 1)}, 1)"
    if deep < 2 and turn < 0.35:
        return (f"CASE WHEN {condition(rng, sources, deep + 1)} THEN {value(rng, sources, kind, deep + 1)} "
                f"ELSE {value(rng, sources, kind, deep + 1)} END")
    if found and turn < 0.9:
        return rng.choice(found)
    return rng.choice(LITERALS[kind][:-1])


def condition(rng, sources, deep=0):
    """A condition over these sources."""
    turn = rng.random()
    if deep < 2 and turn < 0.3:
        return f"({condition(rng, sources, deep + 1)} {rng.choice(['AND', 'OR'])} {condition(rng, sources, deep + 1)})"
    if deep < 2 and turn < 0.4:
        return f"NOT ({condition(rng, sources, deep + 1)})"
    kind = rng.choice(["number", "number", "text", "day"])
    left = value(rng, sources, kind, 1)
    if turn < 0.5:
        return f"{left} IS {rng.choice(['', 'NOT '])}NULL"
    if turn < 0.6:
        few = ", ".join(rng.choice(LITERALS[kind]) for _ in range(rng.randrange(1, 4)))
        return f"{left} {rng.choice(['', 'NOT '])}IN ({few})"
    if kind == "text" and turn < 0.7:
        return f"{left} LIKE '{rng.choice(['%', 'x%', '_', '%1%'])}'"
    return f"{left} {rng.choice(COMPARED)} {value(rng, sources, kind, 1)}"


def joined(rng, sources, name):
    """One more join, behind these sources; a semi join's table can't be named behind it."""
    table = rng.choice(list(COLUMNS))
    both = sources + [(name, table)]
    kind = rng.choice(["number", "text", "day"] if table == "t" else ["number", "text" if table == "u" else "day"])
    mine, others = columns([(name, table)], kind), columns(sources, kind)
    if not others:
        kind = "number"
        mine, others = columns([(name, table)], kind), columns(sources, kind)
    if not others or rng.random() < 0.1:
        return f"CROSS JOIN {table} {name}", both
    on = f"{rng.choice(others)} = {rng.choice(mine)}"
    how = rng.choice(["JOIN", "LEFT JOIN", "RIGHT JOIN", "FULL JOIN", "LEFT SEMI JOIN"])
    if how in ("JOIN", "LEFT JOIN") and rng.random() < 0.3:
        on += f" AND {condition(rng, both, 2)}"
    return f"{how} {table} {name} ON {on}", sources if how == "LEFT SEMI JOIN" else both


def source(rng):
    """FROM, and what can be named behind it."""
    table = rng.choice(list(COLUMNS))
    sources, text = [("x", table)], f"{table} x"
    if rng.random() < 0.15:
        text = f"(SELECT * FROM {table} WHERE {condition(rng, [(table, table)], 2)}) x"
    for place in range(rng.choice([0, 0, 1, 1, 2])):
        more, sources = joined(rng, sources, f"j{place}")
        text += " " + more
    if sources[0] == ("x", "t") and len(sources) == 1 and rng.random() < 0.2:
        text += " LATERAL VIEW EXPLODE(x.a) y AS z"
    return text, sources


def filtered(rng, sources):
    """WHERE, or nothing."""
    if rng.random() < 0.4:
        return ""
    return f" WHERE {condition(rng, sources)}"


def ordered(rng, count):
    """ORDER BY every item, so that the rows' order is one, and LIMIT, or nothing."""
    turn = rng.random()
    if turn < 0.3:
        return ""
    keys = list(range(count))
    rng.shuffle(keys)
    text = " ORDER BY " + ", ".join(f"c{key}{rng.choice(['', ' ASC', ' DESC'])}" for key in keys)
    return text + (f" LIMIT {rng.choice([0, 1, 3, 7, 100])}" if turn < 0.7 else "")


def plain(rng):
    """A select without groups."""
    text, sources = source(rng)
    count = rng.randrange(1, 4)
    items = ", ".join(f"{value(rng, sources, rng.choice(list(LITERALS)))} AS c{place}" for place in range(count))
    return f"SELECT {rng.choice(['', '', 'DISTINCT '])}{items} FROM {text}{filtered(rng, sources)}", count


def grouped(rng):
    """A select with groups."""
    text, sources = source(rng)
    keys = [value(rng, sources, rng.choice(list(LITERALS)), 1) for _ in range(rng.choice([0, 1, 1, 2]))]
    keys = [key for key in keys if "." in key]
    calls = ["count(*)"]
    for _ in range(rng.randrange(1, 3)):
        of = value(rng, sources, "number", 1)
        calls.append(rng.choice([f"sum({of})", f"min({of})", f"max({of})", f"count({of})", f"count(DISTINCT {of})",
                                 f"avg({of})"]))
    items = keys + calls
    shown = ", ".join(f"{item} AS c{place}" for place, item in enumerate(items))
    query = f"SELECT {shown} FROM {text}{filtered(rng, sources)}"
    if keys:
        query += f" GROUP BY {', '.join(keys)}"
        if rng.random() < 0.4:
            query += f" HAVING count(*) {rng.choice(COMPARED[:6])} {rng.randrange(1, 4)}"
    return query, len(items)


def query(rng):
    """A query of any form."""
    turn = rng.random()
    if turn < 0.12:
        union = rng.choice(["UNION ALL", "UNION"])
        kinds = [rng.choice(list(LITERALS)) for _ in range(rng.randrange(1, 3))]
        arms = []
        for _ in range(rng.randrange(2, 4)):
            text, sources = source(rng)
            items = ", ".join(f"{value(rng, sources, kind)} AS c{place}" for place, kind in enumerate(kinds))
            arms.append(f"SELECT {items} FROM {text}{filtered(rng, sources)}")
        return f" {union} ".join(arms) + ordered(rng, len(kinds))
    text, count = grouped(rng) if turn < 0.5 else plain(rng)
    return text + ordered(rng, count)


def main():
    if len(sys.argv) < 2:
        sys.exit(__doc__)
    count = int(sys.argv[2]) if len(sys.argv) > 2 else 400
    rng = random.Random(int(sys.argv[3]) if len(sys.argv) > 3 else 1)
    lines, good, wrong = [], [], []
    while len(good) < count:
        batch = [query(rng) for _ in range(count)]
        done = subprocess.run([sys.argv[1]], input="\n".join(TABLES + batch) + "\n", text=True, capture_output=True)
        answers = done.stdout.splitlines()[len(TABLES):-1]
        if done.returncode or len(answers) != len(batch):
            sys.exit(f"the program ended with {done.returncode} behind {len(answers)} of {len(batch)} lines")
        for line, answer in zip(batch, answers):
            lines.append(answer)
            if answer == "no statement" or "other rows by several workers" in answer:
                wrong.append((line, answer))
            elif not REFUSED.match(answer):
                good.append(line)
    good = good[:count]
    done = subprocess.run([sys.argv[1]], input="\n".join(TABLES + good) + "\n", text=True, capture_output=True)
    said = done.stdout.splitlines()[-1]
    for line, answer in wrong:
        print(f"{answer}\n    {line}")
    print(f"{len(lines)} written, {sum(bool(REFUSED.match(answer)) for answer in lines)} refused; over {count}: {said}")
    sys.exit(1 if wrong or f"the same rows of {count} queries" not in said else 0)


if __name__ == "__main__":
    main()
