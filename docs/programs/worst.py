#!/usr/bin/env python3
"""worst: what one text can ask for, in processor seconds and megabytes, and how that grows with the text.

usage: worst.py PROGRAM [ROUNDS [WORD]]

PROGRAM is the built program (`./hive-run --path`). Each case runs in a new folder, ROUNDS times (3), of which the
least counts; with WORD only the cases whose name has that word. A case is a family of texts that grow; what a run of
nothing takes is told first and taken off where growth is told: `x 2.0` beside a text of twice the size is linear, and
`x 4.0` squared (of less than 0.02 s nothing is said). A case that ends otherwise than it is to is marked `NOT SO`, and the status is 1 then.
No text is longer than the 32,768 bytes that a statement may have.
"""
import os
import shutil
import sys
import tempfile

sys.dont_write_bytecode = True
from runs import least, run

MOST = 32768


def columns(width):
    return ", ".join(f"c{number} INT" for number in range(width))


def from_case(width, joined, rows):
    """A count over so many sources of `width` columns, the table with so many rows."""

    def texts(count):
        statements = [f"CREATE TABLE t ({columns(width)})"]
        if rows:
            row = "(" + ", ".join(["0"] * width) + ")"
            statements.append("INSERT INTO t VALUES " + ", ".join([row] * rows))
        text = "SELECT count(*) AS n FROM t a0" + "".join(joined(number) for number in range(1, count))
        return statements + [text], str(rows)

    return texts


def by_comma(number):
    return f",t a{number}"


def by_on_before(number):
    return f" JOIN t a{number} ON a{number}.c0=a{number - 1}.c0"


def by_on_first(number):
    return f" JOIN t a{number} ON a{number}.c63=a0.c63"


def by_left(number):
    return f" LEFT JOIN t a{number} ON 1=1"


def by_full(number):
    return f" FULL JOIN t a{number} ON 1=1"


def by_semi(number):
    return f" LEFT SEMI JOIN t a{number} ON a{number}.c0=a0.c0"


def stars(count):
    """As many `*` as sources of one column."""
    sources = "".join(by_comma(number) for number in range(1, count))
    return ["CREATE TABLE t (a INT)", "SELECT " + "*," * (count - 1) + "* FROM t a0" + sources], "FAILED 19 Limit"


def whole(count):
    """`*` over sources of one column, up to as many as a select may show."""
    sources = "".join(by_comma(number) for number in range(1, count))
    names = "\t".join(["a"] * count)
    return ["CREATE TABLE t (a INT)", f"SELECT * FROM t a0{sources}"], names


def instr(shape):
    def texts(size):
        text, part = shape(size)
        return [f"SELECT instr('{text}', '{part}') AS n"], str(text.find(part) + 1)

    return texts


def fibonacci(size):
    one, other = "b", "a"
    while len(other) < size:
        one, other = other, other + one
    return other[:size]


def doubled(size):
    """A text of 8,000 letters, doubled up to that size, in which a part of 4,000 isn't."""
    inner = "SELECT '" + "a" * 8000 + "' AS x"
    for _ in range((size // 8000).bit_length() - 1):
        inner = f"SELECT concat(x, x) AS x FROM ({inner}) s"
    return [f"SELECT instr(x, '{'a' * 2000}b{'a' * 2000}') AS n FROM ({inner}) s"], "0"


def like(text, pattern, answer):
    def texts(size):
        return [f"SELECT '{text(size)}' LIKE '{pattern(size)}' AS n"], answer

    return texts


def wide_union(count):
    """So many selects of 1,024 columns."""
    one = "SELECT * FROM " + ",".join(f"t {letter}" for letter in "abcdefghijklmnop")
    names = "\t".join([f"c{number}" for number in range(64)] * 16)
    return [f"CREATE TABLE t ({columns(64)})", " UNION ALL ".join([one] * count)], names


BIG = (250, 500, 1000, 2000)
CASES = [
    ("FROM: sources of 64 columns, by commas, no row", BIG, from_case(64, by_comma, 0)),
    ("FROM: the same, one row", BIG, from_case(64, by_comma, 1)),
    ("FROM: sources of 1 column, by commas, no row", BIG, from_case(1, by_comma, 0)),
    ("FROM: JOIN, ON names the source before, 64 columns, one row", (250, 500, 1000), from_case(64, by_on_before, 1)),
    ("FROM: JOIN, ON names the first source, 64 columns, one row", (250, 500, 1000), from_case(64, by_on_first, 1)),
    ("FROM: LEFT JOIN ON 1=1, 64 columns, one row", (250, 500, 1000), from_case(64, by_left, 1)),
    ("FROM: FULL JOIN ON 1=1, 64 columns, one row", (250, 500, 1000), from_case(64, by_full, 1)),
    ("FROM: LEFT SEMI JOIN, 64 columns, one row", (200, 400, 800), from_case(64, by_semi, 1)),
    ("stars: as many as sources", (500, 1000, 2000), stars),
    ("stars: one over sources of one column", (256, 512, 1024), whole),
    ("instr: a..a in which a..ab isn't", (5000, 10000, 20000), instr(lambda n: ("a" * n, "a" * (n // 2) + "b"))),
    ("instr: a..a in which ba..a isn't", (5000, 10000, 20000), instr(lambda n: ("a" * n, "b" + "a" * (n // 2)))),
    ("instr: a..a in which a..aba..a isn't", (5000, 10000, 20000), instr(lambda n: ("a" * n, "a" * (n // 4) + "b" + "a" * (n // 4)))),
    ("instr: a..ab again and again, a part with one a more", (5000, 10000, 20000), instr(lambda n: (("a" * 50 + "b") * (n // 51), ("a" * 50 + "b") * (n // 102) + "a" * 51))),
    ("instr: a Fibonacci word, a part with its last letter turned", (5000, 10000, 20000), instr(lambda n: (fibonacci(n), fibonacci(n // 2)[:-1] + ("a" if fibonacci(n // 2)[-1] == "b" else "b")))),
    ("instr: 16,000 by 15,000 letters", (16000,), instr(lambda n: ("a" * n, "a" * 14999 + "b"))),
    ("instr: a text that is doubled", tuple(8000 << times for times in (8, 9, 10, 11)), doubled),
    ("LIKE: %a..ab over a..a (the product is its limit)", (5000, 10000, 20000), like(lambda n: "a" * n, lambda n: "%" + "a" * (n // 2) + "b", "false")),
    ("LIKE: %a%a..%b over a..a", (5000, 10000), like(lambda n: "a" * n, lambda n: "%a" * (n // 2) + "%b", "false")),
    ("LIKE: 7,000 %", (7000,), like(lambda n: "a" * n, lambda n: "%" * n, "true")),
    ("union: selects of 1,024 columns", (75, 150, 300), wide_union),
]


def script_of(statements):
    for statement in statements:
        assert len(statement.encode()) <= MOST, f"a text of {len(statement.encode())} bytes"
    return ";\n".join(statements) + ";\n"


def cost(program, text, rounds):
    runs = []
    for _ in range(rounds):
        place = tempfile.mkdtemp()
        with open(f"{place}/script", "w", encoding="utf-8") as script:
            script.write(text)
        runs.append(run([program, f"{place}/wh", "run"], f"{place}/script", f"{place}/printed"))
        shutil.rmtree(place)
    return least(runs)


def short(text):
    return text if len(text) <= 40 else "..." + text[-37:]


def told(program, rounds, name, sizes, texts, nothing):
    """Prints a family; whether each of its texts ends as it is to."""
    print(name)
    right, before = True, None
    for size in sizes:
        statements, wanted = texts(size)
        found = cost(program, script_of(statements), rounds)
        own = max(found.seconds - nothing.seconds, 0.001)
        grown = "" if before is None or own < 0.02 else f"x {own / before[1]:.1f} at {size / before[0]:.1f} of the size"
        so = found.last[-390:] == wanted[-390:] and found.status == (1 if wanted.startswith("FAILED") else 0)
        print(f"  {size:8} {found.seconds:8.3f} s {found.megabytes:6.0f} MB  {grown:26} {found.status} {short(found.last)}{'' if so else '  NOT SO'}")
        right, before = right and so, (size, own)
    return right


def main(words):
    if not 1 <= len(words) <= 3:
        print(__doc__, file=sys.stderr)
        return 2
    program = os.path.abspath(words[0])
    rounds = int(words[1]) if len(words) > 1 else 3
    wanted = words[2] if len(words) > 2 else ""
    nothing = cost(program, "", rounds)
    print(f"a run of nothing: {nothing.seconds:.3f} s {nothing.megabytes:.0f} MB")
    chosen = [case for case in CASES if wanted in case[0]]
    results = [told(program, rounds, name, sizes, texts, nothing) for name, sizes, texts in chosen]
    print(f"{sum(results)} of {len(results)} families are so")
    return 0 if all(results) else 1


if __name__ == "__main__":
    sys.exit(main(sys.argv[1:]))
