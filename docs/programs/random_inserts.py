#!/usr/bin/env python3
"""random_inserts: texts of INSERTs for both readers of them.

usage: random_inserts.py write [COUNT] [SEED] > ROWS
       tests_texts < ROWS | random_inserts.py read

`write` prints COUNT rows (100,000) of the call `inserts read` of tests_texts, with an answer that is never
right, so that the program prints what it answers. `read` counts the answers: `both TREE` where the reader of
bytes and the general one give the same tree, `unknown; ..` where only the general one has an answer. Any other
answer, and an INSERT of written out values alone that is unknown though no part of it was left out on purpose,
is printed, and the status is 1.
"""
import random
import re
import sys

PICTURES = {"\t": "␉", "\n": "␊", "\r": "␍"}
NAMES = ["t", "stock", "_a1", "Amount", "tablet", "intos", "valuesof", "nulls"]
KEYWORDS = ["count", "default", "select", "comment", "date", "`a b`", "default.t"]
LETTERS = "ab XYZ09_-,;()=.é日"


def gap(rng, some=False):
    """Spaces, at least one where two words would meet."""
    text = "".join(rng.choice(" \t\n\r") for _ in range(rng.choice([0, 0, 0, 1, 2])))
    return text or (" " if some else "")


def cased(rng, word):
    return rng.choice([word, word.lower(), word.capitalize()])


def name(rng, known):
    return rng.choice(NAMES) if known or rng.random() < 0.5 else rng.choice(KEYWORDS)


def quoted(rng, known):
    quote = rng.choice("'\"")
    text = ""
    for _ in range(rng.randrange(8)):
        kind = rng.random()
        if kind < 0.7:
            text += rng.choice(LETTERS.replace(";", "") if known else LETTERS)
        elif kind < 0.8:
            text += "'" if quote == '"' else '"'
        else:
            text += "\\" + rng.choice("\\'\"ntr%_x" if known else "\\'\"ntr%_x0bZu")
    return quote + text + quote


def number(rng):
    return str(rng.choice([rng.randrange(10), rng.randrange(2**31 - 3, 2**31 + 3), rng.randrange(2**62, 2**63)]))


def literal(rng, known):
    kinds = ["number", "minus", "text", "text", "date", "word"]
    if not known:
        kinds += ["mark", "sum", "call", "wide", "bracket", "nothing", "comment"]
    kind = rng.choice(kinds)
    if kind == "number":
        return number(rng)
    if kind == "minus":
        return "-" + gap(rng) + number(rng)
    if kind == "text":
        return quoted(rng, known)
    if kind == "date":
        return cased(rng, "DATE") + gap(rng) + quoted(rng, known)
    if kind == "word":
        return cased(rng, rng.choice(["NULL", "TRUE", "FALSE"]))
    if kind == "mark":
        return number(rng) + rng.choice(["L", "l", "x", "_", ".5"])
    return {"sum": "1 + 2", "call": "upper('a')", "wide": "9223372036854775808", "bracket": "(1)", "nothing": "",
            "comment": "--1"}[kind]


def listed(rng, items):
    return (gap(rng) + "," + gap(rng)).join(items)


def bracketed(rng, items):
    return "(" + gap(rng) + listed(rng, items) + gap(rng) + ")"


def item(rng, known):
    if rng.random() < 0.4:
        return name(rng, known)
    sign = "=" if known or rng.random() < 0.8 else "=="
    return name(rng, known) + gap(rng) + sign + gap(rng) + literal(rng, known)


def insert(rng, known):
    text = gap(rng) + cased(rng, "INSERT") + gap(rng, True) + cased(rng, "INTO") + gap(rng, True)
    if rng.random() < 0.3:
        text += cased(rng, "TABLE") + gap(rng, True)
    text += name(rng, known)
    if rng.random() < 0.4:
        text += gap(rng, True) + cased(rng, "PARTITION") + gap(rng)
        text += bracketed(rng, [item(rng, known) for _ in range(rng.randrange(1, 4))])
    if rng.random() < 0.4:
        text += gap(rng) + bracketed(rng, [name(rng, known) for _ in range(rng.randrange(1, 4))])
    text += gap(rng, True) + cased(rng, "VALUES") + gap(rng)
    rows = [bracketed(rng, [literal(rng, known) for _ in range(rng.randrange(1, 5))]) for _ in range(rng.randrange(1, 4))]
    return text + listed(rng, rows) + gap(rng)


def broken(rng, text):
    """A character taken away, doubled or exchanged."""
    at = rng.randrange(len(text))
    other = rng.choice(["", text[at] * 2, rng.choice("(),=-'\"\\ ;x1`.")])
    return text[:at] + other + text[at + 1:]


def write(count, seed):
    rng = random.Random(seed)
    for _ in range(count):
        kind = rng.random()
        known = kind < 0.4
        text = insert(rng, known or kind > 0.7)
        if kind > 0.7:
            text = broken(rng, text)
        text = "".join(PICTURES.get(character, character) for character in text.replace("|", "x"))
        print(f"inserts read {text} → {'known' if known else 'any'}")


def read():
    counts = {"both": 0, "unknown": 0}
    bad = 0
    for answer in re.split(r"(?m)^not so: ", sys.stdin.read())[1:]:
        found = re.match(r"inserts read [^\n]* → (known|any): (both|unknown);? ", answer)
        if found is None or found.groups() == ("known", "unknown"):
            bad += 1
            print(answer, end="")
        else:
            counts[found.group(2)] += 1
    print(f"{counts['both']} of both, {counts['unknown']} of the general reader alone, {bad} bad")
    return 1 if bad else 0


def main(words):
    if words[:1] == ["write"] and len(words) <= 3:
        write(int(words[1]) if len(words) > 1 else 100000, int(words[2]) if len(words) > 2 else 1)
        return 0
    if words == ["read"]:
        return read()
    print(__doc__, file=sys.stderr)
    return 2


if __name__ == "__main__":
    sys.exit(main(sys.argv[1:]))
