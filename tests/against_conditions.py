#!/usr/bin/env python3
"""Compares what random conditions on a few sides select with a plain evaluator: tests/against_conditions.py [CONDITIONS [SEED]].

A condition joins comparisons of sides with literals, and of sides that cost no units with each other, by `||`, `&&`, `!` and parentheses, those of
one side or of several in one operand; its values are the literals, others between and beyond them, and arrays and objects. Every eighth text has
long strings that begin alike, which are compared with each other. The evaluator is plain_queries.py. The program is the one that bin/build makes or the one that the environment's PATH_SERVER names.
"""
import random
import subprocess
import sys

from lib.plain_queries import hits, query_of
from lib.running_server import PROGRAM, Report

NUMBERS = ["0", "-0", "0e5", "1", "1.0", "10e-1", "2", "-1", "-1.5", "0.1", "100", "1e2", "1E+2", "99.99", "9007199254740992",
           "9007199254740993", "123456789012345678901234567890", "0.00001", "1e-5", "-1e9", "1e999999999", "3", "5", "7"]
STRINGS = ['""', '"a"', '"b"', '"ab"', '"aa"', '"\u00e9"', '"\\u00e9"', '"\U0001f600"', '"\uffff"', '"z"', '"A"', '"1"']
WORDS = ["null", "true", "false"]
OTHERS = ["4", "6", "-2", "0.5", "1.5", "1e300", '"c"', '"abc"', '"\\ud83d\\ude00"', "[]", "[1]", "[[1],2]", "{}", '{"a":1}']
SIDES = ["@", "@", "@", "length(@)", "value(@)", "count(@)", "$", "length($)", "@.a", "@[0]", "$[0]", "length(@[0])", "length(value(@))"]
FREE = ["@", "@", "$", "length(@)", "length($)", "count(@)", "value(@)", "length('ab')", "length(value(@))", "length(count(@))"]
PIECES = ["s" * 70, "s" * 300, "s" * 20, "\u00e9" * 40, "\u20ac" * 9, "\U0001f600" * 20, "\\u0061" * 20, "\\n" * 12, "\\\\" * 5, "\\ud83d\\ude00" * 6]
ENDS = ["", "a", "\\u0061", "b", "\u00e9", "\\u00e9", "\\ud83d\\ude00", "\\ud83d\\ude01", "\U0001f600", "\uffff", "\\n", "\\\\", "\\/", "/", "s" * 300]
OPERATORS = ["==", "!=", "<", "<=", ">", ">="]
PER_TEXT = 10


def literal(chance):
    return chance.choice(chance.choice([NUMBERS, NUMBERS, STRINGS, WORDS]))


def comparison(chance, sides):
    kind, side = chance.random(), chance.choice(sides)
    if kind < 0.05:
        return chance.choice(["@", "$", "@.a"])
    if kind < 0.12:
        return chance.choice(FREE) + chance.choice(OPERATORS) + chance.choice(FREE)
    left, right = (literal(chance) if kind < 0.2 else side), literal(chance)
    left, right = (left, right) if chance.randrange(2) else (right, left)
    return left + chance.choice(OPERATORS) + right


def condition(chance, sides, depth):
    kind = chance.random()
    if depth == 0 or kind < 0.3:
        return comparison(chance, sides)
    if kind < 0.45:
        return f"!({condition(chance, sides, depth - 1)})"
    parts = [condition(chance, sides, depth - 1) for _ in range(chance.randint(2, 4))]
    return "(" + chance.choice(["||", "&&"]).join(parts) + ")"


def query(chance):
    """A filter by conditions on one side, or on some, either several next to each other on the same or in any order, or each on all."""
    sides = [chance.choice(SIDES) for _ in range(chance.choice([1, 1, 2, 3, 12]))]
    side, parts, change, is_mixed = sides[0], [], chance.choice([0.2, 1.0]), chance.random() < 0.4
    for _ in range(chance.choice([1, 2, 4, 8, 16, 60])):
        side = chance.choice(sides) if chance.random() < change else side
        parts.append(condition(chance, sides if is_mixed else [side], chance.choice([0, 0, 1, 3])))
    return "$[?" + chance.choice(["||", "&&"]).join(parts) + "]"


def text(chance):
    values = NUMBERS + STRINGS + WORDS + OTHERS
    return "[" + ",".join(chance.choice(values) for _ in range(chance.choice([1, 10, 40]))) + "]"


def long_text(chance):
    """Strings that begin alike, and end in one way or another."""
    front = "".join(chance.choice(PIECES) for _ in range(chance.randint(1, 4)))
    return "[" + ",".join(f'"{front}{chance.choice(ENDS)}{chance.choice(ENDS)}"' for _ in range(12)) + "]"


def long_query(chance):
    """A filter that compares with some of the values."""
    parts = (f"@{chance.choice(OPERATORS)}$[{chance.randrange(12)}]" for _ in range(chance.randint(1, 6)))
    return "$[?" + chance.choice(["||", "&&"]).join(parts) + "]"


def main():
    count = int(sys.argv[1]) if len(sys.argv) > 1 else 2_000
    chance, report = random.Random(int(sys.argv[2]) if len(sys.argv) > 2 else 1), Report()
    for place in range(count):
        is_long = place // PER_TEXT % 8 == 7
        if place % PER_TEXT == 0:
            source = (long_text(chance) if is_long else text(chance)).encode()
        asked = long_query(chance) if is_long else query(chance)
        if len(asked.encode()) > 4_096:
            continue
        query_of(asked)
        wanted = b"".join(b"%s\t%s\n" % (path.encode(), value) for path, value in hits(source, asked))
        ran = subprocess.run([PROGRAM, "query", asked], input=source, capture_output=True, timeout=60)
        report.case("the nodes", f"{asked} on {source.decode()}", (0, wanted, b""), (ran.returncode, ran.stdout, ran.stderr))
    report.close(f"against_conditions: {count} conditions")


if __name__ == "__main__":
    main()
