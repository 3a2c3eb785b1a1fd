#!/usr/bin/env python3
"""Compares the verdicts of `path_server query` on random texts with those of Python's json: tests/against_python.py [ROUNDS [SEED]].

First come texts with one escape, or a character or bytes that are no UTF-8, at each place of the first two blocks of 64 bytes. Then a text is written
from a random value, with blanks and escapes of its own, and a few of its bytes are changed (json_verdict.py has the verdict). It runs the program that
bin/build makes, or the one that the environment's PATH_SERVER names.
"""
import itertools
import os
import random
import subprocess
import sys
from pathlib import Path

from lib.json_verdict import verdict

TOP = Path(__file__).resolve().parent.parent
PROGRAM = os.environ.get("PATH_SERVER") or TOP / "crates/path_program/out/path_program"
PIECES = [b'"', b"\\", b",", b":", b"[", b"]", b"{", b"}", b" ", b"\n", b"\t", b"\r", b"0", b"1", b"-", b"+", b".", b"e", b"E",
          b"null", b"true", b"\\u", b"\\ud83d", b"\\ude00", b"\\n", b"\x00", b"\x1f", b"\x7f", b"\xc3\xa9", b"\x80", b"\xff",
          b"\xed\xa0\x80", b"\xef\xbb\xbf", b"9" * 257, b"1e999999999", b"1e1000000000", b'"a":1', b'"\\u0061":2']

# What a string has at each place of a block: escapes of the grammar, others, surrogates with and without their halves, and bytes that are no UTF-8.
PLACED = [b"\\n", b'\\"', b"\\\\", b"\\/", b"\\u00e9", b"\\ud83d\\ude00", b"\\uDBFF\\uDFFF", b"\\ud7ff", b"\\ue000", b"\\x", b"\\u12g4",
          b"\\ug234", b"\\u123", b"\\u", b"\\", b"\\ud83d", b"\\uDE00", b"\\ud83d\\n\\ude00", b"\\ud83da\\ude00", b"\\ud83d\\ud83d\\ude00",
          b"\\ud83d\\ude00\\ude00", b"\\\\ud83d\\ude00", b"\\ud83d\\\\ude00", b"\xc3\xa9", b"\xff", b"\xc3", b"\xed\xa0\x80", b"\x1f"]

# The bytes of characters, and others, behind characters of two bytes.
ENCODED = [b"a", b"\xc3\xa9", b"\xe6\x97\xa5", b"\xf0\x9f\x98\x80", b"\x80", b"\xc0\x80", b"\xe6\x97", b"\xe0\x80\x80", b"\xed\xa0\x80", b"\xf0\x9f\x98",
           b"\xf4\x90\x80\x80"]


def placed():
    """Texts with each of those behind 0 to 130 bytes, in a string, and in a name and before the text's end around the end of a block."""
    for before in range(131):
        for piece in PLACED:
            front = b'"' + b"a" * before + piece
            yield front + b'"'
            if before % 64 > 54 or before % 64 < 2:
                yield b'{' + front + b'":1,"a":2}'
                yield front
        for piece in ENCODED:
            yield b'"' + b"a" * (before % 2) + b"\xc3\xa9" * (before // 2) + piece + b'"'
    yield b'{"' + b"\\n" * 10000 + b'":1,"' + b"\\u000a" * 10000 + b'":2}'
    yield b'{"' + b"\\n" * 10000 + b'":1,"' + b"\\u000a" * 9999 + b'":2}'


def program_verdict(source):
    done = subprocess.run([PROGRAM, "query", "$.none"], input=source, capture_output=True)
    return None if done.returncode == 0 else done.stderr.split(b"\n")[0].decode().replace("path_server: ", "", 1)


def string(chance):
    parts = ["a", "b", "é", "😀", "\\n", "\\\\", '\\"', "\\/", "\\u0061", "\\u00e9", "\\ud83d\\ude00", "\\uD83D\\uDE00", " "]
    return '"' + "".join(chance.choice(parts) for _ in range(chance.randint(0, 4))) + '"'


def written(chance, level):
    """A JSON text."""
    blank = chance.choice(["", "", "", " ", "\n\t"])
    kind = chance.randint(0, 5) if level > 0 else chance.randint(0, 2)
    if kind == 0:
        text = chance.choice(["null", "true", "false"])
    elif kind == 1:
        text = string(chance)
    elif kind == 2:
        text = chance.choice(["0", "-0", "1", "-12", "0.5", "1e5", "1E-5", "12.50e+3", "9" * chance.choice([255, 256])])
    elif kind == 3:
        text = "[" + ",".join(written(chance, level - 1) for _ in range(chance.randint(0, 4))) + "]"
    elif kind == 4:
        deep = chance.choice([1, 2, 120, 255, 256, 257])
        text = "[" * deep + "]" * deep
    else:
        members = [string(chance) + blank + ":" + written(chance, level - 1) for _ in range(chance.randint(0, 3))]
        text = "{" + ",".join(members) + "}"
    return blank + text + blank


def changed(chance, source):
    """The text with a few of its bytes left out or others put in."""
    for _ in range(chance.choice([0, 1, 1, 1, 2, 3])):
        at = chance.randint(0, len(source))
        piece = chance.choice([b"", *PIECES])
        source = source[:at] + piece + source[at + chance.randint(0, 2):]
    return source


def main():
    if "PATH_SERVER" not in os.environ:
        subprocess.run([TOP / "bin/path_server", "--proved", "--help"], stdout=subprocess.DEVNULL, check=True)
    rounds = int(sys.argv[1]) if len(sys.argv) > 1 else 5000
    chance = random.Random(int(sys.argv[2]) if len(sys.argv) > 2 else 1)
    counts, differing = {}, 0
    made = (changed(chance, written(chance, 4).encode()) for _ in range(rounds))
    for source in itertools.chain(placed(), made):
        wanted, found = verdict(source), program_verdict(source)
        counts[wanted or "accepted"] = counts.get(wanted or "accepted", 0) + 1
        if found != wanted:
            differing += 1
            print(f"{source!r}\n  Python {wanted}, path_server {found}")
    print(", ".join(f"{count} {name}" for name, count in sorted(counts.items())) + f": {differing} differing")
    sys.exit(1 if differing else 0)


main()
