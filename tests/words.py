#!/usr/bin/env python3
"""Tests that a word has one meaning in the sources, as docs/GLOSSARY.md lists them: tests/words.py.

Types of some names are declared in one crate at most (TYPES), and none of others (NAMELESS). Functions of some names are
declared in one crate at most (FUNCTIONS): in others they say of what. No comment begins with "The same", which makes a reader look for another one.
"""
import re
from collections import defaultdict

from lib.running_server import TOP, Report

TYPES = ("Answer", "Asked", "Desk", "Place", "Plan", "Share")
NAMELESS = ("Told",)
FUNCTIONS = ("found", "heed", "held", "keep", "known", "mark", "note", "part", "tell")
TYPE = re.compile(r"^pub(?:\(crate\))? (?:struct|enum|trait|type) (\w+)|^ *pub (?:record|data) (\w+)", re.MULTILINE)
FUNCTION = re.compile(r"\bfn (\w+)\b")
COMMENT = re.compile(r"^ *(?://[/!]?|--)[ -]* the same\b", re.IGNORECASE | re.MULTILINE)
# a text, and what it has of each kind
TRIED = [("pub struct Told {\n", TYPE, ["Told"]), ("struct Told {\n", TYPE, []), ("pub record Share : Type 0 where\n", TYPE, ["Share"]), ("    fn tell(&self)\n", FUNCTION, ["tell"]),
         ("fn tell_end(&self)\n", FUNCTION, ["tell_end"]), ("/// The same of a frame.\n", COMMENT, ["/// The same"]), ("-- the same with more\n", COMMENT, ["-- the same"]), ("// It is the same.\n", COMMENT, [])]


def names(pattern, text):
    return [next((it for it in found.groups() if it), found[0]) for found in pattern.finditer(text)]


def main():
    report, declared, functions = Report(), defaultdict(set), defaultdict(set)
    for text, pattern, expected in TRIED:
        report.case("a text that is tried", text, expected, names(pattern, text))
    for path in sorted(it for kind in ("src/**/*.rt", "specs/**/*.antt", "proofs/**/*.antt") for it in TOP.glob(f"crates/*/{kind}")):
        crate, text = path.relative_to(TOP / "crates").parts[0], path.read_text(encoding="utf-8")
        report.case("a comment of its own", str(path.relative_to(TOP)), [], names(COMMENT, text))
        for name in names(TYPE, text) if "proofs" not in path.parts else []:
            declared[name].add(crate)
        for name in names(FUNCTION, text) if path.suffix == ".rt" else []:
            functions[name].add(crate)
    for name in NAMELESS:
        report.case("a type with a name that says nothing", name, [], sorted(declared[name]))
    for kind, words, found in (("a type", TYPES, declared), ("a function", FUNCTIONS, functions)):
        for name in words:
            report.case(f"{kind} of one crate", name, sorted(found[name])[:1], sorted(found[name]))
    report.close("words")


if __name__ == "__main__":
    main()
