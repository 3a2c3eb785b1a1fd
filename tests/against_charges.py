#!/usr/bin/env python3
"""Compares random queries' nodes and charges with those of a plain evaluator: tests/against_charges.py [QUERIES [SEED]].

The evaluator is lib/plain_queries.py. The nodes are compared with what `path_server query` prints, of the program that
bin/path_server builds or the one that the environment's PATH_SERVER names. Where the environment's CASE_TABLES names the
program case_tables, the charges are handed to it as lines `charge NUMBER QUERY TEXT`, where NUMBER is `Costly` above
10,000,000 (docs/TABLES.md), on random texts and on wider ones, and it says which differ.
"""
import json
import os
import random
import re
import subprocess
import sys
import tempfile

from lib.plain_queries import charge, hits, query_of
from lib.random_queries import COMMON, Queries, document
from lib.running_server import PROGRAM, Report

PER_TEXT = 20
BUDGET = 10_000_000
CASES = os.environ.get("CASE_TABLES")
ANY = [f"['{name}']" for name in COMMON] + ["[0]", "[-1]", "[*]"]


def query(chance):
    """A query's text: some names and wildcards behind a dot, and a few segments more that descend."""
    text, _ = Queries(chance).query(2)
    if chance.randrange(3) == 0:
        text += "".join(".." + chance.choice(ANY) for _ in range(chance.randint(1, 3)))
    if chance.randrange(2):
        text = re.sub(r"\.\.\['([abc])'\]", r"..\1", text)
        text = re.sub(r"(?<!\.)\['([abc])'\]", r".\1", text)
        text = re.sub(r"(?<!\.)\[\*\]", ".*", text)
    return "$" + text


def wide(chance):
    """A text with more nodes than the others, some of them many."""
    leaf = chance.choice(["0", '"a"', "[]", '{"a":1}', "[0,[1]]", '{"a":{"b":[1,2]},"c":0}'])
    parts = [leaf] * chance.choice([10, 30, 100])
    members = (f'"{at}":{it}' for at, it in enumerate(parts))
    return "[" + ",".join(parts) + "]" if chance.randrange(2) else "{" + ",".join(members) + "}"


def texts(chance):
    while True:
        for _ in range(4):
            yield json.dumps(document(chance, 5), ensure_ascii=chance.random() < 0.5).encode()
        yield wide(chance).encode()


def field(data):
    """Bytes as a field of a table's line."""
    return re.sub(rb"[\x00-\x1f`\x7f-\xff]| $", lambda it: b"`x%s`" % it[0].hex().encode(), data)


def compare_nodes(report, source, text):
    wanted = b"".join(b"%s\t%s\n" % (path.encode(), value) for path, value in hits(source, text))
    ran = subprocess.run([PROGRAM, "query", text], input=source, capture_output=True, timeout=60)
    report.case("the nodes", f"{text} on {source.decode()}", (0, wanted, b""), (ran.returncode, ran.stdout, ran.stderr))


def compare_charges(report, lines):
    with tempfile.NamedTemporaryFile(suffix=".cases") as table:
        table.write(b"".join(lines))
        table.flush()
        ran = subprocess.run([CASES, table.name], capture_output=True, timeout=600)
    said = ran.stdout.decode("utf-8", "replace")
    failed = re.findall(rf"^{re.escape(table.name)}:(\d+): (.*)$", said, re.MULTILINE)
    for place, line in failed:
        report.case("a charge", lines[int(place) - 1].decode(), "", line)
    report.cases += len(lines) - len(failed)
    report.case("the end of case_tables", "", (int(bool(failed)), b""), (ran.returncode, ran.stderr))


def main():
    count = int(sys.argv[1]) if len(sys.argv) > 1 else 2_000
    chance, report, lines, most = random.Random(int(sys.argv[2]) if len(sys.argv) > 2 else 1), Report(), [], 0
    found = texts(chance)
    for place in range(count):
        source = next(found) if place % PER_TEXT == 0 else source
        text = query(chance)
        query_of(text)
        units = charge(source, text)
        if units <= BUDGET:
            compare_nodes(report, source, text)
        told = b"%d" % units if units <= BUDGET else b"Costly"
        lines.append(b"charge\t%s\t%s\t%s\n" % (told, field(text.encode()), field(source)))
        most = max(most, units)
    if CASES:
        compare_charges(report, lines)
    compared = f"{len(lines) if CASES else 'no'} charges compared"
    report.close(f"against_charges: {count} queries, {most} the highest charge, {compared}")


if __name__ == "__main__":
    main()
