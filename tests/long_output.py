#!/usr/bin/env python3
"""Runs queries whose output is far longer than their text: tests/long_output.py [HITS], on Linux alone.

The output's length and SHA-256 are compared with those that are worked out here, a line at a time; the program's resident
memory stays below 64 MiB, whatever it writes. Then its output is closed in the middle: WriteFault, status 4. HITS (200) is the
number of lines of half a megabyte. The program is the one that bin/build makes, or the one that the environment's
PATH_SERVER names.
"""
import hashlib
import os
import subprocess
import sys
import tempfile

from lib.running_server import PROGRAM, Report

MOST_KIB = 64 << 10
NAME = "n" * 500_000
LONG = '"' + "s" * 1_000_000 + '"'


def rows(hits):
    """A name, a query, a text, and the lines of its hits."""
    inside = ",".join(f'"{at}":{at}' for at in range(hits))
    yield "long paths", "$.*.*", f'{{"{NAME}":{{{inside}}}}}', ((f"$['{NAME}']['{at}']", str(at)) for at in range(hits))
    spelt, path = "\\u0001" * 80_000, "\\u0001" * 80_000
    lines = ((f"$['{path}']['{at}']", str(at)) for at in range(hits))
    yield "long paths of characters that are escaped", "$.*.*", f'{{"{spelt}":{{{inside}}}}}', lines
    text = f"[{LONG}]"
    yield "long values", "$[" + ",".join(["0"] * hits) + "]", text, (("$[0]", LONG) for _ in range(hits))
    yield "a value within itself", "$" + "[0]" * 100, "[" * 100 + LONG + "]" * 100, [("$" + "[0]" * 100, LONG)]
    text = "[" + ",".join(["0"] * 60_000) + "]"
    yield "short lines", "$[*]", text, ((f"$[{at}]", "0") for at in range(60_000))
    pairs = ((f"$['{NAME}']" + "[0]" * depth, "[" * (99 - depth) + "]" * (99 - depth)) for depth in range(99))
    yield "descendants of a long name", "$..*", f'{{"{NAME}":{"[" * 99 + "]" * 99}}}', pairs


def told(stream):
    """Length and SHA-256 of what a stream gives."""
    length, sums = 0, hashlib.sha256()
    for piece in iter(lambda: stream.read(1 << 16), b""):
        length += len(piece)
        sums.update(piece)
    return length, sums.hexdigest()


def wanted(lines):
    length, sums = 0, hashlib.sha256()
    for path, value in lines:
        line = f"{path}\t{value}\n".encode()
        length += len(line)
        sums.update(line)
    return length, sums.hexdigest()


def start(query, source):
    return subprocess.Popen([PROGRAM, "query", query], stdin=source, stdout=subprocess.PIPE, stderr=subprocess.PIPE)


def ended(process):
    """Status, standard error and resident memory of a process, once its output is read or closed."""
    said = process.stderr.read()
    _, status, used = os.wait4(process.pid, 0)
    process.returncode = os.waitstatus_to_exitcode(status)
    process.stderr.close()
    return process.returncode, said, used.ru_maxrss


def try_row(report, name, query, text, lines):
    with tempfile.TemporaryFile() as source:
        source.write(text.encode())
        source.seek(0)
        process = start(query, source)
        got = told(process.stdout)
        status, said, memory = ended(process)
        process.stdout.close()
        report.case(f"{name}: status and standard error", query[:100], (0, b""), (status, said))
        report.case(f"{name}: length and SHA-256", query[:100], wanted(lines), got)
        report.case(f"{name}: KiB of memory for {got[0]} bytes, {memory}", query[:100], True, memory <= MOST_KIB)
        if got[0] < 1 << 20:
            return
        source.seek(0)
        process = start(query, source)
        process.stdout.read(1 << 19)
        process.stdout.close()
        report.case(f"{name}: output that is closed", query[:100], (4, b"path_server: WriteFault\nstandard output: broken pipe\n"), ended(process)[:2])


def main():
    if not os.access(PROGRAM, os.X_OK):
        sys.exit(f"no program {PROGRAM}: bin/build makes it")
    report = Report()
    for row in rows(int(sys.argv[1]) if len(sys.argv) > 1 else 200):
        try_row(report, *row)
    report.close("long_output")


if __name__ == "__main__":
    main()
