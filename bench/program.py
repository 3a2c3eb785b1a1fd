#!/usr/bin/env python3
"""Times `path_server query` on texts beside jq, gojq, sqlite3 and Python, start of the process included: bench/program.py [FILE QUERY].

Without words it makes texts of small orders of five lengths, and asks each program for the names of those with a price below 10: a line
has the median of its wall times and its greatest resident memory. With a FILE it asks the program alone. The program is the one that
bin/build makes, or the one that the environment's PATH_SERVER names. The memory is read by the command time (/usr/bin/time).
"""
import os
import shutil
import statistics
import subprocess
import sys
import tempfile
import time
from pathlib import Path

from running import PROGRAM, items, need_program

LENGTHS = (1_000, 10_000, 100_000, 1 << 20, 1 << 22)
QUERY = "$.items[?@.price<10].name"
RUNS = 40
PYTHON = "import json, sys\nfor it in json.load(sys.stdin)['items']:\n    if it['price'] < 10:\n        print(it['name'])"
SQL = "select json_extract(value, '$.name') from json_each(readfile('{}'), '$.items') where json_extract(value, '$.price') < 10"


def tools(text):
    """What answers the query on the file of a text, by the name of each program that is here."""
    of_jq = ["-r", ".items[] | select(.price < 10) | .name"]
    words = {"path_server": [PROGRAM, "query", QUERY], "jq": [shutil.which("jq"), *of_jq], "gojq": [shutil.which("gojq"), *of_jq],
             "sqlite3": [shutil.which("sqlite3"), ":memory:", SQL.format(text)], "python": [sys.executable, "-I", "-c", PYTHON]}
    return {name: them for name, them in words.items() if them[0]}


def run(words, text, sink=os.devnull):
    """Runs a program once on a text as its standard input. The seconds that it took."""
    source, out = os.open(text, os.O_RDONLY), os.open(sink, os.O_WRONLY | os.O_CREAT | os.O_TRUNC)
    actions = [(os.POSIX_SPAWN_DUP2, source, 0), (os.POSIX_SPAWN_DUP2, out, 1)]
    begin = time.perf_counter()
    child = os.posix_spawn(words[0], words, {}, file_actions=actions)
    _, status = os.waitpid(child, 0)
    seconds = time.perf_counter() - begin
    os.close(source)
    os.close(out)
    if os.waitstatus_to_exitcode(status):
        raise RuntimeError(f"{words[0]} ended with {os.waitstatus_to_exitcode(status)} on {text}")
    return seconds


def memory(words, text):
    """The greatest resident memory of a run, in bytes."""
    with open(text, "rb") as source:
        done = subprocess.run(["/usr/bin/time", "-f", "%M", *words], stdin=source, stdout=subprocess.DEVNULL, stderr=subprocess.PIPE, check=True)
    return int(done.stderr.split()[-1]) * 1024


def lines(words, text, folder):
    """How many hits a program prints."""
    sink = Path(folder) / "printed"
    run(words, text, sink)
    return sink.read_bytes().count(b"\n")


def by_length(lengths=LENGTHS, seconds=2.0):
    """For each length, the hits and by each program its median time in seconds and its memory. All must find as many hits."""
    with tempfile.TemporaryDirectory() as folder:
        for length in lengths:
            text = Path(folder) / "text"
            text.write_bytes(items(length))
            words = tools(text)
            found = {name: lines(them, text, folder) for name, them in words.items()}
            if len(set(found.values())) != 1:
                raise RuntimeError(f"the programs disagree on the hits in {length} bytes: {found}")
            times, until = {name: [] for name in words}, time.monotonic() + seconds * len(words)
            for turn in range(RUNS):
                for name, them in words.items():
                    times[name].append(run(them, text))
                if turn >= 4 and time.monotonic() > until:
                    break
            yield length, found["path_server"], {name: (statistics.median(times[name]), memory(them, text)) for name, them in words.items()}


def main():
    need_program()
    if len(sys.argv) == 3:
        words = [PROGRAM, "query", sys.argv[2]]
        best = min(run(words, sys.argv[1]) for _ in range(200))
        print(f"best {best * 1000:.2f} ms, memory {memory(words, sys.argv[1]) >> 10} KiB, {os.path.getsize(sys.argv[1])} bytes")
        return
    for length, hits, rows in by_length():
        for name, (seconds, resident) in rows.items():
            print(f"{length} bytes, {hits} hits, {name}: {seconds * 1000:.2f} ms, {resident / 2**20:.1f} MiB", flush=True)


if __name__ == "__main__":
    main()
