#!/usr/bin/env python3
"""Tests bench/logs.py, by which the report records the times of a build and of a gate: what whole runs print is read, and a run that was cut
short, or did not do all, is refused. And bench/page.py, which puts them into README. The logs are written here by hand, as bin/build and
bin/check say that they print."""
import sys
from pathlib import Path

sys.path.insert(0, str(Path(__file__).resolve().parent.parent / "bench"))
sys.dont_write_bytecode = True
from logs import NoTimes, of_build, of_gate
from page import with_times

BUILD = "bin/build: proved bit_words, 1 of 2, 0 min 11 s\nbin/build: proved outbox, 2 of 2, 1 min 56 s\n"
BUILT = BUILD + "bin/build: all 2 crates are there, 2 proved now, 1 min 57 s, 3 min 4 s of processor time\n"
TABLE = """
part                                  wall   processor  passed  failed
tests/fitting.py                      0:01        0:01       1       0
rt ci                                62:03      101:40      45       1
tests/against_jq.py 100               0:20        0:07       1       0
1 not run
    tests/pages.py: README.md: xxd -r: no xxd here
47 passed, 1 failed
"""
SAID = "[0:00] == tests/fitting.py\n[0:01] rt: bit_words is kept: it passed before\n[62:04] rt: outbox proved\n[62:25] == tests/against_jq.py 100\n"
PARTS = [["tests/fitting.py", 1, 1, 1, 0], ["rt ci", 3723, 6100, 45, 1], ["tests/against_jq.py 100", 20, 7, 1, 0]]
READ = {
    "a first build": (of_build, BUILT, {"crates": 2, "wall": 117, "processor": 184}),
    "a gate": (of_gate, SAID + TABLE, {"wall": 3745, "kept": 1, "parts": PARTS}),
}
REFUSED = {
    "a build without an end": (of_build, BUILD, "no line"),
    "a build over proved crates": (of_build, BUILT.replace("2 proved", "1 proved"), "1 crates were proved before"),
    "nothing": (of_gate, "", "not what a whole run"),
    "a gate without its table": (of_gate, SAID, "not what a whole run"),
    "a gate whose last line is missing": (of_gate, (SAID + TABLE).replace("47 passed, 1 failed\n", ""), "not what a whole run"),
    "a gate's last line alone": (of_gate, "47 passed, 1 failed", "not what a whole run"),
}
TIMES = {"parts": {"unproved": {"result": {"wall": 83.1}}, "build": {"processors": 4, "result": {"wall": 1304}}, "gate": {"processors": 2, "failed": "it was cut"}}}
README = "<!-- unproved -->1<!-- -->, <!-- build -->2<!-- -->, <!-- gate -->3<!-- -->"
WITH_TIMES = "<!-- unproved -->2 minutes<!-- -->, <!-- build -->22 minutes on 4 processors<!-- -->, <!-- gate -->3<!-- -->"


def outcome(read, text):
    try:
        return read(text)
    except NoTimes as why:
        return str(why)


def main():
    failures = []
    for name, (read, text, wanted) in READ.items():
        told = outcome(read, text)
        if told != wanted:
            failures.append(f"{name}: {told}, wanted {wanted}")
    for name, (read, text, wanted) in REFUSED.items():
        told = outcome(read, text)
        if not isinstance(told, str) or wanted not in told:
            failures.append(f"{name}: {told}, wanted the reason: {wanted}")
    told = with_times(README, TIMES)
    if told != WITH_TIMES:
        failures.append(f"times in README: {told}, wanted {WITH_TIMES}")
    print("\n".join([*failures, f"{len(READ) + len(REFUSED) + 1} cases, {len(failures)} differ"]))
    sys.exit(1 if failures else 0)


main()
