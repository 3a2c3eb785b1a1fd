#!/usr/bin/env python3
"""Has each growth of each public call refused in turn: tests/refused_calls.py [NAME..], on Linux.

The program `refused_calls` makes the call that its word names twice and prints what it answered and left each time. A library
(lib/failing_calls.c, compiled by `cc` into a temporary folder; where there is no cc, nothing is run) refuses the Nth growth of the first
call, alone or with all behind it, for each N up to the last one. A call is refused then and has left all as it was, and answers as
before where it is made again; or it answers in the way that its row names: a request on a hub is answered NoMemory and the map stays,
replies that came before stay, and a query that only finds no place in the cache is answered. The answers with ample memory stand in
the rows too, written from the protocol and the grammars. The program is crates/refused_calls/out/refused_calls, or the one that the
environment's REFUSED_CALLS names.
"""
import os
import subprocess
import sys
import tempfile
from pathlib import Path

from lib.plain_model import named, number
from lib.running_server import TOP, Report, want
from lib.traffic import KEYS
from refused_growths import Calls

PROGRAM = os.environ.get("REFUSED_CALLS") or TOP / "crates/refused_calls/out/refused_calls"
PATIENCE = 20
BEFORE = b"p"
FREE = {"framer_new"}
"""Calls that have an answer for want of memory, and need none."""


def reply(status, place, payload=b""):
    return number(5 + len(payload)) + bytes([status]) + number(place) + payload


def hit(name, path, value):
    return named(name) + number(len(path)) + path + number(len(value)) + value


PUT, PUT_REFUSED = reply(0, 1), reply(21, 1)
QUERY, QUERY_REFUSED = reply(0, 2, number(1) + hit(b"d", b"$", b"1")), reply(21, 2)
NO_HITS = reply(0, 2, number(0))
PUT_LINE, PUT_REFUSED_LINE = b"1 000000050000000001\n", b"1 000000051500000001\n"
LISTED = number(4) + named(b"B") + named(b"a") + named(b"a.1") + named(b"b")
HITS = number(2) + hit(b"d", b"$[0]", b'"s"') * 2
HITS_OF_TWO = number(4) + hit(b"d", b"$[0][0]", b'"s"') * 2 + hit(b"e", b"$[0][0]", b"1") * 2
GET = reply(0, 3, b'{"a":1}')
COUNTS = number(1) + number(1) + number(3)
LATER_COUNTS = number(1) + number(2) + number(14)


class Row:
    """Both answers with ample memory, the refusal, and the pairs that a refused growth may bring beside it."""

    def __init__(self, first, second=None, refused=("Memory", b""), others=()):
        self.first = ("Ok", first) if isinstance(first, bytes) else first
        self.second = self.first if second is None else ("Ok", second) if isinstance(second, bytes) else second
        self.refused, self.others = refused, list(others)

    def pairs(self):
        """A call that goes without the growth, one that is refused, and the others."""
        return [(self.first, self.second), (self.refused, self.first), *self.others]


def appended(payload, name="Memory", others=()):
    """The row of a call that appends behind what stood there."""
    return Row(BEFORE + payload, BEFORE + payload * 2, (name, BEFORE), others)


def on_a_hub(done, refused):
    """The row of a request on a hub: it may be answered NoMemory, or wait until the next call, which then answers both."""
    return appended(done, "Memory { taken: false }", [
        (("Ok", BEFORE + refused), ("Ok", BEFORE + refused + done)),
        (("Memory { taken: true }", BEFORE), ("Ok", BEFORE + done * 2))])


def of_a_run(again, name, ends, is_kept):
    """A put and a query in one call: the replies that came, in the row of a call whose next one answers both."""
    both, others = PUT + QUERY, []
    for came in (b"", PUT, PUT_REFUSED, PUT + QUERY_REFUSED, PUT_REFUSED + NO_HITS, PUT_REFUSED + QUERY_REFUSED, both):
        for end in ends if len(came) > len(PUT) else ["Memory"]:
            others.append(((end, came), (again, came * is_kept + both)))
    return Row((name, both), (again, both * is_kept + both), ("Memory", b""), [*others, (("Memory", both), (again, both * is_kept + both))])


ROWS = {
    "index": Row(bytes([0, 1, 4, 6, 7, 8, 9]), refused=("AllocError", b"")),
    "index_of_arrays": Row(bytes([0, 1, 2, 3, 4, 5]), refused=("AllocError", b"")),
    "index_and_copy": Row(bytes([0, 1, 2, 3, 4, 5]) + b"[[],1]", refused=("AllocError", b"")),
    "read": Row(number(6)),
    "read_owned": Row(number(6)),
    "read_of_arrays": Row(number(3)),
    "build": Row(b""),
    "parse": Row((2).to_bytes(8, "big")),
    "select": Row(bytes([6, 4])),
    "write_path": appended("$['\U0001f600']".encode(), "AllocError"),
    "query_text": appended(b"$['a'][1]\t20\n"),
    "cache_new": Row(bytes([0]), refused=("AllocError", b"")),
    "lookup": Row(bytes([1, 0]), refused=("Memory", bytes([0, 1])), others=[(("Ok", bytes([0, 1])), ("Ok", bytes([1, 0])))]),
    "tenants_new": Row(bytes([1])),
    "put": Row(LATER_COUNTS + b'{"q":[1,2]}', refused=("NoMemory", COUNTS)),
    "put_new": Row(LATER_COUNTS + b'{"q":[1,2]}', ("Exists", LATER_COUNTS + b'{"q":[1,2]}'), ("NoMemory", COUNTS)),
    "list": appended(LISTED, "NoMemory"),
    "query": appended(HITS, "NoMemory"),
    "query_steps": appended(HITS_OF_TWO, "NoMemory"),
    "framer_new": Row(bytes([0])),
    "accept": Row(b"ab", refused=("Memory", b"")),
    "next_frame": Row(b"ab", b"cde", ("AllocError", b"")),
    "write_reply": appended(GET, "AllocError"),
    "hub_new": Row(bytes([0])),
    "connect": Row(bytes([1]), ("Taken", bytes([1])), ("Memory", bytes([0]))),
    "bytes_put": on_a_hub(PUT, PUT_REFUSED),
    "bytes_query": on_a_hub(QUERY, QUERY_REFUSED),
    "run": of_a_run("Ok", "Ok", ["Ok", "Memory"], 1),
    "serve_connection": of_a_run("Done", "Done", ["Done", "Memory"], 0),
    "read_keys": Row(KEYS[0]),
    "replay_script": appended(PUT_LINE, "Memory", [
        (("Ok", BEFORE + PUT_REFUSED_LINE), ("Ok", BEFORE + PUT_REFUSED_LINE + PUT_LINE))]),
    "call_over": appended(b"000000050000000001\n"),
}


def answers(name, environment):
    """Both answers of a run, or what it printed in their place."""
    ran = subprocess.run([PROGRAM, name], stdin=subprocess.DEVNULL, capture_output=True, timeout=PATIENCE, env=environment)
    lines = ran.stdout.decode().split("\n")
    is_whole = len(lines) == 7 and lines[0::3] == ["begins", "begins", ""] and lines[1::3] == ["ends", "ends"] and ran.returncode == 0
    return tuple(answer(line) for line in lines[2::3]) if is_whole else (ran.returncode, ran.stdout, ran.stderr)


def answer(line):
    name, _, digits = line.rpartition(" ")
    return name, bytes.fromhex(digits)


class Refusals:
    """All runs of a call: how many growths it has, and how many of them were answered as a refusal."""

    def __init__(self, report, calls):
        self.report, self.calls, self.runs, self.refused, self.growths = report, calls, 0, 0, {}

    def call(self, name, row):
        wanted = (row.first, row.second)
        self.report.case(f"{name} with ample memory", "", wanted, answers(name, self.environment(0)))
        growths, seen = self.calls.made("memory"), 0
        self.growths[name] = growths
        for at in range(1, growths + 1):
            for goes_on in (False, True):
                came = answers(name, self.environment(at, goes_on))
                told = f"{name}: growth {at} of {growths} refused{' and all behind it' if goes_on else ''}"
                self.report.case(told, "", came if came in row.pairs() else row.pairs(), came)
                self.runs, seen = self.runs + 1, seen + (came != wanted)
        self.report.case(f"{name}: growths and refusals", "", name not in FREE, growths > 0 and seen > 0)
        self.refused += seen

    def through_index(self):
        """A text is read by its index: `read` takes as much as `index` and `build` together, and a copy of the source."""
        read, parts = self.growths["read_of_arrays"], self.growths["index_of_arrays"] + self.growths["build"]
        self.report.case(f"growths of read {read}, of index and build {parts}", "", True, read > parts)

    def environment(self, at, goes_on=False):
        return self.calls.environment("memory", at, goes_on, FAILING_WITHIN="1")


def main():
    want("cc")
    if not os.access(PROGRAM, os.X_OK):
        sys.exit(f"no program {PROGRAM}: bin/build refused_calls makes it")
    report = Report()
    with tempfile.TemporaryDirectory() as folder:
        refusals = Refusals(report, Calls(Path(folder)))
        for name in sys.argv[1:] or ROWS:
            refusals.call(name, ROWS[name])
        if {"read_of_arrays", "index_of_arrays", "build"} <= refusals.growths.keys():
            refusals.through_index()
    print(f"{len(sys.argv[1:] or ROWS)} calls, {refusals.runs} runs, {refusals.refused} of them refused")
    report.close("refused_calls")


main()
