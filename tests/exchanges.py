#!/usr/bin/env python3
"""Runs the exchanges of tests/exchanges.txt through `path_server replay` and compares each reply: tests/exchanges.py [WORD].

The head of the table says what its lines are. A short exchange is run again with all pieces cut into single bytes, and one
that the table marks also with its connections by turns, or its bytes in two pieces in every cut. Beside them stand scripts and keys that are refused, each with its
line on standard error. With a WORD, only what has it in its name is run. The program is the one that bin/build makes,
or the one that the environment's PATH_SERVER names.
"""
import itertools
import os
import re
import subprocess
import sys

from lib.running_server import PATIENCE, PROGRAM, TOP, Report

KEYS = {"A": "00112233445566778899aabbccddeeff", "B": "ffeeddccbbaa99887766554433221100"}
SHORT = 3_000
"""Characters of a script up to which each byte is also sent by itself."""
LINE = re.compile(r"(\d+) (?:(open|close)|([<>])(?: (.*))?)")
BAD_LINES = {"1  open": 1, "\n": 1, "1 open\n\n1 close": 2, "01 open": 1, "+1 open": 1, "-1 open": 1, "4294967296 open": 1,
             "1 Open": 1, "1 0": 1, "1 0g": 1, "1": 1, " 1 open": 1, "1 open ": 1, "1 open\r\n": 1, "1\topen": 1, "open": 1,
             "1 00 00": 1, "0 open\n4294967295 \n1 closed": 3, "1 open\n2 open\n3 ope": 3, "1 open\n\x00": 2, "1 open\n1 é": 2}
BAD_KEYS = ["", ",", KEYS["A"] + ",", "," + KEYS["A"], KEYS["A"][1:], KEYS["A"][:-1], KEYS["A"] + "0",
            KEYS["A"][:-1] + "g", KEYS["A"] + " " + KEYS["B"], KEYS["A"] + ",," + KEYS["B"], KEYS["A"] + ", " + KEYS["B"], KEYS["A"] + "\n"]


class Exchange:
    """A name, the keys, the events in order, and for each connection its replies as digits."""

    def __init__(self, name):
        self.name, self.keys, self.events, self.replies, self.marks = name, "A", [], {}, set()

    def add(self, line):
        words = line.split()
        if words[0] == "keys":
            self.keys = words[1:]
        elif words[0] in ("turns", "cuts"):
            self.marks.add(words[0])
        elif words[0] == "each":
            for number in range(int(words[1]), int(words[2]) + 1):
                self.add_event(" ".join(words[3:]).replace("###", f"{number:03}".encode().hex()))
        else:
            self.add_event(line)

    def add_event(self, line):
        found = LINE.fullmatch(line)
        if not found:
            sys.exit(f"exchanges.txt: {self.name}: no line of an exchange: {line}")
        conn, event, sign, data = found.groups()
        if sign == "<":
            self.replies.setdefault(conn, []).append(digits_of(data))
            return
        if sign and all(other != conn for other, _ in self.events):
            self.events.append((conn, "open"))
        self.events.append((conn, event or digits_of(data or "")))

    def bytewise(self):
        """The events with each byte by itself."""
        return [(conn, piece) for conn, data in self.events for piece in cut(data)]

    def by_turns(self):
        """The events byte by byte, one of each connection after the other."""
        lanes = [[event for event in self.bytewise() if event[0] == conn] for conn in dict(self.events)]
        return [event for row in itertools.zip_longest(*lanes) for event in row if event]

    def in_two_pieces(self):
        """The bytes of the one connection in two pieces, in every cut."""
        conn, data = self.events[0][0], "".join(data for _, data in self.events if data != "open")
        return [[(conn, "open"), (conn, data[:at]), (conn, data[at:])] for at in range(0, len(data) + 1, 2)]


def digits_of(text):
    """Digits of bytes as the table writes them."""
    parts = []
    for word in text.split():
        digits, _, times = word.partition("*")
        parts.append(KEYS.get(digits, digits) * int(times or "1"))
    return "".join(parts)


def cut(data):
    return [data] if data in ("open", "close", "") else [data[at:at + 2] for at in range(0, len(data), 2)]


def table():
    exchanges, lines = [], []
    for line in (TOP / "tests/exchanges.txt").read_text(encoding="utf-8").splitlines():
        if line.startswith(" "):
            lines[-1] += line
        elif line and not line.startswith("#"):
            lines.append(line)
    for line in lines:
        if line.startswith("== "):
            exchanges.append(Exchange(line[3:]))
        else:
            exchanges[-1].add(line)
    return exchanges


def replay(keys, script):
    try:
        ran = subprocess.run([PROGRAM, "replay", keys], input=script.encode(), capture_output=True, timeout=PATIENCE)
    except subprocess.TimeoutExpired:
        return f"no end after {PATIENCE} s", "", ""
    return ran.returncode, ran.stdout.decode(), ran.stderr.decode()


def told(exchange, output):
    """The replies of each connection; one of which the table leaves the rest open is cut there, where its length is its own."""
    found = {}
    for line in output.splitlines():
        conn, _, reply = line.partition(" ")
        replies = found.setdefault(conn, [])
        wanted = exchange.replies.get(conn, [])[len(replies):len(replies) + 1]
        known = wanted[0][:-2] if wanted and wanted[0].endswith("..") else None
        is_whole = len(reply) == 8 + 2 * int(reply[:8], 16)
        replies.append(known + ".." if known and is_whole and reply.startswith(known) else reply)
    return found


def run(report, exchange, name, events, change=str):
    script = "".join(f"{conn} {change(data) if data not in ('open', 'close') else data}\n" for conn, data in events)
    status, output, errors = replay(",".join(KEYS[key] for key in exchange.keys), script)
    found = told(exchange, output)
    report.case(f"{exchange.name}: {name}: status and standard error", script, (0, ""), (status, errors))
    for conn in sorted({*exchange.replies, *found}):
        wanted, got = exchange.replies.get(conn, []), found.get(conn, [])
        place = next((at for at, pair in enumerate(zip(wanted, got)) if pair[0] != pair[1]), min(len(wanted), len(got)))
        report.case(f"{exchange.name}: {name}: connection {conn}, reply {place}", script, wanted[place:], got[place:])


def run_all(report, word):
    count = 0
    for exchange in table():
        if word in exchange.name:
            count += 1
            run(report, exchange, "as written", exchange.events, str.upper)
            if sum(len(data) for _, data in exchange.events) <= SHORT:
                run(report, exchange, "byte by byte", exchange.bytewise())
            if "turns" in exchange.marks:
                run(report, exchange, "by turns", exchange.by_turns())
            if "cuts" in exchange.marks:
                for at, events in enumerate(exchange.in_two_pieces()):
                    run(report, exchange, f"cut at {at}", events)
    return count


def refuse(report, word):
    for script, number in BAD_LINES.items():
        if word in script:
            report.case("a bad line", repr(script), (1, "", f"path_server: BadLine {number}\n"), replay(KEYS["A"], script))
    for keys in BAD_KEYS:
        if word in keys:
            number = next(at for at, key in enumerate(keys.split(","), 1) if not re.fullmatch("[0-9A-Fa-f]{32}", key))
            wanted = f"path_server: BadKeys\nkey {number} is not 32 hexadecimal digits\n"
            report.case("bad keys", repr(keys), (3, "", wanted), replay(keys, ""))


def main():
    if not os.access(PROGRAM, os.X_OK):
        sys.exit(f"no program {PROGRAM}: bin/build makes it")
    report, word = Report(), sys.argv[1] if len(sys.argv) > 1 else ""
    count = run_all(report, word)
    refuse(report, word)
    report.close(f"{count} exchanges")


if __name__ == "__main__":
    main()
