#!/usr/bin/env python3
"""Keeps a server busy for so many minutes and compares all that it does: tests/long/soak.py MINUTES [SEED [SECONDS]], on Linux alone.

Connection after connection comes with requests of several tenants, one in ten malformed, one at a time or cut anywhere;
clients that are killed or reset at random moments; and texts and queries that were made to take long. Each reply is compared
with that of the plain model (lib/plain_model.py), or of the plain evaluator (lib/plain_queries.py). No reply to one request is late by
more than SECONDS (2). Every minute all that is kept is dropped: the memory and the descriptors in use are then those of the
first time, but for 4 MiB of memory. The server is stopped at the end, and its lines on standard error are what
docs/PROTOCOL.md says of the connections' ends.
"""
import os
import random
import struct
import sys
import time
from pathlib import Path

sys.path.insert(0, str(Path(__file__).resolve().parent.parent))
from broken_clients import BROKEN, Victim, documents, drop_all, end_by_kill, end_by_reset
from lib.plain_model import Server, named, number
from lib.plain_queries import hits
from lib.running_server import GIVE_BACK, Report, Running, open_connection, reset
from lib.traffic import KEYS
from over_sockets import CROWDED, FAULTS, HEAVY, WIDE, Requests, body, send, tail_of
from path_client import Request, connect

HOSTILE, VICTIM = bytes([9] * 16), bytes([0]) + b"victim".ljust(15, b".")
ALL_KEYS = [*KEYS, CROWDED, HEAVY, WIDE, HOSTILE, VICTIM]
MOST_GROWN = 4 << 10
CONNECTIONS = 1_000_000


def row(part, count, last=None):
    return "[" + ",".join([part] * count + [last] * bool(last)) + "]"


def wide(names, turned=False):
    order = list(names)[::-1 if turned else 1]
    return "{" + ",".join(f'"{name}":{len(name)}' for name in order) + "}"


def nested(depth, opens, closes):
    return opens * depth + "0" + closes * depth


def meeting(count):
    """Names of three characters that meet in the hash by which repeated names are looked for."""
    return (chr(0x20000 + a) + chr(0x30000 - 256 * a + b) + chr(0x40000 - 256 * b) for a in range(count) for b in range(count))


def turned(way):
    text = "0"
    for depth in range(120):
        text = f'{{"a":{text},"b":1}}' if depth % 2 == way else f'{{"b":1,"a":{text}}}'
    return text


NAMES = [f"\\u006b{at:03}" for at in range(800)]
SHAPES = [(row("0", 4_000, "1"), "$[?@!=$[-1]]"), (row('"a"', 3_000), "$[?@<$[-1]]"), (row("[0]", 2_000), "$[?@==$[-1]]"),
          (f"[{wide(NAMES)},{wide(NAMES, True)}]", "$[?@==$[0]]"),
          (f"[{wide(meeting(20))},{wide(meeting(20), True)}]", "$[?@!=$[0]]"),
          (f"[{turned(0)},{turned(1)}]", "$[?@==$[0]]"),
          (row("0", 1_000, '"' + "\\u00e9" * 3_000 + '"'), "$[?length($[-1])<9]"),
          ("[0,0,0,0]", "$" + "[?$" * 4 + "[?@]" + "]" * 4), (nested(120, "[", "]"), "$..[0]..[0]..zz"),
          (nested(120, '{"a":', "}"), "$..a..a..zz"), (row("0", 3_000), "$[" + ",".join(["-1"] * 300) + "]"),
          (row("[0]", 3_000), "$..[?@.a&&(" + "||".join(["@.b"] * 60) + ")]"), (row("9" * 256, 100), "$[?@<=$[0]]"),
          (row("1e999999999", 100, "10e999999998"), "$[?@==$[-1]]"), (wide(NAMES), "$.k799"),
          (row("[0,1,2]", 500), "$[?count(@..*)>2][::-1]"), (f'{{"{"n" * 20_000}":{row("0", 50)}}}', "$.*.*"),
          (row("0", 2_000), "$[" + ",".join(["?@==1"] * 50) + "]")]


class Soak:
    """The server, the model of the tenants whose replies it foretells, and what was seen."""

    def __init__(self, report, server, chance, bound):
        self.report, self.server, self.chance, self.bound = report, server, chance, bound
        self.model, self.requests = Server(ALL_KEYS), Requests(chance)
        self.conn, self.allowed, self.latest, self.asked, self.broken = 0, {}, 0.0, 0, 0
        self.base = None

    def open(self, *names):
        """Notes the next connection and how it may end: None stands for an end that is not told."""
        self.allowed[self.conn] = set(names or {None})
        self.conn += 1
        return self.conn - 1

    def client(self, key):
        self.open()
        return connect(self.server.address, key, timeout=60.0)

    def one_by_one(self):
        """A connection whose client waits for each reply."""
        conn = self.open(*BROKEN, None)
        self.model.open(conn)
        connection = open_connection(self.server.address)
        for frame in (self.requests.next() for _ in range(self.chance.randint(1, 60))):
            self.ask(connection, frame, self.model.bytes(conn, frame)[0])
        self.model.close(conn)
        (reset if self.chance.randrange(4) == 0 else type(connection).close)(connection)

    def ask(self, connection, frame, wanted):
        started, got = time.monotonic(), b""
        connection.sendall(frame)
        while len(got) < 4 or len(got) < 4 + struct.unpack(">I", got[:4])[0]:
            piece = connection.recv(1 << 20)
            if not piece:
                break
            got += piece
        taken = time.monotonic() - started
        self.asked, self.latest = self.asked + 1, max(self.latest, taken)
        self.report.case("a reply", frame, wanted, got)
        self.report.case(f"a reply after {taken:.1f} s", frame, True, taken <= self.bound)

    def cut_anywhere(self):
        """A connection whose client sends without waiting, and may end in a frame or in a framing fault."""
        tail = tail_of(self.chance)
        conn = self.open(*({"FrameFault"} if tail[:4] in FAULTS else {None}))
        requests = [self.requests.next() for _ in range(self.chance.randint(1, 60))]
        send(self.report, self.server, self.model, self.chance, conn, requests, tail)
        self.asked += len(requests)

    def broken_off(self):
        """A client that is killed or resets: its tenant has what a prefix of its requests leaves, and is emptied."""
        victim = Victim(self.chance, VICTIM)
        way = self.chance.choice([end_by_reset, end_by_kill])
        answered, sent = way(self, self.chance, victim)
        with self.client(VICTIM) as client:
            left = documents(client)
        wanted = "what a prefix of the requests leaves"
        found = wanted if left in victim.left(answered, sent) else left
        self.report.case(f"{way.__name__}: its documents", victim.stream, wanted, found)
        drop_all(self, 0)
        self.broken += 1

    def hostile(self):
        """A text that was made to take long, and its query, in a collection of its own."""
        text, query = self.chance.choice(SHAPES)
        source = text.encode()
        found = hits(source, query)
        pairs = ((path.encode(), value) for path, value in found)
        parts = b"".join(named(b"d") + number(len(path)) + path + number(len(value)) + value for path, value in pairs)
        put, asked = body(1, HOSTILE, named(b"c"), named(b"d"), source), body(5, HOSTILE, named(b"c"), query.encode())
        self.open()
        with open_connection(self.server.address) as connection:
            for data, payload in ((put, b""), (asked, number(len(found)) + parts)):
                self.ask(connection, number(len(data)) + data, number(5 + len(payload)) + bytes(5) + payload)

    def fill(self):
        """What brings some tenants to their quotas."""
        conn = self.open()
        send(self.report, self.server, self.model, self.chance, conn, self.requests.first())

    def empty(self):
        """Drops all that is kept, and compares memory and descriptors with those of the first time."""
        for key in ALL_KEYS:
            with self.client(key) as client:
                names = [*self.model.tenants[key], b"c"]
                client.pipeline([Request.drop(name) for name in names])
                self.report.case("what is left of a tenant", key, (0, 0, 0), tuple(client.usage()))
            self.model.tenants[key] = {}
        self.open()
        with connect(self.server.address, KEYS[0]) as client:
            client.usage()
            descriptors = len(os.listdir(f"/proc/{self.server.process.pid}/fd"))
            resident = self.server.resident()
        self.base = self.base or (descriptors, resident)
        self.report.case("descriptors", "", self.base[0], descriptors)
        grown = resident - self.base[1]
        self.report.case(f"KiB of memory since the first minute: {grown}", "", True, grown <= MOST_GROWN)
        return resident

    def run(self, minutes):
        ends = time.monotonic() + 60 * minutes
        kinds = [self.one_by_one] * 6 + [self.cut_anywhere] * 4 + [self.broken_off] * 3 + [self.hostile] * 3
        for shape in range(3):
            self.fill()
            self.empty()
            self.base = None if shape < 2 else self.base
        while time.monotonic() < ends and self.conn < CONNECTIONS - 10_000:
            self.fill()
            until = min(ends, time.monotonic() + 60)
            while time.monotonic() < until:
                self.chance.choice(kinds)()
            resident = self.empty()
            told = f"the latest reply after {self.latest:.2f} s, {resident} KiB"
            print(f"{self.conn} connections, {self.asked} requests, {told}", flush=True)

    def look_at_ends(self):
        """Each line on standard error against what the connection's end may be."""
        found = self.server.ends()
        for conn, names in self.allowed.items():
            got = found.pop(conn, None)
            self.report.case(f"the end of connection {conn}", "", names, names if got in names else got)
        self.report.case("other lines on standard error", "", {}, found)


def main():
    if len(sys.argv) < 2:
        sys.exit(__doc__)
    minutes, seed = float(sys.argv[1]), int(sys.argv[2]) if len(sys.argv) > 2 else 1
    bound = float(sys.argv[3]) if len(sys.argv) > 3 else 2.0
    report = Report()
    with Running(ALL_KEYS, CONNECTIONS, env={**os.environ, **GIVE_BACK}) as server:
        soak = Soak(report, server, random.Random(seed), bound)
        soak.run(minutes)
        report.case("the server at the end", "", None, server.process.poll())
        soak.look_at_ends()
    told = f"{soak.conn} connections, {soak.asked} requests and {soak.broken} clients that broke"
    report.close(f"soak: {told} in {minutes:g} minutes, seed {seed}")


if __name__ == "__main__":
    main()
