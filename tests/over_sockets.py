#!/usr/bin/env python3
"""Compares a running server with a plain model on random requests: tests/over_sockets.py [REQUESTS [SEED]].

So many requests (10,000) go over one connection, and so many again over one connection after the other, 20 to each. They are of every
command and of several tenants: two with requests as against_model.py makes them, some of them malformed, one that stands at its quotas of
collections and documents, one at its quota of bytes with texts of a mebibyte, and one whose queries meet their limits. Their stream is
cut anywhere: byte by byte, or many requests in a piece. The model (lib/plain_model.py) keeps a dictionary of dictionaries.
"""
import random
import sys
import time

from lib.json_verdict import TEXT_LIMIT
from lib.plain_model import STATUS, Server, named, number
from lib.running_server import Report, Running, compare_replies, open_connection, talk
from lib.traffic import KEYS, Traffic
from path_client import REQUEST_LIMIT

CROWDED, HEAVY, WIDE = (bytes([place] * 16) for place in (1, 2, 3))
FAULTS = [number(REQUEST_LIMIT + 1), b"\xff\xff\xff\xff"]
PER_CONNECTION = 20
MEBIBYTE = 1 << 20


def body(command, key, *fields):
    return bytes([command]) + number(0) + key + b"".join(fields)


class Crowd:
    """A tenant with a collection and documents at their quotas: 16 and 1,000."""

    def __init__(self, chance):
        self.chance = chance

    def first(self):
        for place in range(1_000):
            yield body(1, CROWDED, named(b"c%d" % (place % 16)), named(b"d%d" % place), b"%d" % place)

    def next(self):
        pick = self.chance.randrange
        collection, document = named(b"c%d" % pick(18)), named(b"d%d" % pick(1_010))
        command = self.chance.choice([1] * 12 + [2, 3, 3, 4, 5, 7, 8, 8, 8] + [6] * (pick(20) == 0))
        more = {1: document + b"%d" % pick(10), 2: document, 3: document, 5: b"$", 7: b"", 8: document + b"%d" % pick(10)}.get(command, b"")
        return body(command, CROWDED, b"" if command == 7 else collection, more)


class Load:
    """A tenant with 16 texts of a mebibyte, its quota of bytes, which come and go."""

    def __init__(self, chance):
        self.chance = chance

    def first(self):
        return (self.put(place, MEBIBYTE) for place in range(16))

    def put(self, place, size, command=1):
        return body(command, HEAVY, named(b"c"), named(b"%d" % place), b" " * (size - 1) + b"1")

    def next(self):
        pick = self.chance.randrange
        place = pick(40)
        command = self.chance.choice([1] * 10 + [2, 2, 3, 3, 4, 7, 8, 8])
        if command in (1, 8):
            return self.put(place, self.chance.choice([2, MEBIBYTE - 1] + [MEBIBYTE] * 5 + [MEBIBYTE + 1, TEXT_LIMIT + 1]), command)
        return body(command, HEAVY, {4: named(b"c"), 7: b""}.get(command, named(b"c") + named(b"%d" % place)))


class Width:
    """A tenant whose queries cost too much, have too large a reply, or stay below by little: 152 wildcards on 65,788 zeros cost
    152 * 65,789 = 9,999,928 units, and on one more 10,000,080."""

    TEXTS = {b"cost": (b"[0" + b",0" * 65_788 + b"]", b"[0" + b",0" * 65_787 + b"]", b"[0]"),
             b"reply": (b'"' + b"x" * 2_097_146 + b'"', b'"x"')}
    QUERIES = {b"cost": b"$[" + b",".join([b"*"] * 152) + b"]", b"reply": b"$"}

    def __init__(self, chance):
        self.chance = chance

    def first(self):
        for place in range(4):
            yield body(1, WIDE, named(b"reply"), named(b"%d" % place), self.TEXTS[b"reply"][0])
        yield body(1, WIDE, named(b"cost"), named(b"a"), self.TEXTS[b"cost"][0])

    def next(self):
        collection = self.chance.choice([b"cost", b"reply"])
        if self.chance.randrange(2):
            document = b"a" if collection == b"cost" else b"%d" % self.chance.randrange(4)
            return body(1, WIDE, named(collection), named(document), self.chance.choice(self.TEXTS[collection]))
        return body(5, WIDE, named(collection), self.QUERIES[collection])


class Requests:
    """Random frames of all tenants."""

    def __init__(self, chance):
        self.chance, self.plain = chance, Traffic(chance)
        self.special = [Crowd(chance), Load(chance), Width(chance)]

    def first(self):
        """What brings the last three tenants to their quotas."""
        return [self.framed(it) for special in self.special for it in special.first()]

    def framed(self, data):
        """A body's frame, with a random request number where it has one."""
        data = data[:1] + number(self.chance.randrange(1 << 32)) + data[5:] if len(data) >= 5 else data
        return number(len(data)) + data

    def next(self):
        kind = self.chance.randrange(400)
        special = 0 if kind < 60 else 1 if kind < 64 else 2 if kind < 66 else None
        return self.framed(self.plain.body() if special is None else self.special[special].next())


def cut(data, chance):
    """Pieces of a stream: stretches of one size each, from single bytes to many requests in a piece, and pauses between some."""
    at, view = 0, memoryview(data)
    while at < len(data):
        until = min(len(data), at + chance.choice([20, 200, 2_000, 20_000, 2_000_000]))
        size = max(chance.choice([1, 1, 2, 7, 40, 300, 65_536, 2_000_000]), (until - at) // 500)
        for start in range(at, until, size):
            yield view[start:min(until, start + size)]
        at = until
        if chance.randrange(3) == 0:
            time.sleep(0.0002)


def send(report, server, model, chance, conn, requests, tail=b""):
    """One connection's requests, and what the model says; `tail` is a frame in part or a framing fault with whatever stands behind it."""
    model.open(conn)
    wanted = [reply for request in [*requests, tail] for reply in model.bytes(conn, request)]
    model.close(conn)
    got, end = talk(open_connection(server.address), cut(b"".join(requests) + tail, chance))
    right = compare_replies(report, f"connection {conn}", [*requests, tail], wanted, got)
    ends = ("end", "reset") if tail[:4] in FAULTS else ("end",)
    report.case(f"the end of connection {conn}", tail, "end", "end" if end in ends else end)
    if end == "silence" or not right:
        report.close(f"given up at connection {conn}")
    return [reply[4] for reply in wanted]


def tail_of(chance):
    """What stands behind the last whole frame: mostly nothing; a frame in part; a framing fault with frames behind it."""
    kind = chance.randrange(8)
    if kind == 0:
        return chance.choice(FAULTS) + bytes(chance.randrange(100))
    return b"\x00\x00\x00\x30\x01" + bytes(chance.randrange(47)) if kind == 1 else b""


def main():
    total = int(sys.argv[1]) if len(sys.argv) > 1 else 10_000
    seed = int(sys.argv[2]) if len(sys.argv) > 2 else 1
    chance, report = random.Random(seed), Report()
    keys = [*KEYS, CROWDED, HEAVY, WIDE]
    model, requests, statuses, faulty = Server(keys), Requests(chance), [], {}
    turns = -(-total // PER_CONNECTION)
    with Running(keys, 1 + turns) as server:
        statuses += send(report, server, model, chance, 0, requests.first() + [requests.next() for _ in range(total)])
        for conn in range(1, 1 + turns):
            tail = tail_of(chance)
            if tail[:4] in FAULTS:
                faulty[conn] = "FrameFault"
            statuses += send(report, server, model, chance, conn, [requests.next() for _ in range(PER_CONNECTION)], tail)
        server.finish(report)
        report.case("the ends on standard error", "", faulty, server.ends())
    names = {code: name for name, code in STATUS.items()}
    print("replies: " + ", ".join(f"{statuses.count(code)} {names[code]}" for code in sorted(set(statuses))))
    report.close(f"{total} requests over one connection and {turns * PER_CONNECTION} over {turns} in turn, seed {seed}")


if __name__ == "__main__":
    main()
