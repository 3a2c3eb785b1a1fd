#!/usr/bin/env python3
"""Looks whether traffic leaves memory behind: tests/long/long_traffic.py [MEBIBYTES [SEED]], on Linux alone.

So many mebibytes (1,024) of puts and gets of texts up to the limit, of queries whose hits are as large, and of refused requests go to a
server, over connections of 16 mebibytes each. Each text that comes back is compared. Each connection ends with the same documents kept as
it began with; the resident memory after the last is at most a mebibyte more than after the second. The C library is told to give back at
once what is freed, so that this is the memory in use and not what the library keeps for later.
"""
import os
import random
import sys
import time
from pathlib import Path

sys.path.insert(0, str(Path(__file__).resolve().parent.parent))
from lib.running_server import GIVE_BACK, Report, Running
from path_client import Hit, Refused, Request, connect

KEY = bytes(range(16))
MEBIBYTE = 1 << 20
PER_CONNECTION = 16
ALLOWED = 1_024
TEXTS = 8


def text_of(chance, size):
    """An array of one string, of so many bytes."""
    return b'["' + bytes([chance.randrange(97, 123)]) * (size - 4) + b'"]'


def keep(client, chance, kept, place):
    kept[place] = text_of(chance, chance.choice([MEBIBYTE, MEBIBYTE, MEBIBYTE - chance.randrange(1_000), chance.randrange(4, MEBIBYTE)]))
    client.put("c", str(place), kept[place])
    return len(kept[place])


def round_trip(report, client, chance, kept):
    """A put, a get and a query of one text, a remove and a put of another, and refusals. Gives the bytes that went over the wire."""
    place, other = chance.sample(range(TEXTS), 2)
    moved = keep(client, chance, kept, place)
    text = kept[place]
    wanted = [None, text, "NotFound", "NotJson", [str(number) for number in range(TEXTS)], [Hit("only", "$[0]", text[1:-1])]]
    requests = [Request.put("q", "only", text), Request.get("c", str(place)), Request.get("c", "none"),
                Request.put("c", str(place), text[:-1]), Request.list("c"), Request.query("q", "$[0]")]
    found = [it.name if isinstance(it, Refused) else it for it in client.pipeline(requests)]
    report.case("a put, and what comes back", f"{len(text)} bytes as {place}", wanted, found)
    client.remove("c", str(other))
    return 5 * moved + keep(client, chance, kept, other)


def keep_all(client, kept):
    """The same texts each time. Gives their bytes."""
    chance = random.Random(0)
    return sum(keep(client, chance, kept, place) for place in range(TEXTS))


def connection(report, server, seed, mebibytes):
    """One connection's traffic, which ends with the texts with which it began. Gives the resident memory before it."""
    chance, kept, moved = random.Random(seed), {}, 0
    with connect(server.address, KEY, timeout=120.0) as client:
        client.usage()
        resident = server.resident()
        keep_all(client, kept)
        while moved < mebibytes * MEBIBYTE:
            moved += round_trip(report, client, chance, kept)
        keep_all(client, kept)
        client.pipeline([Request.drop("q")])
        report.case("what is kept at the end", "", (1, TEXTS, sum(map(len, kept.values()))), tuple(client.usage()))
    return resident


def main():
    total = int(sys.argv[1]) if len(sys.argv) > 1 else 1_024
    seed = int(sys.argv[2]) if len(sys.argv) > 2 else 1
    report, rounds, started = Report(), 2 + -(-total // PER_CONNECTION), time.monotonic()
    with Running([KEY], rounds + 1, env={**os.environ, **GIVE_BACK}) as server:
        memory = [connection(report, server, f"{seed} {place}", PER_CONNECTION) for place in range(rounds)]
        memory.append(connection(report, server, "", 0))
        seconds = time.monotonic() - started
        server.finish(report)
        report.case("the ends on standard error", "", {}, server.ends())
    grown = memory[-1] - memory[2]
    report.case(f"KiB of resident memory before each connection and at the end, {memory}", "", True, grown <= ALLOWED)
    resident = f"{memory[2]} KiB of memory at first and {memory[-1]} at last"
    report.close(f"{total} MiB and {2 * PER_CONNECTION} before them in {seconds:.0f} s, {resident}, seed {seed}")


if __name__ == "__main__":
    main()
