#!/usr/bin/env python3
"""Times requests over one connection beside an echo in C of as many bytes, and beside Redis and PostgreSQL: bench/sockets.py.

It compiles bench/echo.c and bench/rounds.c (cc), starts the program as `path_server serve` and the echo, and times rounds of a request and
its reply in turns: each line has, for both, the middle one of five medians and the least time, and the ratios of these. Then come rounds
of Redis with the same texts, and what pgbench says of PostgreSQL, where these are installed. The program is the one that bin/build
makes, or the one that the environment's PATH_SERVER names.
"""
import json
import re
import statistics
import struct
import subprocess
import tempfile
from pathlib import Path

from running import KEY, PROGRAM, compiled, get, items, name, need_program, postgres, put, query, redis, redis_words, reply, started

TURNS = 5
SMALL = b'{"a":[10,20]}'
MEBIBYTE = 1 << 20
FILTER, FILTER_IN_SQL = "$.items[?@.price<10].name", "$.items[*] ? (@.price < 10).name"
STRING = b'"' + b"x" * (MEBIBYTE - 2) + b'"'


def hits(*found):
    """The payload of hits: a document's name, a path and a value each."""
    lengths = [name(document) + struct.pack(">I", len(path)) + path + struct.pack(">I", len(value)) + value for document, path, value in found]
    return struct.pack(">I", len(found)) + b"".join(lengths)


def middle(pairs):
    """The middle one of the medians, and the least of all."""
    medians, leasts = zip(*pairs)
    return statistics.median(medians), min(leasts)


class Rounds:
    """Rounds over one connection, by bench/rounds.c."""

    def __init__(self, folder):
        self.folder, self.program = Path(folder), compiled(folder, "rounds.c")

    def times(self, port, asked, answered, rounds):
        """The median and the least time of a round, in microseconds."""
        (self.folder / "request").write_bytes(asked)
        (self.folder / "reply").write_bytes(answered)
        words = [self.program, str(port), self.folder / "request", self.folder / "reply", str(rounds)]
        ran = subprocess.run(words, check=True, stdout=subprocess.PIPE, encoding="ascii")
        return tuple(map(float, ran.stdout.split()))


def beside_echo(share=1.0, turns=TURNS):
    """Each kind of round, the bytes that the echo sends back, and the middle and least times of the server and of the echo."""
    large = items(MEBIBYTE)
    kinds = [("GET of 13 bytes", get(b"dd"), reply(SMALL), 20_000),
             ("16 GETs of 13 bytes in a piece", get(b"dd") * 16, reply(SMALL) * 16, 5_000),
             ("QUERY `$.a[1]` on 13 bytes", query(b"$.a[1]", b"q"), reply(hits((b"d", b"$['a'][1]", b"20"))), 20_000),
             ("GET of 1 MiB", get(b"large"), reply(large), 300),
             ("PUT of 1 MiB, small objects", put(b"large", large), reply(), 100),
             ("PUT of 1 MiB, one string", put(b"large", STRING), reply(), 100)]
    serve = [PROGRAM, "serve", "127.0.0.1:0", KEY.hex(), "1000"]
    with tempfile.TemporaryDirectory() as folder, started(serve) as (_, server), started([compiled(folder, "echo.c")]) as (_, echo):
        rounds = Rounds(folder)
        for first in (put(b"dd", SMALL), put(b"large", large), put(b"d", SMALL, b"q")):
            rounds.times(server, first, reply(), 1)
        for title, asked, answered, count in kinds:
            echoed = asked if len(asked) >= len(answered) else answered
            servers, echoes = [], []
            for _ in range(turns):
                echoes.append(rounds.times(echo, echoed, echoed, int(count * share)))
                servers.append(rounds.times(server, asked, answered, int(count * share)))
            yield title, len(echoed), middle(servers), middle(echoes)


def of_redis(share=1.0, turns=TURNS):
    """Redis with the same texts: each kind of round, and its middle and least times."""
    with tempfile.TemporaryDirectory() as folder, redis() as (_, port):
        if not port:
            return
        rounds = Rounds(folder)
        for title, text, count in (("13 bytes", SMALL, 20_000), ("1 MiB", items(MEBIBYTE), 300)):
            stored, got = redis_words(b"SET", b"d", text), redis_words(b"GET", b"d")
            pairs = [rounds.times(port, stored, b"+OK\r\n", max(int(count * share) // 3, 1)) for _ in range(turns)]
            yield f"SET of {title}", middle(pairs)
            pairs = [rounds.times(port, got, b"$%d\r\n%s\r\n" % (len(text), text), int(count * share)) for _ in range(turns)]
            yield f"GET of {title}", middle(pairs)
        stored, got = redis_words(b"SET", b"d", SMALL), redis_words(b"GET", b"d") * 16
        rounds.times(port, stored, b"+OK\r\n", 1)
        pairs = [rounds.times(port, got, b"$%d\r\n%s\r\n" % (len(SMALL), SMALL) * 16, int(5_000 * share)) for _ in range(turns)]
        yield "16 GETs of 13 bytes in a piece", middle(pairs)


def latency(ask, statement, rounds):
    """The mean time of a prepared statement on one connection, in microseconds, by pgbench."""
    with tempfile.NamedTemporaryFile("w", suffix=".sql") as script:
        script.write(statement + ";\n")
        script.flush()
        Path(script.name).chmod(0o644)
        said = ask("pgbench", "-n", "-M", "prepared", "-c", "1", "-t", str(rounds), "-f", script.name)
    return float(re.search(r"latency average = ([\d.]+) ms", said)[1]) * 1000


def of_postgres(share=1.0):
    """PostgreSQL with the small text in a column of jsonb: each statement, and its mean time."""
    with postgres() as ask:
        if not ask:
            return
        ask("psql", "-q", "-c", "create table t (id int primary key, d jsonb)", "-c", f"insert into t values (1, '{SMALL.decode()}')")
        for title, statement in (("GET of 13 bytes", "select d from t where id = 1"),
                                 ("QUERY `$.a[1]` on 13 bytes", "select jsonb_path_query(d, '$.a[1]') from t where id = 1")):
            yield title, latency(ask, statement, int(10_000 * share))


def filtered(length, share=1.0):
    """The medians of the server and of PostgreSQL for one query on a stored text of that length, in microseconds, None where there is none."""
    text = items(length)
    found = [(at, it["name"]) for at, it in enumerate(json.loads(text)["items"]) if it["price"] < 10]
    answered = reply(hits(*[(b"d", b"$['items'][%d]['name']" % at, b'"%s"' % it.encode()) for at, it in found]))
    rounds_asked = max(int(min(2_000, 40_000_000 / length) * share), 5)
    with tempfile.TemporaryDirectory() as folder, started([PROGRAM, "serve", "127.0.0.1:0", KEY.hex(), "1000"]) as (_, server):
        rounds = Rounds(folder)
        rounds.times(server, put(b"d", text), reply(), 1)
        ours = statistics.median(rounds.times(server, query(FILTER.encode()), answered, rounds_asked)[0] for _ in range(3))
    with postgres() as ask:
        if not ask:
            return ours, None
        ask("psql", "-q", given=f"create table t (id int primary key, d jsonb); insert into t values (1, $${text.decode()}$$);")
        return ours, latency(ask, f"select jsonb_path_query(d, '{FILTER_IN_SQL}') from t where id = 1", rounds_asked)


def main():
    need_program()
    for title, echoed, (server, least), (echo, least_echo) in beside_echo():
        ratios = f"ratios {server / echo:.2f} and {least / least_echo:.2f}"
        print(f"{title}: {server:.1f}, least {least:.1f} us; echo of {echoed} bytes: {echo:.1f}, least {least_echo:.1f} us; {ratios}", flush=True)
    for title, (median, least) in of_redis():
        print(f"Redis, {title}: {median:.1f}, least {least:.1f} us", flush=True)
    for title, mean in of_postgres():
        print(f"PostgreSQL, {title}: mean {mean:.1f} us", flush=True)
    for length in (1_000, 1 << 20):
        print(f"QUERY {FILTER} on {length} bytes, and by PostgreSQL, us:", *filtered(length), flush=True)


if __name__ == "__main__":
    main()
