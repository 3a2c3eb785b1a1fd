#!/usr/bin/env python3
"""Times the work of other tenants during which `path_server listen` serves nobody else: bench/steps.py [SECONDS [WORD]], on Linux.

In each row other tenants do one kind of work, and one more tenant asks for a document of 13 bytes. Its time is the processor time that the server,
which has one thread, takes between the arrival of that GET and its reply, so that other processes change little in it: the median, the time that 99 of
100 do not pass, and the longest, in milliseconds. Requests come together: the server is stopped (SIGSTOP) until the last byte of each has come. GETs
come one after the other until all are answered, and the longest counts. Beside repeated work, GETs come at random moments. A row has 100 times, or as
many as SECONDS (10) allow. With a WORD, only the rows that have it in their names are measured. The program is the one that bin/build makes, or the
one that the environment's PATH_SERVER names, with the allocator's settings of bin/path_server_run. Where it may, as root, the script itself has a
real-time priority, so that no GET comes late.
"""
import collections
import contextlib
import itertools
import multiprocessing
import os
import random
import re
import signal
import sys
import tempfile
import threading
import time
from pathlib import Path

os.environ["MEBIBYTES"] = "4"
TOP = Path(__file__).resolve().parent.parent
# the allocator as bin/path_server_run sets it
os.environ |= re.findall(r'(MALLOC_\w+)="\$\{\w+:-(\d+)\}"', (TOP / "bin/path_server_run").read_text(encoding="ascii"))
sys.path.append(str(TOP / "tests"))

from administration import KEYS, administered, connected
from hostile import LEAVES, TEXT, escaped, filled, kept_pairs, long_names, many, members, numbered, sorted_strings, twins
from many import CHAIN, COSTLY, NESTED, PART, allow_descriptors
from meeting_names import short_text, text_of
from running import GET, QUERY, USAGE, items, name, need_program, put, read_exactly, reply, request
from sockets import SMALL

REMOVE, LIST, DROP, NOT_JSON = 3, 4, 6, 7
GETS, PAUSE, SHORT = 100, 0.06, 65_536
COUNTS, REFUSED, MEETING = (10, 100, 250), "empty arrays, refused at its end", "one object, names with an escape made to meet"
COMPARING = ("20 strings, escaped,", "95 strings, escaped,", "three long arrays,", "28 strings,", "28 arrays,")
QUIET, ONE, TWO, OTHERS = KEYS[-1], KEYS[0], KEYS[1], KEYS[:250]
ASKED, ANSWER = request(GET, name(b"c") + name(b"d"), QUIET), reply(SMALL)


# A connection has each of the keys, and sends the frames that it asks for its key. Some are sent before the first GET, some before each. The connections
# stay, or come anew for each GET, before it or together with it; or what they ask is repeated. Replies have one status, if one is named
Row = collections.namedtuple("Row", "name keys asked first before how status", defaults=(lambda _: [], lambda _: [], "stay", 0))


# ---- the server and the tenant that waits

class Server:
    def __init__(self, process, port):
        self.pid, self.port, self.quiet = process.pid, port, connected(port)
        self.quiet.settimeout(None)
        exchange(self.quiet, [put(b"d", SMALL, key=QUIET)])

    def processor(self):
        """The milliseconds that it has been on a processor, to the moment: /proc tells them to a tick."""
        return time.clock_gettime(~self.pid << 3 | 2) * 1e3

    def settle(self):
        """Waits until it waits, or is stopped."""
        before = None
        while before != (now := self.processor()) or Path(f"/proc/{self.pid}/stat").read_text(encoding="ascii").rpartition(")")[2].split()[0] not in "ST":
            before = now
            time.sleep(0.002)

    def stop(self):
        os.kill(self.pid, signal.SIGSTOP)
        os.waitid(os.P_PID, self.pid, os.WSTOPPED)
        self.settle()

    def time(self):
        """The milliseconds on the processor until a GET is answered. A server that was stopped goes on behind its arrival."""
        began = self.processor()
        self.quiet.sendall(ASKED)
        os.kill(self.pid, signal.SIGCONT)
        assert read_exactly(self.quiet, len(ANSWER)) == ANSWER
        return self.processor() - began


def exchange(connection, frames, status=0):
    """Sends requests together, and reads a reply to each."""
    connection.sendall(b"".join(frames))
    for _ in frames:
        answer = read_exactly(connection, int.from_bytes(read_exactly(connection, 4), "big"))
        assert status in (None, answer[0]), answer[:9]


def repeat(port, row):
    """Sends what each connection asks again and again, once the replies have come."""
    def go_on(key):
        with connected(port) as connection:
            connection.settimeout(None)
            while True:
                exchange(connection, row.asked(key), row.status)

    for key in row.keys:
        threading.Thread(target=go_on, args=(key,)).start()


@contextlib.contextmanager
def meanwhile(what, *words):
    """Does something in a process of its own, which is ended with the block."""
    process = multiprocessing.get_context("fork").Process(target=what, args=words)
    process.start()
    try:
        yield process
    finally:
        process.kill()
        process.join()


def once(server, row, stay):
    """The longest time of GETs that come together with the last byte of what each connection asks, or all bytes if they are few, and then one after
    the other until all is answered."""
    connections, lasts = list(stay), []
    with contextlib.ExitStack() as opened:
        def come():
            connections.extend(opened.enter_context(connected(server.port)) for _ in row.keys)

        def finish():
            for connection, key in zip(connections, row.keys):
                connection.settimeout(None)
                exchange(connection, [b""] * len(row.asked(key)), row.status)

        if row.how == "come before":
            come()
        for place, key in enumerate(row.keys):
            asked = b"".join(row.asked(key))
            kept = 0 if len(asked) <= SHORT else len(asked) - 1
            if connections:
                exchange(connections[place], row.before(key))
                connections[place].sendall(asked[:kept])
            lasts.append(asked[kept:])
        server.settle()
        server.stop()
        if row.how == "come together":
            come()
        for connection, last in zip(connections, lasts):
            connection.sendall(last)
        with meanwhile(finish) as finishing:
            took = [server.time()]
            while finishing.is_alive():
                took.append(server.time())
            assert finishing.exitcode == 0
    return max(took)


def times(server, row, seconds):
    """The times of a row, in order."""
    with contextlib.ExitStack() as opened:
        for key in dict.fromkeys(row.keys):
            exchange(opened.enter_context(connected(server.port)), row.first(key))
        stay = [opened.enter_context(connected(server.port)) for _ in row.keys] if row.how == "stay" else []
        for connection, key in zip(stay, row.keys):
            exchange(connection, [request(USAGE, key=key)])
        if row.how == "repeat":
            opened.enter_context(meanwhile(repeat, server.port, row))
        took, until = [], time.monotonic() + seconds
        while len(took) < GETS and (not took or time.monotonic() < until):
            if row.how == "repeat":
                time.sleep(random.uniform(0, PAUSE))
                server.stop()
            took.append(server.time() if row.how == "repeat" else once(server, row, stay))
    return sorted(took)


# ---- rows

def putting(text):
    return lambda key: [put(b"n", text, key=key)]


def fields(command, *names):
    return lambda key: [request(command, b"".join(map(name, names)), key)]


def asking(query):
    return lambda key: [request(QUERY, name(b"c") + query.encode(), key)]


def documents(count, text, length=1):
    return lambda key: [put(b"%0*d" % (length, at), text, key=key) for at in range(count)]


def puts():
    made = {**{kind: many(leaf) for kind, leaf in LEAVES.items()}, "arrays 254 deep": many("[" * 254 + "]" * 254), REFUSED: many("[]")[:-1] + "}",
            "one string": '"' + "s" * (TEXT - 2) + '"', "one string of escapes": '"' + "\\n" * (TEXT // 2 - 1) + '"', "strings of one escape": many('"\\n"'),
            "numbers with exponents": many("-1.5e-3"), "orders": items(TEXT).decode(), "one object": members(numbered(800_000))[0],
            "one object, names spelt by escapes": members(escaped(800_000))[0], "one object, long names with an escape": members(long_names(80_000))[0],
            "one object, names made to meet": text_of("", TEXT, True).decode(), MEETING: text_of("\n", TEXT, True).decode(),
            "one object, short names made to meet": short_text(TEXT).decode()}
    made = {kind: putting(text.encode()) for kind, text in made.items()}
    orders, short = made["orders"], putting(items(65_000))
    rows = [(kind, 1) for kind in made] + [("one string", it) for it in COUNTS] + [(kind, it) for kind in (REFUSED, "orders") for it in (10, 100)] + [(MEETING, 10)]
    yield from (Row(f"put of 4 MiB, {kind}", OTHERS[:count], made[kind], status=NOT_JSON if kind == REFUSED else 0) for kind, count in rows)
    yield from (Row("put of 64 KiB, orders", OTHERS[:count], short) for count in (1, *COUNTS))
    yield Row("put of 4 MiB, orders, on 100 connections", [ONE] * 100, orders)
    yield Row("put of 4 MiB, orders, the first request of 100 connections", [ONE] * 100, orders, how="come before")
    yield Row("puts of 4 MiB, orders, by two keys in turn on a connection, repeated", [ONE], lambda _: orders(ONE) + orders(TWO), how="repeat")


def replies():
    text, listing, get = putting(b'"' + b"s" * (TEXT - 2) + b'"'), fields(LIST, b"c"), fields(GET, b"c", b"n")
    twice, names = putting(b'{"b":"' + b"s" * 4_000_000 + b'"}'), documents(1_000, b"0", 128)
    for count in (1, *COUNTS):
        yield Row("GET of 4 MiB", OTHERS[:count], get, text)
        yield Row("QUERY with a reply of 8 MB, two strings", OTHERS[:count], asking("$['b','b']"), twice)
        yield Row("LIST of 1,000 names of 128 bytes", OTHERS[:count], listing, names)
        yield Row(f"GET of 13 bytes, the first request of {count} new connections", [ONE] * count, get, putting(SMALL), how="come together")
    yield Row("GET of 4 MiB, on 100 connections", [ONE] * 100, get, text)
    yield Row("GET of 4 MiB, the first request of 100 new connections", [ONE] * 100, get, text, how="come together")
    yield Row("GETs of 4 MiB by two keys in turn on a connection", [ONE], lambda _: (get(ONE) + get(TWO)) * 32, lambda _: text(ONE) + text(TWO))


def drops():
    drop, arrays = fields(DROP, b"c"), many("[]").encode()
    for count in (1, 10):
        yield Row("DROP of 16 MiB, empty arrays", OTHERS[:count], drop, before=documents(4, arrays))
        yield Row("DROP of 1,000 documents of 16 KiB, orders", OTHERS[:count], drop, before=documents(1_000, items(16_700)))
        yield Row("REMOVE of 4 MiB, empty arrays", OTHERS[:count], fields(REMOVE, b"c", b"n"), before=putting(arrays))
        yield Row("put of 13 bytes over 4 MiB, empty arrays", OTHERS[:count], putting(SMALL), before=putting(arrays))
    yield from (Row("DROP of 1,000 numbers", OTHERS[:count], drop, before=documents(1_000, b"0")) for count in (1, *COUNTS))


def queries():
    asked = {kind: (text, query) for kind, text, query in itertools.chain(sorted_strings(), kept_pairs()) if kind.startswith(COMPARING)}
    zeros, half = many("0"), many("[0]", room=TEXT // 2 - 2)
    asked.update({"five wildcards on zeros": (zeros, "$[*,*,*,*,*]"), "a filter on zeros": (zeros, "$[?@>1]"), "all nodes of arrays": (many("[0]"), "$..*"),
                  "two objects compared": (twins(numbered()), "$[?@!=$[0]]"), "two arrays compared": (f"[{half},{half}]", filled("@==$[0]", "&&")),
                  "a filter in a filter": (CHAIN.decode(), NESTED.decode()), "names of orders": (items(TEXT).decode(), "$..name")})
    for kind, (text, query) in asked.items():
        yield Row(f"query, {kind}, repeated", [ONE], asking(query), putting(text.encode()), how="repeat", status=None)
    yield from (Row("query, a filter on 64 KiB, repeated", OTHERS[:count], asking(COSTLY.decode()), putting(PART), how="repeat") for count in COUNTS)


def main():
    need_program()
    allow_descriptors()
    seconds, word = float(sys.argv[1]) if len(sys.argv) > 1 else 10.0, sys.argv[2] if len(sys.argv) > 2 else ""
    with contextlib.suppress(PermissionError):
        os.sched_setscheduler(0, os.SCHED_FIFO | os.SCHED_RESET_ON_FORK, os.sched_param(1))
    print("| work | tenants | times | median | 99 of 100 | longest |\n|---|---|---|---|---|---|")
    for row in (row for made in (puts, replies, drops, queries) for row in made() if word in row.name):
        with tempfile.TemporaryDirectory() as folder, administered(folder) as (process, port, _):
            took = times(Server(process, port), row, seconds)
        shown = " | ".join(f"{it:.2f}" for it in (took[len(took) // 2], took[len(took) * 99 // 100], took[-1]))
        print(f"| {row.name} | {len(set(row.keys))} | {len(took)} | {shown} |", flush=True)


if __name__ == "__main__":
    main()
