#!/usr/bin/env python3
"""Times what the administration address costs the other connections: bench/administration.py [SECONDS], on Linux.

The server has 256 tenants, each of which holds a document, and 10,000 connections. Printed are the processor time of a page of metrics; how long
a tenant's GET takes while nothing else is asked, while pages are fetched without a pause, and while eight peers of the address send without a
pause; and the rate and the processor time of requests over 100 connections, with and without --admin in turns. The program is the one that bin/build
makes, or the one that the environment's PATH_SERVER names.
"""
import contextlib
import http.client
import re
import socket
import sys
import tempfile
import threading
import time
from pathlib import Path

from many import allow_descriptors, middle, rates, times
from running import GET, PATIENCE, PROGRAM, compiled, name, need_program, put, read_exactly, reply, request, started

TURNS, PAIRS = 9, 40
KEYS = [bytes([place]) * 16 for place in range(256)]
CONNECTIONS = 10_000
PAGES = 200
TEXT = b'{"a":1}'
ASKED = (request(GET, name(b"c") + name(b"n"), KEYS[-1]), len(reply(TEXT)))


@contextlib.contextmanager
def administered(folder, *words):
    """A server of all tenants, its port, and that of its administration address."""
    keys = Path(folder) / "keys"
    keys.write_text("".join(f"{key.hex()}\n" for key in KEYS), encoding="ascii")
    with started([PROGRAM, "listen", "127.0.0.1:0", "--keys", keys, "--connections", "20000", *words]) as (process, port):
        line = process.stdout.readline() if "--admin" in words else ""
        yield process, port, int(line.rpartition(":")[2] or 0)


def connected(port):
    connection = socket.create_connection(("127.0.0.1", port), PATIENCE)
    connection.setsockopt(socket.IPPROTO_TCP, socket.TCP_NODELAY, 1)
    return connection


def fill(port):
    """A document of each tenant."""
    with connected(port) as connection:
        for key in KEYS:
            connection.sendall(put(b"n", TEXT, key=key))
            assert read_exactly(connection, len(reply())) == reply()


def fetch(port):
    connection = http.client.HTTPConnection("127.0.0.1", port, timeout=PATIENCE)
    connection.request("GET", "/metrics")
    page = connection.getresponse().read()
    connection.close()
    return page


def processor(process):
    """The seconds that the process has been on a processor."""
    return int(Path(f"/proc/{process.pid}/schedstat").read_text(encoding="ascii").split()[0]) / 1e9


def page_seconds(process, port):
    """The bytes of a page, and the processor time that one takes."""
    before = processor(process)
    for _ in range(PAGES):
        page = fetch(port)
    return len(page), (processor(process) - before) / PAGES


@contextlib.contextmanager
def meanwhile(what, count):
    """So many threads that do this again and again."""
    goes = [True]

    def go_on():
        while goes[0]:
            with contextlib.suppress(OSError):
                what()

    threads = [threading.Thread(target=go_on) for _ in range(count)]
    for it in threads:
        it.start()
    try:
        yield
    finally:
        goes[0] = False
        for it in threads:
            it.join()


def flood(port):
    """Sends what follows a request, which nobody waits for, until the connection is closed."""
    with connected(port) as connection:
        connection.sendall(b"GET /health HTTP/1.1\r\nHost: a\r\n\r\n")
        while True:
            connection.sendall(bytes(65_536))


def cost(load, folder, seconds):
    """With and without the address, in turns: the middle rate, and the middle of the microseconds that a request is on the processor. Then the middle
    of the ratios of two that follow each other."""
    ways = {"with --admin": ["--admin", "127.0.0.1:0"], "without": []}
    rates_of, spent = {way: [] for way in ways}, {way: [] for way in ways}
    with contextlib.ExitStack() as stack:
        servers = {way: stack.enter_context(administered(folder, *words)) for way, words in ways.items()}
        for _, port, _ in servers.values():
            fill(port)
        for turn in range(PAIRS):
            for way in list(ways)[::1 if turn % 2 else -1]:
                process, port, _ = servers[way]
                before = processor(process)
                rate = rates(load, port, 100, seconds, ASKED)[0]
                rates_of[way].append(rate)
                spent[way].append((processor(process) - before) / (rate * seconds) * 1e6)
    ratios = [without / with_it for with_it, without in zip(*spent.values())]
    return {way: (middle(rates_of[way]), middle(spent[way])) for way in ways}, middle(ratios)


def main():
    need_program()
    if allow_descriptors() < CONNECTIONS + 200:
        sys.exit(f"bench/administration.py: {CONNECTIONS + 200} descriptors are wanted")
    seconds = float(sys.argv[1]) if len(sys.argv) > 1 else 2.0
    with tempfile.TemporaryDirectory() as folder:
        load = compiled(folder, "many_load.c")
        with administered(folder, "--admin", "127.0.0.1:0") as (process, port, admin), contextlib.ExitStack() as opened:
            fill(port)
            for _ in range(CONNECTIONS):
                opened.enter_context(connected(port))
            while b"path_server_connections_open %d\n" % CONNECTIONS not in fetch(admin):
                time.sleep(0.1)
            length, spent = page_seconds(process, admin)
            print(f"a page of {length} bytes, {len(KEYS)} tenants and {CONNECTIONS} connections: {spent * 1e3:.3f} ms on the processor", flush=True)
            beside = {"nothing else": (None, 0), "pages without a pause": (lambda: fetch(admin), 1), "eight peers that send without a pause": (lambda: flood(admin), 8)}
            for others, (what, count) in beside.items():
                with meanwhile(what, count):
                    time.sleep(0.2)
                    told = [times(load, port, 1, seconds, ASKED) for _ in range(TURNS)]
                print("a GET beside {}: {:.0f} a second, median {:.0f}, 99 of 100 within {:.0f}, the longest {:.0f} us".format(others, *middle(told)), flush=True)
        ways, ratio = cost(load, folder, seconds / 10)
        for way, (rate, spent) in ways.items():
            print(f"100 connections {way}: {rate:.0f} a second, {spent:.3f} us of a request on the processor", flush=True)
        print(f"requests a second on one processor, with --admin over without: {ratio:.3f}", flush=True)


if __name__ == "__main__":
    main()
