#!/usr/bin/env python3
"""The most resident memory of `path_server listen` in 40 shapes of traffic: tests/resident.py [WORD], on Linux alone.

Each shape has a server of its own with `--memory 32M`, whose VmHWM is compared with the sum of docs/OPERATING.md: 3 MiB, the texts with 32 bytes for
each of their values and 600 for each document, the limit on memory, as much again where replies are sent in part, and 64 KiB for each connection.
A tenth is left to the allocator. WORD stands in the names of the shapes to run, all where there is none.
"""
import os
import re
import select
import socket
import sys
from contextlib import ExitStack
from pathlib import Path

from lib.running_server import GIVE_BACK, PATIENCE, Listening, Report, open_connection
from limits import HALF, LONG_QUERY, NO_HITS, TEXT, TOO_LONG_QUERY, put, query
from many_connections import KEY, MEBIBYTE, PUT_REPLY, exchange, frame

MEMORY = 32 * MEBIBYTE
PEERS = 100
OTHER = bytes([79]) * 16
TWO = b'{"b":' + HALF + b"}"


def string(size):
    return b'"' + b"x" * (size - 2) + b'"'


def get(name, key=KEY):
    return frame(2, b"\x01c" + bytes([len(name)]) + name, key)


LIST = frame(4, b"\x01c")
TEXTS = {b"d": TEXT, b"l": TWO, b"r": string(3_930_000), b"m": string(MEBIBYTE), b"k": string(262_100), b"s": string(15_900)}
"""The texts by name. Of a reply with `r` Linux takes all by default, but some bytes."""
REPLIES = {"8 MB": (LONG_QUERY, b"l"), "4 MiB": (get(b"d"), b"d"), "all but a rest": (get(b"r"), b"r"), "1 MiB, four": (get(b"m") * 4, b"m"),
           "256 KiB, sixteen": (get(b"k") * 16, b"k"), "16 KB, six hundred": (get(b"s") * 600, b"s")}
"""What a peer asks for, and the text that it takes."""


def store(server, name, text, key=KEY):
    with open_connection(server.address) as connection:
        if exchange(connection, put(name, text, key), 9) != PUT_REPLY:
            sys.exit(f"the text {name} was not taken")


def take(connection, most=None):
    """Reads whole replies until as many bytes came, or one where none is said."""
    taken = 0
    while True:
        head = exchange(connection, b"", 4)
        taken += 4 + len(exchange(connection, b"", int.from_bytes(head, "big")))
        if most is None or taken >= most:
            return


def send(connection, data):
    """Sends what the system takes at once."""
    connection.setblocking(False)
    try:
        connection.send(data)
    except BlockingIOError:
        pass
    connection.setblocking(True)


def served(server):
    """Has another connection of the tenant served meanwhile."""
    with open_connection(server.address) as other:
        for _ in range(3):
            if exchange(other, put(b"o", b"1"), 9) != PUT_REPLY:
                sys.exit("another connection was not served")


def unread(server, request):
    """Peers ask and read nothing."""
    with ExitStack() as stack:
        for _ in range(PEERS):
            send(stack.enter_context(open_connection(server.address)), request)
        served(server)


def unread_then_read(server, request):
    """Peers ask and read nothing until all have asked, and then each all that comes. Who is served first is the server's to say: a peer that waits for
    memory gets its reply once others have read theirs."""
    with ExitStack() as stack:
        opened = [stack.enter_context(open_connection(server.address)) for _ in range(PEERS)]
        for connection in opened:
            send(connection, request)
        served(server)
        for connection in opened:
            connection.shutdown(socket.SHUT_WR)
        while opened:
            ready = select.select(opened, [], [], PATIENCE)[0]
            if not ready:
                sys.exit(f"{len(opened)} peers read, and nothing comes")
            opened = [it for it in opened if it not in ready or it.recv(1 << 20)]


def half_read(server, request):
    """Peers ask, and read 2 MB and no more. Those that wait for memory that others hold get nothing."""
    with ExitStack() as stack:
        opened = [stack.enter_context(open_connection(server.address)) for _ in range(PEERS)]
        for connection in opened:
            send(connection, request)
        left = dict.fromkeys(opened, 2_000_000)
        while ready := select.select([it for it in left if left[it]], [], [], 0.5)[0]:
            for connection in ready:
                left[connection] -= len(connection.recv(min(left[connection], 65_536)))
        served(server)


def in_turns(server, request):
    """Each peer asks once another has read all."""
    with ExitStack() as stack:
        opened = [stack.enter_context(open_connection(server.address)) for _ in range(PEERS)]
        for connection in opened[:40]:
            connection.sendall(request)
            connection.shutdown(socket.SHUT_WR)
            while connection.recv(1 << 20):
                pass


def puts(server, text):
    """A text is put by peers in turn."""
    with ExitStack() as stack:
        for _ in range(40):
            exchange(stack.enter_context(open_connection(server.address)), put(b"d", text), 9)


def puts_in_part(server, text):
    """Peers send half of a request, and stay."""
    with ExitStack() as stack:
        for _ in range(PEERS):
            send(stack.enter_context(open_connection(server.address)), put(b"d", text)[:len(text) // 2])
        served(server)


def puts_cut_off(server, text):
    """Peers send half of a request, and go."""
    for _ in range(PEERS):
        with open_connection(server.address) as connection:
            send(connection, put(b"d", text)[:len(text) // 2])
    served(server)


def keyless_halves(server, text):
    """Peers without a key send half of a request, and stay."""
    with ExitStack() as stack:
        for _ in range(PEERS):
            send(stack.enter_context(open_connection(server.address)), put(b"d", text, bytes([77]) * 16)[:len(text) // 2])
        served(server)


def refused_puts(server, text):
    """Texts that are refused behind their last byte."""
    with ExitStack() as stack:
        for _ in range(40):
            exchange(stack.enter_context(open_connection(server.address)), put(b"d", text[:-1]), 9)


def names_unread(server, count):
    """Lists of many names that are not read."""
    with open_connection(server.address) as connection:
        for place in range(count):
            exchange(connection, put(b"%0128d" % place, b"1"), 9)
    unread(server, LIST * 20)


def two_tenants(server, request):
    """One tenant reads nothing, and another one's replies are read."""
    with ExitStack() as stack:
        for _ in range(PEERS // 2):
            send(stack.enter_context(open_connection(server.address)), request)
        other = stack.enter_context(open_connection(server.address))
        for _ in range(PEERS // 2):
            other.sendall(get(b"d", OTHER))
            take(other)


def queries_under_way(server, request):
    """A long query of each of two tenants, while others of theirs wait."""
    with ExitStack() as stack:
        opened = [stack.enter_context(open_connection(server.address)) for _ in range(PEERS)]
        for connection in opened:
            send(connection, request)
        exchange(opened[0], b"", len(NO_HITS))


def shapes():
    """The name of each shape, what it does with a server and a value, that value, the names of the texts that are stored, and whether replies are sent in part."""
    for manner in (unread, unread_then_read, half_read, in_turns):
        for size, (request, name) in REPLIES.items():
            yield f"{manner.__name__}: {size}", manner, request, [name], manner is not in_turns
    for manner in (puts, puts_in_part, puts_cut_off, keyless_halves, refused_puts):
        for size in (65_536, 4 * MEBIBYTE):
            yield f"{manner.__name__}: {size}", manner, string(size), [], False
    yield "refused for their length, unread", unread, (get(b"s") + TOO_LONG_QUERY) * 100, [b"l", b"s"], True
    yield "refused for their length, read", unread_then_read, TOO_LONG_QUERY * 10, [b"l"], True
    yield "lists, unread", names_unread, 999, [], True
    yield "two tenants: 8 MB", two_tenants, LONG_QUERY, [b"l", b"d"], True
    yield "two tenants: 4 MiB", two_tenants, get(b"d"), [b"d"], True
    yield "queries under way", queries_under_way, query(b"$..[?@.a==1]"), [b"d"], False


def peak(server):
    """The most bytes that were resident, as Linux tells it."""
    return int(re.search(r"VmHWM:\s*(\d+) kB", Path(f"/proc/{server.process.pid}/status").read_text())[1]) * 1024


def run(report, name, manner, value, names, is_in_part):
    with Listening([KEY, OTHER], "--memory", str(MEMORY), "--stall", "600", "--frame-time", "600", env={**os.environ, **GIVE_BACK}) as server:
        for it in names:
            store(server, it, TEXTS[it])
        if manner is two_tenants:
            store(server, b"d", TEXT, OTHER)
        manner(server, value)
        taken = peak(server)
    # what is put is there twice while it takes the place of one of before
    texts = [TEXTS[it] for it in names] + ([TEXT] if manner is two_tenants else []) + ([value] * 2 if manner is puts else [])
    most = 3 * MEBIBYTE + sum(len(it) + 32 * 3 + 600 for it in texts) + MEMORY * (2 if is_in_part else 1) + PEERS * 65_536
    got = "at most the sum" if taken <= most * 11 // 10 else f"{taken // MEBIBYTE} MiB, and the sum is {most // MEBIBYTE}"
    report.case(name, "", "at most the sum", got)
    print(f"{name}: {taken // MEBIBYTE} MiB, the sum {most // MEBIBYTE} MiB", flush=True)


def main(word=""):
    report = Report()
    for shape in shapes():
        if word in shape[0]:
            run(report, *shape)
    report.close("resident memory")


if __name__ == "__main__":
    main(*sys.argv[1:2])
