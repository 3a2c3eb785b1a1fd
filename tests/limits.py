#!/usr/bin/env python3
"""What is true at each limit of `path_server listen`: tests/limits.py [NAME..], on Linux alone.

Memory: many clients that put large texts at once, with ample memory and with the least; peers that read nothing of what they asked for, with
a key and without one; half frames, with a key and without one; peers that stall, and peers that send a byte at a time, while others wait for what
they hold; queries that take longer than `--frame-time` side by side; peers that are gone while their query goes on or while they wait for memory.
Connections: idle ones and half frames at the limit on connections and at that of descriptors. Standard error and standard input of each kind. Time: a
long reply that is read slowly beside an idle limit, requests that came while the server was busy for longer than it, first requests of many new
connections, and urgent data.
In each case those that can go on do, within a bound. NAMEs are those of the cases to run, all where there is none. long/long_limits.py has
the same with larger numbers.
"""
import os
import re
import resource
import select
import signal
import socket
import subprocess
import sys
import tempfile
import threading
import time
import urllib.request
from contextlib import contextmanager, suppress

from many_connections import FAULT, FAULT_REPLY, GET, GET_REPLY, KEY, MEBIBYTE, PUT, PUT_REPLY, exchange, frame
from lib.running_server import GIVE_BACK, PATIENCE, PROGRAM, Listening, Report, open_connection, reset, talk
from path_client import parse_address

LEAST = 14_680_072
"""The least limit on memory: what a longest request and a longest reply take, with their lengths."""
LONGEST_REPLY = 8_388_612
BESIDE = 65_536
"""What a connection may hold beside the limit on memory."""
STRANGER = bytes([77]) * 16
TEXT = b'"' + b"x" * (4 * MEBIBYTE - 2) + b'"'
HALF = b'"' + b"y" * (4_000_000 - 2) + b'"'
QUIET = {"env": {**os.environ, **GIVE_BACK}}


def put(name, text, key=KEY):
    return frame(1, b"\x01c" + bytes([len(name)]) + name + text, key)


def query(text, key=KEY):
    return frame(5, b"\x01c" + text, key)


LONG_QUERY = query(b"$['b','b']")
"""A reply of 8,000,000 bytes and a few: twice a value of 4,000,000 bytes."""
TOO_LONG_QUERY = query(b"$['b','b','b']")
TOO_LONG_REPLY = bytes.fromhex("000000051400000001")
NO_HITS = bytes.fromhex("00000009000000000100000000")
ONE_HIT = bytes.fromhex("000000000100000001")
"""The status of a reply, its number, and how many hits there are."""


def at_most(report, name, most, got):
    return report.case(name, "", f"at most {most}", f"at most {most}" if got <= most else got)


@contextmanager
def within(report, name, seconds):
    """One case: what is done takes so many seconds at most."""
    began = time.monotonic()
    yield
    at_most(report, f"the seconds of {name}", seconds, round(time.monotonic() - began, 3))


@contextmanager
def meanwhile(what, *words):
    """Does something again and again in a thread of its own, until the block ends."""
    stop = threading.Event()

    def go_on():
        while not stop.is_set():
            what(stop, *words)

    thread = threading.Thread(target=go_on, daemon=True)
    thread.start()
    try:
        yield
    finally:
        stop.set()
        thread.join()


def deaf(server):
    """A connection whose peer's side has room for little."""
    connection = socket.socket()
    connection.setsockopt(socket.SOL_SOCKET, socket.SO_RCVBUF, 4_096)
    connection.connect(parse_address(server.address))
    return connection


def fill(server):
    with open_connection(server.address) as connection:
        text = b'{"b":' + HALF + b"}"
        if exchange(connection, put(b"l", text) + PUT, 18) != PUT_REPLY * 2:
            sys.exit("the texts for the queries were not taken")


def long_reply(server):
    """The reply to the long query, by a peer that reads at once."""
    with open_connection(server.address) as connection:
        return whole_reply(connection, LONG_QUERY)


def whole_reply(connection, request):
    head = exchange(connection, request, 4)
    return head + exchange(connection, b"", int.from_bytes(head, "big"))


def names_of(server):
    """The names of the ends that were told of."""
    return [name for number, name in server.ends().items() if number >= 0]


# ---- memory

def putting(report, clients, *words):
    """Clients that put 4 MiB each at once are all answered, and what is resident meanwhile is at most the limit and a tenth."""
    memory = int(words[1]) if words else 1 << 30
    with Listening([KEY], *words, **QUIET) as server:
        opened = [open_connection(server.address) for _ in range(clients)]
        replies, grown = [b""] * clients, [0]
        before, began = server.resident(), time.monotonic()

        def look(stop):
            grown[0] = max(grown[0], server.resident() - before)
            stop.wait(0.02)

        def send(place):
            # every client puts the same document, so that what the tenant keeps stays small
            replies[place] = exchange(opened[place], put(b"d", TEXT), len(PUT_REPLY))

        threads = [threading.Thread(target=send, args=(place,), daemon=True) for place in range(clients)]
        with meanwhile(look):
            for thread in threads:
                thread.start()
            for thread in threads:
                thread.join(PATIENCE)
        seconds, answered = time.monotonic() - began, sum(reply == PUT_REPLY for reply in replies)
        report.case(f"clients answered that put 4 MiB, {' '.join(words)}", "", clients, answered)
        # beside the limit: the text that is kept, and what reading one takes
        at_most(report, f"bytes held for them, {' '.join(words)}", memory * 11 // 10 + clients * BESIDE + 24 * MEBIBYTE, grown[0] * 1024)
        told = f"{clients} clients that put 4 MiB, memory {memory}: {seconds:.1f} s, at most {grown[0] // 1024} MiB more resident"
        print(told, flush=True)
        for connection in opened:
            connection.close()
        server.finish(report)


def readers(report, peers):
    """Peers that ask for 8 MB and read nothing: what the server holds stays within the limit and a tenth, and small requests are answered."""
    memory = 16 * MEBIBYTE
    with Listening([KEY], "--memory", str(memory), "--stall", "2", **QUIET) as server:
        fill(server)
        before = server.resident()
        silent = [deaf(server) for _ in range(peers)]
        for connection in silent:
            connection.sendall(LONG_QUERY)
        grown = 0
        with open_connection(server.address) as connection:
            for _ in range(50):
                with within(report, "a reply beside peers that read nothing", 1):
                    report.case("a reply beside peers that read nothing", GET, GET_REPLY, exchange(connection, GET, len(GET_REPLY)))
                grown = max(grown, (server.resident() - before) * 1024)
                time.sleep(0.1)
        at_most(report, f"bytes held for {peers} peers that read nothing", memory * 11 // 10 + peers * BESIDE, grown)
        print(f"{peers} peers that read nothing of 8 MB: {grown // MEBIBYTE} MiB more resident at a limit of 16 MiB", flush=True)
        for connection in silent:
            reset(connection)
        report.case("a long reply behind them", "", 8_000_000, len(long_reply(server)) // 1_000_000 * 1_000_000)
        server.finish(report)


def refused_replies(report, peers):
    """Peers that read nothing and ask for more than the longest reply: of a reply that was begun and refused nothing stays."""
    memory = 16 * MEBIBYTE
    with Listening([KEY], "--memory", str(memory), **QUIET) as server:
        fill(server)
        with open_connection(server.address) as connection:
            exchange(connection, put(b"s", b'"' + b"s" * 15_000 + b'"'), 9)
            report.case("a reply above the limit", TOO_LONG_QUERY, TOO_LONG_REPLY, exchange(connection, TOO_LONG_QUERY, 9))
        before = server.resident()
        silent = [deaf(server) for _ in range(peers)]
        # the first replies go where the system has room for them
        get = frame(2, b"\x01c\x01s")
        for connection in silent:
            connection.sendall(get * 100 + (get + TOO_LONG_QUERY) * 100)
        used = -1.0
        while used != server.processor_seconds():
            used = server.processor_seconds()
            time.sleep(0.5)
        grown = (server.resident() - before) * 1024
        at_most(report, f"bytes held for {peers} peers with refused replies", memory * 11 // 10 + peers * BESIDE, grown)
        print(f"{peers} peers that read nothing, with refused replies: {grown // MEBIBYTE} MiB more resident at a limit of 16 MiB", flush=True)
        for connection in silent:
            reset(connection)
        server.finish(report)


def unread_replies(report, peers, memory):
    """While a tenant holds and waits for all the memory that it may have, for replies that it does not read, a query of another tenant is answered at once."""
    words = "--admin", "127.0.0.1:0", "--memory", str(memory), "--stall", "600", "--frame-time", "600"
    with Listening([KEY, STRANGER], *words) as server:
        admin = server.process.stdout.readline().split()[-1].decode()
        fill(server)
        with open_connection(server.address) as connection:
            report.case("a text of another tenant", "", PUT_REPLY, exchange(connection, put(b"d", b"1", STRANGER), 9))
            opened = [deaf(server) for _ in range(peers)]
            for it in opened:
                it.sendall(LONG_QUERY)
            until = time.monotonic() + PATIENCE
            while waiting(admin) < 5 and time.monotonic() < until:
                time.sleep(0.05)
            report.case("some of the peers wait for memory", "", True, waiting(admin) >= 5)
            taken = []
            for _ in range(3):
                began = time.monotonic()
                reply = whole_reply(connection, query(b"$", STRANGER))
                report.case(f"a query of another tenant beside {peers} unread replies", "", ONE_HIT, reply[4:13])
                taken.append(time.monotonic() - began)
            at_most(report, "the seconds that it took", 1, max(taken))
            for it in opened:
                it.close()
        server.finish(report)


def waiting(admin):
    """How many connections wait for memory."""
    with urllib.request.urlopen(f"http://{admin}/metrics") as page:
        return int(re.search(rb"^path_server_connections_waiting (\d+)", page.read(), re.M)[1])


def strangers(report, peers):
    """Half frames without a key beside a tenant's texts of 4 MiB, which are taken."""
    with Listening([KEY], "--memory", str(LEAST), **QUIET) as server:
        half = put(b"d", TEXT, STRANGER)[:2 * MEBIBYTE]
        opened = [open_connection(server.address) for _ in range(peers)]
        for connection in opened:
            connection.setblocking(False)
            try:
                connection.send(half)
            except BlockingIOError:
                pass
        with open_connection(server.address) as connection:
            for _ in range(5):
                with within(report, "a text of 4 MiB beside half frames without a key", 2):
                    got = exchange(connection, put(b"d", TEXT), 9)
                report.case("a text of 4 MiB beside half frames without a key", "", PUT_REPLY, got)
        whole = open_connection(server.address)
        for connection in opened:
            reset(connection)
        report.case("a long request of no tenant", "", bytes.fromhex("000000050200000001"), exchange(whole, put(b"d", TEXT, STRANGER), 9))
        whole.close()
        server.finish(report)


def deaf_strangers(report, peers):
    """Peers without a key that send the shortest requests and read nothing: they hold no more than each may beside the limit, and a tenant's
    texts are taken."""
    with Listening([KEY], "--memory", str(64 * MEBIBYTE), **QUIET) as server:
        before, short = server.resident(), bytes(65_536)
        opened = [deaf(server) for _ in range(peers)]
        for connection in opened:
            connection.setblocking(False)
        moved = time.monotonic()
        while time.monotonic() < moved + 1:
            for connection in opened:
                try:
                    connection.send(short)
                    moved = time.monotonic()
                except BlockingIOError:
                    pass
            time.sleep(0.01)
        grown = (server.resident() - before) * 1024
        at_most(report, f"bytes held for {peers} strangers that read nothing", peers * BESIDE + MEBIBYTE, grown)
        print(f"{peers} strangers that read nothing: {grown // 1024} KiB more resident", flush=True)
        with open_connection(server.address) as connection, within(report, "a text of 4 MiB beside them", 2):
            report.case("a text of 4 MiB beside strangers that read nothing", "", PUT_REPLY, exchange(connection, put(b"d", TEXT), 9))
        for connection in opened:
            reset(connection)
        server.finish(report)


def stalled(report):
    """One that holds memory for which another waits, and moves no byte, is closed; so is one that sends a byte at a time for too long."""
    for name, words in (("StallLimit", ("--stall", "1")), ("FrameTimeLimit", ("--frame-time", "2", "--stall", "5"))):
        with Listening([KEY], "--memory", str(LEAST), *words) as server:
            holders = [open_connection(server.address) for _ in range(2)]
            for connection in holders:
                connection.sendall(put(b"d", TEXT)[:100_000])
            time.sleep(0.3)

            def drip(stop):
                if name == "FrameTimeLimit":
                    for connection in holders:
                        try:
                            connection.send(b"x")
                        except OSError:
                            pass
                stop.wait(0.2)

            with meanwhile(drip), open_connection(server.address) as connection, within(report, f"a text behind {name}", 12):
                report.case(f"a text behind {name}", "", PUT_REPLY, exchange(connection, put(b"d", TEXT), 9))
            report.case(f"the ends at {name}", "", [name] * 2, names_of(server))
            report.case(f"a line on memory at {name}", "", True, "connections wait for memory, open 3" in server.said())
            for connection in holders:
                connection.close()
            server.finish(report)


def side_by_side(report, tenants):
    """Queries of so many tenants at once, of which two wait for what the others hold, are all answered, although each takes longer than the frame time."""
    keys = [bytes([97 + place]) * 16 for place in range(tenants)]
    text = b"[" + b",".join(b'{"a":%d}' % at for at in range(600)) + b"]"
    dear = b"$[?" + b"||".join([b"count(@.*)>9"] * 26) + b"]"
    memory = LEAST + (tenants - 3) * LONGEST_REPLY
    with Listening(keys, "--memory", str(memory), "--frame-time", "1") as server:
        opened = [open_connection(server.address) for _ in keys]
        for connection, key in zip(opened, keys):
            texts = [put(b"%d" % at, text, key) for at in range(180)]
            report.case("texts for queries side by side", "", PUT_REPLY * 180, exchange(connection, b"".join(texts), 9 * 180))
        began = time.monotonic()
        for connection, key in zip(opened, keys):
            connection.sendall(query(dear, key))
        for connection in opened:
            report.case("a reply to a query side by side", "", NO_HITS, exchange(connection, b"", len(NO_HITS)))
            connection.close()
        report.case("the ends of queries side by side", "", [], names_of(server))
        print(f"{tenants} queries side by side took {time.monotonic() - began:.1f} s", flush=True)
        server.finish(report)


def beside_many_tenants(report, tenants):
    """Each of so many tenants has a long query under way, and none of them is answered in one piece: a GET waits for shares alone."""
    keys = [bytes([97 + place]) * 16 for place in range(tenants)]
    text = b"[" + b",".join(b'{"a":%d}' % at for at in range(600)) + b"]"
    dear = b"$[?" + b"||".join([b"count(@.*)>9"] * 26) + b"]"
    with Listening([KEY, *keys]) as server, open_connection(server.address) as other:
        report.case("a put", "", PUT_REPLY, exchange(other, PUT, 9))
        for key in keys:
            with open_connection(server.address) as connection:
                texts = [put(b"%d" % at, text, key) for at in range(30)]
                report.case("texts for many tenants", "", PUT_REPLY * 30, exchange(connection, b"".join(texts), 9 * 30))
        with open_connection(server.address) as connection:
            began = time.monotonic()
            report.case("a long query alone", "", NO_HITS, exchange(connection, query(dear, keys[0]), len(NO_HITS)))
            alone = time.monotonic() - began
        for tries in range(3):
            opened = [open_connection(server.address) for _ in keys]
            for connection, key in zip(opened, keys):
                connection.sendall(query(dear, key))
            waits = []
            for _ in range(20):
                began = time.monotonic()
                report.case("a reply beside many tenants", GET, GET_REPLY, exchange(other, GET, len(GET_REPLY)))
                waits.append(time.monotonic() - began)
            for connection in opened:
                reset(connection)
            if max(waits) <= alone / 2:
                break
        at_most(report, f"the seconds of a reply beside {tenants} tenants with a query of {alone:.3f} s", alone / 2, max(waits))
        print(f"beside {tenants} tenants with a query of {alone:.2f} s each a reply came within {max(waits) * 1000:.1f} ms", flush=True)


def first_requests(report, peers):
    """The first requests of new connections of one tenant, which take long, do not come one after the other: another tenant is served between them."""
    mine = bytes([98]) * 16
    heavy = put(b"l", b"[" + b"0," * 250_000 + b"0]", mine)
    with Listening([KEY, mine]) as server:
        with open_connection(server.address) as other:
            report.case("a put", "", PUT_REPLY, exchange(other, PUT, 9))
            for tries in range(3):
                opened = [open_connection(server.address) for _ in range(peers)]
                for connection in opened:
                    connection.sendall(heavy[:-1])
                time.sleep(0.5)
                began, waits = time.monotonic(), []
                for connection in opened:
                    connection.sendall(heavy[-1:])
                while select.select([opened[-1]], [], [], 0)[0] == []:
                    asked = time.monotonic()
                    report.case("a reply beside first requests", GET, GET_REPLY, exchange(other, GET, len(GET_REPLY)))
                    waits.append(time.monotonic() - asked)
                for connection in opened:
                    report.case("a reply to a first request", "", PUT_REPLY, exchange(connection, b"", 9))
                    connection.close()
                whole = time.monotonic() - began
                if waits and max(waits) <= whole / 4:
                    break
        at_most(report, f"the seconds of a reply beside first requests that take {whole:.3f} s", whole / 4, max(waits, default=whole))
        print(f"beside {peers} first requests of {whole:.2f} s in all a reply came within {max(waits, default=whole) * 1000:.1f} ms", flush=True)
        server.finish(report)


def urgent(report, tries):
    """A request with urgent data in its middle is read on, although it came while the server was busy (RFC 9293, section 3.8.5)."""
    heavy = put(b"l", b"[" + b"0," * 500_000 + b"0]")
    with Listening([KEY]) as server:
        with open_connection(server.address) as busy, open_connection(server.address) as connection:
            report.case("a put", "", PUT_REPLY, exchange(connection, PUT, 9))
            connection.setsockopt(socket.IPPROTO_TCP, socket.TCP_NODELAY, 1)
            for number in range(tries):
                busy.sendall(heavy[:-1])
                time.sleep(0.2)
                busy.sendall(heavy[-1:])
                connection.sendall(GET[:9])
                connection.send(b"!", socket.MSG_OOB)
                connection.sendall(GET[9:])
                is_answered = bool(select.select([connection], [], [], 10)[0])
                report.case(f"urgent request {number}: a reply comes", GET, True, is_answered)
                if not is_answered:
                    break
                report.case(f"urgent request {number}", GET, GET_REPLY, exchange(connection, b"", len(GET_REPLY)))
                report.case("the reply that kept it busy", "", PUT_REPLY, exchange(busy, b"", 9))
        server.finish(report)


def held_without_others(report):
    """One that holds memory and stalls, where nobody waits, is let be."""
    with Listening([KEY], "--stall", "1", "--frame-time", "1") as server:
        whole = put(b"d", TEXT)
        connection = open_connection(server.address)
        connection.sendall(whole[:1_000_000])
        time.sleep(3.5)
        report.case("a text that paused where nobody waits", "", PUT_REPLY, exchange(connection, whole[1_000_000:], 9))
        connection.close()
        server.finish(report)


def gone_queries(report):
    """A peer that resets its connection ends its query at the next turn. One that ends its own side alone gets its reply."""
    text = b"[" + b",".join([b"[" + b",".join([b"0"] * 3_000) + b"]"] * 150) + b"]"
    dear = query(b"$[?" + b"||".join(b"count(@.*)>%d" % (99_999 - place) for place in range(20)) + b"]")
    with Listening([KEY]) as server:
        with open_connection(server.address) as connection:
            report.case("a text for a long query", "", PUT_REPLY * 2, exchange(connection, put(b"l", text) + PUT, 18))
        began = time.monotonic()
        report.case("a reply to a peer that ended its side", dear, (NO_HITS, "end"), talk(open_connection(server.address), [dear]))
        seconds = time.monotonic() - began
        for number in (2, 4):
            left, other = (open_connection(server.address) for _ in range(2))
            left.sendall(dear)
            time.sleep(seconds / 10)
            other.sendall(GET)
            began = time.monotonic()
            reset(left)
            report.case("a reply behind a query whose peer is gone", GET, GET_REPLY, exchange(other, b"", len(GET_REPLY)))
            waited = time.monotonic() - began
            at_most(report, "the seconds until a query ends whose peer is gone", seconds / 2, waited)
            report.case("the end of a peer that is gone", "", "ReadFault", server.ends().get(number))
            other.close()
        print(f"a query of {seconds:.2f} s ended {waited * 1000:.1f} ms after its peer was gone", flush=True)
        server.finish(report, (6, 5))


def gone_waiters(report):
    """A peer that resets its connection while it waits for memory waits no more: so one that holds memory is let be."""
    with Listening([KEY], "--memory", str(LEAST), "--stall", "1") as server:
        whole = put(b"d", TEXT)
        holder, waiter = (open_connection(server.address) for _ in range(2))
        for connection in (holder, waiter):
            connection.sendall(whole[:100_000])
            time.sleep(0.1)
        reset(waiter)
        time.sleep(3.5)
        report.case("a text that paused where who waited is gone", "", PUT_REPLY, exchange(holder, whole[100_000:], 9))
        holder.close()
        report.case("the end of a peer that is gone while it waits", "", ["ReadFault"], names_of(server))
        server.finish(report)


def invalid(report):
    """A limit on memory that is too small is an invalid command line that says the least."""
    words = [PROGRAM, "listen", "127.0.0.1:0", KEY.hex(), "--memory", str(LEAST - 1)]
    done = subprocess.run(words, stdin=subprocess.DEVNULL, capture_output=True, timeout=PATIENCE)
    report.case("a limit on memory that is too small", "", (3, True), (done.returncode, str(LEAST).encode() in done.stderr))


# ---- connections

def spare(report, most):
    """At the limit on connections idle ones make room; ones that have something in part or were just busy do not."""
    with Listening([KEY], "--connections", str(most), "--spare", "1") as server:
        opened = [open_connection(server.address) for _ in range(most)]
        opened[0].sendall(PUT[:10])
        for connection in opened[1:3]:
            exchange(connection, PUT, 9)
        time.sleep(2.5)
        exchange(opened[-1], PUT, 9)
        later = [open_connection(server.address) for _ in range(3)]
        for connection in later:
            with within(report, "a reply at the limit on connections", 2):
                report.case("a reply at the limit on connections", PUT, PUT_REPLY, exchange(connection, PUT, 9))
        report.case("one that has something in part", "", PUT_REPLY, exchange(opened[0], PUT[10:], 9))
        report.case("one that was just busy", "", PUT_REPLY, exchange(opened[-1], PUT, 9))
        report.case("the ends at the limit", "", ["SpareLimit"] * 3, names_of(server))
        for connection in [*opened, *later]:
            connection.close()
        server.finish(report)


def parts_at_the_limit(report, most):
    """Peers that send one byte of a frame and no more keep others out for --frame-time at most, of which a line tells."""
    with Listening([KEY], "--connections", str(most), "--spare", "1", "--frame-time", "3") as server:
        opened = [open_connection(server.address) for _ in range(most)]
        for connection in opened:
            connection.sendall(b"\x00")
        with open_connection(server.address) as connection, within(report, "a reply beside frames in part at the limit", 6):
            report.case("a reply beside frames in part at the limit", PUT, PUT_REPLY, exchange(connection, PUT, 9))
        line = f"connections wait to be accepted: as many are open as may be, open {most}"
        report.case("the line at the limit on connections", "", True, line in server.said())
        for connection in opened:
            connection.close()
        server.finish(report)


def strangers_at_the_limit(report, most):
    """Peers without a key that wait for memory, drip, or ask now and then keep others out for --frame-time at most. One with a key stays."""
    part, asked = put(b"h", HALF, STRANGER)[:40], frame(2, b"\x01c\x01d", STRANGER)

    def go_on(stop, drips, asks):
        for connection, bytes_sent in [*((it, b"\x00") for it in drips), *((it, asked) for it in asks)]:
            with suppress(OSError):
                connection.sendall(bytes_sent)
        stop.wait(0.4)

    with Listening([KEY], "--connections", str(most), "--spare", "3", "--frame-time", "4") as server:
        opened = [open_connection(server.address) for _ in range(most)]
        waits, drips, asks = opened[1::3], opened[2::3], opened[3::3]
        for connection in waits:
            connection.sendall(part)
        for connection in drips:
            connection.sendall(asked[:4])
        with meanwhile(go_on, drips, asks), meanwhile(lambda stop: (exchange(opened[0], PUT, 9), stop.wait(0.5))):
            later = [open_connection(server.address) for _ in range(3)]
            for connection in later:
                with within(report, "a reply beside strangers at the limit", 8):
                    report.case("a reply beside strangers at the limit", PUT, PUT_REPLY, exchange(connection, PUT, 9))
        report.case("one with a key beside strangers at the limit", "", PUT_REPLY, exchange(opened[0], PUT, 9))
        for connection in [*opened, *later]:
            connection.close()
        server.finish(report)


def few_descriptors(report):
    """Where the system has no descriptor left, idle ones make room too."""
    def limit():
        resource.setrlimit(resource.RLIMIT_NOFILE, (64, 64))

    with Listening([KEY], "--spare", "1", preexec_fn=limit) as server:
        opened = [open_connection(server.address) for _ in range(64)]
        time.sleep(2.5)
        later = [open_connection(server.address) for _ in range(5)]
        for connection in later:
            with within(report, "a reply without descriptors", 2):
                report.case("a reply without descriptors", PUT, PUT_REPLY, exchange(connection, PUT, 9))
        report.case("the ends without descriptors", "", {"SpareLimit"}, set(names_of(server)))
        for connection in [*opened, *later]:
            connection.close()
        server.finish(report)


# ---- standard error and standard input

def full_standard_error(report, faults):
    """A standard error that nobody reads: framing faults go on, and others are answered at once."""
    read, write = os.pipe()
    waits = []
    try:
        with Listening([KEY], errors=write) as server, open_connection(server.address) as other:
            report.case("a put", "", PUT_REPLY, exchange(other, PUT, 9))
            for _ in range(faults):
                with open_connection(server.address) as connection:
                    if exchange(connection, FAULT, 9) != FAULT_REPLY:
                        report.case("a framing fault", "", FAULT_REPLY, "none")
                began = time.monotonic()
                if exchange(other, GET, len(GET_REPLY)) != GET_REPLY:
                    report.case("a reply beside faults", "", GET_REPLY, "none")
                waits.append(time.monotonic() - began)
    finally:
        os.close(read)
        os.close(write)
    waits.sort()
    late = waits[len(waits) * 99 // 100]
    at_most(report, "seconds of 99 of 100 replies beside a full standard error", 0.005, late)
    told = f"99 of 100 replies within {late * 1000:.2f} ms, all within {waits[-1] * 1000:.2f} ms"
    print(f"{faults} faults that nobody reads of: {told}", flush=True)


def few_lines(report, resets):
    """A flood of resets makes a hundred lines a second at most, and what was dropped is told."""
    with Listening([KEY]) as server:
        began = time.monotonic()
        for _ in range(resets):
            connection = open_connection(server.address)
            connection.sendall(PUT[:10])
            reset(connection)
        time.sleep(2.5)
        lines = server.said().splitlines()
        at_most(report, "lines of a flood of resets", 100 * (int(time.monotonic() - began) + 1), len(lines))
        dropped = sum(int(line.split()[1]) for line in lines if line.endswith("lines dropped"))
        told = sum(" connection " in line for line in lines)
        report.case("ends that were told or counted", "", resets, told + dropped)
        server.finish(report)


def standard_streams(report):
    """Whatever standard input and standard error are, closed ones too, the server serves, and a stop and a continuation change nothing."""
    left, right = socket.socketpair()
    read, write = os.pipe()
    gone, broken = os.pipe()
    os.close(gone)
    with tempfile.TemporaryFile() as file, open("/dev/full", "wb") as full, open("/dev/null") as null:
        inputs = {"a pipe": {"stdin": subprocess.PIPE}, "/dev/null": {"stdin": null}, "a file": {"stdin": file}, "a socket": {"stdin": left},
                  "closed": {"preexec_fn": lambda: os.close(0)}}
        errors = {"a file": {"errors": file}, "a full device": {"errors": full}, "a pipe nobody reads": {"errors": write},
                  "a pipe whose reader is gone": {"errors": broken}, "a socket": {"errors": left}, "closed": {"preexec_fn": lambda: os.close(2)}}
        both = {"stdin": subprocess.DEVNULL, "preexec_fn": lambda: (os.close(0), os.close(2))}
        kinds = [(f"standard input {name}", {"stdin": subprocess.PIPE, **more}) for name, more in inputs.items()]
        kinds += [(f"standard error {name}", {"stdin": subprocess.PIPE, **more}) for name, more in errors.items()]
        for name, more in [*kinds, ("both closed", both)]:
            with Listening([KEY], **more) as server:
                for _ in range(2):
                    with open_connection(server.address) as connection:
                        report.case(f"replies, {name}", "", PUT_REPLY + GET_REPLY, exchange(connection, PUT + GET, len(PUT_REPLY + GET_REPLY)))
                    for _ in range(3):
                        with open_connection(server.address) as connection:
                            report.case(f"a framing fault, {name}", "", FAULT_REPLY, exchange(connection, FAULT, 100))
                    server.process.send_signal(signal.SIGSTOP)
                    time.sleep(0.05)
                    server.process.send_signal(signal.SIGCONT)
                report.case(f"the server, {name}", "", None, server.process.poll())
    for it in (left, right):
        it.close()
    for it in (read, write, broken):
        os.close(it)


# ---- time

def slowly(report):
    """A reply of 8 MB that is read slowly comes whole beside an idle limit of a second."""
    with Listening([KEY], "--idle", "1") as server:
        fill(server)
        with deaf(server) as connection:
            connection.sendall(LONG_QUERY)
            connection.settimeout(PATIENCE)
            got, began = bytearray(), time.monotonic()
            while len(got) < 8_000_000:
                piece = connection.recv(100_000)
                if not piece:
                    break
                got += piece
                if len(got) < 4_000_000:
                    time.sleep(max(len(got) / 1_000_000 - (time.monotonic() - began), 0))
            report.case("bytes of a reply that is read slowly", "", 8_000_000, len(got) // 1_000_000 * 1_000_000)
        server.finish(report)


def busy(report, peers):
    """Requests that came while the server was busy for longer than the idle limit are answered, however many connections have one."""
    text = b"[" + b",".join(b'{"a":%d}' % at for at in range(300_000)) + b"]"
    heavy = query(b"$[?@.a<0||@.a>999999||@.a==-1||@.a==-2].a")
    with Listening([KEY], "--idle", "1") as server:
        with open_connection(server.address) as connection:
            report.case("a large text", "", PUT_REPLY, exchange(connection, put(b"l", text), 9))
            began = time.monotonic()
            reply = exchange(connection, heavy, 13)
            seconds = time.monotonic() - began
        others = [open_connection(server.address) for _ in range(min(int(4 / seconds) + 1, 1_000))]
        opened = [open_connection(server.address) for _ in range(peers)]
        for connection in opened:
            exchange(connection, PUT, 9)
        for connection in others:
            connection.sendall(heavy)
        time.sleep(0.3)
        for connection in opened:
            connection.sendall(GET)
        for connection in others:
            report.case("a reply to a heavy query", heavy, reply, exchange(connection, b"", 13))
            connection.close()
        answered = 0
        for connection in opened:
            try:
                answered += exchange(connection, b"", len(GET_REPLY)) == GET_REPLY
            except ConnectionError:
                pass
            connection.close()
        report.case("connections answered behind a busy server", "", peers, answered)
        report.case("the ends behind a busy server", "", [], names_of(server))
        print(f"{len(others)} queries of {seconds:.2f} s, and {answered} of {peers} requests behind them answered", flush=True)
        server.finish(report)


def cases(is_short):
    """Each test and its numbers."""
    yield (invalid,)
    yield putting, 3, "--memory", str(LEAST)
    yield putting, 40 if is_short else 300
    yield readers, 30 if is_short else 200
    yield refused_replies, 4 if is_short else 20
    yield unread_replies, 40, 32 * MEBIBYTE
    yield unread_replies, 60, 128 * MEBIBYTE
    yield strangers, 50 if is_short else 300
    yield deaf_strangers, 20 if is_short else 100
    yield (stalled,)
    yield side_by_side, 14
    yield beside_many_tenants, 80
    yield first_requests, 40
    yield urgent, 5
    yield (held_without_others,)
    yield (gone_queries,)
    yield (gone_waiters,)
    yield spare, 200 if is_short else 10_000
    yield parts_at_the_limit, 50 if is_short else 1_000
    yield strangers_at_the_limit, 40 if is_short else 1_000
    yield (few_descriptors,)
    yield full_standard_error, 2_500 if is_short else 100_000
    yield few_lines, 2_000 if is_short else 20_000
    yield (standard_streams,)
    yield (slowly,)
    yield busy, 1_500 if is_short else 5_000


def main(is_short, names):
    _, most = resource.getrlimit(resource.RLIMIT_NOFILE)
    resource.setrlimit(resource.RLIMIT_NOFILE, (most, most))
    report = Report()
    for what, *words in cases(is_short):
        if names and what.__name__ not in names:
            continue
        began = time.monotonic()
        try:
            what(report, *words)
        except OSError as error:
            report.case(what.__name__, "", "it goes on", repr(error))
        print(f"{what.__name__}: {time.monotonic() - began:.1f} s", flush=True)
    report.close("limits")


if __name__ == "__main__":
    main(True, sys.argv[1:])
