#!/usr/bin/env python3
"""Many connections at once to `path_server listen`, against a plain model: tests/many_connections.py [CONNECTIONS [REQUESTS [SEED]]].

So many connections (2,000) of several tenants are open at once, over which so many requests (20,000) go: random ones, cut anywhere, frames
held open in part while others go on, connections cut at random and opened again. The model (lib/plain_model.py) keeps a dictionary of
dictionaries. Then each limit on its own: peers that never read beside some that do, a small bound on memory, more connections than
descriptors and than the limit, a frame held open in part, idle connections, floods, a framing fault with bytes behind it, keys in a
file, and the end of standard input.
"""
import os
import random
import resource
import select
import selectors
import socket
import sys
import tempfile
import time

from lib.plain_model import Server, number
from lib.running_server import GIVE_BACK, PATIENCE, Listening, Report, frames_of, is_turned_away, open_connection, reset, talk
from lib.traffic import KEYS, UNKNOWN, Traffic
from path_client import REQUEST_LIMIT, Request, connect, parse_address

TENANTS = 64
MEBIBYTE = 1 << 20
FAULT = (REQUEST_LIMIT + 1).to_bytes(4, "big")
FAULT_REPLY = bytes.fromhex("00000005ff00000000")
KEY = KEYS[0]
LARGE = b'"' + b"x" * (MEBIBYTE - 2) + b'"'


def frame(command, fields, key=KEY, place=1):
    body = bytes([command]) + number(place) + key + fields
    return number(len(body)) + body


PUT = frame(1, b"\x01c\x01d" + b'{"a":1}')
PUT_REPLY = bytes.fromhex("000000050000000001")
GET = frame(2, b"\x01c\x01d")
GET_REPLY = bytes.fromhex("0000000c0000000001") + b'{"a":1}'
PUT_LARGE = frame(1, b"\x01c\x01l" + LARGE)
GET_LARGE = frame(2, b"\x01c\x01l")


# ---- many connections against the model

class Lane:
    """One tenant: its open connections, of which one at a time has requests that wait for replies, so that their order is known."""

    def __init__(self, key, chance, model, report):
        self.key, self.chance, self.model, self.report = key, chance, model, report
        self.traffic = Traffic(chance)
        self.connections, self.parts, self.replies = [], {}, 0
        self.current, self.sent, self.wanted, self.got = None, b"", b"", bytearray()

    def request(self):
        body = self.traffic.body()
        if len(body) >= 21 and body[5:21] != UNKNOWN:
            body = body[:5] + self.key + body[21:]
        return number(len(body)) + body

    def begin(self):
        """Picks a connection and what it sends: the rest of a frame held open, some requests, and sometimes a frame in part."""
        connection = self.current = self.chance.choice(self.connections)
        requests = [self.parts.pop(connection, b"")] + [self.request() for _ in range(self.chance.choice([1, 1, 2, 5, 20]))]
        if self.chance.randrange(4) == 0:
            last = self.request()
            cut = self.chance.randrange(1, len(last))
            requests.append(last[:cut])
            self.parts[connection] = last[cut:]
        replies = [reply for request in requests for reply in self.model.bytes(connection.fileno(), request)]
        self.replies += len(replies)
        self.sent, self.wanted, self.got = b"".join(requests), b"".join(replies), bytearray()
        self.rest = memoryview(self.sent)

    def send(self):
        if self.rest:
            size = self.chance.choice([1, 7, 50, 1_000, len(self.rest)])
            try:
                self.rest = self.rest[self.current.send(self.rest[:size]):]
            except BlockingIOError:
                pass

    def read(self):
        try:
            piece = self.current.recv(1 << 20)
        except BlockingIOError:
            return
        if not piece:
            raise ConnectionError("the server ended a connection")
        self.got += piece

    def is_done(self):
        return not self.rest and len(self.got) >= len(self.wanted)

    def compare(self):
        if self.got != self.wanted:
            self.report.case("the replies over one of many connections", self.sent, self.wanted, self.got)
            self.report.close("given up")
        self.report.case("the replies over one of many connections", "", True, True)


class Crowd:
    """All tenants, and the connections to one server."""

    def __init__(self, report, server, keys, chance, count):
        self.report, self.server, self.chance = report, server, chance
        self.model = Server(keys)
        self.lanes = [Lane(key, chance, self.model, report) for key in keys]
        self.opened, self.allowed = 0, set()
        for place in range(count):
            self.open(self.lanes[place % len(keys)])

    def open(self, lane):
        connection = open_connection(self.server.address)
        connection.setblocking(False)
        self.model.open(connection.fileno())
        lane.connections.append(connection)
        self.opened += 1

    def cut(self, lane):
        """Ends one of a tenant's connections, by a reset or an end, in the midst of a frame or not, and opens another."""
        connection = lane.connections.pop(self.chance.randrange(len(lane.connections)))
        lane.parts.pop(connection, None)
        self.model.close(connection.fileno())
        reset(connection) if self.chance.randrange(2) else connection.close()
        self.open(lane)

    def step(self, selector, lane):
        """Begins anew for a tenant whose replies have come."""
        if lane.current:
            lane.compare()
            selector.unregister(lane.current)
        if self.chance.randrange(10) == 0:
            self.cut(lane)
        lane.begin()
        selector.register(lane.current, selectors.EVENT_READ | selectors.EVENT_WRITE, lane)

    def run(self, requests):
        selector = selectors.DefaultSelector()
        for lane in self.lanes:
            self.step(selector, lane)
        late = time.monotonic() + PATIENCE
        while sum(lane.replies for lane in self.lanes) < requests:
            for key, mask in selector.select(1.0):
                lane = key.data
                if mask & selectors.EVENT_WRITE:
                    lane.send()
                    if not lane.rest:
                        selector.modify(lane.current, selectors.EVENT_READ, lane)
                if mask & selectors.EVENT_READ:
                    lane.read()
                if lane.is_done():
                    self.step(selector, lane)
                    late = time.monotonic() + PATIENCE
            if time.monotonic() > late:
                self.report.case("the replies", "", "they come", "silence")
                self.report.close("given up")
        selector.close()

    def settle(self):
        """Waits for the replies that are on their way."""
        for lane in self.lanes:
            lane.current.settimeout(PATIENCE)
            lane.current.sendall(lane.rest)
            lane.rest = b""
            while not lane.is_done():
                lane.read()
            lane.compare()

    def close(self):
        for lane in self.lanes:
            for connection in lane.connections:
                connection.close()


def many(report, count, requests, seed):
    chance = random.Random(seed)
    keys = [bytes([place]) * 16 for place in range(1, TENANTS + 1)]
    with Listening(keys, "--log") as server:
        crowd = Crowd(report, server, keys, chance, count)
        crowd.run(requests)
        crowd.close()
        server.finish(report)
        names = {"connections", "ReadFault", "WriteFault", "dropped"}
        said = [line for line in server.said().splitlines() if not set(line.replace(",", "").split()) & names]
        report.case("the lines on standard error", "", [], said)
        print(f"{count} connections at once, {crowd.opened} in all, {sum(lane.replies for lane in crowd.lanes)} replies", flush=True)


# ---- one limit after the other

def exchange(connection, request, length):
    """Sends a request and reads so many bytes."""
    connection.settimeout(PATIENCE)
    connection.sendall(request)
    got = bytearray()
    while len(got) < length:
        piece = connection.recv(length - len(got))
        if not piece:
            break
        got += piece
    return bytes(got)


def fill(server):
    with open_connection(server.address) as connection:
        exchange(connection, PUT + PUT_LARGE, 18)


def rounds(report, name, server, connections, count):
    """Requests and replies over some connections, while others do as they like."""
    opened = [open_connection(server.address) for _ in range(connections)]
    for _ in range(count):
        for connection in opened:
            report.case(name, GET, GET_REPLY, exchange(connection, GET, len(GET_REPLY)))
    for connection in opened:
        connection.close()


def greedy(server):
    """A peer that asks for 64 MiB and reads nothing."""
    connection = open_connection(server.address)
    connection.sendall(GET_LARGE * 64)
    return connection


def never_read(report, peers):
    with Listening([KEY], env={**os.environ, **GIVE_BACK}) as server:
        fill(server)
        before = server.resident()
        slow = [greedy(server) for _ in range(peers)]
        rounds(report, "a reply beside peers that never read", server, 10, 20)
        grown = (server.resident() - before) // 1024
        most = peers * 3 + 32
        report.case(f"MiB that {peers} peers cost that never read", "", f"at most {most}", f"at most {most}" if grown <= most else grown)
        for connection in slow:
            reset(connection)
        server.finish(report)


def bounded_memory(report, peers):
    """Long replies and long requests wait their turn for memory, and short ones do not; who reads at last gets all."""
    with Listening([KEY], "--memory", str(16 * MEBIBYTE), "--stall", "30", env={**os.environ, **GIVE_BACK}) as server:
        fill(server)
        before = server.resident()
        slow = [greedy(server) for _ in range(peers)]
        rounds(report, "a reply where memory is short", server, 10, 20)
        part = open_connection(server.address)
        part.sendall(PUT_LARGE[:MEBIBYTE // 2])
        grown = (server.resident() - before) // 1024
        report.case("MiB held where memory is short", "", "at most 20", "at most 20" if grown <= 20 else grown)
        wanted = 64 * (9 + MEBIBYTE)
        slow[0].settimeout(PATIENCE)
        got = 0
        while got < wanted:
            piece = slow[0].recv(1 << 20)
            if not piece:
                break
            got += len(piece)
        report.case("bytes for a peer that reads at last", "", wanted, got)
        for connection in slow:
            reset(connection)
        report.case("a request that waited", "", PUT_REPLY, exchange(part, PUT_LARGE[MEBIBYTE // 2:], 9))
        part.close()
        server.finish(report)


def few_descriptors(report, peers):
    """More connections than descriptors: the others wait until some are closed, and the server does not spin."""
    def limit():
        resource.setrlimit(resource.RLIMIT_NOFILE, (64, 64))

    with Listening([KEY], preexec_fn=limit) as server:
        opened = [open_connection(server.address) for _ in range(peers)]
        for connection in opened:
            connection.sendall(PUT)
        time.sleep(1.0)
        used = server.processor_seconds()
        time.sleep(1.0)
        report.case("a wait without descriptors", "", "idle", "idle" if server.processor_seconds() - used < 0.5 else "it spins")
        for connection in opened:
            report.case("a reply with few descriptors", PUT, PUT_REPLY, exchange(connection, b"", 9))
            connection.close()
        server.finish(report, (peers, peers))


def few_connections(report, most, peers):
    """At the limit the others wait until some are closed."""
    with Listening([KEY], "--connections", str(most)) as server:
        opened = [open_connection(server.address) for _ in range(peers)]
        for connection in opened:
            connection.sendall(PUT)
        time.sleep(1.0)
        answered, _, _ = select.select(opened, [], [], 0)
        report.case("connections answered at the limit", "", opened[:most], answered)
        for connection in opened:
            report.case("a reply behind the limit", PUT, PUT_REPLY, exchange(connection, b"", 9))
            connection.close()
        server.finish(report, (peers, peers))


def idle(report):
    """A connection on which nothing moves is closed, and so is one with a frame in part; one that goes on is not."""
    with Listening([KEY], "--idle", "1") as server:
        busy, silent, part = (open_connection(server.address) for _ in range(3))
        part.sendall(PUT_LARGE[:100_000])
        for _ in range(30):
            report.case("a reply beside idle connections", PUT, PUT_REPLY, exchange(busy, PUT, 9))
            time.sleep(0.1)
        for name, connection in (("a silent connection", silent), ("a frame in part", part)):
            report.case(name, "", ("end", b""), ended(connection))
        busy.close()
        report.case("the ends of idle connections", "", {1: "IdleLimit", 2: "IdleLimit"}, server.ends())
        server.finish(report, (3, 30))


def ended(connection):
    connection.settimeout(PATIENCE)
    try:
        return "end", connection.recv(1)
    except ConnectionError:
        return "end", b""
    except socket.timeout:
        return "silence", b""


def floods(report, count):
    """Peers that send without a pause, and read: another one is answered in turn."""
    with Listening([KEY]) as server:
        fill(server)
        flooding = [open_connection(server.address) for _ in range(4)]
        stop = time.monotonic() + PATIENCE
        for connection in flooding:
            connection.setblocking(False)
        other, waits = open_connection(server.address), []
        other.setblocking(False)
        many_gets = memoryview(GET * 2_000)
        for _ in range(count):
            began, got = time.monotonic(), b""
            other.send(GET)
            while len(got) < len(GET_REPLY) and time.monotonic() < stop:
                for connection in flooding:
                    for move in (lambda: connection.send(many_gets), lambda: connection.recv(1 << 20)):
                        try:
                            move()
                        except BlockingIOError:
                            pass
                try:
                    got += other.recv(100)
                except BlockingIOError:
                    pass
            waits.append(time.monotonic() - began)
            report.case("a reply beside floods", GET, GET_REPLY, got)
        waits.sort()
        middle, late = waits[len(waits) // 2], waits[len(waits) * 99 // 100]
        print(f"beside four floods: a reply within {middle * 1000:.1f} ms, 99 of 100 within {late * 1000:.1f} ms", flush=True)
        for connection in [*flooding, other]:
            connection.close()
        server.finish(report)


def framing_fault(report):
    """The replies up to a fault arrive, although bytes behind it are not read as frames."""
    with Listening([KEY]) as server:
        for behind in (0, 10, 100_000, 300_000):
            got, end = talk(open_connection(server.address), [PUT + FAULT + bytes(behind)])
            report.case(f"a framing fault with {behind} bytes behind it", "", (PUT_REPLY + FAULT_REPLY, "end"), (got, end))
        time.sleep(0.1)
        report.case("the ends at framing faults", "", {place: "FrameFault" for place in range(4)}, server.ends())
        server.finish(report, (4, 8))


def keys_in_a_file(report):
    with tempfile.NamedTemporaryFile("w", suffix=".txt") as file:
        file.write(f"# two of them\r\n\r\n{KEYS[1].hex()}\r\n  # the last one\n{bytes(range(16)).hex()}\n")
        file.flush()
        with Listening([KEY], "--keys", file.name) as server:
            for key in (KEY, KEYS[1], bytes(range(16))):
                with connect(server.address, key) as client:
                    report.case("a tenant whose key stands in a file", "", (0, 0, 0), tuple(client.usage()))
            server.finish(report, (3, 3))


def end_of_input(report):
    """Open connections are served on, and a further one is closed without a byte."""
    with Listening([KEY]) as server:
        opened = [open_connection(server.address) for _ in range(5)]
        for connection in opened:
            exchange(connection, PUT, 9)
        server.process.stdin.close()
        time.sleep(0.5)
        report.case("a connection after the end is closed, and not refused", "", True, is_turned_away(server.address))
        for connection in opened:
            report.case("a reply after the end of standard input", GET, GET_REPLY, exchange(connection, GET, len(GET_REPLY)))
            connection.close()
        server.finish(report, (5, 10))


def main():
    count = int(sys.argv[1]) if len(sys.argv) > 1 else 2_000
    requests = int(sys.argv[2]) if len(sys.argv) > 2 else 20_000
    seed = int(sys.argv[3]) if len(sys.argv) > 3 else 1
    _, most = resource.getrlimit(resource.RLIMIT_NOFILE)
    resource.setrlimit(resource.RLIMIT_NOFILE, (most, most))
    report, is_long = Report(), count >= 1_000
    many(report, count, requests, seed)
    never_read(report, 200 if is_long else 50)
    bounded_memory(report, 20 if is_long else 6)
    few_descriptors(report, 200 if is_long else 100)
    few_connections(report, 20, 60)
    idle(report)
    floods(report, 500 if is_long else 50)
    framing_fault(report)
    keys_in_a_file(report)
    end_of_input(report)
    report.close("many connections")


if __name__ == "__main__":
    main()
