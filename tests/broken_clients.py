#!/usr/bin/env python3
"""Ends clients at random moments and looks whether the server goes on: tests/broken_clients.py [MOMENTS [SEED [turns]]].

So many clients (200) are killed or end their connection by a reset, each at a random byte or a random time of its requests. After each,
the next is served; its own tenant has what a prefix of its requests leaves, of which those that were answered are part; and another
tenant has every byte that it had. So it is after a client that never reads, after one that asks on until nothing more goes out, for
which the server takes no more memory than for a few replies, and after each that sends behind its framing fault. What stands on
standard error is what docs/PROTOCOL.md says of the ends. With `turns` a client also has the 1,000,000 reads of a connection.
"""
import os
import random
import select
import signal
import socket
import sys
import time

from lib.plain_model import Server, number
from lib.running_server import Report, Running, frames_of, open_connection, reset, talk
from lib.traffic import COLLECTIONS, KEYS, Traffic
from path_client import REQUEST_LIMIT, Refused, Request, connect

BYSTANDER = KEYS[0]
VICTIMS = 200
AT_ONCE = 20
READ_LIMIT = 1_000_000
FAULT = (REQUEST_LIMIT + 1).to_bytes(4, "big")
FAULT_REPLY = bytes.fromhex("00000005ff00000000")
BROKEN = {"ReadFault", "WriteFault"}
MEBIBYTE = 1 << 20
GROWN_KIB = 4_096
TEXTS = {"one": b'{"a":[1,2,3]}', "two": b" " * 300_000 + b'"x"', "three": b'[{"k":"\xc3\xa9"}]'}
USAGE_REPLY = bytes.fromhex("00000011000000000100000001") + number(len(TEXTS)) + number(sum(map(len, TEXTS.values())))


class Watch:
    """The server, a bystander's documents, and for each connection the names that its end may have."""

    def __init__(self, report, server):
        self.report, self.server = report, server
        self.conn, self.allowed = 0, {}

    def open(self, *names):
        """Notes the next connection and how it may end: None stands for an end that is not told."""
        self.allowed[self.conn] = set(names or {None})
        self.conn += 1
        return self.conn - 1

    def client(self, key=BYSTANDER):
        self.open()
        return connect(self.server.address, key, timeout=60.0)

    def fill(self):
        with self.client() as client:
            client.pipeline([Request.put("b", name, text) for name, text in TEXTS.items()])

    def look(self, name, sent, victim=None, states=None):
        """The next client is served: the bystander's documents are those put, and the victim's are one of the states."""
        with self.client() as client:
            found = client.pipeline([Request.get("b", text) for text in TEXTS] + [Request.list("b"), Request.usage()])
            wanted = [*TEXTS.values(), sorted(TEXTS), (1, len(TEXTS), sum(map(len, TEXTS.values())))]
            self.report.case(f"{name}: another tenant's documents", sent, wanted, found)
            if victim:
                client.key = victim
                left = documents(client)
                wanted = "what a prefix of the requests leaves"
                self.report.case(f"{name}: its own documents", sent, wanted, wanted if left in states else left)

    def ends(self):
        """Each line on standard error against what the connection's end may be."""
        found = self.server.ends()
        self.report.case("the numbers on standard error", "", [], sorted(set(found) - set(self.allowed)))
        for conn, names in self.allowed.items():
            got = found.get(conn)
            self.report.case(f"the end of connection {conn}", "", names, names if got in names else got)


def documents(client):
    """A tenant's collections with their documents, by requests over a connection."""
    names = [name.decode() for name in COLLECTIONS]
    lists = client.pipeline([Request.list(name) for name in names])
    pairs = [(name, document) for name, found in zip(names, lists) for document in found]
    texts = client.pipeline([Request.get(*pair) for pair in pairs])
    left = {name: {} for name, found in zip(names, lists) if found}
    for (name, document), text in zip(pairs, texts):
        left[name][document] = text
    usage = client.usage()
    return left if usage.documents == len(pairs) and not any(isinstance(text, Refused) for text in texts) else (left, usage)


class Victim:
    """A client's requests, all of its own tenant, and what the plain model has after each."""

    def __init__(self, chance, key):
        self.key, traffic, model = key, Traffic(chance), Server([key])
        model.open(0)
        self.frames, self.states = [], [{}]
        for _ in range(chance.choice([1, 5, 30])):
            frame = self.framed(chance, traffic.body())
            model.bytes(0, frame)
            self.frames.append(frame)
            tenant = model.tenants[key]
            self.states.append({c.decode(): {d.decode(): text for d, text in kept.items()} for c, kept in tenant.items()})
        self.stream = b"".join(self.frames)

    def framed(self, chance, body):
        """A request of this tenant; one in six is a put of a text that takes many reads."""
        body = body[:5] + self.key + body[21:] if len(body) >= 21 else body
        if chance.randrange(6) == 0:
            body = b"\x01" + number(0) + self.key + b"\x01a\x01x" + b" " * chance.randrange(400_000) + b"7"
        return number(len(body)) + body

    def whole(self, count):
        """How many requests are whole in so many bytes of the stream."""
        ends, at = 0, 0
        for frame in self.frames:
            at += len(frame)
            ends += at <= count
        return ends

    def left(self, answered, sent):
        return self.states[answered:sent + 1]


def pieces(stream, chance):
    size = max(chance.choice([7, 100, 5_000, 65_536]), len(stream) // 300)
    for at in range(0, len(stream), size):
        yield stream[at:at + size]
        if chance.randrange(8) == 0:
            time.sleep(0.0002)


def end_by_reset(watch, chance, victim):
    """Sends up to a random byte, reads some replies or none, and resets. Gives how many requests may have been carried out."""
    watch.open(*BROKEN)
    count = chance.randrange(len(victim.stream) + 1)
    connection, came = open_connection(watch.server.address), b""
    reads = chance.randrange(2)
    for piece in pieces(victim.stream[:count], chance):
        connection.settimeout(60)
        connection.sendall(piece)
        if reads:
            connection.settimeout(0.0005)
            came += taken(connection)
    time.sleep(chance.choice([0, 0, 0.001]))
    reset(connection)
    answered = sum(len(frame) == 4 + int.from_bytes(frame[:4], "big") for frame in frames_of(came))
    return answered, victim.whole(count)


def taken(connection):
    try:
        return connection.recv(1 << 20)
    except OSError:
        return b""


def end_by_kill(watch, chance, victim):
    """A process sends all, reading or not, and is killed: by itself before a random byte, or by this one at a random time."""
    watch.open(None, *BROKEN)
    count, seed, own = chance.randrange(len(victim.stream) + 1), chance.random(), chance.randrange(2)
    connection = open_connection(watch.server.address)
    child = os.fork()
    if child == 0:
        try:
            run_child(connection, victim.stream, count if own else None, random.Random(seed))
        finally:
            os.kill(os.getpid(), signal.SIGKILL)
    connection.close()
    if not own:
        time.sleep(chance.choice([0, 0.0005, 0.002, 0.005, 0.02]) * chance.random())
        os.kill(child, signal.SIGKILL)
    os.waitpid(child, 0)
    return 0, victim.whole(count if own else len(victim.stream))


def run_child(connection, stream, count, chance):
    if count is None or chance.randrange(2):
        talk(connection, pieces(stream[:count], chance), 1.0 if count is None else 0.001)
    else:
        connection.settimeout(1.0)
        connection.sendall(stream[:count])


def break_at_moments(watch, chance, moments):
    for moment in range(moments):
        if moment >= VICTIMS:
            drop_all(watch, moment)
        victim = Victim(chance, key_of(moment))
        way = chance.choice([end_by_reset, end_by_kill])
        answered, sent = way(watch, chance, victim)
        watch.look(f"moment {moment}, {way.__name__}", victim.stream, victim.key, victim.left(answered, sent))


def key_of(moment):
    """A victim's key; a tenant is the victim again after 200 moments, when all it has is dropped."""
    return bytes([moment % VICTIMS]) + b"victim".ljust(15, b".")


def drop_all(watch, moment):
    with watch.client(key_of(moment)) as client:
        client.pipeline([Request.drop(name) for name in COLLECTIONS])


def never_reads(watch):
    """A client asks for more than the buffers hold and reads nothing: one behind it waits, and is served once that one is gone."""
    watch.open("WriteFault")
    requests = [Request.get("b", "two").frame(BYSTANDER, place) for place in range(100)]
    stuck = open_connection(watch.server.address)
    stuck.sendall(b"".join(requests))
    watch.open()
    waiting, usage = open_connection(watch.server.address), Request.usage().frame(BYSTANDER, 1)
    waiting.sendall(usage)
    readable, _, _ = select.select([waiting], [], [], 1.0)
    watch.report.case("a client behind one that never reads", usage, "no reply", waiting.recv(100) if readable else "no reply")
    stuck.close()
    watch.report.case("a client that waited, served at last", usage, (USAGE_REPLY, "end"), talk(waiting, []))
    watch.look("a client that never reads", requests[0])


def asks_on(watch):
    """A client asks until nothing more goes out and reads nothing: what is owed to it takes no more memory than a few replies."""
    watch.open(*BROKEN)
    before = watch.server.resident()
    request = Request.get("b", "two").frame(BYSTANDER, 1)
    connection, sent = open_connection(watch.server.address), 0
    connection.setblocking(False)
    rest = request * 3_000
    while select.select([], [connection], [], 1.0)[1] and sent < 64 * MEBIBYTE:
        sent += connection.send(rest[sent % len(request):])
    grown = watch.server.resident() - before
    watch.report.case("requests that go out, none of whose replies is read", request, True, 65_536 < sent < 64 * MEBIBYTE)
    watch.report.case(f"KiB more for a client that never reads: {grown}", request, True, grown <= GROWN_KIB)
    connection.close()
    watch.look("a client that asks on and never reads", request)


def half_closed(watch):
    """A client that shuts its sending side down and then waits gets all its replies."""
    watch.open()
    requests = [Request.get("b", "two").frame(BYSTANDER, place) for place in range(40)]
    connection = open_connection(watch.server.address)
    connection.sendall(b"".join(requests))
    connection.shutdown(socket.SHUT_WR)
    time.sleep(0.3)
    reply = bytes.fromhex("00") + TEXTS["two"]
    wanted = b"".join(number(len(reply) + 4) + reply[:1] + number(place) + reply[1:] for place in range(40))
    watch.report.case("the sending side shut down before the first read", requests[0], (wanted, "end"), talk(connection, []))


def many_at_once(watch):
    """Clients that come while another is served are served in the order in which they came."""
    usage = Request.usage().frame(BYSTANDER, 1)
    waiting = [open_connection(watch.server.address) for _ in range(AT_ONCE)]
    for connection in waiting:
        watch.open()
        connection.sendall(usage)
    for place, connection in enumerate(waiting):
        watch.report.case(f"client {place} of {AT_ONCE} at once", usage, (USAGE_REPLY, "end"), talk(connection, []))


def behind_a_fault(watch):
    """What stands behind a framing fault is no request: not in the same piece, not after the reply, and not where there is much."""
    before = Request.usage().frame(BYSTANDER, 1)
    behind = Request.drop("b").frame(BYSTANDER, 2)
    for name, stream in [("one piece", [before + FAULT + behind]), ("a piece each", [before, FAULT, behind, behind]),
                         ("cut within", [before + FAULT[:2], FAULT[2:] + behind]), ("much", [before + FAULT + behind * 100_000]),
                         ("the highest length", [before + b"\xff\xff\xff\xff" + behind]), ("nothing", [before + FAULT])]:
        watch.open("FrameFault")
        connection = open_connection(watch.server.address)
        got, end = talk(connection, stream)
        watch.report.case(f"behind a framing fault: {name}", b"".join(stream), USAGE_REPLY + FAULT_REPLY, got)
        watch.report.case(f"the end after a framing fault: {name}", b"".join(stream), "an end", "an end" if end in ("end", "reset") else end)
        watch.look(f"behind a framing fault: {name}", b"".join(stream))
    late_behind_a_fault(watch, behind)


def late_behind_a_fault(watch, behind):
    """A client that has read the fault's reply and sends on: no reply comes."""
    watch.open("FrameFault")
    connection = open_connection(watch.server.address)
    connection.settimeout(60)
    connection.sendall(FAULT)
    got = connection.recv(100)
    try:
        time.sleep(0.01)
        connection.sendall(behind)
        time.sleep(0.01)
        connection.sendall(behind)
        got += connection.recv(100)
    except ConnectionError:
        pass
    connection.close()
    watch.report.case("sent after the fault's reply", FAULT + behind, FAULT_REPLY, got)
    watch.look("sent after the fault's reply", FAULT + behind)


def frame_in_part(watch):
    """A client that ends within a frame, at each of its bytes: nothing changes, and nothing is told."""
    frame = Request.drop("b").frame(BYSTANDER, 0)
    for count in range(len(frame)):
        watch.open()
        found = talk(open_connection(watch.server.address), [frame[:count]])
        watch.report.case("a frame in part", frame[:count], (b"", "end"), found)
    watch.look("a frame in part", frame)


def turn_limit(watch):
    """A connection's 1,000,000 reads, each of an empty body, and its end after the last reply."""
    watch.open("TurnLimit")
    connection, short = open_connection(watch.server.address), bytes.fromhex("000000050100000000")
    connection.settimeout(60)
    for turn in range(READ_LIMIT):
        connection.sendall(b"\x00\x00\x00\x00")
        got = connection.recv(100)
        if got != short:
            watch.report.case(f"turn {turn}", b"\x00\x00\x00\x00", short, got)
            break
    watch.report.case("the end after the last turn", "", b"", connection.recv(100))
    connection.close()
    watch.look("after the last turn", "")


def main():
    moments = int(sys.argv[1]) if len(sys.argv) > 1 else 200
    seed = int(sys.argv[2]) if len(sys.argv) > 2 else 1
    turns = sys.argv[3:] == ["turns"]
    chance, report = random.Random(seed), Report()
    keys = [BYSTANDER, *(key_of(moment) for moment in range(min(moments, VICTIMS)))]
    frame = len(Request.drop("b").frame(BYSTANDER, 0))
    connections = 1 + 2 * moments + max(0, moments - VICTIMS) + 3 + 2 + 1 + AT_ONCE + 2 * 7 + frame + 1 + 2 * turns
    with Running(keys, connections) as server:
        watch = Watch(report, server)
        watch.fill()
        never_reads(watch)
        asks_on(watch)
        half_closed(watch)
        many_at_once(watch)
        behind_a_fault(watch)
        frame_in_part(watch)
        break_at_moments(watch, chance, moments)
        if turns:
            turn_limit(watch)
        report.case("the connections of this script", "", connections, watch.conn)
        server.finish(report)
        watch.ends()
    report.close(f"{moments} clients that broke, seed {seed}")


if __name__ == "__main__":
    main()
