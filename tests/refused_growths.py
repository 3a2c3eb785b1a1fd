#!/usr/bin/env python3
"""Lets each call for memory, each read and each write of the program fail: tests/refused_growths.py [SHARE [SEED]], on Linux.

A library (lib/failing_calls.c, compiled by `cc` into a temporary folder; where there is no cc, nothing is run) makes the Nth call
fail, alone or with all behind it, for each N up to the last call that there is; with a SHARE, for so many of 100. Each run of
`query` and `replay` ends with the output of one with ample memory, or with the fault's status, its name, and no output but a
part of it where writing failed or where more than one write has room. Each reply of `replay` and `serve` is the plain model's
(lib/plain_model.py), or NoMemory where docs/PROTOCOL.md lets it be, and then the model's map stays as it was, and later replies
have to fit. `call` prints the replies that came before the fault. A connection ends as that page says of its end; the next one
is served and finds what the replies before said. No run takes more than 20 seconds.
"""
import os
import random
import socket
import subprocess
import sys
import tempfile
from pathlib import Path

from lib.plain_model import STATUS, Server, named, number
from lib.running_server import END_LINE, PROGRAM, TOP, Report, Running, want
from lib.traffic import KEYS
from path_client import Request, connect, parse_address

PATIENCE = 20
KINDS = ("memory", "read", "write")
COUNTS = ("memory", "read", "write", "accept", "poll")
PIECE = 65_536
WITHOUT_MEMORY = {STATUS[name] for name in "Short NoTenant BadCommand BadFields TooLong NotUtf8 NotFound QueryTooLong".split()}
NO_MEMORY = STATUS["NoMemory"]
QUERIES = [('{"a":[10,20]}', "$.a[1]"),
           ('{"it\'s":[{"b":1.0,"c":"xy"},{"b":2,"\\u0063":"é"}]}', "$[*][?@.b<=2&&length(@.c)!=1||@.c==$..zz]"),
           ("[1,[2,[3]]]", "$..*"), ("[" + "7," * 300 + "8]", "$[::-3, 5, -1, '0']"), ("[" + "[0]," * 8_000 + "0]", "$[*]"),
           ("[" + '{"a":1},' * 40 + "0]", "$[?count(@.*)>0&&@!=$[0]]"), ('{"a":1,"\\u0061":2}', "$"), ("[1", "$"), ("[1]", "$["),
           ("[1]", "$[?length()==1]"), ('["abc","defghi"]', "$[?length(@)>length(@)||length(@)<9]")]


def body(command, key, *fields):
    return bytes([command]) + number(command) + KEYS[key] + b"".join(fields)


def session():
    """Requests of every command and of two tenants, whose texts, lists, queries and replies all need memory."""
    c, d, e, x = named(b"c"), named(b"d"), named(b"e"), named(b"x")
    text = b'{"a":[10,20],"b":{"it\'s":"\xc3\xa9"}}'
    wide = b"[" + b'{"k":[1,2]},' * 60 + b"0]"
    bodies = [body(1, 0, c, d, text), body(2, 0, c, d), body(5, 0, c, b"$.a[1]"), body(1, 0, c, e, wide), body(4, 0, c),
              body(1, 1, c, d, b"[7]"), body(5, 0, c, b"$[*].k"), body(1, 0, c, d, b"{"),
              body(1, 0, c, d, b'{"a":1,"\\u0061":2}'), body(1, 0, x, d, b'"s"'), body(1, 0, x, d, b'"' + b"s" * 3_000 + b'"'),
              body(5, 0, x, b"$"), body(5, 0, c, b"$['b'].*"), body(5, 0, c, b"$["), body(7, 0), body(3, 0, c, e),
              body(3, 0, c, e), body(5, 1, c, b"$.a[1]"), body(2, 0, c, e), body(6, 0, x), body(4, 0, x), body(7, 1),
              body(9, 0), body(2, 0, b"\x00"), b"\x07", body(1, 0, c, e, b"1"), body(5, 0, c, b"$"), body(7, 0)]
    return [number(len(it)) + it for it in bodies]


class Calls:
    """The library, and how many calls of each kind a run made."""

    def __init__(self, folder):
        self.library, self.file = folder / "failing_calls.so", folder / "counts"
        words = ["cc", "-O1", "-shared", "-fPIC", "-o", str(self.library), str(TOP / "tests/lib/failing_calls.c")]
        subprocess.run(words, check=True)
        self.file.write_bytes(bytes(8 * len(COUNTS)))

    def environment(self, kind="", at=0, goes_on=False, **more):
        """Sets the counts back, and gives what a process needs in which that call fails."""
        self.file.write_bytes(bytes(8 * len(COUNTS)))
        return {**os.environ, "LD_PRELOAD": str(self.library), "FAILING_COUNTS": str(self.file), "FAILING_KIND": kind,
                "FAILING_AT": str(at), "FAILING_ON": str(int(goes_on)), **more}

    def made(self, kind):
        place = 8 * COUNTS.index(kind)
        return int.from_bytes(self.file.read_bytes()[place:place + 8], sys.byteorder)


class Refusals:
    """All runs: each calls `run` with one call that fails, until there is no such call. It tells whether a fault was seen."""

    def __init__(self, report, calls, share, chance):
        self.report, self.calls, self.share, self.chance = report, calls, share, chance
        self.runs = self.faults = self.replies = 0

    def each(self, name, run, kinds=KINDS):
        for kind in kinds:
            for goes_on in (False, True):
                at, last = 1, False
                while not last:
                    if self.chance.randrange(100) < self.share:
                        environment = self.calls.environment(kind, at, goes_on)
                        told = f"{name}: {kind} {at}{' and all behind it' if goes_on else ''}"
                        has_failed = run(told, kind, environment)
                        self.runs, self.faults = self.runs + 1, self.faults + has_failed
                        last = self.calls.made(kind) < at
                        self.report.case(f"{told}: a fault where no call failed", "", False, last and has_failed)
                    at += 1


def ended(words, text, environment):
    """Status, output and standard error of a run."""
    try:
        ran = subprocess.run([PROGRAM, *words], input=text, capture_output=True, timeout=PATIENCE, env=environment)
    except subprocess.TimeoutExpired:
        return "no end", b"", b""
    return ran.returncode, ran.stdout, ran.stderr


FAULTS = {"memory": b"path_server: NoMemory\n", "read": b"path_server: ReadFault\n", "write": b"path_server: WriteFault\n"}


def first_line(errors):
    """Without what a second line says of the address and the system's reason."""
    return errors[:errors.find(b"\n") + 1]


def fits(kind, wanted, got):
    """Whether a run's end is the one with ample memory, or one that the fault may have."""
    status, output, errors = got
    if got == wanted:
        return True
    if kind == "write" and (status, output) == wanted[:2]:
        return wanted[2].startswith(errors)
    if kind == "memory" and errors and (status, output, errors) == (*wanted[:2], wanted[2][:wanted[2].find(b"\n") + 1]):
        # the refusal's name, without the place, for which there was no memory
        return True
    partly = wanted[1].startswith(output) and (kind == "write" or len(wanted[1]) > PIECE or output == b"")
    return status == 4 and partly and (first_line(errors) == FAULTS[kind] or kind == "write" and errors == b"")


def query_runs(refusals):
    for text, query in QUERIES:
        words, data = ["query", query], text.encode()
        wanted = ended(words, data, refusals.calls.environment())

        def run(name, kind, environment, words=words, data=data, wanted=wanted):
            got = ended(words, data, environment)
            refusals.report.case(name, f"{words[1]} on {data}", wanted, wanted if fits(kind, wanted, got) else got)
            return got != wanted

        refusals.each(f"query {query[:40]}", run)


class Judge:
    """The plain model, which takes each reply in turn and keeps what it may have left."""

    def __init__(self):
        self.model = Server(KEYS)
        self.model.open(0)

    def takes(self, frame, reply):
        """The reply that is wanted to a request: the model's; or NoMemory, where it came and may come, with the map as it was."""
        before = self.map()
        wanted = self.model.bytes(0, frame)[0]
        free = wanted[4] in WITHOUT_MEMORY or wanted[4] == 0 and frame[4] in (3, 6, 7)
        refusal = number(5) + bytes([NO_MEMORY]) + wanted[5:9]
        if reply != refusal or free:
            return wanted
        self.model.tenants = before
        return refusal

    def map(self):
        return {key: {name: dict(kept) for name, kept in tenant.items()} for key, tenant in self.model.tenants.items()}


def replay_runs(refusals):
    frames, conn = session(), b"3 "
    script = b"3 open\n" + b"".join(conn + frame.hex().encode() + b"\n" for frame in frames) + b"3 close\n"
    words = ["replay", ",".join(key.hex() for key in KEYS)]
    wanted = ended(words, script, refusals.calls.environment())

    def run(name, kind, environment):
        got = ended(words, script, environment)
        if kind == "memory" and (got[0], got[2]) == (0, b""):
            judge, lines = Judge(), got[1].splitlines()
            refusals.report.case(f"{name}: replies", script, len(frames), len(lines))
            for place, (frame, line) in enumerate(zip(frames, lines)):
                reply = bytes.fromhex(line[len(conn):].decode())
                refusals.replies += reply[4] == NO_MEMORY
                refusals.report.case(f"{name}: reply {place}", frame, judge.takes(frame, reply), reply)
        else:
            refusals.report.case(name, script, wanted, wanted if fits(kind, wanted, got) else got)
        return got != wanted

    refusals.each("replay", run)


def call_runs(refusals):
    """`call` on a server to which nothing happens: a prefix of the replies is printed, all of them where it ends well."""
    frames, judge = session(), Judge()
    lines = b"".join(frame.hex().encode() + b"\n" for frame in frames)
    wanted = b"".join(reply.hex().encode() + b"\n" for frame in frames for reply in judge.model.bytes(0, frame))
    names = {**FAULTS, "net": b"path_server: NetFault\n"}
    with Running(KEYS, 1_000_000) as server:
        def run(name, kind, environment):
            drop_all(server.address)
            status, output, errors = ended(["call", server.address], lines, environment)
            said = {"memory": [names["memory"], names["net"]], "read": [names["read"]], "write": [names["write"], b""]}[kind]
            good = (status, output, errors) == (0, wanted, b"") or status == 4 and wanted.startswith(output) and first_line(errors) in said
            refusals.report.case(name, "", True, good or (status, output, errors))
            return (status, output, errors) != (0, wanted, b"")

        refusals.each("call", run)


def drop_all(address):
    for key in KEYS:
        with connect(address, key) as client:
            client.pipeline([Request.drop(name) for name in ("c", "x")])


class Served:
    """A server in which a call fails: its start, three connections, and its end."""

    CONNECTIONS = 3
    STARTED = {"memory": (b"NoMemory", b"NetFault"), "read": (), "write": (b"WriteFault",)}

    def __init__(self, refusals, name, kind, environment):
        self.refusals, self.report, self.name, self.kind = refusals, refusals.report, name, kind
        words = [PROGRAM, "serve", "127.0.0.1:0", ",".join(key.hex() for key in KEYS), str(self.CONNECTIONS)]
        pipes = {"stdin": subprocess.DEVNULL, "stdout": subprocess.PIPE, "stderr": subprocess.PIPE}
        self.judge, self.maybe, self.ends, self.has_failed = Judge(), [], [], False
        with subprocess.Popen(words, env=environment, **pipes) as self.process:
            try:
                self.talk()
            finally:
                self.process.kill()

    def talk(self):
        line = self.process.stdout.readline()
        if not line.startswith(b"listening "):
            self.not_started(line)
            return
        address = parse_address(line.split()[1].decode())
        for turn in range(self.CONNECTIONS):
            try:
                self.ends.append(self.connection(address, session() if turn == 0 else session()[1:8]))
            except OSError as fault:
                self.ends.append(f"{fault}")
        self.finish()

    def not_started(self, line):
        self.process.wait(PATIENCE)
        said = self.process.stderr.read()
        names = [b"path_server: " + name + b"\n" for name in self.STARTED[self.kind]] + [b""] * (self.kind == "write")
        self.has_failed = True
        self.report.case(f"{self.name}: a start", "", (b"", 4, True), (line, self.process.returncode, first_line(said) in names or said))

    def connection(self, address, frames):
        """Sends one request after the other; gives the connection's end, None where it is the client's own."""
        with socket.create_connection(address, PATIENCE) as connection:
            connection.setsockopt(socket.IPPROTO_TCP, socket.TCP_NODELAY, 1)
            for place, frame in enumerate(frames):
                reply, end = asked(connection, frame)
                if end:
                    return self.lost(frame, reply, end)
                self.refusals.replies += reply[4] == NO_MEMORY
                self.has_failed |= reply[4] == NO_MEMORY
                self.compare(f"{self.name}: connection {len(self.ends)}, request {place}", frame, reply)
        return None

    def compare(self, name, frame, reply):
        """A reply fits the map, or the map that a lost request left; from then on one of them is the map."""
        if self.maybe:
            other = Judge()
            other.model.tenants = self.maybe.pop()
            wanted, mine = other.takes(frame, reply), self.judge.map()
            if self.judge.takes(frame, reply) == reply:
                self.maybe += [] if other.map() == self.judge.map() else [other.map()]
                self.report.case(name, frame, reply, reply)
                return
            self.judge.model.tenants = mine
            if wanted == reply:
                self.judge = other
                self.report.case(name, frame, reply, reply)
                return
        self.report.case(name, frame, self.judge.takes(frame, reply), reply)

    def lost(self, frame, part, end):
        """The connection ended in place of a reply, which may be there in part: the request was carried out or it was not."""
        before = self.judge.map()
        wanted = self.judge.model.bytes(0, frame)[0]
        after, self.judge.model.tenants = self.judge.map(), before
        if before != after:
            self.maybe = [after]
        self.report.case(f"{self.name}: a reply in part", frame, wanted[:len(part)], part)
        self.has_failed = True
        return end

    def finish(self):
        """The server ends by itself with status 0, and tells of each connection whose end was its own."""
        output, said = self.process.communicate(timeout=PATIENCE)
        allowed = {"memory": {"NoMemory"}, "read": {"ReadFault"}, "write": {"WriteFault", None}}[self.kind]
        told = {int(it[1]): it[2] for it in map(END_LINE.fullmatch, said.decode().splitlines()) if it}
        self.report.case(f"{self.name}: the end of the server", "", (b"", 0), (output, self.process.returncode))
        for turn, end in enumerate(self.ends):
            self.has_failed |= turn in told
            right = told.get(turn) in (allowed if end else {None, *allowed})
            self.report.case(f"{self.name}: the end of connection {turn}", end, True, right or told)


def asked(connection, frame):
    """The reply to a request, or what came of it and how the connection ended before."""
    try:
        connection.sendall(frame)
    except ConnectionError:
        return b"", "reset"
    return received(connection)


def received(connection):
    data, length = b"", 4
    try:
        while len(data) < length:
            piece = connection.recv(length - len(data))
            if not piece:
                return data, "end"
            data += piece
            if len(data) == 4:
                length = 4 + int.from_bytes(data, "big")
    except ConnectionError:
        return data, "reset"
    return data, None


def main():
    share = int(sys.argv[1]) if len(sys.argv) > 1 else 100
    seed = int(sys.argv[2]) if len(sys.argv) > 2 else 1
    want("cc")
    report = Report()
    with tempfile.TemporaryDirectory() as folder:
        refusals = Refusals(report, Calls(Path(folder)), share, random.Random(seed))
        query_runs(refusals)
        replay_runs(refusals)
        call_runs(refusals)
        refusals.each("serve", lambda *more: Served(refusals, *more).has_failed)
    print(f"{refusals.runs} runs, {refusals.faults} of them with a fault, and {refusals.replies} replies NoMemory")
    report.case("faults and replies NoMemory at all", "", True, refusals.faults > 0 and refusals.replies > 0)
    report.close("refused_growths")


if __name__ == "__main__":
    main()
