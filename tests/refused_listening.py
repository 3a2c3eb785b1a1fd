#!/usr/bin/env python3
"""Lets each call of `listen` fail while several connections are open: tests/refused_listening.py [SHARE [SEED]], on Linux.

A library (lib/failing_calls.c, compiled by `cc` into a temporary folder; where there is no cc, nothing is run) makes the Nth call for
memory, read, write, accept or wait fail, alone or with all behind it, for each N up to the last one that there is; with a SHARE, for
so many of 100. Two tenants send their requests at the same time over a connection each, two more connections are idle, and a further
one comes at the end. Each reply is the plain model's (lib/plain_model.py), or NoMemory where docs/PROTOCOL.md lets it be, and then the
model's map stays as it was. The limit on memory is the least, so that a long text and a query wait for room. One call that fails ends one connection at most, and all others are answered; or the program ends with
status 4 and a name that docs/COMMANDS.md gives it. Otherwise it ends with status 0 once its standard input is closed, or, where that could
not be waited for, goes on serving. No wait takes more than 20 seconds.
"""
import random
import re
import socket
import subprocess
import sys
import tempfile
from pathlib import Path

from lib.plain_model import named, number
from lib.running_server import END_LINE, PROGRAM, Report, want
from lib.traffic import KEYS
from path_client import parse_address
from refused_growths import NO_MEMORY, Calls, Judge, Refusals, body, received

PATIENCE = 20
ALL_KINDS = ("memory", "read", "write", "accept", "poll")
# the line behind a NetFault, or a WriteFault: the address, or the stream, and what the system says
REASON = re.compile(r"(127\.0\.0\.1:0|standard output): [a-z ]+")
FAULTS = {"memory": ("NoMemory", "NetFault"), "read": ("NetFault",), "write": ("WriteFault",), "accept": (), "poll": ("NetFault",)}
ENDS = {"memory": {"NoMemory"}, "read": {"ReadFault"}, "write": {"WriteFault"}, "accept": set(), "poll": set()}
WAITS = re.compile(r"\S+Z connections wait for memory, open \d+")
LAST_LINE = re.compile(rb"served \d+ connections, \d+ requests\n")


def requests(key):
    """Requests of one tenant, whose texts, lists, queries and replies all need memory."""
    c, d, e = named(b"c"), named(b"d"), named(b"e")
    wide = b"[" + b'{"k":[1,2]},' * 1_500 + b"0]"
    bodies = [body(1, key, c, d, b'{"a":[10,20]}'), body(5, key, c, b"$.a[1]"), body(1, key, c, e, wide), body(4, key, c),
              body(5, key, c, b"$[*].k"), body(1, key, c, d, b"{"), body(2, key, c, d), body(3, key, c, e), body(7, key)]
    return [number(len(it)) + it for it in bodies]


class Peer:
    """A tenant's connection. One that ends is opened again, and its tenant emptied."""

    def __init__(self, run, key):
        self.run, self.key, self.judge, self.frames = run, key, Judge(), requests(key)
        self.stream, self.ended = run.open(), 0

    def send(self, frame):
        self.frame = frame
        try:
            if self.stream:
                self.stream.sendall(frame)
        except ConnectionError:
            pass

    def take(self):
        if not self.stream:
            return
        reply, end = received(self.stream)
        if end:
            self.lost()
        else:
            self.run.compare(f"tenant {self.key}", self.frame, self.judge.takes(self.frame, reply), reply)

    def lost(self):
        """The connection ended, and the request was carried out or was not: the tenant begins anew."""
        self.run.lost += 1
        self.stream.close()
        self.stream, self.judge = self.run.open(), Judge()
        drop = body(6, self.key, named(b"c"))
        self.send(number(len(drop)) + drop)
        reply, end = received(self.stream) if self.stream else (b"", "refused")
        if end and self.stream:
            self.stream.close()
            self.stream = None
            self.run.lost += 1


class Listened:
    """A run of `listen` in which a call fails: its start, its connections, and its end."""

    def __init__(self, refusals, name, kind, environment):
        self.refusals, self.report, self.name, self.kind = refusals, refusals.report, name, kind
        self.alone = environment["FAILING_ON"] == "0"
        self.lost, self.has_failed, self.opened = 0, False, []
        words = [PROGRAM, "listen", "127.0.0.1:0", ",".join(key.hex() for key in KEYS), "--memory", "14680072"]
        pipes = {"stdin": subprocess.PIPE, "stdout": subprocess.PIPE, "stderr": subprocess.PIPE}
        with subprocess.Popen(words, env=environment, **pipes) as self.process:
            try:
                self.talk()
            except socket.timeout:
                self.report.case(f"{name}: a wait", "", "it ends", "silence")
            finally:
                self.process.kill()

    def talk(self):
        line = self.process.stdout.readline()
        if line.startswith(b"listening "):
            self.address = parse_address(line.split()[1].decode())
            self.converse()
        for stream in self.opened:
            stream.close()
        self.finish(line)

    def converse(self):
        peers = [Peer(self, 0), Peer(self, 1)]
        idle = [self.open(), self.open()]
        if self.kind == "accept" and not self.alone:
            return
        for place in range(len(peers[0].frames)):
            for peer in peers:
                peer.send(peer.frames[place])
            for peer in peers:
                peer.take()
        late = Peer(self, 0)
        late.judge = peers[0].judge
        for peer in (late, peers[1]):
            peer.send(number(21) + body(7, peer.key))
            peer.take()
        del idle

    def open(self):
        try:
            stream = socket.create_connection(self.address, PATIENCE)
        except OSError:
            return None
        stream.setsockopt(socket.IPPROTO_TCP, socket.TCP_NODELAY, 1)
        self.opened.append(stream)
        return stream

    def compare(self, name, frame, wanted, got):
        refused = got[4] == NO_MEMORY
        self.refusals.replies, self.has_failed = self.refusals.replies + refused, self.has_failed or refused
        self.report.case(f"{self.name}: {name}", frame, wanted, got)

    def runs_on(self):
        """A standard input that could not be waited for does not end the program: it goes on serving."""
        self.has_failed, stream = True, self.open() if self.kind == "poll" else None
        if stream:
            stream.sendall(number(21) + body(7, 0))
        reply = received(stream)[0][4:5] if stream else b""
        self.report.case(f"{self.name}: the program behind the end of its standard input", "", b"\0", reply)

    def finish(self, line):
        """The end of the program, and of each connection that ended by itself."""
        try:
            output, said = self.process.communicate(timeout=PATIENCE / 4)
        except subprocess.TimeoutExpired:
            self.runs_on()
            return
        told = [line for line in said.decode().splitlines() if not WAITS.fullmatch(line)]
        ends = [found[2] for found in map(END_LINE.fullmatch, told) if found]
        reasons = [it for it in told if REASON.fullmatch(it)]
        rest = [it for it in told if not END_LINE.fullmatch(it) and it not in reasons]
        has_fault = "path_server: NetFault" in rest or "path_server: WriteFault" in rest
        self.report.case(f"{self.name}: the reason of a fault", "", has_fault, len(reasons) == 1 if reasons else False)
        self.has_failed |= self.process.returncode != 0 or self.lost > 0 or ends != []
        self.report.case(f"{self.name}: the ends of connections", "", True, set(ends) <= ENDS[self.kind] or told)
        if self.process.returncode == 0:
            good = line.startswith(b"listening ") and LAST_LINE.fullmatch(output) and not rest
            self.report.case(f"{self.name}: the end of the program", "", True, bool(good) or (line, output, told))
            self.report.case(f"{self.name}: connections that ended", "", True, not self.alone or self.lost + len(ends) <= 2 or told)
        else:
            lines = [[f"path_server: {name}"] for name in FAULTS[self.kind]] + [[]] * (self.kind == "write")
            good = self.process.returncode == 4 and rest in lines
            self.report.case(f"{self.name}: the end of the program", "", True, good or (self.process.returncode, output, told))


def main():
    share = int(sys.argv[1]) if len(sys.argv) > 1 else 100
    seed = int(sys.argv[2]) if len(sys.argv) > 2 else 1
    want("cc")
    report = Report()
    with tempfile.TemporaryDirectory() as folder:
        refusals = Refusals(report, Calls(Path(folder)), share, random.Random(seed))
        refusals.each("listen", lambda *more: Listened(refusals, *more).has_failed, ALL_KINDS)
    print(f"{refusals.runs} runs, {refusals.faults} of them with a fault, and {refusals.replies} replies NoMemory")
    report.case("faults and replies NoMemory at all", "", True, refusals.faults > 0 and refusals.replies > 0)
    report.close("refused_listening")


if __name__ == "__main__":
    main()
