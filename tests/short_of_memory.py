#!/usr/bin/env python3
"""Takes memory from a running server and compares it with a plain model: tests/short_of_memory.py [REQUESTS [SEED]], on Linux alone.

The requests are those of over_sockets.py, with more large ones, one at a time. Now and then the server's address space is limited to a
little more than it has. A reply is the model's; or it is NoMemory, where docs/PROTOCOL.md lets it be, and then nothing has changed; or the
connection ends as NoMemory, without a reply. At the end the limit is lifted, and each request is answered again.
"""
import os
import random
import re
import resource
import sys
from pathlib import Path

from lib.plain_model import STATUS, Server
from lib.running_server import GIVE_BACK, Report, Running, open_connection
from lib.traffic import KEYS
from over_sockets import CROWDED, HEAVY, WIDE, Requests

WITHOUT_MEMORY = {STATUS[name] for name in "Short NoTenant BadCommand BadFields TooLong NotUtf8 NotFound QueryTooLong".split()}
ROOM = [0, 256 << 10, 2 << 20, 3 << 20, 4 << 20, 5 << 20]


class Scarce:
    """The server, the model, and one connection to it at a time."""

    def __init__(self, report, server, keys):
        self.report, self.server, self.model = report, server, Server(keys)
        self.model.open(0)
        self.refused, self.ended, self.conn, self.connection = 0, {}, -1, None
        self.reopen()

    def reopen(self):
        if self.connection:
            self.connection.close()
        self.conn += 1
        self.connection = open_connection(self.server.address)

    def limit(self, room):
        """Leaves the server so many bytes more of address space than it has, or any number."""
        size = int(re.search(r"VmSize:\s*(\d+) kB", Path(f"/proc/{self.server.process.pid}/status").read_text())[1])
        hard = resource.prlimit(self.server.process.pid, resource.RLIMIT_AS)[1]
        soft = hard if room is None else (size << 10) + room
        resource.prlimit(self.server.process.pid, resource.RLIMIT_AS, (soft, hard))

    def ask(self, frame):
        """Sends a request, and again over another connection where the first ends without memory."""
        before = {key: {name: dict(kept) for name, kept in tenant.items()} for key, tenant in self.model.tenants.items()}
        wanted = self.model.bytes(0, frame)[0]
        got = self.reply(frame)
        if got == b"":
            self.ended[self.conn] = "NoMemory"
            self.reopen()
            self.model.tenants = before
            return
        refusal = bytes.fromhex("0000000515") + wanted[5:9]
        free = wanted[4] in WITHOUT_MEMORY or wanted[4] == 0 and frame[4] in (3, 6, 7)
        if got == refusal and not free:
            self.refused += 1
            self.model.tenants = before
        self.report.case("a request", frame, wanted if free or got != refusal else refusal, got)

    def reply(self, frame):
        try:
            self.connection.sendall(frame)
            head = self.take(4)
            return head + self.take(int.from_bytes(head, "big"))
        except ConnectionError:
            return b""

    def take(self, count):
        data = bytearray()
        while len(data) < count:
            piece = self.connection.recv(count - len(data))
            if not piece:
                break
            data += piece
        return bytes(data)


def next_frame(requests, chance):
    large = chance.choice(requests.special[1:])
    return requests.framed(large.next()) if chance.randrange(5) == 0 else requests.next()


def main():
    total = int(sys.argv[1]) if len(sys.argv) > 1 else 1_000
    seed = int(sys.argv[2]) if len(sys.argv) > 2 else 1
    chance, report, keys = random.Random(seed), Report(), [*KEYS, CROWDED, HEAVY, WIDE]
    requests = Requests(chance)
    with Running(keys, 1_000_000, env={**os.environ, **GIVE_BACK}) as server:
        scarce = Scarce(report, server, keys)
        for frame in requests.first()[:1_000]:
            scarce.ask(frame)
        sent = []
        for place in range(total):
            if place % 50 == 0:
                scarce.limit(chance.choice([*ROOM, None]))
                scarce.reopen()
            sent.append(next_frame(requests, chance))
            scarce.ask(sent[-1])
        scarce.limit(None)
        refused = scarce.refused
        for frame in sent:
            scarce.ask(frame)
        report.case("memory refused after the limit was lifted", "", refused, scarce.refused)
        report.case("memory refused at all", "", True, refused + len(scarce.ended) > 0)
        report.case("the ends on standard error", "", scarce.ended, server.ends())
        report.case("the server at the end", "", None, server.process.poll())
    report.close(f"{total} requests, {refused} of them refused memory and {len(scarce.ended)} connections ended so, seed {seed}")


if __name__ == "__main__":
    main()
