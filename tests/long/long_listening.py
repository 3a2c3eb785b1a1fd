#!/usr/bin/env python3
"""Keeps `path_server listen` busy for so many minutes and compares all that it does: tests/long/long_listening.py MINUTES [SEED], on Linux alone.

Round after round 200 connections of 64 tenants are open at once, over which 20,000 requests go as in many_connections.py, against its plain
model: random ones, cut anywhere, frames held open in part, connections cut at random and opened again. Beside them stand a peer that asks for
64 MiB and reads nothing, one that ends in a framing fault, and one that is reset in a frame. After each round all that is kept is dropped:
the descriptors in use are then those of the first rounds, and so is the memory but for 4 MiB.
"""
import os
import random
import sys
import time
from pathlib import Path

sys.path.insert(0, str(Path(__file__).resolve().parent.parent))
from lib.running_server import GIVE_BACK, Listening, Report, open_connection, reset
from many_connections import FAULT, FAULT_REPLY, LARGE, PUT_LARGE, TENANTS, Crowd, exchange, frame
from path_client import Request, connect

CONNECTIONS, REQUESTS, FIRST_ROUNDS = 200, 20_000, 3
MOST_GROWN = 4 << 10
OWN_KEY = bytes([200]) * 16
PUT_OWN = frame(1, b"\x01c\x01l" + LARGE, OWN_KEY)
GET_OWN = frame(2, b"\x01c\x01l", OWN_KEY)
PUT_REPLY = bytes.fromhex("000000050000000001")


class Rounds:
    """One server, and what it had in use after the first rounds."""

    def __init__(self, report, server, keys, chance):
        self.report, self.server, self.keys, self.chance = report, server, keys, chance
        self.replies = self.opened = self.count = 0
        self.base, self.most = None, 0

    def round(self):
        silent, cut = self.beside()
        crowd = Crowd(self.report, self.server, self.keys, self.chance, CONNECTIONS)
        crowd.run(REQUESTS)
        crowd.settle()
        crowd.close()
        reset(silent)
        reset(cut)
        self.replies += sum(lane.replies for lane in crowd.lanes)
        self.opened += crowd.opened + 3
        self.count += 1
        self.empty(crowd.model)

    def beside(self):
        with open_connection(self.server.address) as connection:
            self.report.case("a put", "", PUT_REPLY, exchange(connection, PUT_OWN, len(PUT_REPLY)))
            self.report.case("a framing fault", FAULT, FAULT_REPLY, exchange(connection, FAULT, len(FAULT_REPLY)))
        silent, cut = open_connection(self.server.address), open_connection(self.server.address)
        silent.sendall(GET_OWN * 64)
        cut.sendall(PUT_LARGE[:self.chance.randrange(1, 500_000)])
        return silent, cut

    def empty(self, model):
        """Drops all that is kept, and looks at descriptors and memory."""
        for key in [*self.keys, OWN_KEY]:
            with connect(self.server.address, key) as client:
                client.pipeline([Request.drop(name) for name in [*model.tenants.get(key, {}), b"c"]])
                self.report.case("what is left of a tenant", key, (0, 0, 0), tuple(client.usage()))
        time.sleep(0.5)
        resident, descriptors = self.server.resident(), len(os.listdir(f"/proc/{self.server.process.pid}/fd"))
        self.most = max(self.most, resident)
        if self.count <= FIRST_ROUNDS:
            self.base = (descriptors, max(resident, self.base[1] if self.base else 0))
        self.report.case("descriptors", "", self.base[0], descriptors)
        grown = resident - self.base[1]
        self.report.case(f"KiB of memory since the first rounds: {grown}", "", True, grown <= MOST_GROWN)
        print(f"{self.opened} connections, {self.replies} replies, {resident} KiB, {descriptors} descriptors", flush=True)


def main():
    if len(sys.argv) < 2:
        sys.exit(__doc__)
    minutes, seed = float(sys.argv[1]), int(sys.argv[2]) if len(sys.argv) > 2 else 1
    keys = [bytes([place]) * 16 for place in range(1, TENANTS + 1)]
    report = Report()
    with Listening([*keys, OWN_KEY], env={**os.environ, **GIVE_BACK}) as server:
        rounds = Rounds(report, server, keys, random.Random(seed))
        until = time.monotonic() + 60 * minutes
        while time.monotonic() < until:
            rounds.round()
        server.finish(report)
        found = {it for it in server.ends().values() if not it.endswith(" lines dropped")} - {"FrameFault", "ReadFault", "WriteFault"}
        report.case("the names of ends", "", set(), found)
    told = f"{rounds.opened} connections, {rounds.replies} replies, at most {rounds.most} KiB"
    report.close(f"long listening: {told} in {minutes:g} minutes, seed {seed}")


main()
