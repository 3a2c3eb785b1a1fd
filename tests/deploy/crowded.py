#!/usr/bin/env python3
"""Many connections through HAProxy to four shards, against a plain model: tests/deploy/crowded.py [CONNECTIONS [REQUESTS [SEED]]]

So many connections (2,000) of 64 tenants are open at once, over which so many requests (20,000) go: the random ones of tests/many_connections.py, cut
anywhere, frames held open in part, connections cut at random and opened again. Each reply is compared with the model's.
"""
import random
import resource
import sys
import time

from deployment import USAGE, Deployment, frame, read_reply
from lib.running_server import Report, open_connection, want
from many_connections import Crowd

TENANTS, SHARDS = 64, 4


class Front:
    def __init__(self, address):
        self.address = address


class FirstIsOurs(Crowd):
    """As Crowd, but that a connection's first request has its tenant's key: it says to which shard the connection goes."""

    def open(self, lane):
        connection = open_connection(self.server.address)
        request = frame(USAGE, lane.key, number=self.opened)
        connection.sendall(request)
        self.model.open(connection.fileno())
        wanted = b"".join(self.model.bytes(connection.fileno(), request))
        # no request of the tenant is on its way now: a Crowd opens a connection before it begins anew
        self.report.case("the first reply", request, wanted, read_reply(connection))
        connection.setblocking(False)
        lane.connections.append(connection)
        self.opened += 1


def main():
    want("haproxy", "openssl")
    count, requests, seed = [int(word) for word in sys.argv[1:4]] + [2_000, 20_000, 1][len(sys.argv) - 1:]
    _, most = resource.getrlimit(resource.RLIMIT_NOFILE)
    resource.setrlimit(resource.RLIMIT_NOFILE, (most, most))
    report = Report()
    with Deployment(TENANTS // SHARDS, SHARDS, options=f"--source={count + 1_000}") as it:
        began = time.monotonic()
        keys = [key for keys in it.keys.values() for key in keys]
        crowd = FirstIsOurs(report, Front("%s:%d" % it.plain), keys, random.Random(seed), count)
        crowd.run(requests)
        crowd.settle()
        replies = sum(lane.replies for lane in crowd.lanes)
        print(f"{count} connections at once, {crowd.opened} in all, {replies} replies in {time.monotonic() - began:.1f} s", flush=True)
        crowd.close()
    report.close(f"many connections through HAProxy, seed {seed}")


main()
