#!/usr/bin/env python3
"""Two shards behind HAProxy, with everything that happens to them in operation: tests/deploy/balanced.py

A connection goes to the shard of its first key; a shard is killed, comes back empty and is loaded again; a shard is drained and replaced; a tenant is
moved; HAProxy is reloaded; certificates and limits. Meanwhile tenants of the other shard are served, and each of their replies is looked at. It wants
HAProxy, openssl and path_client (the one that bin/build makes, or the one that PATH_CLIENT names).
"""
import hashlib
import json
import os
import signal
import socket
import ssl
import subprocess
import sys
import threading
import time
import urllib.request

from deployment import CLIENT, ENDED, FRAME_FAULT, GET, NO_TENANT, NOT_FOUND, OK, PUT, SHORT, TOP, USAGE, Deployment, ask, frame, free_ports, read_reply, wait_until
from lib.running_server import PATIENCE, PROGRAM, Report, is_turned_away, open_connection, want
from path_client import BrokenConnection, connect

TEXT = b'{"a":1}'
PLACE = b"\x01c\x01d"
report = Report()


def put(key):
    return frame(PUT, key, PLACE + TEXT)


def get(key):
    return frame(GET, key, PLACE)


def is_gone(what):
    return what == ENDED


class Others(threading.Thread):
    """Puts and gets of some tenants, one after the other, until stopped; what was wrong with their replies, and the longest time of one."""

    def __init__(self, deployment, keys):
        super().__init__(daemon=True)
        self.connections = [(deployment.open(), key) for key in keys]
        self.goes, self.wrong, self.count, self.longest = True, [], 0, 0.0
        self.start()

    def run(self):
        while self.goes:
            for connection, key in self.connections:
                for request in (put(key), get(key)):
                    began = time.monotonic()
                    status = ask(connection, request)
                    self.longest = max(self.longest, time.monotonic() - began)
                    self.count += 1
                    if status != OK:
                        self.wrong.append(status)
            time.sleep(0.002)

    def finish(self, name):
        self.goes = False
        self.join()
        report.case(f"{name}: replies to tenants of the other shard", "", ([], True), (self.wrong, self.count > 0))
        print(f"{name}: {self.count} replies to tenants of the other shard, the latest after {self.longest * 1000:.0f} ms", flush=True)


def routes(it):
    one, same, two = *it.keys["1"][:2], it.keys["2"][0]
    with it.open() as connection:
        report.case("the first tenant of a connection", "", OK, ask(connection, put(one)))
        report.case("another tenant of its shard", "", OK, ask(connection, frame(USAGE, same)))
        report.case("the first tenant again", "", OK, ask(connection, get(one)))
    with it.open() as connection:
        report.case("a tenant of the other shard", "", OK, ask(connection, put(two)))
    with it.open() as connection:
        report.case("a key that nobody has", "", NO_TENANT, ask(connection, frame(USAGE, bytes(16))))
        report.case("a tenant's key behind it", "", NO_TENANT, ask(connection, frame(USAGE, one)))
    with it.open() as connection:
        report.case("an empty body, and a request in the same piece", "", SHORT, ask(connection, bytes(4) + frame(USAGE, one)))
    with it.open() as connection:
        report.case("a length above the limit", "", FRAME_FAULT, ask(connection, b"\xff\xff\xff\xff"))
    with it.open() as connection:
        connection.sendall(get(one))
        connection.shutdown(socket.SHUT_WR)
        report.case("a reply behind the end of the sending side", "", OK, read_reply(connection)[4])
        report.case("and then the end", "", b"", connection.recv(1))
    with it.open() as connection:
        for byte in get(one):
            connection.sendall(bytes([byte]))
            time.sleep(0.002)
        report.case("a first frame byte by byte", "", OK, ask(connection, b""))
    # each tenant is where the table says, and on no other shard
    for name, keys in it.keys.items():
        for key in keys:
            with it.open() as connection:
                report.case("a put of each tenant", "", OK, ask(connection, put(key)))
            for place, shard in it.running.items():
                with open_connection(shard.address) as connection:
                    wanted = {name: OK, "reception": NO_TENANT}.get(place, NOT_FOUND)
                    report.case(f"a tenant of shard {name} at {place}", "", wanted, ask(connection, get(key)))


def dump(it, key):
    ran = it.client("dump", key, "c")
    report.case("path_client dump", ran.stderr, 0, ran.returncode)
    return ran.stdout


def load(it, key, lines, shard):
    """A dump put at a shard itself, since HAProxy sends nothing there before it is ready."""
    ran = it.client("load", key, "c", address=shard.address, given=lines)
    report.case("path_client load", ran.stderr, 0, ran.returncode)


def documents(it, key, count=20):
    """Some documents of a tenant, put through HAProxy."""
    texts = {f"d-{place}": json.dumps({"place": place, "of": key.hex()[:6]}).encode() for place in range(count)}
    lines = "".join(json.dumps({"name": name, "text": text.decode()}) + "\n" for name, text in texts.items())
    report.case("path_client load through HAProxy", "", 0, it.client("load", key, "c", given=lines.encode()).returncode)
    return texts


def has(it, name, key, texts):
    """All of a tenant's documents come back through HAProxy."""
    with connect("%s:%d" % it.plain, key) as client:
        report.case(f"{name}: documents", "", texts, {document: client.get("c", document) for document in client.list("c")})


def killed(it):
    key, shard = it.keys["2"][0], it.running["2"]
    it.client("drop", key, "c")
    texts = documents(it, key)
    lines = dump(it, key)
    others = Others(it, it.keys["1"][:3])
    with it.open() as connection:
        report.case("before the end of a shard", "", OK, ask(connection, frame(USAGE, key)))
        shard.kill()
        report.case("a connection to a shard that is killed", "", ENDED, ask(connection, b""))
    report.case("HAProxy tells it down", "", True, it.is_state("2", "DOWN"))
    with it.open() as connection:
        report.case("a new connection to a shard that is down", "", True, is_gone(ask(connection, frame(USAGE, key))))
    shard.start()
    time.sleep(2)
    report.case("an empty shard stays out", "", "DOWN", it.states()["shard-2"])
    with it.open() as connection:
        report.case("its tenants get no reply, rather than NotFound", "", True, is_gone(ask(connection, get(key))))
    load(it, key, lines, shard)
    shard.say_ready()
    report.case("loaded and marked, it is up", "", True, it.is_state("2", "UP"))
    has(it, "loaded again", key, texts)
    others.finish("killed")


def drained(it):
    """A shard is replaced: drained, dumped, ended by a signal, started and loaded. No reply is lost: what is open goes on until its client ends it."""
    key, shard = it.keys["2"][0], it.running["2"]
    it.client("drop", key, "c")
    texts = documents(it, key)
    others = Others(it, it.keys["1"][:3])
    with it.open() as connection:
        report.case("before a drain", "", OK, ask(connection, frame(USAGE, key)))
        it.say("set server shard-2/path_server state maint")
        report.case("an open connection of a shard that is drained", "", OK, ask(connection, frame(USAGE, key)))
        with it.open() as another:
            report.case("a new connection to it", "", True, is_gone(ask(another, frame(USAGE, key))))
        ran = it.client("dump", key, "c", address=shard.address)
        report.case("its dump", ran.stderr, 0, ran.returncode)
        shard.process.terminate()
        report.case("an open connection behind SIGTERM", "", OK, ask(connection, frame(USAGE, key)))
        report.case("the shard waits for it", "", None, shard.process.poll())
    try:
        report.case("the shard ends behind it", "", 0, shard.process.wait(PATIENCE))
    except subprocess.TimeoutExpired:
        report.case("the shard ends behind it", "", 0, "it runs on")
    shard.kill()
    shard.start()
    load(it, key, ran.stdout, shard)
    shard.say_ready()
    it.say("set server shard-2/path_server state ready")
    report.case("it is up again", "", True, it.is_state("2", "UP"))
    has(it, "replaced", key, texts)
    others.finish("drained")


def ask_all(connections):
    """The statuses of requests that are on their way on all connections at once."""
    for connection, key in connections:
        try:
            connection.sendall(frame(USAGE, key))
        except ConnectionError:
            # its reading tells it
            pass
    return [ask(connection, b"") for connection, _ in connections]


def ended(it):
    """A shard ends while the table has it. Each of its open connections is served until its client closes it, longer than HAProxy's checks take."""
    shard = it.running["2"]
    for how in ("SIGTERM", "a drain"):
        connections = [(it.open(), it.keys["2"][place % 4]) for place in range(50)]
        statuses = ask_all(connections)
        if how == "SIGTERM":
            shard.process.terminate()
        else:
            urllib.request.urlopen(urllib.request.Request(f"http://{shard.options[shard.options.index('--admin') + 1]}/drain?grace=30", method="POST")).close()
        report.case(f"{how}: a new connection to the shard is closed, and not refused", "", True, is_turned_away(shard.address))
        until = time.monotonic() + 5
        while time.monotonic() < until and set(statuses) == {OK}:
            statuses += ask_all(connections)
            time.sleep(0.02)
        report.case(f"{how}: each reply on 50 connections", len(statuses), {OK}, set(statuses))
        report.case(f"{how}: HAProxy sees it", "", "DOWN", it.states()["shard-2"])
        for connection, _ in connections:
            connection.close()
        report.case(f"{how}: its end behind them", "", True, wait_until(lambda: shard.process.poll() == 0))
        print(f"{how}: {len(statuses)} replies on 50 connections", flush=True)
        shard.kill()
        shard.start()
        shard.say_ready()
        report.case(f"{how}: it is up again", "", True, it.is_state("2", "UP"))


def moved(it):
    """A tenant goes from shard 1 to shard 2, which knows its key, and a reload keeps it there."""
    key, other = it.keys["1"][1], it.running["2"]
    it.client("drop", key, "c")
    texts = documents(it, key)
    name = hashlib.sha256(key).hexdigest()[:8]
    with it.open() as connection, it.open() as neighbour:
        report.case("before a move", "", [OK, OK], [ask(connection, frame(USAGE, key)), ask(neighbour, frame(USAGE, it.keys["1"][0]))])
        it.shards("move", name, "2")
        report.case("an open connection of the tenant is shut", "", ENDED, ask(connection, frame(USAGE, key)))
        report.case("and none of another", "", OK, ask(neighbour, frame(USAGE, it.keys["1"][0])))
    has(it, "moved", key, texts)
    with connect(it.running["1"].address, key) as client:
        report.case("what the old shard has", "", (0, 0, 0), tuple(client.usage()))
    reloaded(it, key, texts)


def reloaded(it, key, texts):
    """HAProxy is replaced by one that reads the files anew."""
    (old,) = it.workers()
    with it.open() as connection:
        report.case("before a reload", "", OK, ask(connection, frame(USAGE, key)))
        it.say("reload", "master.sock")
        report.case("a new worker", "", True, wait_until(lambda: len(it.workers()) == 2))
        report.case("an open connection behind a reload", "", OK, ask(connection, frame(USAGE, key)))
        report.case("the old one is there while it has connections", "", True, old in it.workers())
    report.case("it ends with the last of them", "", True, wait_until(lambda: old not in it.workers()))
    has(it, "behind a reload", key, texts)


class Visitors(threading.Thread):
    """Connects as one tenant after the other and gets all its documents, until stopped; what was lost or wrong."""

    def __init__(self, it, texts):
        super().__init__(daemon=True)
        self.address, self.texts, self.goes, self.wrong, self.count, self.ended = "%s:%d" % it.plain, texts, True, [], 0, 0
        self.start()

    def run(self):
        while self.goes:
            for key, texts in self.texts.items():
                try:
                    with connect(self.address, key) as client:
                        got = {document: client.get("c", document) for document in texts}
                except BrokenConnection:
                    # while it is paused, and once before it
                    self.ended += 1
                    continue
                except Exception as fault:
                    got = repr(fault)
                self.count += len(texts)
                if got != texts:
                    self.wrong.append(got)


def replaced(it):
    """Another shard takes the place of the second: its tenants are moved there one by one, and what a client gets is right."""
    keys = [*it.keys["2"], it.keys["1"][1]]
    texts = {key: documents(it, key) for key in keys}
    visitors, others = Visitors(it, texts), Others(it, [it.keys["1"][0], it.keys["1"][2]])
    (port, admin), old = free_ports(2), it.running.pop("2")
    run = f"{TOP}/bin/path_server_run listen $ADDRESS --keys {it.folder}/$SHARD.keys --connections 9000 $OPTIONS"
    start = f"start . {it.folder}/$SHARD.env; export PATH_SERVER={PROGRAM}; {run} </dev/null >/dev/null 2>&1 & echo $! >{it.folder}/$SHARD.pid"
    it.table.write_text(it.table.read_text() + start + "\n")
    it.shards("upgrade", "2", "3", f"127.0.0.1:{port}", f"127.0.0.1:{admin}")
    it.keys["3"] = it.keys.pop("2")
    try:
        report.case("the old shard ends", "", 0, old.process.wait(PATIENCE))
        old.kill()
        visitors.goes = False
        visitors.join()
        report.case("what visitors got wrong", "", ([], True), (visitors.wrong, visitors.count > 0))
        print(f"replaced: {visitors.count} replies to visitors, {visitors.ended} connections ended", flush=True)
        for key in keys:
            has(it, "at the new shard", key, texts[key])
        others.finish("replaced")
        report.case("files of the old shard", "", [], [name for name in ("2.env", "2.keys") if (it.folder / name).exists()])
    finally:
        os.kill(int((it.folder / "3.pid").read_text()), signal.SIGTERM)


def certified(it):
    hers, other = it.keys["1"][0], it.keys["1"][2]
    with it.open_secure("alice") as connection:
        report.case("her certificate and her key", "", OK, ask(connection, frame(USAGE, hers)))
    for who, key, name in (("alice", other, "her certificate and another key"), ("mallory", hers, "another certificate and her key")):
        with it.open_secure(who) as connection:
            report.case(name, "", ENDED, ask(connection, frame(USAGE, key)))
    try:
        with it.open_secure() as connection:
            what = ask(connection, frame(USAGE, hers))
    except ssl.SSLError:
        what = ENDED
    report.case("no certificate", "", ENDED, what)
    renewed(it, hers)
    with socket.create_connection(it.tls, PATIENCE) as connection:
        report.case("no TLS", "", ENDED, ask(connection, frame(USAGE, hers)))


def renewed(it, hers):
    """A certificate that another authority made is refused, one that was renewed is taken, and one that was revoked is refused."""
    def answer():
        try:
            with it.open_secure("alice") as connection:
                return ask(connection, frame(USAGE, hers))
        except ssl.SSLError:
            return ENDED

    tls, other, kept = it.folder / "tls", it.folder / "other", {}
    subprocess.run([TOP / "deploy/certificates.sh", other, "127.0.0.1", "alice"], check=True)
    for name in ("alice.crt", "alice.key"):
        kept[name] = (tls / name).read_bytes()
        (tls / name).write_bytes((other / name).read_bytes())
    report.case("a certificate of another authority", "", ENDED, answer())
    before = (tls / "server.pem").read_bytes()
    subprocess.run([TOP / "deploy/certificates.sh", tls, "127.0.0.1", "alice"], check=True)
    report.case("renewed", "", True, before != (tls / "server.pem").read_bytes())
    it.shards("reload")
    report.case("a certificate that was renewed", "", OK, answer())
    now = {name: (tls / name).read_bytes() for name in kept}
    subprocess.run([TOP / "deploy/certificates.sh", "--revoke", tls, "alice"], check=True)
    for name, data in now.items():
        (tls / name).write_bytes(data)
    it.shards("reload")
    report.case("a certificate that was revoked", "", ENDED, answer())
    for name, data in kept.items():
        (tls / name).write_bytes(data)
    report.case("another one of her name", "", OK, answer())


def limited():
    with Deployment(2, options="--tenant=3 --source=6") as it:
        # those of the checks and of starting are gone
        held, statuses = [], []
        for place in range(5):
            held.append(it.open())
            statuses.append(ask(held[-1], frame(USAGE, it.keys["1"][0])))
        report.case("five connections of a tenant that may have three", "", [OK] * 3 + [ENDED] * 2, statuses)
        for connection in held[3:]:
            connection.close()
        statuses = []
        for place in range(5):
            try:
                held.append(it.open())
                statuses.append(ask(held[-1], frame(USAGE, it.keys["1" if place % 2 else "2"][1])))
            except ConnectionError:
                statuses.append(ENDED)
        report.case("five more of an address that may have six", "", [OK] * 3 + [ENDED] * 2, statuses)
        for connection in held:
            connection.close()
    with Deployment(2, options="--shard=3") as it:
        held = [it.open() for _ in range(6)]
        statuses = [ask(connection, frame(USAGE, it.keys["1"][place % 2])) for place, connection in enumerate(held[:5])]
        report.case("five connections of a shard that may have three", "", [OK] * 3 + [ENDED] * 2, statuses)
        report.case("and one of another shard", "", OK, ask(held[5], frame(USAGE, it.keys["2"][0])))
        for connection in held:
            connection.close()


def main():
    want("haproxy", "openssl")
    if not os.access(CLIENT, os.X_OK):
        sys.exit(f"no program {CLIENT}: bin/build makes it")
    with Deployment(4) as it:
        for part in (routes, certified, killed, drained, ended, moved, replaced):
            part(it)
    limited()
    report.close("behind HAProxy")


main()
