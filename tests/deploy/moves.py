#!/usr/bin/env python3
"""Moves of tenants under traffic, stopped at each step, with HAProxy killed or reloaded there: tests/deploy/moves.py

Each reply to the tenant that is moved, and to others, is one that a single server could have given: no text from before an acknowledged put, none lost,
no NotFound. A connection may end while its tenant is paused, and then what was on its way is carried out or not. It takes HAProxy and openssl.
"""
import contextlib
import os
import re
import signal
import socket
import subprocess
import sys
import tempfile
import threading
import time
from pathlib import Path

from deployment import ENDED, OK, TOP, USAGE, Deployment, ask, children, frame, free_ports, wait_until
from visits import Visits
from lib.running_server import PATIENCE, PROGRAM, Report, want
from path_client import connect

sys.path.insert(0, str(TOP / "deploy"))
from shard_moves import Stopped
from shard_table import Faulty, Table, digest_of
from shard_upgrades import Upgrade

report = Report()
COLLECTIONS = ("c", "d", "e")


class Interrupted(BaseException):
    """As if the command had been killed."""


def visits(it, keys, may_end):
    return Visits(report, "%s:%d" % it.plain, keys, COLLECTIONS, may_end)


def fleet(it, tell=lambda _: None, **more):
    return Upgrade(it.table, tell, patience=10, **more)


def name_of(key):
    return digest_of(key.hex())[:8]


def stopped_at(it, step, call, then=lambda: None):
    """Runs a command up to the line of that step. False where it has no such step."""
    told = []

    def tell(line):
        told.append(line)
        if len(told) == step:
            raise Interrupted

    try:
        call(fleet(it, tell))
    except Interrupted:
        then()
        return True
    return False


def place_of(it, key):
    return Table(it.table).tenants[key.hex()].places[0]


def is_left_nowhere(it, key, name):
    """The tenant has nothing at a shard that does not serve it."""
    for shard in Table(it.table).tenants[key.hex()].places[1:]:
        with connect(it.running[shard].address, key) as client:
            report.case(f"{name}: what shard {shard} has", "", (0, 0, 0), tuple(client.usage()))


def killed(it, states=None):
    it.kill_balancer()
    it.balance(states)


def reloaded(it):
    """HAProxy is reloaded: its old process goes on with the connections that are open."""
    before = set(it.workers())
    it.say("reload", "master.sock")
    report.case("a new process", "", True, wait_until(lambda: set(it.workers()) - before))


def each_step(it, key, then=lambda _: None):
    """Stopped at each step, something done to HAProxy there, and begun again."""
    step, stops = 1, 0
    while True:
        old = place_of(it, key)
        new = "2" if old == "1" else "1"
        if not stopped_at(it, step, lambda one: one.move(name_of(key), new), lambda: then(it)):
            break
        stops += 1
        fleet(it).move(name_of(key), new)
        report.case("moved in the end", step, new, place_of(it, key))
        is_left_nowhere(it, key, f"stopped at step {step}")
        step += 1
    report.case("steps at which it was stopped", "", True, stops >= 8)


def each_undone(it, key):
    """Stopped at each step and taken back."""
    step = 1
    while True:
        old = place_of(it, key)
        new = "2" if old == "1" else "1"
        if not stopped_at(it, step, lambda one: one.move(name_of(key), new)):
            break
        tenant = Table(it.table).tenants[key.hex()]
        if tenant.moving or tenant.leaving:
            fleet(it).undo(name_of(key))
            report.case("undone", step, old, place_of(it, key))
        is_left_nowhere(it, key, f"undone at step {step}")
        step += 1
    refuses(it, "nothing to undo", lambda one: one.undo(name_of(key)), "no move of")


def killed_at_random(it, key, count):
    """The command itself, killed at random times, also while it writes."""
    for place in range(count):
        new = "2" if place_of(it, key) == "1" else "1"
        process = subprocess.Popen([TOP / "deploy/shards.py", it.table, "move", name_of(key), new], stdout=subprocess.DEVNULL, stderr=subprocess.DEVNULL)
        time.sleep(0.1 + 0.4 * place / count)
        process.kill()
        process.wait()
        tenant = Table(it.table).tenants[key.hex()]
        if tenant.moving or tenant.leaving:
            it.shards("move", name_of(key), tenant.moving or tenant.places[0])
        is_left_nowhere(it, key, f"killed {place}")


def refuses(it, name, call, wanted):
    before = it.table.read_text()
    try:
        call(fleet(it))
        got = "done"
    except Faulty as faults:
        got = "\n".join(faults.args)
    except Stopped as why:
        got = str(why)
    report.case(name, "", True, wanted in got or got)
    report.case(f"{name}: the table", "", before, it.table.read_text())


class Other(threading.Thread):
    """A server that answers each frame by one that no client of this version knows."""

    def __init__(self, address):
        super().__init__(daemon=True)
        self.server = socket.create_server(address)
        self.start()

    def run(self):
        with contextlib.suppress(OSError):
            while True:
                connection, _ = self.server.accept()
                with connection:
                    while connection.recv(65_536):
                        connection.sendall(b"\x00\x00\x00\x05\x77\x00\x00\x00\x01")


def bad(it):
    """What is refused before anybody is paused, and what goes wrong in between and is taken back."""
    one, two = it.keys["1"][3], it.keys["2"][3]
    with connect("%s:%d" % it.plain, one) as client:
        client.put("c", "kept", b"[1]")
        client.put("nowhere", "named", b"[2]")
        refuses(it, "a collection that the table does not name", lambda fleet: fleet.move(name_of(one), "2"), "collections of")
        client.drop("nowhere")
        refuses(it, "a shard that is none", lambda fleet: fleet.move(name_of(one), "9"), "shard 9 does not know the key")
        refuses(it, "a tenant that is none", lambda fleet: fleet.move("nobody", "2"), "there is no tenant nobody")
        refuses(it, "a key in the place of a name", lambda fleet: fleet.move(one.hex(), "2"), "never by its key")
        with connect(it.running["2"].address, one) as there:
            there.put("c", "left", b"[3]")
        refuses(it, "texts at the new shard", lambda fleet: fleet.move(name_of(one), "2"), "--replace drops them")
        with connect(it.running["2"].address, one) as there:
            there.put("unnamed", "left", b"[3]")
        refuses(it, "texts at the new shard that the table does not name", lambda fleet: fleet.move(name_of(one), "2", True), "in collections that its line does not name")
        with connect(it.running["2"].address, one) as there:
            there.drop("unnamed")
        fleet(it).move(name_of(one), "2", True)
    with connect("%s:%d" % it.plain, one) as client:
        report.case("moved in the place of what was there", "", b"[1]", client.get("c", "kept"))
        stopped_at(it, 2, lambda fleet: fleet.move(name_of(one), "1"))
        shown = [line for line in it.shards("show").splitlines() if name_of(one) in line]
        report.case("show", "", [f"{name_of(one)} {name_of(one).lower()} shard 2 to 1, paused"], shown)
        fleet(it).move(name_of(one), "1")
    with connect("%s:%d" % it.plain, one) as client:
        refuses(it, "an upgrade to a shard without an address", lambda fleet: fleet.upgrade("2", "9"), "its address is wanted")
        refuses(it, "an upgrade to an address that is taken", lambda fleet: fleet.upgrade("2", "9", it.running["1"].address), "stands twice")
        refuses(it, "an upgrade to a name that is none", lambda fleet: fleet.upgrade("2", "a/b", "127.0.0.1:9"), "is no name of a shard")
        it.say(f"set map {it.folder}/tenants.map {digest_of(one.hex())} shard-2")
        refuses(it, "HAProxy has other places than the table", lambda fleet: fleet.move(name_of(one), "2"), "reload it first")
        it.say(f"set map {it.folder}/tenants.map {digest_of(one.hex())} shard-1")
        shard = it.running["2"]
        shard.kill()
        refuses(it, "a shard that is down", lambda fleet: fleet.move(name_of(one), "2"), "shard 2 is not ready")
        host, port = shard.address.rsplit(":", 1)
        other = Other((host, int(port)))
        refuses(it, "a server of another version", lambda fleet: fleet.move(name_of(one), "2"), "shard 2 is not ready")
        other.server.shutdown(socket.SHUT_RDWR)
        other.server.close()
        shard.limit = 24_000
        shard.start()
        it.shards("ready", "2")
        report.case("it is up again", "", True, it.is_state("2", "UP"))
        text = b'["%s"]' % (b"x" * 4_000_000)
        for document in ("large-1", "large-2", "large-3", "large-4"):
            client.put("c", document, text)
        refuses(it, "a shard without memory", lambda fleet: fleet.move(name_of(one), "2"), "answers NoMemory")
    with connect("%s:%d" % it.plain, one) as client:
        report.case("it is served where it was", "", (1, 5), tuple(client.usage())[:2])
        client.drop("c")
    shard.kill()
    shard.limit = None
    shard.start()
    it.shards("ready", "2")
    it.is_state("2", "UP")
    lost(it, it.keys["1"][3], shard)


def lost(it, key, shard):
    """The new shard ends between the map and the drop: the texts from before the move are still there."""
    with connect("%s:%d" % it.plain, key) as client:
        client.put("c", "kept", b"[1]")
    report.case("stopped before the drop", "", True, stopped_at(it, 8, lambda one: one.move(name_of(key), "2")))
    shard.kill()
    shard.start()
    refuses(it, "the new shard has lost them", lambda fleet: fleet.move(name_of(key), "2"), "undo --old-copy")
    fleet(it).undo(name_of(key), True)
    with connect("%s:%d" % it.plain, key) as client:
        report.case("the old copy", "", b"[1]", client.get("c", "kept"))
    it.shards("ready", "2")
    it.is_state("2", "UP")


def waited(it, key):
    """With --wait, open connections of the tenant are served until their clients close them, or until it has passed, and new ones are refused at once."""
    for seconds, is_closed in (("30", True), ("5", False)):
        new = "2" if place_of(it, key) == "1" else "1"
        with it.open() as connection:
            report.case("before a move that waits", "", OK, ask(connection, frame(USAGE, key)))
            began = time.monotonic()
            process = subprocess.Popen([TOP / "deploy/shards.py", it.table, "move", name_of(key), new, "--wait", seconds], stdout=subprocess.DEVNULL)

            def is_refused():
                with it.open() as another:
                    return ask(another, frame(USAGE, key)) == ENDED

            report.case("a new connection while it waits", "", True, wait_until(is_refused))
            for _ in range(10):
                report.case("an open one while it waits", "", OK, ask(connection, frame(USAGE, key)))
                time.sleep(0.1)
            if not is_closed:
                report.case("an open one behind the wait", "", ENDED, ask(connection, b""))
                report.case("the wait", seconds, True, time.monotonic() - began >= float(seconds))
        report.case("the move behind it", seconds, (0, True), (process.wait(PATIENCE), time.monotonic() - began < 25))
        report.case("moved", seconds, new, place_of(it, key))


def elsewhere():
    """HAProxy knows the files by another name of their folder, which the table has: a move, a reload and a write name them so to it."""
    with tempfile.TemporaryDirectory() as at:
        link, it = Path(at) / "as-haproxy-sees-it", Deployment(1, collections=",".join(COLLECTIONS))
        link.symlink_to(it.folder)
        it.table.write_text(re.sub("^(options .*)$", rf"\1 --at {link}", it.table.read_text(), flags=re.M))
        it.shards("write")
        text, key = (it.folder / "haproxy.cfg").read_text(), it.keys["1"][0]
        report.case("names in haproxy.cfg", "", (True, False), (f"{link}/tenants.map" in text, f"{it.folder}/" in text))
        with it:
            traffic = visits(it, [key], True)
            for step, new in enumerate(("2", "1", "2")):
                it.shards("move", name_of(key), new)
                is_left_nowhere(it, key, "moved elsewhere")
                if step == 1:
                    it.shards("reload")
            report.case("moved elsewhere", "", "2", place_of(it, key))
            print(f"by another name of the folder: {traffic.finish('elsewhere')} replies and ended connections", flush=True)


def by_two(it, key):
    """Two HAProxys take the connections of one address in turn. Each has to know before a tenant is served."""
    lines, sockets = it.table.read_text(), [it.folder / "master.sock", it.folder / "other.sock"]
    it.table.write_text(lines + "".join(f"haproxy {at}\n" for at in sockets))
    words = ["haproxy", "-W", "-db", "-S", sockets[1], "-f", it.folder / "haproxy.cfg"]
    with subprocess.Popen(words, stdin=subprocess.DEVNULL, stdout=subprocess.DEVNULL, stderr=subprocess.DEVNULL) as second:
        try:
            report.case("a second HAProxy", "", True, wait_until(lambda: "shard-2,path_server" in it.states_of("other.sock")))
            traffic = visits(it, [key] * 6, True)
            for new in ("2", "1", "2", "1"):
                it.shards("move", name_of(key), new)
                got = {it.say(f"@1 get map {it.folder}/tenants.map {digest_of(key.hex())}", at.name).partition('value="')[2].partition('"')[0] for at in sockets}
                report.case("what both know", new, {f"shard-{new}"}, got)
                is_left_nowhere(it, key, "moved by two")
                time.sleep(0.3)
            print(f"behind two HAProxys: {traffic.finish('two')} replies and ended connections", flush=True)
        finally:
            for worker in children(second.pid):
                os.kill(worker, signal.SIGKILL)
            second.kill()
    it.table.write_text(lines)


def upgraded(it):
    """Another shard takes the place of the second, again and again: stopped at each step of its own, HAProxy killed there, and begun again."""
    run = f"{TOP}/bin/path_server_run listen $ADDRESS --keys {it.folder}/$SHARD.keys --connections 9000 $OPTIONS"
    start = f"start . {it.folder}/$SHARD.env; PATH_SERVER={PROGRAM} {run} </dev/null >/dev/null 2>&1 & echo $! >{it.folder}/$SHARD.pid"
    it.table.write_text(it.table.read_text() + start + "\n")
    key, old, told, step = it.keys["2"][0], "2", [], 1
    traffic, others = visits(it, [key], True), visits(it, [it.keys["1"][0]], True)
    try:
        while True:
            new, count = f"n{step}", [0]
            words = (old, new, *(f"127.0.0.1:{port}" for port in free_ports(2)))

            def tell(line):
                # the steps of a move are stopped elsewhere
                count[0] += not line.startswith(name_of(key).upper())
                if count[0] == step and not line.startswith(name_of(key).upper()):
                    told.append(line)
                    raise Interrupted

            try:
                fleet(it, tell).upgrade(*words)
                is_stopped = False
            except Interrupted:
                is_stopped = True
                if step % 2:
                    killed(it, {"shard-1": "UP"})
                try:
                    fleet(it).upgrade(*words)
                except Stopped as why:
                    # all was done but the last word, or HAProxy has read the files as it was started
                    is_last = told[-1].endswith(f"in the place of shard {old}") or told[-1].startswith("reload ") and step % 2 == 1
                    report.case("begun again", told[-1], (True, True), (is_last, "the table and HAProxy do without it" in str(why)))
            table = Table(it.table)
            report.case("what the table has", step, (False, [new, "1"]), (old in table.shards, table.tenants[key.hex()].places))
            report.case("files of the old shard", step, [], [name for name in (f"{old}.env", f"{old}.keys") if (it.folder / name).exists()])
            old, step = new, step + 1
            if not is_stopped:
                break
        report.case("steps at which it was stopped", told, True, step >= 8)
        refuses(it, "an upgrade of a shard that is none", lambda one: one.upgrade("2", old), "there is no shard 2")
        counts = [one.finish(name) for one, name in ((traffic, "the tenant of a shard that is upgraded"), (others, "others"))]
        print(f"upgrades, stopped at {step - 2} steps: {counts[0]} replies and ended connections, others {counts[1]}", flush=True)
    finally:
        for file in it.folder.glob("n*.pid"):
            with contextlib.suppress(ProcessLookupError):
                os.kill(int(file.read_text()), signal.SIGKILL)


def dumped(it):
    """A dump of all, and a shard that is loaded from it again."""
    key, shard, folder = it.keys["2"][3], it.running["2"], Path(it.room.name) / "dumps"
    texts = {f"d-{place}": f'["\u2028\u0085{place}"]'.encode() for place in range(30)}
    with connect("%s:%d" % it.plain, key) as client:
        for name, text in texts.items():
            client.put("d", name, text)
    it.shards("dump", folder)
    shard.kill()
    shard.start()
    file = folder / name_of(key).upper() / "d.lines"
    whole = file.read_bytes()
    file.write_bytes(whole[:-40])
    refuses(it, "a dump that is cut", lambda fleet: fleet.load(folder, [name_of(key)]), "is not as it was dumped")
    file.write_bytes(whole)
    it.shards("load", folder, "--shard", "2")
    refuses(it, "a tenant that is loaded", lambda fleet: fleet.load(folder, [name_of(key)]), "--replace drops them")
    it.shards("ready", "2")
    report.case("it is up again", "", True, it.is_state("2", "UP"))
    with connect("%s:%d" % it.plain, key) as client:
        report.case("its texts", "", texts, {name: client.get("d", name) for name in client.list("d")})


def main():
    want("haproxy", "openssl")
    for is_apart in (False, True):
        with Deployment(5, is_apart=is_apart, collections=",".join(COLLECTIONS)) as it:
            began, kept = time.monotonic(), it.keys["1"][0]
            moved = visits(it, [kept, kept], True)
            others = visits(it, [it.keys["1"][1], it.keys["2"][1]], False)
            each_step(it, kept)
            each_undone(it, kept)
            if is_apart:
                each_step(it, kept, reloaded)
                killed_at_random(it, kept, 8)
                by_two(it, it.keys["1"][4])
                waited(it, it.keys["1"][4])
            print(f"other tenants: {others.finish('others')[0]} replies, none ended", flush=True)
            others = visits(it, [it.keys["1"][2], it.keys["2"][2]], True)
            each_step(it, kept, killed)
            counts = [one.finish(name) for one, name in ((moved, "the moved tenant"), (others, "others"))]
            print(f"replies and ended connections: the moved tenant {counts[0]}, others {counts[1]}, {time.monotonic() - began:.0f} s", flush=True)
            if is_apart:
                bad(it)
                dumped(it)
    with Deployment(1, collections=",".join(COLLECTIONS)) as it:
        upgraded(it)
    elsewhere()
    report.close("moves")


main()
