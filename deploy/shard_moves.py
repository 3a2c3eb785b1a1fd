"""Moves of tenants from shard to shard, as deploy/shards.py makes them.

A move is a few steps, and the table says before each what is so: `moving` while nobody is served and the texts are where they were, `leaving` once
they are served at the new shard and the old one still has a copy. So whatever is killed in between, HAProxy finds in its files where the texts are,
and the same command goes on.
"""
import re
import socket
import time

import shard_files
from path_client import BrokenConnection, Refused, Request, Status, connect
from shard_table import locked, read_table

NOTHING = (0, 0, 0)
PATIENCE = 30.0


class Stopped(Exception):
    """Why a command goes no further. What it has done stands in the table."""


class Balancer:
    """A HAProxy, by its master socket: each worker is asked, also one that a reload left with its open connections."""

    def __init__(self, at, patience=PATIENCE):
        self.at, self.patience = at, patience

    def ask(self, command):
        with socket.socket(socket.AF_UNIX) as connection:
            connection.settimeout(self.patience)
            connection.connect(self.at)
            connection.sendall(command.encode() + b"\n")
            connection.shutdown(socket.SHUT_WR)
            return b"".join(iter(lambda: connection.recv(65_536), b"")).decode()

    def say(self, command, holds=bool):
        """What it answers, once that is as it should be. While it starts or is reloaded, it does not answer."""
        until, said = time.monotonic() + self.patience, ""
        while True:
            try:
                said = self.ask(command)
                if holds(said):
                    return said
            except OSError as fault:
                said = str(fault)
            if time.monotonic() > until:
                raise Stopped(f"HAProxy at {self.at} does not answer ({said.strip()}): start it, and give the command again")
            time.sleep(0.1)

    def workers(self):
        """The processes of its workers: those that take new connections, and those that a reload left with their open ones."""
        said = self.say("show proc", lambda it: re.search(r"^\d+ +worker", it.partition("# old workers")[0], re.M))
        return [re.findall(r"^(\d+) +worker", it, re.M) for it in said.partition("# old workers")[::2]]

    def current(self):
        return self.workers()[0][0]

    def place(self, folder, tenant):
        """Where new connections of the tenant go."""
        said = self.ask(f"@!{self.current()} get map {folder}/tenants.map {tenant.digest}")
        return said.partition('value="')[2].partition('"')[0]

    def send_to(self, folder, tenant, place):
        """Has new connections of the tenant go to a place. A HAProxy that starts meanwhile reads the same from its file."""
        until = time.monotonic() + self.patience
        while True:
            try:
                self.ask(f"@!{self.current()} set map {folder}/tenants.map {tenant.digest} {place}")
                if self.place(folder, tenant) == place:
                    return
            except OSError:
                pass
            if time.monotonic() > until:
                raise Stopped(f"HAProxy at {self.at} does not take {place} for {tenant.name}: reload it, and give the command again")
            time.sleep(0.1)

    def open_at(self, shard, tenant):
        """The open connections of the tenant at a shard: their worker and their name in it."""
        found = []
        for process in sum(self.workers(), []):
            for line in self.ask(f"@!{process} show sess").splitlines():
                words = line.split()
                if f"be=shard-{shard}" in words and f"srv={tenant.digest[:8]}" in words:
                    found.append((process, words[0].rstrip(":")))
        return found

    def shut(self, shard, tenant):
        """Shuts them by the tenant's server, and in an old worker, which no longer has it, one by one."""
        _, old = self.workers()
        for process, name in self.open_at(shard, tenant):
            what = f"session {name}" if process in old else f"sessions server shard-{shard}/{tenant.digest[:8]}"
            self.ask(f"@!{process} shutdown {what}")

    def reload(self, has):
        """Reads the files anew, and waits until the new worker has the backends."""
        before = self.current()
        self.ask("reload")
        until = time.monotonic() + self.patience
        while time.monotonic() < until:
            try:
                now = self.current()
                if now != before and has <= {line.split(",")[0] for line in self.ask(f"@!{now} show stat").splitlines()}:
                    return
            except OSError:
                pass
            time.sleep(0.1)
        raise Stopped(f"HAProxy at {self.at} does not take its new configuration: its log says why")


class Fleet:
    """The shards and HAProxys of a table. `tell` gets a line for each step before it is taken."""

    def __init__(self, path, tell, wait=0.0, patience=PATIENCE):
        self.path, self.tell, self.wait, self.patience = path, tell, wait, patience
        self.read()

    def read(self):
        self.table = read_table(self.path)
        self.balancers = [Balancer(it, self.patience) for it in self.table.sockets()]
        self.at = self.table.options.at or self.table.folder

    def tenant(self, name):
        found = self.table.tenant_of(name)
        if not found:
            raise Stopped(f"there is no tenant {name}" if len(name) < 32 else "there is no such tenant; a tenant is called by its name, never by its key")
        return found

    def change(self, tenant, **words):
        """The table first, then the files, so that neither is ahead of what HAProxy is told behind it."""
        self.table = self.table.change_tenant(tenant, **words)
        shard_files.write(self.table)
        return self.table.tenants[tenant.key]

    def client(self, shard, key):
        if shard not in self.table.shards:
            raise Stopped(f"there is no shard {shard}")
        try:
            return connect(self.table.shards[shard][0], bytes.fromhex(key), self.patience)
        except OSError as fault:
            raise Stopped(f"shard {shard} does not answer: {fault}") from fault

    def is_ready(self, shard):
        try:
            with self.client(shard, self.table.probe) as client:
                return client.get("ready", "ready") == b"1"
        except (Stopped, OSError, Refused):
            return False

    def send_to(self, tenant, place):
        for it in self.balancers:
            it.send_to(self.at, tenant, place)

    def texts(self, client, tenant):
        """All texts of a tenant, by collection and name."""
        found = {}
        for collection in tenant.collections:
            names = client.list(collection)
            got = client.pipeline(Request.get(collection, name) for name in names)
            refused = [it for it in got if isinstance(it, Refused)]
            if refused:
                raise refused[0]
            found.update({(collection, name): text for name, text in zip(names, got)})
        return found

    def all_texts(self, client, tenant, where):
        """The same, once USAGE says that there are no others."""
        for _ in range(3):
            texts = self.texts(client, tenant)
            usage, wanted = client.usage(), usage_of(texts)
            if tuple(usage) == wanted:
                return texts
        if usage.collections > wanted[0]:
            raise Stopped(f"{where} has {usage.collections} collections of {tenant.name}, and the collections= of its line name {wanted[0]} of them")
        raise Stopped(f"{where} has {tuple(usage)} of {tenant.name}, collections, documents and bytes, and gives {wanted}: its texts change")

    def put_all(self, client, tenant, texts, where):
        """Puts texts in the place of all that the tenant has there, and reads each back."""
        for collection in tenant.collections:
            drop(client, collection)
        left = tuple(client.usage())
        if left != NOTHING:
            raise Stopped(f"{where} has {left} of {tenant.name} in collections that its line does not name")
        got = client.pipeline(Request.put(collection, name, text) for (collection, name), text in texts.items())
        refused = [it for it in got if isinstance(it, Refused)]
        if refused:
            raise refused[0]
        if self.all_texts(client, tenant, where) != texts:
            raise Stopped(f"{where} gives other texts of {tenant.name} than were put")

    def shut(self, tenant, shard):
        """Waits for the tenant's connections to a shard, and shuts what is left."""
        until, calm = time.monotonic() + self.wait, 0
        limit = until + self.patience
        while calm < 3:
            calm = 0 if self.has_open(tenant, shard) else calm + 1
            if not calm and time.monotonic() >= until:
                for it in self.balancers:
                    it.shut(shard, tenant)
            if time.monotonic() > limit:
                raise Stopped(f"connections of {tenant.name} to shard {shard} do not end")
            time.sleep(0.05)

    def has_open(self, tenant, shard):
        return any(it.open_at(shard, tenant) for it in self.balancers)

    def move(self, name, shard, may_replace=False):
        with locked(self.path):
            self.read()
            shard_files.write(self.table)
            tenant = self.tenant(name)
            if tenant.leaving:
                tenant = self.leave(tenant)
            if tenant.places[0] == shard and not tenant.moving:
                return self.tell(f"{tenant.name} is served by shard {shard}")
            if tenant.moving not in ("", shard):
                raise Stopped(f"{tenant.name} is on its way to shard {tenant.moving}: go on with that, or undo it")
            if not tenant.moving:
                self.look_ahead(tenant, shard, may_replace)
                self.tell(f"{tenant.name}: pause it in the files")
                tenant = self.change(tenant, moving=shard)
            try:
                self.carry(tenant, shard)
            except (Stopped, Refused, OSError, ValueError) as why:
                self.back(self.table.tenants[tenant.key])
                raise Stopped(f"{tenant.name} stays at shard {tenant.places[0]}: {told(why)}") from why
            places = [shard, *[it for it in tenant.places if it != shard]]
            self.tell(f"{tenant.name}: serve it at shard {shard} in the files")
            self.leave(self.change(tenant, moving="", leaving=tenant.places[0], places=places))
            self.tell(f"{tenant.name} is served by shard {shard}")

    def look_ahead(self, tenant, shard, may_replace):
        """What can be known before anybody is paused."""
        old = tenant.places[0]
        if shard not in tenant.places:
            raise Stopped(f"shard {shard} does not know the key of {tenant.name}: it stands not in its line of the table")
        for it in self.balancers:
            place = it.place(self.at, tenant)
            if place != shard_files.place_of(tenant):
                raise Stopped(f"HAProxy at {it.at} sends {tenant.name} to {place or 'nowhere'}, and the table to shard {old}: reload it first")
        for name in (old, shard):
            if not self.is_ready(name):
                raise Stopped(f"shard {name} is not ready")
        try:
            with self.client(old, tenant.key) as client:
                if client.usage().collections > len([it for it in tenant.collections if client.list(it)]):
                    self.all_texts(client, tenant, f"shard {old}")
            with self.client(shard, tenant.key) as client:
                there = tuple(client.usage())
        except (Refused, OSError) as why:
            raise Stopped(told(why)) from why
        if there != NOTHING and not may_replace:
            raise Stopped(f"shard {shard} has texts of {tenant.name} already, {there}: --replace drops them")

    def carry(self, tenant, shard):
        old = tenant.places[0]
        self.tell(f"{tenant.name}: pause it at HAProxy")
        self.send_to(tenant, shard_files.PAUSED)
        self.tell(f"{tenant.name}: wait for its connections, and shut them")
        self.shut(tenant, old)
        self.tell(f"{tenant.name}: copy its texts")
        with self.client(old, tenant.key) as here, self.client(shard, tenant.key) as there:
            texts = self.all_texts(here, tenant, f"shard {old}")
            self.put_all(there, tenant, texts, f"shard {shard}")
            self.tell(f"{tenant.name}: compare what both shards have")
            # a HAProxy that was started by others meanwhile may have read the map before it was written
            self.send_to(tenant, shard_files.PAUSED)
            if self.has_open(tenant, old) or self.all_texts(here, tenant, f"shard {old}") != texts:
                raise Stopped(f"shard {old} was written to meanwhile")
        if not self.is_ready(shard):
            raise Stopped(f"shard {shard} is not ready")

    def leave(self, tenant):
        """Has the tenant be served at its new shard, and drops it at the old one."""
        new, old = tenant.places[0], tenant.leaving
        self.tell(f"{tenant.name}: serve it at HAProxy")
        self.send_to(tenant, shard_files.place_of(tenant))
        self.shut(tenant, old)
        if not self.is_ready(new):
            raise Stopped(f"shard {new} is not ready; shard {old} still has the texts of {tenant.name} from before the move: `undo --old-copy` serves them")
        self.tell(f"{tenant.name}: drop it at shard {old}")
        try:
            with self.client(old, tenant.key) as client:
                for collection in tenant.collections:
                    drop(client, collection)
        except (Stopped, OSError) as why:
            # what is in the memory of a shard that is gone is gone with it
            self.tell(f"{tenant.name}: not dropped: {told(why)}")
        return self.change(tenant, leaving="")

    def back(self, tenant):
        """Serves a tenant where it was, and drops the copy."""
        old, new = tenant.places[0], tenant.moving
        try:
            with self.client(new, tenant.key) as client:
                for collection in tenant.collections:
                    drop(client, collection)
        except (Stopped, OSError, Refused) as why:
            self.tell(f"{tenant.name}: its copy is not dropped: {told(why)}")
        tenant = self.change(tenant, moving="")
        self.send_to(tenant, shard_files.place_of(tenant))
        self.tell(f"{tenant.name} is served by shard {old}")

    def undo(self, name, is_old_copy=False):
        with locked(self.path):
            self.read()
            tenant = self.tenant(name)
            if tenant.moving:
                shard_files.write(self.table)
                return self.back(tenant)
            if not tenant.leaving:
                raise Stopped(f"no move of {tenant.name} is under way")
            old, places = tenant.leaving, [tenant.leaving, *[it for it in tenant.places if it != tenant.leaving]]
            if is_old_copy:
                tenant = self.change(tenant, leaving="", places=places)
                self.send_to(tenant, shard_files.place_of(tenant))
                return self.tell(f"{tenant.name} is served by shard {old}, with its texts from before the move")
            # clients may have written at the new shard since, so that its texts are the right ones
            self.change(tenant, leaving="", moving=old)
        self.move(name, old)


def usage_of(texts):
    return len({collection for collection, _ in texts}), len(texts), sum(map(len, texts.values()))


def drop(client, collection):
    try:
        client.drop(collection)
    except Refused as why:
        if why.status != Status.NotFound:
            raise


def told(why):
    if isinstance(why, Refused):
        return f"a shard answers {why.name}"
    return str(why) if isinstance(why, Stopped) else f"a connection ended: {why}" if isinstance(why, BrokenConnection) else str(why)
