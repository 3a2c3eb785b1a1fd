"""What deploy/shards.py does with whole shards: marks them ready, dumps and loads their tenants, and puts another shard in the place of one."""
import hashlib
import json
import os
import subprocess
import time
import urllib.request
from pathlib import Path

import shard_files
from path_client import Refused
from shard_moves import NOTHING, Fleet, Stopped, told, usage_of
from shard_table import locked, write_whole


class Upgrade(Fleet):
    def answers(self, shard):
        try:
            with self.client(shard, self.table.probe) as client:
                client.usage()
                return True
        except (Stopped, OSError, Refused):
            return False

    def run(self, word, shard):
        """A command of the table. It may go on in the background."""
        subprocess.run(["sh", "-c", self.table.commands[word]], check=True, stdin=subprocess.DEVNULL, env={**os.environ, "SHARD": shard})

    def ask_admin(self, shard, path):
        for admin in self.table.admins.get(shard, ()):
            with urllib.request.urlopen(urllib.request.Request(f"http://{admin}{path}", method="POST"), timeout=self.patience):
                pass

    def ready(self, shards):
        """Marks shards ready, for HAProxy by the probe's text and for who asks at their administration addresses."""
        for shard in shards:
            try:
                with self.client(shard, self.table.probe) as client:
                    client.put("ready", "ready", b"1")
                self.ask_admin(shard, "/ready")
                # it has no texts, so that nobody else says it
                self.ask_admin("reception", "/ready")
            except (Refused, OSError) as why:
                raise Stopped(f"shard {shard} is not marked ready: {told(why)}") from why
            self.tell(f"shard {shard} is ready")

    def write(self):
        """Writes the files, and reloads HAProxy if it runs and has another configuration."""
        with locked(self.path):
            self.read()
            changed = shard_files.write(self.table)
            for name in changed:
                self.tell(f"{name} is written" if (self.table.folder / name).exists() else f"{name} is removed")
            if "haproxy.cfg" in changed:
                self.reload(Path(it).exists() for it in self.table.sockets())

    def reload(self, which):
        wrong = shard_files.is_valid(self.table)
        if wrong:
            raise Stopped(f"HAProxy refuses {self.table.folder}/haproxy.cfg: {wrong}")
        for it, is_there in zip(self.balancers, which):
            if is_there:
                self.tell(f"reload HAProxy at {it.at}")
                it.reload({f"shard-{name}" for name in self.table.shards})

    def read_anew(self):
        """Has each HAProxy read its files and certificates anew."""
        with locked(self.path):
            self.read()
            shard_files.write(self.table)
            self.reload([True] * len(self.balancers))

    def upgrade(self, old, new, *addresses):
        with locked(self.path):
            self.read()
            if old not in self.table.shards:
                return self.take_out(old, new)
            if new not in self.table.shards:
                if not addresses:
                    raise Stopped(f"there is no shard {new}: its address is wanted")
                self.table = self.table.with_shard(new, *addresses, beside=old)
            shard_files.write(self.table)
        self.read()
        if not self.answers(new):
            self.tell(f"start shard {new}")
            if "start" in self.table.commands:
                self.run("start", new)
            self.await_answer(new)
        if not self.is_ready(new):
            self.ready([new])
        self.tell(f"have HAProxy know shard {new}")
        for it in self.balancers:
            if f"shard-{new}," not in it.ask(f"@!{it.current()} show stat"):
                self.reload([one is it for one in self.balancers])
        self.await_up(new)
        for tenant in list(self.table.tenants.values()):
            if old in (tenant.places[0], tenant.leaving):
                self.move(tenant.name, new)
        self.tell(f"end shard {old}")
        if "stop" in self.table.commands:
            self.run("stop", old)
        elif self.answers(old):
            try:
                self.ask_admin(old, "/drain?grace=30")
            except OSError as why:
                raise Stopped(f"shard {old} does not end: {why}") from why
        with locked(self.path):
            self.read()
            self.tell(f"take shard {old} out of the table")
            self.table = self.table.without_shard(old)
            self.take_out(old, new)

    def take_out(self, old, new):
        """Has HAProxy forget a shard that the table no longer has."""
        shard_files.write(self.table)
        having = [f"shard-{old}," in it.ask(f"@!{it.current()} show stat") for it in self.balancers]
        if not any(having) or new not in self.table.shards:
            raise Stopped(f"there is no shard {old}; the table and HAProxy do without it")
        self.reload(having)
        self.tell(f"shard {new} is in the place of shard {old}")

    def await_answer(self, shard):
        until = time.monotonic() + self.patience
        while not self.answers(shard):
            if time.monotonic() > until:
                raise Stopped(f"shard {shard} does not answer: start it, and give the command again")
            time.sleep(0.1)

    def await_up(self, shard):
        """Waits until each HAProxy sees it ready."""
        until = time.monotonic() + self.patience
        for it in self.balancers:
            while True:
                rows = [line.split(",") for line in it.ask(f"@!{it.current()} show stat").splitlines()]
                if any(row[:2] == [f"shard-{shard}", "path_server"] and row[17].startswith("UP") and row[36] for row in rows if len(row) > 36):
                    break
                if time.monotonic() > until:
                    raise Stopped(f"HAProxy at {it.at} does not see shard {shard} ready")
                time.sleep(0.1)

    def chosen(self, names, shard):
        found = [self.tenant(it) for it in names] or [it for it in self.table.tenants.values() if shard in (None, it.places[0])]
        paused = [it.name for it in found if it.moving]
        if paused:
            raise Stopped(f"{paused[0]} is being moved: go on with that, or undo it")
        return found

    def dump(self, folder, names, shard=None):
        """A folder for each tenant: a file for each collection, as path_client's dump prints it, and their sums, which come last."""
        for tenant in self.chosen(names, shard):
            place = tenant.places[0]
            try:
                with self.client(place, tenant.key) as client:
                    texts = self.all_texts(client, tenant, f"shard {place}")
            except (Refused, OSError) as why:
                raise Stopped(f"{tenant.name}: {told(why)}") from why
            room = Path(folder) / tenant.name
            room.mkdir(mode=0o700, parents=True, exist_ok=True)
            sums = room / "sums"
            sums.unlink(missing_ok=True)
            lines = {it: "" for it in tenant.collections}
            for (collection, name), text in texts.items():
                lines[collection] += json.dumps({"name": name, "text": text.decode()}, ensure_ascii=False, separators=(",", ":")) + "\n"
            for collection, text in lines.items():
                write_whole(room / f"{collection}.lines", text)
            write_whole(sums, "".join(f"{hashlib.sha256(text.encode()).hexdigest()}  {collection}.lines\n" for collection, text in lines.items()))
            self.tell(f"{tenant.name}: dumped {len(texts)} documents, {usage_of(texts)[2]} bytes")

    def load(self, folder, names, shard=None, may_replace=False):
        """Puts back what dump wrote, whole tenants only."""
        for tenant in self.chosen(names, shard):
            texts, place = read_dump(Path(folder) / tenant.name), tenant.places[0]
            tenant.collections = list(dict.fromkeys([*tenant.collections, *[collection for collection, _ in texts]]))
            try:
                with self.client(place, tenant.key) as client:
                    there = tuple(client.usage())
                    if there != NOTHING and not may_replace:
                        raise Stopped(f"shard {place} has texts of {tenant.name} already, {there}: --replace drops them")
                    self.put_all(client, tenant, texts, f"shard {place}")
            except (Refused, OSError) as why:
                raise Stopped(f"{tenant.name}: {told(why)}") from why
            self.tell(f"{tenant.name}: loaded {len(texts)} documents, {usage_of(texts)[2]} bytes")


def read_dump(room):
    """The texts of a tenant's folder, by collection and name."""
    if not (room / "sums").exists():
        raise Stopped(f"{room} has no whole dump: there are no sums")
    texts = {}
    for line in (room / "sums").read_text(encoding="utf-8").splitlines():
        wanted, _, name = line.partition("  ")
        data = (room / name).read_bytes()
        if hashlib.sha256(data).hexdigest() != wanted:
            raise Stopped(f"{room / name} is not as it was dumped")
        for one in filter(None, data.decode().split("\n")):
            document = json.loads(one)
            texts[(name[:-len(".lines")], document["name"])] = document["text"].encode()
    return texts
