"""The table of deploy/shards.py: which tenant is on which shard, and how the files that follow from it are made."""
import argparse
import fcntl
import hashlib
import os
import re
import shlex
from contextlib import contextmanager
from pathlib import Path

KEY = re.compile(r"[0-9a-fA-F]{32}")
NAME = re.compile(r"[A-Za-z0-9][A-Za-z0-9_-]*")
MOST_OF_A_NAME = 64
PROBE = "probe"
COLLECTION = re.compile(r"[A-Za-z0-9._-]{1,128}")
CERTIFICATE = re.compile(r"[A-Za-z0-9][A-Za-z0-9._@-]*")
ADDRESS = re.compile(r"([A-Za-z0-9.-]+|\[[0-9a-fA-F:.]+\]):(\d{1,5})")
MOST_KEYS = 256
FORMS = """\
shard NAME ADDRESS [ADMIN]            a process of path_server, and its administration address
reception ADDRESS [ADMIN]             one that answers who has no key, or one that nobody has
probe KEY                             the key by which HAProxy asks whether a shard is ready
tenant KEY SHARD[,SHARD..] [WORD..]   served by the first shard; the others know the key too, so that it can be moved there.
                                      A WORD is name=NAME, what it is called on a command line; collections=NAME[,NAME..],
                                      all that it has; or the common name of a certificate that may use it
folder FOLDER                         where the files are written, and where the shards and HAProxy read them
options WORD..                        how HAProxy and the shards are set up: `deploy/shards.py --options` prints them
haproxy SOCKET                        HAProxy's master socket (haproxy -S), a line for each; FOLDER/master.sock without one
written COMMAND..                     what a shell runs once files were written, as one that copies them to another machine
start COMMAND..                       how the shard $SHARD is started
stop COMMAND..                        how it is ended; without this line by `POST /drain` at its administration address
moving, leaving                       words that `move` puts into a tenant's line and takes out again"""


class Options(argparse.ArgumentParser):
    """The words of an `options` line."""

    def __init__(self):
        super().__init__(prog="options", add_help=False, allow_abbrev=False)
        add = self.add_argument
        add("--plain", default="127.0.0.1:7000", help="where HAProxy listens without TLS; an empty word for nowhere")
        add("--tls", default="", help="where HAProxy listens with TLS, by FOLDER/tls/server.pem and ca.crt, and crl.pem if it is there")
        add("--at", default="", help="the folder's name where HAProxy runs, if it is another")
        add("--user", default="", help="the user that HAProxy becomes once it has read its files")
        add("--words", default="", help="more words for `path_server listen`, as `--idle 600`")
        add("--all", type=int, default=8_000, help="connections of HAProxy")
        add("--shard", type=int, default=9_000, help="connections of a shard")
        add("--source", type=int, default=8_000, help="connections of a source address")
        add("--tenant", type=int, default=2_000, help="connections of a tenant")

    def error(self, message):
        raise ValueError(message)


def digest_of(key):
    return hashlib.sha256(bytes.fromhex(key)).hexdigest().upper()


class Tenant:
    """A line `tenant`: its words are those of the table."""

    def __init__(self, key, places, words, line):
        self.key, self.places, self.line = key.lower(), places.split(","), line
        named = dict(it.split("=", 1) for it in words if "=" in it)
        self.certificates = [it for it in words if "=" not in it]
        self.label, self.moving, self.leaving = (named.pop(it, "") for it in ("name", "moving", "leaving"))
        self.collections = [it for it in named.pop("collections", "").split(",") if it]
        self.unknown = list(named)
        self.digest = digest_of(key) if KEY.fullmatch(key) else ""
        self.name = self.label or self.digest[:8]

    def text(self):
        words = [f"{name}={value}" for name, value in (("name", self.label), ("collections", ",".join(self.collections)),
                                                        ("moving", self.moving), ("leaving", self.leaving)) if value]
        return " ".join(["tenant", self.key, ",".join(self.places), *words, *self.certificates])


class Faulty(Exception):
    """A table has faults: a line for each."""


class Table:
    """What a table says, and what is wrong with it."""

    def __init__(self, path, lines=None):
        self.path, self.faults = Path(path), []
        self.shards, self.tenants, self.reception, self.probe = {}, {}, None, None
        self.admins, self.taken = {}, set()
        self.folder, self.balancers, self.commands, self.options = None, [], {}, Options().parse_args([])
        self.lines = self.path.read_text(encoding="utf-8").splitlines() if lines is None else lines
        readers = {"shard": self.shard, "reception": self.receive, "probe": self.ask, "tenant": self.tenant, "folder": self.put, "options": self.set_up,
                   "haproxy": self.balance, "written": self.command, "start": self.command, "stop": self.command}
        counts = {"shard": (2, 3), "reception": (1, 2), "probe": (1, 1), "tenant": (2, 999), "folder": (1, 1), "haproxy": (1, 1)}
        for self.line, text in enumerate(self.lines, 1):
            words = text.split()
            if words and not words[0].startswith("#"):
                least, most = counts.get(words[0], (1, 999))
                is_known = words[0] in readers and least <= len(words) - 1 <= most
                readers[words[0]](*words[1:]) if is_known else self.no_line()
        self.line = None
        self.judge()

    def fault(self, what, line=None):
        line = line or self.line
        self.faults.append(f"{self.path}:{line}: {what}" if line else f"{self.path}: {what}")

    def no_line(self):
        self.fault("a line is `shard NAME ADDRESS [ADMIN]`, `reception ADDRESS [ADMIN]`, `probe KEY`, `tenant KEY SHARD[,SHARD..] [WORD..]` or a setting")

    def shard(self, name, address, *admin):
        if not NAME.fullmatch(name) or name in ("reception", "probe"):
            self.fault(f"{name} is no name of a shard")
        elif name in self.shards:
            self.fault(f"the shard {name} stands twice")
        elif all(map(self.is_address, (address, *admin))):
            self.shards[name] = (address, self.line)
            self.admins[name] = admin

    def receive(self, address, *admin):
        if self.reception:
            self.fault("a second reception")
        elif all(map(self.is_address, (address, *admin))):
            self.reception = address
            self.admins["reception"] = admin

    def is_address(self, address):
        found = ADDRESS.fullmatch(address)
        is_one = bool(found) and 0 < int(found[2]) < 65_536
        if not is_one:
            self.fault(f"{address} is no address: a host, a colon and a port")
        elif address in self.taken:
            self.fault(f"the address {address} stands twice")
            return False
        self.taken.add(address)
        return is_one

    def is_key(self, key):
        if not KEY.fullmatch(key):
            # not the word itself, which may be most of a key
            self.fault("a key has 32 hexadecimal digits")
            return False
        return True

    def ask(self, key):
        if self.probe:
            self.fault("a second probe")
        elif self.is_key(key):
            self.probe = key.lower()

    def put(self, folder):
        self.folder = Path(folder) if Path(folder).is_absolute() else self.path.resolve().parent / folder

    def set_up(self, *_):
        try:
            self.options = Options().parse_args(shlex.split(self.lines[self.line - 1])[1:])
        except ValueError as why:
            self.fault(f"options: {why}")
            return
        if not self.options.plain and not self.options.tls:
            self.fault("options: --plain or --tls is wanted")

    def balance(self, socket):
        self.balancers.append(socket)

    def command(self, *_):
        word, _, text = self.lines[self.line - 1].strip().partition(" ")
        self.commands[word] = text.strip()

    def tenant(self, key, places, *words):
        tenant = Tenant(key, places, words, self.line)
        for name in tenant.certificates:
            if not CERTIFICATE.fullmatch(name):
                self.fault(f"{name} is no common name")
        for name in tenant.unknown:
            self.fault(f"a tenant has no word {name}=")
        for name in tenant.collections:
            if not COLLECTION.fullmatch(name):
                self.fault(f"{name} is no name of a collection")
        if tenant.label and (not NAME.fullmatch(tenant.label) or len(tenant.label) > MOST_OF_A_NAME or tenant.label == PROBE):
            self.fault(f"{tenant.label} is no name of a tenant")
        if not self.is_key(key):
            return
        if tenant.key in self.tenants:
            self.fault(f"the key stands twice, first in line {self.tenants[tenant.key].line}")
        else:
            self.tenants[tenant.key] = tenant

    def judge(self):
        """What no line tells alone."""
        for what, it in (("reception", self.reception), ("probe", self.probe)):
            if not it:
                self.fault(f"there is no {what}")
        if not self.shards:
            self.fault("there is no shard")
        known, names = {name: 1 for name in self.shards}, {}
        for tenant in self.tenants.values():
            for place in dict.fromkeys(tenant.places):
                if place not in self.shards:
                    self.fault(f"there is no shard {place or '(none)'}", tenant.line)
                else:
                    known[place] += 1
            if len(set(tenant.places)) < len(tenant.places):
                self.fault("a shard stands twice", tenant.line)
            for name in sorted({tenant.name.lower(), tenant.digest[:8].lower()}):
                if name in names:
                    self.fault(f"the name {name} stands twice, first in line {names[name]}", tenant.line)
                names.setdefault(name, tenant.line)
            for word, place in (("moving", tenant.moving), ("leaving", tenant.leaving)):
                if place and place not in tenant.places[1:]:
                    self.fault(f"{word}={place} is none of its other shards", tenant.line)
        if not self.folder:
            self.fault("there is no folder")
        if self.probe in self.tenants:
            self.fault("the probe's key is a tenant's", self.tenants[self.probe].line)
        for name, (_, line) in self.shards.items():
            if known[name] == 1:
                self.fault(f"the shard {name} has no tenants", line)
            if known[name] > MOST_KEYS:
                self.fault(f"the shard {name} has {known[name]} keys with the probe's; a process has at most {MOST_KEYS}", line)

    def tenant_of(self, name):
        """The tenant of a name, or of eight digits and more of its key's SHA-256."""
        found = [it for it in self.tenants.values() if name == it.label or len(name) >= 8 and it.digest.startswith(name.upper())]
        return found[0] if len(found) == 1 else None

    def sockets(self):
        return self.balancers or [str(self.folder / "master.sock")]

    def change(self, lines):
        """Exchanges the table's lines, all at once, and gives what it says then."""
        changed = Table(self.path, lines)
        if changed.faults:
            raise Faulty(*changed.faults)
        write_whole(self.path.resolve(), "".join(f"{line}\n" for line in lines))
        return changed

    def change_tenant(self, tenant, **words):
        """Exchanges the words of one tenant's line."""
        for name, value in words.items():
            setattr(tenant, name, value)
        return self.change([tenant.text() if place == tenant.line else line for place, line in enumerate(self.lines, 1)])

    def with_shard(self, name, *addresses, beside):
        """With another shard that knows the keys of the shard beside it."""
        lines = [*self.lines, " ".join(["shard", name, *addresses])]
        for tenant in self.tenants.values():
            if beside in tenant.places:
                tenant.places.append(name)
                lines[tenant.line - 1] = tenant.text()
        return self.change(lines)

    def without_shard(self, name):
        lines = list(self.lines)
        for tenant in self.tenants.values():
            tenant.places = [it for it in tenant.places if it != name]
            lines[tenant.line - 1] = tenant.text()
        del lines[self.shards[name][1] - 1]
        return self.change(lines)


def read_table(path):
    table = Table(path)
    if table.faults:
        raise Faulty(*table.faults)
    return table


def write_whole(path, text):
    """A file that its owner alone may read, as it was or as it is to be, whenever the machine stops."""
    part = path.with_name(f".{path.name}.part")
    with open(os.open(part, os.O_WRONLY | os.O_CREAT | os.O_TRUNC, 0o600), "w", encoding="utf-8") as file:
        file.write(text)
        file.flush()
        os.fsync(file.fileno())
    part.replace(path)
    folder = os.open(path.parent, os.O_RDONLY)
    try:
        os.fsync(folder)
    finally:
        os.close(folder)


@contextmanager
def locked(path):
    """Keeps a second call for the same table waiting."""
    path = Path(path).resolve()
    with open(path.with_name(f".{path.name}.lock"), "w", encoding="utf-8") as file:
        fcntl.flock(file, fcntl.LOCK_EX)
        yield
