"""Shards of path_server and the HAProxy in front of them, made from a table by deploy/shards.py, for the scripts of this folder."""
import os
import re
import secrets
import signal
import socket
import ssl
import subprocess
import sys
import tempfile
import time
from pathlib import Path

TOP = Path(__file__).resolve().parent.parent.parent
sys.path.insert(0, str(TOP / "tests"))
from lib.running_server import PATIENCE, PROGRAM
from path_client import connect

CLIENT = os.environ.get("PATH_CLIENT") or str(TOP / "crates/path_client/out/path_client")
OK, SHORT, NO_TENANT, NOT_FOUND, FRAME_FAULT = 0, 1, 2, 15, 255
PUT, GET, USAGE = 1, 2, 7
ENDED, SILENT = "end", "silence"


def frame(command, key, fields=b"", number=1):
    body = bytes([command]) + number.to_bytes(4, "big") + key + fields
    return len(body).to_bytes(4, "big") + body


def read_reply(connection):
    data = b""
    while len(data) < 4 or len(data) < 4 + int.from_bytes(data[:4], "big"):
        piece = connection.recv(65_536)
        if not piece:
            return data
        data += piece
    return data


def ask(connection, data):
    """The status of the reply, or ENDED or SILENT."""
    try:
        connection.sendall(data)
        reply = read_reply(connection)
        return reply[4] if reply else ENDED
    except (ConnectionError, ssl.SSLError):
        return ENDED
    except socket.timeout:
        return SILENT


def free_ports(count):
    sockets = [socket.create_server(("127.0.0.1", 0)) for _ in range(count)]
    ports = [it.getsockname()[1] for it in sockets]
    for it in sockets:
        it.close()
    return ports


def children(process):
    return [int(it) for it in Path(f"/proc/{process}/task/{process}/children").read_text().split()]


def wait_until(holds, seconds=PATIENCE):
    """Whether it comes to hold."""
    until = time.monotonic() + seconds
    while not holds():
        if time.monotonic() > until:
            return False
        time.sleep(0.02)
    return True


class Shard:
    """One process, below bin/path_server_run as in deploy/."""

    def __init__(self, folder, name):
        self.folder, self.name = folder, name
        variables = dict(line.split("=", 1) for line in (folder / f"{name}.env").read_text().splitlines())
        self.limit = None
        self.address, self.options = variables["ADDRESS"], variables["OPTIONS"].strip('"').split()
        self.start()

    def start(self):
        limit = ["sh", "-c", 'ulimit -v $0; exec "$@"', str(self.limit)] if self.limit else []
        words = [*limit, TOP / "bin/path_server_run", "listen", self.address, "--keys", self.folder / f"{self.name}.keys", "--connections", "9000", *self.options]
        self.errors = open(self.folder / f"{self.name}.err", "ab")
        self.process = subprocess.Popen(words, stdin=subprocess.DEVNULL, stdout=subprocess.PIPE, stderr=self.errors, start_new_session=True,
                                        env={**os.environ, "PATH_SERVER": str(PROGRAM)})
        line = self.process.stdout.readline()
        if not line.startswith(b"listening "):
            sys.exit(f"the shard {self.name}: {line!r} and {(self.folder / f'{self.name}.err').read_text()!r}")

    def kill(self):
        if self.process.poll() is None:
            os.killpg(self.process.pid, signal.SIGKILL)
        self.process.wait()
        self.process.stdout.close()
        self.errors.close()

    def say_ready(self):
        """Puts the marker that HAProxy's check asks for."""
        with connect(self.address, bytes.fromhex((self.folder / "probe.key").read_text())) as client:
            client.put("ready", "ready", b"1")


class Deployment:
    """So many tenants on each of two shards and more, all started, marked ready and reached through HAProxy. `keys[name]` are a shard's tenants.

    The table stands outside of the folder that the shards and HAProxy read, as with systemd, or in it.
    """

    def __init__(self, tenants, shards=2, lines=(), options="", is_apart=False, collections="c"):
        signal.signal(signal.SIGTERM, lambda *_: sys.exit(143))
        self.room = tempfile.TemporaryDirectory(prefix="path-server-deploy-")
        self.folder, names = Path(self.room.name) / ("etc/path_server" if is_apart else ""), [str(it) for it in range(1, shards + 1)]
        plain, tls, reception, *ports = free_ports(3 + 2 * shards)
        self.plain, self.tls, self.running, self.balancer = ("127.0.0.1", plain), ("127.0.0.1", tls), {}, None
        self.keys = {name: [secrets.token_bytes(16) for _ in range(tenants)] for name in names}
        table = [f"folder {self.folder}", f"options --plain 127.0.0.1:{plain} --tls 127.0.0.1:{tls} {options}",
                 f"reception 127.0.0.1:{reception}", f"probe {secrets.token_hex(16)}"]
        table += [f"shard {name} 127.0.0.1:{port} 127.0.0.1:{admin}" for name, port, admin in zip(names, ports[:shards], ports[shards:])]
        # each key is known to the next shard too, so that its tenant can be moved there; the first of each may be used by `alice`
        for place, name in enumerate(names):
            other = names[(place + 1) % shards]
            table += [f"tenant {key.hex()} {name},{other} collections={collections}{' alice' if key == self.keys[name][0] else ''}" for key in self.keys[name]]
        self.table = Path(self.room.name) / "table"
        self.table.write_text("".join(f"{line}\n" for line in [*table, *lines]))
        subprocess.run([TOP / "deploy/certificates.sh", self.folder / "tls", "127.0.0.1", "alice", "mallory"], check=True)
        self.shards("write")

    def shards(self, *words):
        """What deploy/shards.py prints, which has to succeed."""
        ran = subprocess.run([TOP / "deploy/shards.py", self.table, *words], capture_output=True, encoding="utf-8", timeout=PATIENCE)
        if ran.returncode:
            sys.exit(f"deploy/shards.py {' '.join(map(str, words))}: {ran.stdout}{ran.stderr}")
        return ran.stdout

    def __enter__(self):
        try:
            for name in [*self.keys, "reception"]:
                self.running[name] = Shard(self.folder, name)
            self.shards("ready", *self.keys)
            self.balance()
        except BaseException:
            self.stop()
            raise
        return self

    def __exit__(self, *_):
        self.stop()

    def stop(self):
        for it in self.running.values():
            it.kill()
        self.kill_balancer()
        self.room.cleanup()

    def kill_balancer(self):
        """Ends HAProxy with all its workers, so that no connection goes on."""
        if self.balancer:
            for worker in children(self.balancer.pid):
                os.kill(worker, signal.SIGKILL)
            self.balancer.kill()
            self.balancer.wait()
            self.balancer = None

    def balance(self, states=None):
        """Starts HAProxy, and waits until it sees all shards, or those of these states."""
        log = open(self.folder / "haproxy.log", "ab")
        words = ["haproxy", "-W", "-db", "-S", self.folder / "master.sock", "-f", self.folder / "haproxy.cfg"]
        self.balancer = subprocess.Popen(words, stdin=subprocess.DEVNULL, stdout=log, stderr=log)
        wanted = states or {**{f"shard-{name}": "UP" for name in self.keys}, "reception": "UP"}
        if not wait_until(lambda: wanted.items() <= self.states().items()):
            sys.exit(f"HAProxy doesn't see the shards: {self.states()} {(self.folder / 'haproxy.log').read_text()[-2000:]}")

    def say(self, command, socket_name="haproxy.sock"):
        """A command to HAProxy, and what it answers."""
        with socket.socket(socket.AF_UNIX) as connection:
            connection.connect(str(self.folder / socket_name))
            connection.sendall(command.encode() + b"\n")
            connection.shutdown(socket.SHUT_WR)
            return b"".join(iter(lambda: connection.recv(65_536), b"")).decode()

    def workers(self):
        """The processes of HAProxy that have connections; none while it starts anew."""
        try:
            return re.findall(r"^(\d+) +worker", self.say("show proc", "master.sock"), re.M)
        except OSError:
            return []

    def states(self):
        """The first word of each backend's state. It is UP once a check has passed."""
        try:
            rows = [line.split(",") for line in self.say("show stat").splitlines()]
        except OSError:
            return {}
        return {row[0]: row[17].split()[0] for row in rows if len(row) > 36 and row[1] == "path_server" and row[36]}

    def states_of(self, socket_name):
        """What a HAProxy says by its master socket; nothing while it starts."""
        try:
            return self.say("@1 show stat", socket_name)
        except OSError:
            return ""

    def is_state(self, shard, state):
        return wait_until(lambda: self.states().get(f"shard-{shard}") == state)

    def open(self, timeout=PATIENCE):
        connection = socket.create_connection(self.plain, timeout)
        connection.setsockopt(socket.IPPROTO_TCP, socket.TCP_NODELAY, 1)
        return connection

    def open_secure(self, name=None):
        context = ssl.create_default_context(cafile=self.folder / "tls/ca.crt")
        if name:
            context.load_cert_chain(self.folder / f"tls/{name}.crt", self.folder / f"tls/{name}.key")
        return context.wrap_socket(socket.create_connection(self.tls, PATIENCE), server_hostname="127.0.0.1")

    def client(self, word, key, *more, address=None, given=None):
        """What path_client prints, for a tenant through HAProxy or at another address."""
        file = self.folder / "one.key"
        file.write_text(key.hex())
        at = address or "%s:%d" % self.plain
        return subprocess.run([CLIENT, "--at", at, "--key-file", file, word, *more], input=given, capture_output=True, timeout=PATIENCE)
