"""What the scripts of bench/ share: the program and its peers while they are measured, and request frames."""
import contextlib
import glob
import os
import shutil
import socket
import struct
import subprocess
import sys
import tempfile
import time
from pathlib import Path

TOP = Path(__file__).resolve().parent.parent
PROGRAM = os.environ.get("PATH_SERVER") or str(TOP / "crates/path_program/out/path_program")
LIBRARY = os.environ.get("PATH_BENCH") or str(TOP / "crates/path_bench/out/libpath_bench.a")
KEY = bytes.fromhex("00112233445566778899aabbccddeeff")
OTHER = bytes.fromhex("ffeeddccbbaa99887766554433221100")
PUT, GET, QUERY, USAGE = 1, 2, 5, 7
PATIENCE = 30


def need_program():
    if not os.access(PROGRAM, os.X_OK):
        sys.exit(f"no program {PROGRAM}: bin/build makes it")


# ---- frames, as docs/PROTOCOL.md has them

def name(text):
    return bytes([len(text)]) + text


def request(command, fields=b"", key=KEY):
    body = struct.pack(">BI", command, 1) + key + fields
    return struct.pack(">I", len(body)) + body


def put(document, text, collection=b"c", key=KEY):
    return request(PUT, name(collection) + name(document) + text, key)


def get(document, collection=b"c"):
    return request(GET, name(collection) + name(document))


def query(text, collection=b"c", key=KEY):
    return request(QUERY, name(collection) + text, key)


def reply(payload=b""):
    return struct.pack(">IBI", 5 + len(payload), 0, 1) + payload


def read_exactly(connection, length):
    got = bytearray()
    while len(got) < length:
        some = connection.recv(min(length - len(got), 1 << 20))
        if not some:
            raise ConnectionError(f"the connection ended after {len(got)} bytes of {length}")
        got += some
    return bytes(got)


# ---- texts

def items(length):
    """An object whose `items` are small orders, and as many bytes as that, filled up with blanks. One item in 600 has a member `rare`."""
    parts, size, at = [], 12, 0
    while True:
        rare = ',"rare":true' if at % 600 == 599 else ""
        part = '{"id":%d,"name":"tea %d","price":%d.%02d,"stock":%d,"tags":["a","b"],"dim":{"w":%d,"h":%d}%s}' % (
            at, at % 977, at * 7 % 101, at % 100, at * 13 % 1_009, at * 11 % 50, at * 17 % 50, rare)
        size += len(part) + 1
        if size > length:
            break
        parts.append(part)
        at += 1
    text = '{"items":[' + ",".join(parts) + "]"
    return (text.ljust(length - 1) + "}").encode()


# ---- what is compiled

def compiled(folder, source, *words):
    """The program that a C or C++ source of bench/ makes."""
    made, at = Path(folder) / Path(source).stem, TOP / "bench" / source
    compiler = ["g++", "-O3", "-DNDEBUG", "-std=c++17"] if source.endswith(".cpp") else ["cc", "-O2"]
    subprocess.run([*compiler, "-o", made, at, *words], check=True)
    return made


# ---- what runs

@contextlib.contextmanager
def started(words, **more):
    """A process, and the port on the line that it prints."""
    process = subprocess.Popen([str(it) for it in words], stdin=subprocess.PIPE, stdout=subprocess.PIPE, encoding="ascii", **more)
    try:
        yield process, int(process.stdout.readline().rpartition(":")[2])
    finally:
        process.kill()
        process.wait()


def listening(keys=KEY.hex(), **more):
    return started([PROGRAM, "listen", "127.0.0.1:0", keys, "--connections", "20000"], **more)


def free_port():
    with socket.socket() as taken:
        taken.bind(("127.0.0.1", 0))
        return taken.getsockname()[1]


def wait_for(port):
    until = time.monotonic() + PATIENCE
    while True:
        try:
            return socket.create_connection(("127.0.0.1", port)).close()
        except OSError:
            if time.monotonic() > until:
                raise
            time.sleep(0.05)


def resident(process):
    """The resident memory of a process, in bytes."""
    with open(f"/proc/{process.pid}/statm", encoding="ascii") as file:
        return int(file.read().split()[1]) * os.sysconf("SC_PAGE_SIZE")


def redis_words(*words):
    """A command as Redis reads it: an array of strings, each behind its length."""
    return b"*%d\r\n" % len(words) + b"".join(b"$%d\r\n%s\r\n" % (len(word), word) for word in words)


@contextlib.contextmanager
def redis():
    """Redis, which keeps nothing on disk, and its port; (None, None) where it is not installed."""
    if not shutil.which("redis-server"):
        yield None, None
        return
    port = free_port()
    words = ["redis-server", "--port", str(port), "--save", "", "--appendonly", "no", "--daemonize", "no", "--maxclients", "20000"]
    process = subprocess.Popen(words, stdout=subprocess.DEVNULL)
    try:
        wait_for(port)
        yield process, port
    finally:
        process.kill()
        process.wait()


def postgres_folder():
    """Where PostgreSQL's own programs are: Debian keeps them off the PATH."""
    found = shutil.which("initdb") or next(iter(sorted(glob.glob("/usr/lib/postgresql/*/bin/initdb"), reverse=True)), None)
    return found and os.path.dirname(found)


@contextlib.contextmanager
def postgres():
    """A new PostgreSQL with its defaults, but for 200 connections, over the loopback address: a function that runs psql or pgbench on it. None where it
    is not installed, or does not start."""
    folder = postgres_folder()
    if not folder or not shutil.which("pgbench") or not shutil.which("psql"):
        yield None
        return
    user = ["runuser", "-u", "postgres", "--"] if os.getuid() == 0 else []
    port = free_port()
    with tempfile.TemporaryDirectory(prefix="path-server-postgres-") as room:
        quiet = {"cwd": room, "stdout": subprocess.DEVNULL, "stderr": subprocess.DEVNULL}
        try:
            if user:
                shutil.chown(room, "postgres")
            subprocess.run([*user, f"{folder}/initdb", "-D", f"{room}/data", "-A", "trust", "-U", "bench"], check=True, **quiet)
            words = [f"{folder}/postgres", "-D", f"{room}/data", "-p", str(port), "-k", room, "-c", "listen_addresses=127.0.0.1", "-c", "max_connections=200"]
            process = subprocess.Popen([*user, *words], **quiet)
            wait_for(port)
        except (OSError, LookupError, subprocess.CalledProcessError) as error:
            print(f"bench: PostgreSQL did not start: {error}", file=sys.stderr)
            yield None
            return

        def ask(tool, *words, given=None):
            at = [tool, "-h", "127.0.0.1", "-p", str(port), "-U", "bench", *words, "postgres"]
            return subprocess.run(at, input=given, check=True, capture_output=True, encoding="utf-8", cwd=room).stdout

        try:
            yield ask
        finally:
            process.terminate()
            try:
                process.wait(PATIENCE)
            except subprocess.TimeoutExpired:
                process.kill()
                process.wait()
