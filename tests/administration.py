#!/usr/bin/env python3
"""The administration address of a running server: tests/administration.py [STREAMS [SEED]].

So many streams of random requests (200) go to the server, and the page of metrics is compared with what the plain model (lib/plain_model.py) counts
of them. Peers of the address that are slow, silent, huge or many keep nobody waiting. A drain serves what is open, and ends with status 0.
"""
import hashlib
import http.client
import json
import os
import random
import re
import shutil
import socket
import subprocess
import sys
import tempfile
import time
from collections import Counter

from lib.plain_model import STATUS, Server, counts, field
from lib.plain_queries import charge
from lib.running_server import PATIENCE, PROGRAM, TOP, Listening, Report, frames_of, is_turned_away, open_connection, talk
from lib.traffic import KEYS, Traffic
from path_client import connect, parse_address

NAMES = {0: "none", 1: "put", 2: "get", 3: "remove", 4: "list", 5: "query", 6: "drop", 7: "usage", 8: "put_new"}
STATUSES = {place: name for name, place in STATUS.items()}
MOST_OPEN, TIME_LIMIT = 8, 5.0
REQUEST = b"GET /health HTTP/1.1\r\nHost: localhost\r\n\r\n"


def label_of(key):
    """What a tenant without a name is called: eight digits of its key's SHA-256, as HAProxy prints it."""
    return hashlib.sha256(key).hexdigest()[:8].upper()


LABELS = [label_of(key) for key in KEYS]
# statuses by which a limit refuses a request
LIMITS = {"TooLong", "TooDeep", "NumberLimit", "TooManyCollections", "TooManyDocuments", "TooManyBytes", "QueryTooLong", "ReplyTooLarge", "NoMemory", "Costly"}


class Administered(Listening):
    """A server with an administration address, which its second line names."""

    def __init__(self, *words, keys=KEYS, **more):
        super().__init__(keys, "--admin", "127.0.0.1:0", *words, **more)

    def read_address(self, subcommand):
        address = super().read_address(subcommand)
        line = self.process.stdout.readline()
        found = re.fullmatch(rb"administration (\S+:\d+)\n", line)
        if not found:
            sys.exit(f"wanted the line `administration ADDRESS`, got {line!r} and {self.said()!r} on standard error")
        self.admin = found[1].decode()
        return address

    def ask(self, method, target, host=None):
        connection = http.client.HTTPConnection(self.admin, timeout=PATIENCE)
        try:
            connection.request(method, target, headers={"Host": host} if host else {})
            reply = connection.getresponse()
            return reply.status, reply.read()
        finally:
            connection.close()

    def numbers(self):
        status, body = self.ask("GET", "/metrics")
        lines = [line for line in body.decode().splitlines() if not line.startswith("#")]
        return {name.removeprefix("path_server_"): float(number) for name, number in (line.rsplit(" ", 1) for line in lines)} if status == 200 else {}

    def ended(self):
        """The status and the last line, or None where it runs on."""
        deadline = time.monotonic() + PATIENCE
        while self.process.poll() is None and time.monotonic() < deadline:
            time.sleep(0.05)
        return None if self.process.poll() is None else (self.process.returncode, bool(re.fullmatch(rb"served \d+ connections, \d+ requests\n", self.process.stdout.read())))


def wanted_cells(model, streams):
    """Requests by command and status, by tenant, the bytes, the units of queries that are answered by hits, and the bytes of requests that a limit refused, by
    tenant, as the model has them."""
    cells, tenants, read, written, units, refused = Counter(), Counter(), 0, 0, Counter(), Counter()
    for conn, stream in enumerate(streams):
        model.open(conn)
        for frame in frames_of(stream):
            body = frame[4:]
            for reply in model.bytes(conn, frame):
                status = STATUSES[reply[4]]
                is_fault = status == "FrameFault"
                cells[NAMES.get(body[0] if body and not is_fault else 0, "none"), status] += 1
                if not is_fault and body[5:21] in KEYS:
                    tenants[KEYS.index(body[5:21])] += 1
                    refused[KEYS.index(body[5:21])] += len(body) * (status in LIMITS)
                if status == "Ok" and body[0] == 5:
                    units[KEYS.index(body[5:21])] += charged(model, body)
                written += len(reply)
        read += len(stream)
    return cells, tenants, read, written, units, refused


def charged(model, body):
    """The units of a query."""
    collection, text = field(body[21:], 64)
    return sum(charge(source, text.decode()) for source in model.tenants[body[5:21]].get(collection, {}).values())


def least_memory(tenant):
    """The least bytes that documents take: their texts, 16 for each value and 12 more for each container (docs/ARCHITECTURE.md)."""

    def cells(value):
        inner = value.values() if isinstance(value, dict) else value if isinstance(value, list) else None
        return 16 if inner is None else 28 + sum(map(cells, inner))

    sources = [source for documents in tenant.values() for source in documents.values()]
    return sum(len(source) + cells(json.loads(source)) for source in sources)


def tells_what_was_done(report, count, seed):
    chance = random.Random(seed)
    traffic, model = Traffic(chance), Server(KEYS)
    streams = [traffic.stream() for _ in range(count)]
    with Administered() as server:
        for stream in streams:
            with open_connection(server.address) as connection:
                talk(connection, traffic.pieces(stream))
        cells, tenants, read, written, units, refused = wanted_cells(model, streams)
        numbers = server.numbers()
        told = {tuple(re.findall(r'"(\w+)"', name)): number for name, number in numbers.items() if name.startswith("requests_total{")}
        report.case("requests by command and status", seed, dict(cells), {cell: int(number) for cell, number in told.items() if number})
        total = sum(cells.values())
        report.case("the histogram's count", seed, total, numbers["request_seconds_count"])
        report.case("the histogram's last bound", seed, total, numbers['request_seconds_bucket{le="+Inf"}'])
        report.case("bytes that limits refused", seed, True, sum(refused.values()) > 0)
        for place, key in enumerate(KEYS):
            label = f'{{tenant="{LABELS[place]}"}}'
            held = tuple(numbers[f"tenant_{name}{label}"] for name in ("collections", "documents", "text_bytes"))
            report.case(f"what tenant {place} holds", seed, tuple(map(float, counts(model.tenants[key]))), held)
            least, documents = least_memory(model.tenants[key]), held[1]
            report.case(f"memory of tenant {place}", least, True, least <= numbers[f"tenant_memory_bytes{label}"] <= 2 * least + 512 * documents)
            report.case(f"units of tenant {place}", seed, units[place], numbers[f"tenant_charged_units_total{label}"])
            report.case(f"refused bytes of tenant {place}", seed, refused[place], numbers[f"tenant_refused_bytes_total{label}"])
            report.case(f"requests of tenant {place}", seed, tenants[place], numbers[f"tenant_requests_total{label}"])
        faults = any(status == "FrameFault" for _, status in cells)
        report.case("connections", seed, (count, 0.0), (numbers["connections_total"], 0.0))
        report.case("units", seed, sum(units.values()), numbers["charged_units_total"])
        report.case("bytes written", seed, written, numbers["written_bytes_total"])
        if not faults:
            report.case("bytes read", seed, read, numbers["read_bytes_total"])
        report.case("limits", seed, (10_000, 0, 0), (numbers["connections_limit"], numbers["accept_refused"], numbers["connections_waiting"]))
        server.finish(report)


def is_ready_once_it_was_said(report):
    with Administered() as server:
        steps = [("GET", "/health", 200), ("GET", "/ready", 503), ("POST", "/ready", 200), ("GET", "/ready", 200), ("GET", "/nowhere", 404), ("DELETE", "/ready", 405)]
        status, body = server.ask("GET", "/health")
        report.case("health tells the seconds since the start", body, (200, True), (status, re.fullmatch(rb"healthy\nuptime_seconds [0-5]\n", body) is not None))
        for method, target, wanted in steps:
            report.case(f"{method} {target}", "", wanted, server.ask(method, target)[0])
        report.case("ready, in the page", "", 1.0, server.numbers()["ready"])
        with connect(server.address, KEYS[0]):
            report.case("a connection that is open", "", 1.0, server.numbers()["connections_open"])


def counts_slow_queries(report):
    """Queries that take longer than a millisecond are counted, with lines of them or without. A text that takes as long to read is no query."""
    text = b"[" + b",".join([b'{"a":{"b":[1,2,3]}}'] * 20_000) + b"]"
    query = b"$..[?@.b[?@>7]]"
    for words in ((), ("--log",)):
        with Administered("--slow", "1", *words) as server, connect(server.address, KEYS[1]) as client:
            client.put(b"c", b"d", text)
            report.case("no query is slow yet", words, (0, 0), tuple(server.numbers()[name] for name in ("slow_queries_total", "charged_units_total")))
            for _ in range(3):
                client.query(b"c", query)
            client.query(b"none", query)
            numbers = server.numbers()
            report.case("slow queries", words, 3, numbers["slow_queries_total"])
            report.case("and their units", words, 3 * charge(text, query.decode()), numbers["charged_units_total"])
            report.case("lines of slow queries", words, 3 if words else 0, server.said().count(f" query of tenant {LABELS[1]}: "))


# lines of a key file, and what the tenants are called by them
FILES = [
    ("{0} acme\n{1}\tglobex-2\n", ["acme", "globex-2"]),
    ("# keys\r\n\r\n{0} acme  \r\n{1}\r\n", ["acme", "{label1}"]),
    ("{0},{1}\n{2}   the.third_\n", ["{label0}", "{label1}", "the.third_"]),
    ("{0} " + 64 * "n", [64 * "n"]),
]
# lines that are refused, and the line that is told; a name that stands twice is told itself
BAD_FILES = [
    ("{0} acme\n{1} two words\n", "BadKeys", 2), ('{0} ac"me\n', "BadKeys", 1), ("{0} ac\\me\n", "BadKeys", 1), ("{0} m\u00fcller\n", "BadKeys", 1),
    ("\n{0} " + 65 * "n" + "\n", "BadKeys", 2), ("{0},{1} both\n", "BadKeys", 1), ("acme {0}\n", "BadKeys", 1), ("{0} \x00\n", "BadKeys", 1),
    ("{0} acme\n{1} acme\n", "RepeatedName", "acme"), ("{0}\n{1} {label0}\n", "RepeatedName", "{label0}"), ("{0} a\n{0} b\n", "RepeatedKey", "key 2 is key 1 again"),
]


def calls_tenants_by_their_names(report):
    keys = [bytes([place]) * 16 for place in range(1, 5)]
    words = {word: value for place, key in enumerate(keys) for word, value in ((str(place), key.hex()), (f"label{place}", label_of(key)))}

    def filled(text):
        for name, value in words.items():
            text = text.replace(f"{{{name}}}", value)
        return text

    with tempfile.TemporaryDirectory() as at:
        file = os.path.join(at, "keys")
        for text, labels in FILES:
            with open(file, "w", encoding="utf-8", newline="") as written:
                written.write(filled(text))
            with Administered("--keys", file, keys=keys[3:]) as server:
                numbers = server.numbers()
                wanted = [filled(it) for it in [*labels, "{label3}"]]
                report.case("labels, in the order of the keys", text, wanted, [re.search('"(.*)"', name)[1] for name in numbers if name.startswith("tenant_documents{")])
        for text, fault, told in BAD_FILES:
            with open(file, "w", encoding="utf-8", newline="") as written:
                written.write(filled(text))
            ran = subprocess.run([PROGRAM, "listen", "127.0.0.1:0", "--keys", file], stdin=subprocess.DEVNULL, capture_output=True, timeout=PATIENCE)
            more = "" if told is None else f"{file}: line {told}\n" if isinstance(told, int) else f"{filled(told)}\n"
            report.case("a key file", text, (3, b"", f"path_server: {fault}\n{more}"), (ran.returncode, ran.stdout, ran.stderr.decode()))


def serves_hosts_that_were_given(report):
    with Administered("--admin-host", "admin.example", "--admin-host=metrics.example") as server:
        for host, wanted in (("admin.example", 200), ("METRICS.example:9001", 200), ("localhost", 200), ("127.0.0.1:1", 200), ("example", 403), ("evil.example", 403)):
            report.case("a Host, where two were given", host, wanted, server.ask("GET", "/health", host)[0])
    with Administered() as server:
        for host, wanted in (("admin.example", 403), ("localhost:1", 200), ("[::1]", 200)):
            report.case("a Host, where none was given", host, wanted, server.ask("GET", "/health", host)[0])
        report.case("POST /drain of a page of elsewhere", "", 403, server.ask("POST", "/drain?grace=0", "evil.example")[0])
        report.case("it drains not", "", 200, server.ask("GET", "/health")[0])


def tells_its_build(report):
    told = {"PATH_SERVER_COMMIT": "0123abcd", "PATH_SERVER_IS_PROVED": "yes", "PATH_SERVER_KIT": 'a "kit"'}
    version = subprocess.run([PROGRAM, "--version"], capture_output=True, check=True, encoding="utf-8").stdout.split()[1]
    for given, wanted in ((told, ("0123abcd", "yes", 'a \\"kit\\"')), ({}, 3 * ("unknown",)), ({"PATH_SERVER_COMMIT": 257 * "c", "PATH_SERVER_KIT": ""}, 3 * ("unknown",))):
        env = {name: value for name, value in os.environ.items() if name not in told}
        with Administered(env={**env, **given}) as server:
            line = 'build_info{{version="{}",commit="{}",proved="{}",kit="{}"}}'.format(version, *wanted)
            report.case("the build", given, (line, 1.0), next(((name, number) for name, number in server.numbers().items() if name.startswith("build_info")), None))


def tells_its_manifest(report):
    """bin/path_server_run tells a program's manifest, if it is that of this program."""
    with tempfile.TemporaryDirectory() as at:
        program = os.path.join(at, "path_server")
        shutil.copy(PROGRAM, program)
        with open(program, "rb") as file:
            found = hashlib.sha256(file.read()).hexdigest()
        for written, wanted in ((found, ("0123abcd with changes", "yes", "kit 7")), (64 * "0", ("unknown", "no", "unknown"))):
            with open(f"{program}.manifest", "w", encoding="utf-8") as file:
                file.write(f"program path_program\nsha256 {written}\ncommit 0123abcd with changes\nkit kit 7\ncrate path_program {64 * '1'}\n")
            words = [TOP / "bin/path_server_run", "listen", "127.0.0.1:0", KEYS[0].hex(), "--admin", "127.0.0.1:0"]
            process = subprocess.Popen(words, env={**os.environ, "PATH_SERVER": program}, stdin=subprocess.DEVNULL, stdout=subprocess.PIPE)
            try:
                admin = [process.stdout.readline() for _ in range(2)][1].split()[1].decode()
                connection = http.client.HTTPConnection(admin, timeout=PATIENCE)
                connection.request("GET", "/metrics")
                page = connection.getresponse().read().decode()
                connection.close()
                line = re.search('^path_server_build_info{version="(.*)",commit="(.*)",proved="(.*)",kit="(.*)"} 1$', page, re.M)
                report.case("the build, by its manifest", written, wanted, line and line.groups()[1:])
            finally:
                process.terminate()
                report.case("path_server_run", "", 0, process.wait(PATIENCE))
                process.stdout.close()


def ends_of(address, sent, patience=TIME_LIMIT + 3):
    """What comes to bytes that are sent in one piece, and after how many seconds the connection ends; None where it does not."""
    started = time.monotonic()
    with socket.create_connection(parse_address(address), PATIENCE) as connection:
        came, how = talk(connection, [sent] if sent else [], patience)
    return came, None if how == "silence" else time.monotonic() - started


def keeps_nobody_waiting(report):
    with Administered() as server:
        with connect(server.address, KEYS[0]) as client:
            client.put(b"c", b"d", b"[1,2]")
            silent = [socket.create_connection(parse_address(server.admin), PATIENCE) for _ in range(3 * MOST_OPEN)]
            started = time.monotonic()
            for connection in silent[::2]:
                connection.sendall(b"GET /he")
            for _ in range(100):
                report.case("a get beside silent peers", "", b"[1,2]", client.get(b"c", b"d"))
            report.case("100 gets beside silent peers within a second", "", True, time.monotonic() - started < 1)
            used = server.processor_seconds()
            for connection in silent[:MOST_OPEN]:
                connection.settimeout(TIME_LIMIT + 3)
                report.case("a silent peer is closed", "", b"", connection.recv(1))
            seconds = time.monotonic() - started
            report.case("in about five seconds", "", True, TIME_LIMIT - 1 < seconds < TIME_LIMIT + 3)
            report.case("and waiting takes no processor", "", True, server.processor_seconds() - used < 0.5)
            for connection in silent:
                connection.close()
            report.case("health behind them", "", 200, server.ask("GET", "/health")[0])
            slow = socket.create_connection(parse_address(server.admin), PATIENCE)
            for byte in REQUEST:
                slow.sendall(bytes([byte]))
                time.sleep(0.01)
            report.case("a request byte by byte", "", True, read_all(slow).startswith(b"HTTP/1.1 200 OK\r\n"))
            came, _ = ends_of(server.admin, 1_000_000 * b"a")
            report.case("a head without an end", "", b"HTTP/1.1 431 ", came[:13])
            came, _ = ends_of(server.admin, REQUEST + b"POST /drain HTTP/1.1\r\nHost: localhost\r\n\r\n")
            report.case("a request behind another is none", "", 1, came.count(b"HTTP/1.1 "))
            deaf = [socket.create_connection(parse_address(server.admin), PATIENCE) for _ in range(MOST_OPEN)]
            for connection in deaf:
                connection.setsockopt(socket.SOL_SOCKET, socket.SO_RCVBUF, 4096)
                connection.sendall(b"GET /metrics HTTP/1.1\r\nHost: localhost\r\n\r\n")
            report.case("a get beside peers that read nothing", "", b"[1,2]", client.get(b"c", b"d"))
            before = server.resident()
            for connection in deaf:
                connection.close()
            for _ in range(200):
                server.ask("GET", "/metrics")
            report.case("memory after 200 pages", "", True, server.resident() - before < 1_024)
            report.case("still listening", "", b"[1,2]", client.get(b"c", b"d"))


def read_all(connection):
    return b"".join(iter(lambda: connection.recv(65_536), b""))


def drains(report):
    with Administered() as server:
        with connect(server.address, KEYS[0]) as client:
            client.put(b"c", b"d", b"1")
            server.ask("POST", "/ready")
            report.case("a drain", "", 202, server.ask("POST", "/drain?grace=60")[0])
            report.case("is ready no more", "", (503, 0), (server.ask("GET", "/ready")[0], server.numbers()["ready"]))
            report.case("closes those that come, without a byte", "", True, is_turned_away(server.address))
            time.sleep(2)
            report.case("serves what is open", "", b"1", client.get(b"c", b"d"))
        report.case("ends once all are closed", "", (0, True), server.ended())
    with Administered() as server:
        with open_connection(server.address) as connection:
            report.case("a short drain", "", 202, server.ask("POST", "/drain?grace=1")[0])
            report.case("ends what is open then", "", b"", connection.recv(1))
        report.case("and ends", "", (0, True), server.ended())
    with Administered() as server:
        with connect(server.address, KEYS[0]) as client:
            client.put(b"c", b"d", b"1")
            server.ask("POST", "/ready")
            server.process.stdin.close()
            report.case("the end of standard input closes those that come", "", True, is_turned_away(server.address))
            report.case("and it is ready no more, whatever is said", "", (503, 200, 503), tuple(server.ask(it, "/ready")[0] for it in ("GET", "POST", "GET")))
            report.case("and what is open is served", "", b"1", client.get(b"c", b"d"))
        report.case("and it ends behind the last", "", (0, True), server.ended())
    with Administered() as server:
        report.case("a drain of an idle server is answered", "", (202, b"draining\n"), server.ask("POST", "/drain"))
        report.case("and it ends", "", (0, True), server.ended())


def main():
    report = Report()
    count, seed = [*map(int, sys.argv[1:3]), *[200, 1][len(sys.argv) - 1:]]
    is_ready_once_it_was_said(report)
    tells_what_was_done(report, count, seed)
    counts_slow_queries(report)
    calls_tenants_by_their_names(report)
    serves_hosts_that_were_given(report)
    tells_its_build(report)
    tells_its_manifest(report)
    keeps_nobody_waiting(report)
    drains(report)
    report.close("the administration address of a running server")


if __name__ == "__main__":
    main()
