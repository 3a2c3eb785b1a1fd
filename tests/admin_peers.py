#!/usr/bin/env python3
"""Hostile peers of a running server's administration address: tests/admin_peers.py [CONNECTIONS].

Requests of every malformed kind, in one piece, byte by byte and half-closed; graces that are none; drains one after the other; peers that hold the
address, flood it or read nothing; ports that are taken. Then the address while memory is short, while each call for memory is refused (where there is cc),
while there are few descriptors, and while so many connections (10,000, or as many as there are descriptors for) are open at the limit. Meanwhile
clients are answered.
"""
import os
import random
import re
import resource
import socket
import subprocess
import sys
import tempfile
import threading
import time
from collections import Counter
from pathlib import Path

from admin_replies import ALLOWED, HOST, TOO_LONG, WHOLE, read
from administration import STATUSES, Administered, read_all
from lib.plain_model import Server, number
from lib.running_server import GIVE_BACK, PATIENCE, PROGRAM, Report, frames_of, has, is_turned_away, open_connection, talk
from lib.traffic import KEYS, Traffic
from many_connections import KEY, LARGE, MEBIBYTE, PUT_LARGE, fill, greedy
from path_client import REQUEST_LIMIT, connect, parse_address
from refused_growths import Calls

METRICS, HEALTH = (b"GET %s HTTP/1.1\r\n" % it + HOST + b"\r\n" for it in (b"/metrics", b"/health"))
# more that admin_replies.py does not try
MORE = {
    b"GET /health HTTP/1.1\r\n" + HOST + b"Expect: 100-continue\r\n\r\n": 200,
    b"GET /health HTTP/1.1\r\n" + HOST + b"Connection: keep-alive\r\n\r\n": 200,
    b"GET /health HTTP/1.1\r\n" + HOST + b"Upgrade: h2c\r\nConnection: Upgrade\r\n\r\n": 200,
    b"POST /ready HTTP/1.1\r\n" + HOST + b"Expect: 100-continue\r\nContent-Length: 5\r\n\r\n": 413,
    b"POST /drain HTTP/1.1\r\n" + HOST + b"Content-Length: -0\r\n\r\n": 413,
    b"POST /drain HTTP/1.1\r\n" + HOST + b"Content-Length: 18446744073709551616\r\n\r\n": 413,
    b"POST /drain HTTP/1.1\r\n" + HOST + b"Content-Length: 0, 0\r\n\r\n": 413,
    b"POST /drain HTTP/1.1\r\n" + HOST + b"Transfer-Encoding: identity\r\n\r\n": 413,
    b"POST /drain HTTP/1.1\r\n" + HOST + b"TRANSFER-ENCODING: gzip, chunked\r\n\r\nffffffffffffffff\r\n": 413,
    b"PRI * HTTP/2.0\r\n\r\nSM\r\n\r\n": 400,
    b"GET /health HTTP/0.9\r\n\r\n": 400,
    b"GET /health HTTP/1.10\r\n" + HOST + b"\r\n": 400,
    b"GET /health HTTP/1.1\r\n: a\r\n\r\n": 400,
    b"GET\t/health\tHTTP/1.1\r\n" + HOST + b"\r\n": 400,
    b"GET /health%20 HTTP/1.1\r\n" + HOST + b"\r\n": 404,
    b"GET /%68ealth HTTP/1.1\r\n" + HOST + b"\r\n": 404,
    b"GET /../health HTTP/1.1\r\n" + HOST + b"\r\n": 404,
    b"POST /ready? HTTP/1.1\r\n" + HOST + b"\r\n": 404,
    b"CONNECT a:1 HTTP/1.1\r\n" + HOST + b"\r\n": 404,
    b"get /health HTTP/1.1\r\n" + HOST + b"\r\n": 405,
    b"Post /drain HTTP/1.1\r\n" + HOST + b"\r\n": 405,
    b"\r\n" * 5_000 + HEALTH: 431,
}
MOST_OF_A_HEAD, PIECE = 8_192, 1_024
GRACES = {"": 404, "+1": 400, "-0": 400, "1.5": 400, "1e3": 400, "0x10": 400, "1_0": 400, "%31": 400, "1&grace=2": 400, "1;": 400, "1#": 400, "1/": 400, "\u0661": 400,
          "4294967296": 400, "99999999999": 400, "18446744073709551616": 400, "86401": 400, "9" * 8_000: 400, "\t1": 400}
# what browsers send with requests of pages from elsewhere: forms, frames and scripts
OF_PAGES = [b"Origin: http://example.org\r\n", b"Origin: null\r\nSec-Fetch-Mode: no-cors\r\nSec-Fetch-Site: cross-site\r\n", b"Sec-Fetch-Mode: navigate\r\nSec-Fetch-Site: cross-site\r\n",
            b"Sec-Fetch-Dest: iframe\r\nSec-Fetch-Site: same-site\r\n"]
FORMS = [b"", b"Content-Type: application/x-www-form-urlencoded\r\nContent-Length: 3\r\n", b"Content-Type: multipart/form-data; boundary=x\r\nContent-Length: 3\r\n",
         b"Content-Type: text/plain\r\nContent-Length: 3\r\n"]
METHODS = (b"GET", b"HEAD", b"POST", b"PUT", b"DELETE", b"OPTIONS", b"PATCH")
PLACES = ("?grace", "?", "?Grace=1", "?x=1&grace=1", "/?grace=1", "//drain", "#", "?grace=1 ")


def has_changed(server):
    """Whether something that was refused made the server ready, or had it drain."""
    with connect(server.address, KEYS[0]) as client:
        client.usage()
    return server.numbers()["ready"] != 0


def told(address, sent, pieces, patience=PATIENCE):
    """The status of a reply to bytes that come in pieces, where the sending side is ended behind them, and whether all of it came."""
    try:
        connection = open_connection(address)
    except ConnectionRefusedError:
        return "refused", False
    with connection:
        came, how = talk(connection, pieces, patience)
    if not came:
        return how, False
    status, _, _, is_whole = read(came)
    return status, is_whole


def statuses_of(sent, wanted):
    """What may be told of a request. A server reads at most a piece at a time until it has a head's most bytes, so that of a head which is longer by less
    than a piece it depends on how the bytes arrive whether it is whole."""
    if len(sent) >= MOST_OF_A_HEAD + PIECE:
        return [(431, True)]
    return [(wanted, True)] if len(sent) <= MOST_OF_A_HEAD else [(wanted, True), (431, True)]


def malformed(report):
    """Each reply is the one that the program `admin_replies` gives, and nothing that is refused is done."""
    chance = random.Random(1)
    with Administered() as server:
        for sent, wanted in [*WHOLE.items(), *MORE.items(), *((it, 431) for it in TOO_LONG)]:
            if wanted == 202 or sent.startswith(b"POST /ready") and wanted == 200:
                continue
            fitting = statuses_of(sent, wanted)
            report.case("a request in one piece", sent, True, told(server.admin, sent, [sent]) in fitting)
            cut = sorted(chance.sample(range(1, len(sent)), min(5, len(sent) - 1)))
            pieces = [sent[begin:end] for begin, end in zip([0, *cut], [*cut, len(sent)])]
            report.case("a request in pieces", sent, True, told(server.admin, sent, pieces) in fitting)
            if len(sent) < 40:
                report.case("a request byte by byte", sent, (wanted, True), told(server.admin, sent, [bytes([it]) for it in sent]))
        for target, allowed in ALLOWED.items():
            for method in (b"HEAD", b"get", b"Get", b"PUT", b"DELETE", b"OPTIONS", b"TRACE", b"PATCH"):
                sent = method + b" " + target + b" HTTP/1.1\r\n" + HOST + b"\r\n"
                report.case("a method that is not allowed", sent, (405, True), told(server.admin, sent, [sent]))
        report.case("a request in part, and the end", "", ("end", False), told(server.admin, HEALTH, [HEALTH[:-1]]))
        report.case("nothing, and the end", "", ("end", False), told(server.admin, b"", []))
        for grace, wanted in GRACES.items():
            sent = f"POST /drain?grace={grace} HTTP/1.1\r\nHost: localhost\r\n\r\n".encode()
            report.case("a grace that is none", sent, (wanted, True), told(server.admin, sent, [sent]))
        for place in PLACES:
            sent = f"POST /drain{place} HTTP/1.1\r\nHost: localhost\r\n\r\n".encode() if not place.startswith("//") else f"POST {place} HTTP/1.1\r\nHost: localhost\r\n\r\n".encode()
            report.case("no place of a drain", sent, True, told(server.admin, sent, [sent]) in [(404, True), (400, True)])
        for _ in range(300):
            damaged = bytearray(chance.choice([HEALTH, METRICS, b"POST /drain?grace=xyz HTTP/1.1\r\n" + HOST + b"Content-Length: 4\r\n\r\nabcd"]))
            for _ in range(chance.randint(1, 3)):
                damaged[chance.randrange(len(damaged))] = chance.choice([0, 9, 10, 13, 32, 58, 127, 128, 255, chance.randrange(256)])
            status, is_whole = told(server.admin, damaged, [bytes(damaged)])
            report.case("damaged bytes", damaged, True, status == "end" or is_whole and status in (200, 400, 403, 404, 405, 413, 431) or (status, is_whole))
        report.case("nothing refused was done", "", False, has_changed(server))
        server.finish(report)


def of_browsers(report):
    """A page from elsewhere cannot have a browser ask or do anything here, by whatever method and form. Who names this address by another host cannot either."""
    with Administered() as server, connect(server.address, KEYS[0]) as client:
        client.put(b"c", b"d", b"1")
        for target in (b"/drain", b"/drain?grace=0", b"/ready", b"/health", b"/metrics"):
            for method in METHODS:
                for form in FORMS:
                    body = b"a=b" if form else b""
                    for fields in OF_PAGES:
                        sent = method + b" " + target + b" HTTP/1.1\r\n" + HOST + fields + form + b"\r\n" + body
                        report.case("a request of a page", sent, 403, told(server.admin, sent, [sent])[0])
                    sent = method + b" " + target + b" HTTP/1.1\r\nHost: rebound.example.org:9001\r\nSec-Fetch-Site: same-origin\r\n" + form + b"\r\n" + body
                    report.case("a request of a page whose host was bound to this address", sent, 403, told(server.admin, sent, [sent])[0])
        report.case("it is neither ready nor drains", "", (503, 200, b"1"), (server.ask("GET", "/ready")[0], server.ask("GET", "/health")[0], client.get(b"c", b"d")))
        with connect(server.address, KEYS[0]) as another:
            report.case("and serves who comes", "", b"1", another.get(b"c", b"d"))


def readiness_and_drains(report):
    with Administered() as server, connect(server.address, KEYS[0]) as client:
        client.put(b"c", b"d", b"1")
        steps = [("GET", "/ready", 503), ("POST", "/ready", 200), ("POST", "/ready", 200), ("GET", "/ready", 200), ("POST", "/drain?grace=60", 202), ("GET", "/ready", 503),
                 ("POST", "/ready", 200), ("GET", "/ready", 503), ("GET", "/health", 200), ("GET", "/metrics", 200), ("POST", "/drain?grace=86400", 202)]
        for method, target, wanted in steps:
            report.case(f"{method} {target}", "", wanted, server.ask(method, target)[0])
        time.sleep(2)
        report.case("a connection that is open is served", "", b"1", client.get(b"c", b"d"))
        report.case("a further one is not", "", True, is_turned_away(server.address))
        began = time.monotonic()
        report.case("a second drain", "", 202, server.ask("POST", "/drain?grace=0")[0])
        report.case("has the server end at once", "", ((0, True), True), (server.ended(), time.monotonic() - began < 4))
    with Administered() as server, open_connection(server.address) as connection:
        wait_for(server, 1)
        server.ask("POST", "/drain?grace=2")
        report.case("a later drain with a longer grace", "", 202, server.ask("POST", "/drain?grace=60")[0])
        report.case("holds", "", "silence", talk_until(connection, 4))
        server.process.stdin.close()
        report.case("the end of standard input while it drains", "", "silence", talk_until(connection, 1))
        report.case("health meanwhile", "", 200, server.ask("GET", "/health")[0])
        connection.close()
        report.case("the end", "", (0, True), server.ended())
    with Administered() as server, open_connection(server.address) as connection:
        wait_for(server, 1)
        server.process.stdin.close()
        report.case("a drain behind the end of standard input", "", 202, server.ask("POST", "/drain?grace=1")[0])
        report.case("the end, behind it", "", ("end", (0, True)), (talk_until(connection, PATIENCE), server.ended()))


def wait_for(server, count):
    """Waits until so many connections are taken in."""
    deadline = time.monotonic() + PATIENCE
    while server.numbers()["connections_open"] < count and time.monotonic() < deadline:
        time.sleep(0.01)


def talk_until(connection, patience):
    """What comes of a connection on which nothing is asked."""
    connection.settimeout(patience)
    try:
        return "end" if connection.recv(1) == b"" else "bytes"
    except socket.timeout:
        return "silence"


def holds(report):
    """Many that hold the address, flood it or read nothing: each is closed within its time, and clients are answered."""
    with Administered() as server, connect(server.address, KEYS[0]) as client:
        client.put(b"c", b"d", b"1")
        many = [socket.create_connection(parse_address(server.admin), PATIENCE) for _ in range(300)]
        for place, connection in enumerate(many):
            connection.sendall(METRICS[:place % len(METRICS)])
        began = time.monotonic()
        for _ in range(100):
            report.case("a get beside 300 that hold the address", "", b"1", client.get(b"c", b"d"))
        report.case("100 gets within a second", "", True, time.monotonic() - began < 1)
        for connection in many:
            connection.close()
        began = time.monotonic()
        report.case("health behind them", "", (200, True), (server.ask("GET", "/health")[0], time.monotonic() - began < 2))
        silent = [socket.create_connection(parse_address(server.admin), PATIENCE) for _ in range(8)]
        time.sleep(0.3)
        began = time.monotonic()
        report.case("health beside eight that say nothing", "", (200, True), (server.ask("GET", "/health")[0], time.monotonic() - began < 3))
        # all are of one second
        report.case("one of them made room", "", 1, [talk_until(it, 0.2) for it in silent].count("end"))
        for connection in silent:
            connection.close()
        goes = [True]
        threads = [threading.Thread(target=flood, args=(server.admin, goes)) for _ in range(12)]
        for it in threads:
            it.start()
        began, before = time.monotonic(), server.resident()
        for _ in range(500):
            report.case("a get beside floods", "", b"1", client.get(b"c", b"d"))
        report.case("500 gets beside floods within five seconds", "", True, time.monotonic() - began < 5)
        report.case("KiB that floods cost", "", True, server.resident() - before < 1_024)
        goes[0] = False
        for it in threads:
            it.join()
        deaf = socket.socket()
        deaf.setsockopt(socket.SOL_SOCKET, socket.SO_RCVBUF, 4_096)
        deaf.connect(parse_address(server.admin))
        deaf.sendall(METRICS)
        report.case("a page beside a peer that reads nothing", "", 200, server.ask("GET", "/metrics")[0])
        time.sleep(7)
        deaf.settimeout(PATIENCE)
        try:
            came = read_all(deaf)
        except ConnectionError:
            came = b""
        report.case("what such a peer gets is a part of its page, or all", "", True, came == b"" or came.startswith(b"HTTP/1.1 200 OK\r\n"))
        report.case("still there", "", b"1", client.get(b"c", b"d"))


def flood(address, goes):
    """Sends a request and then bytes without a pause, again and again."""
    while goes[0]:
        try:
            with socket.create_connection(parse_address(address), PATIENCE) as connection:
                connection.settimeout(0.5)
                connection.sendall(HEALTH)
                while goes[0]:
                    connection.sendall(bytes(65_536))
        except OSError:
            pass


def agrees(report, seed):
    """Each page is of one moment, while requests go on: what is counted by command, by tenant and by time fits together. In the end there is a count for
    each reply that came."""
    chance = random.Random(seed)
    traffic, goes, came = Traffic(chance), [True], []
    streams = [traffic.stream() for _ in range(100)]
    with Administered() as server:
        def ask():
            while goes[0]:
                with open_connection(server.address) as connection:
                    came.append(talk(connection, [random.choice(streams)])[0])

        threads = [threading.Thread(target=ask) for _ in range(4)]
        for it in threads:
            it.start()
        last = 0
        for _ in range(60):
            numbers = server.numbers()
            cells = sum(number for name, number in numbers.items() if name.startswith("requests_total{"))
            tenants = sum(number for name, number in numbers.items() if name.startswith("tenant_requests_total{"))
            unknown = sum(number for name, number in numbers.items() if name.startswith("requests_total{") and ("NoTenant" in name or "Short" in name or "FrameFault" in name))
            report.case("requests by command, in the histogram, and by tenant", "", (cells, cells, cells), (numbers["request_seconds_count"], numbers['request_seconds_bucket{le="+Inf"}'], tenants + unknown))
            report.case("no count falls", last, True, cells >= last)
            last = cells
        goes[0] = False
        for it in threads:
            it.join()
        _, page = server.ask("GET", "/metrics")
        replies = Counter(STATUSES[frame[4]] for data in came for frame in frames_of(data))
        counted = Counter()
        for status, number in re.findall(r'^path_server_requests_total\{command="\w+",status="(\w+)"\} ([1-9]\d*)$', page.decode(), re.M):
            counted[status] += int(number)
        report.case("replies that came, by status", "", dict(replies), dict(counted))
        if has("promtool check metrics", "promtool"):
            ran = subprocess.run(["promtool", "check", "metrics"], input=page, capture_output=True)
            report.case("promtool check metrics", "", (0, b"", b""), (ran.returncode, ran.stdout, ran.stderr))


def taken_ports(report):
    """An address that cannot be bound is told before the server says that it listens."""
    def told_of(listening, admin):
        ran = subprocess.run([PROGRAM, "listen", listening, KEYS[0].hex(), "--admin", admin], stdin=subprocess.DEVNULL, capture_output=True, timeout=PATIENCE)
        said = ran.stderr.decode().splitlines()
        return ran.returncode, ran.stdout, said[:1], [line.startswith(f"{admin}: ") for line in said[1:]]

    wanted = (4, b"", ["path_server: NetFault"], [True])
    for words in ("127.0.0.1", "127.0.0.1:65536", "127.0.0.1:x", "127.0.0.1:-1", ":9001", ""):
        report.case("no address", words, wanted, told_of("127.0.0.1:0", words))
    with socket.socket() as taken:
        taken.bind(("127.0.0.1", 0))
        address = "127.0.0.1:%d" % taken.getsockname()[1]
        taken.listen()
        report.case("a port that is taken", address, wanted, told_of("127.0.0.1:0", address))
    report.case("one port for both", address, wanted, told_of(address, address))


def short_of_memory(report):
    """Peers that hold all of --memory: the address is answered, and tells that they wait."""
    with Administered("--memory", str(16 * MEBIBYTE), "--stall", "30", env={**os.environ, **GIVE_BACK}) as server:
        fill(server)
        slow = [greedy(server) for _ in range(4)]
        for _ in range(6):
            slow.append(open_connection(server.address))
            slow[-1].setblocking(False)
            slow[-1].send(number(REQUEST_LIMIT) + PUT_LARGE[4:])
        time.sleep(0.5)
        numbers = server.numbers()
        report.case("connections wait", "", True, numbers["connections_waiting"] > 0)
        told = sum(count for name, count in numbers.items() if name.startswith("tenant_connections_waiting{"))
        report.case("those of a tenant that wait, among them", "", True, 0 < told <= numbers["connections_waiting"])
        report.case("bytes that are held, and their limit", "", (True, 16 * MEBIBYTE), (numbers["buffered_bytes"] >= REQUEST_LIMIT, numbers["buffered_limit_bytes"]))
        for target in ("/health", "/ready", "/metrics"):
            report.case(f"GET {target}", "", True, server.ask("GET", target)[0] in (200, 503))
        with connect(server.address, KEY) as client:
            report.case("a client", "", len(LARGE), client.usage()[2] - 7)
        report.case("a drain", "", 202, server.ask("POST", "/drain?grace=1")[0])
        report.case("ends connections that wait", "", (0, True), server.ended())
        for connection in slow:
            connection.close()


def few_descriptors(report):
    """More clients than descriptors: once some are closed, the address is answered."""
    def limit():
        resource.setrlimit(resource.RLIMIT_NOFILE, (64, 64))

    with Administered(preexec_fn=limit) as server:
        opened = [open_connection(server.address) for _ in range(100)]
        time.sleep(0.5)
        waiting = socket.create_connection(parse_address(server.admin), PATIENCE)
        waiting.sendall(HEALTH)
        used = server.processor_seconds()
        time.sleep(1)
        report.case("a wait without descriptors takes no processor", "", True, server.processor_seconds() - used < 0.5)
        for connection in opened[:60]:
            connection.close()
        report.case("health, once there are some", "", True, read_all(waiting).startswith(b"HTTP/1.1 200 OK\r\n"))
        report.case("a page", "", 200, server.ask("GET", "/metrics")[0])
        for connection in [waiting, *opened]:
            connection.close()
        server.finish(report)


def refused_memory(report):
    """Each call for memory fails, alone or with all behind it: a reply is whole, or the connection is closed; the server goes on, or ends with status 4."""
    if not has("calls for memory that fail", "cc"):
        return
    asked = [HEALTH, METRICS, b"POST /ready HTTP/1.1\r\n" + HOST + b"\r\n", METRICS]
    with tempfile.TemporaryDirectory() as folder:
        calls, closed = Calls(Path(folder)), 0
        for goes_on in (False, True):
            at, last = 1, False
            while not last:
                words = [PROGRAM, "listen", "127.0.0.1:0", KEYS[0].hex(), "--admin", "127.0.0.1:0"]
                pipes = {"stdin": subprocess.PIPE, "stdout": subprocess.PIPE, "stderr": subprocess.PIPE}
                with subprocess.Popen(words, env=calls.environment("memory", at, goes_on), **pipes) as process:
                    try:
                        lines = [process.stdout.readline(), process.stdout.readline()]
                        admin = lines[1].rpartition(b" ")[2].strip().decode()
                        for sent in asked if admin else []:
                            status, is_whole = told(admin, sent, [sent], 1 if goes_on else PATIENCE)
                            closed += not is_whole
                            name = f"call {at} for memory fails{', and all behind it' if goes_on else ''}"
                            # a connection waits where there is no memory at all to take it in
                            is_over = goes_on and status in ("refused", "silence")
                            report.case(name, sent, True, is_over or status in ("end", "reset") or is_whole and status == 200 or (status, is_whole))
                        _, said = process.communicate(timeout=PATIENCE)
                        has_ended = process.returncode == 0 or process.returncode == 4 and said.startswith((b"path_server: NoMemory\n", b"path_server: NetFault\n"))
                        report.case(f"the end where call {at} for memory fails", lines, True, has_ended or (process.returncode, said))
                    finally:
                        process.kill()
                last = calls.made("memory") < at
                at += 1
        report.case("some were refused", "", True, closed > 0)


def at_the_limit(report, count):
    """As many connections as may be are open, and more wait: the address is answered, and a drain ends them all."""
    with Administered("--connections", str(count)) as server:
        opened = [open_connection(server.address) for _ in range(count)]
        wait_for(server, count)
        waiting = [open_connection(server.address) for _ in range(20)]
        model, request = Server(KEYS), b"\0\0\0\x15\x07" + bytes(4) + KEYS[0]
        model.open(0)
        wanted = b"".join(model.bytes(0, request))
        for connection in (opened[0], opened[-1]):
            connection.sendall(request)
            report.case("a reply at the limit", "", wanted, connection.recv(len(wanted), socket.MSG_WAITALL))
        numbers = server.numbers()
        report.case("connections open, and their limit", "", (count, count, count), tuple(int(numbers[f"connections_{it}"]) for it in ("open", "limit", "total")))
        used = server.processor_seconds()
        began = time.monotonic()
        for _ in range(50):
            report.case("a page at the limit", "", 200, server.ask("GET", "/metrics")[0])
        spent = (server.processor_seconds() - used) / 50
        print(f"a page beside {count} connections: {spent * 1e3:.1f} ms of processor time, {(time.monotonic() - began) * 20:.1f} ms in all", flush=True)
        report.case("a page takes less than 5 ms of the loop", "", True, spent < 0.005 or spent)
        for connection in waiting:
            connection.close()
        report.case("a drain at the limit", "", 202, server.ask("POST", "/drain?grace=1")[0])
        report.case("ends them all", "", (0, True), server.ended())
        report.case("each of them", "", 0, sum(connection.recv(1) != b"" for connection in opened))
        for connection in opened:
            connection.close()


def main():
    _, most = resource.getrlimit(resource.RLIMIT_NOFILE)
    resource.setrlimit(resource.RLIMIT_NOFILE, (most, most))
    count = min(int(sys.argv[1]) if len(sys.argv) > 1 else 10_000, most - 200)
    report = Report()
    malformed(report)
    of_browsers(report)
    readiness_and_drains(report)
    holds(report)
    agrees(report, 1)
    taken_ports(report)
    short_of_memory(report)
    few_descriptors(report)
    refused_memory(report)
    at_the_limit(report, count)
    report.close("hostile peers of the administration address")


if __name__ == "__main__":
    main()
