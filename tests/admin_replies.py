#!/usr/bin/env python3
"""What the administration address will answer to requests of HTTP, whole, in part and malformed: tests/admin_replies.py

It runs the program `admin_replies` (the one that `rt ci` makes, or the one that the environment's ADMIN_REPLIES names). Replies are read by Python's
http.client. Where there is promtool (Debian's package prometheus), it checks the page of metrics. Statuses are those of RFC 9110, section 15.
"""
import http.client
import io
import os
import random
import re
import subprocess

from lib.running_server import PATIENCE, TOP, Report, has

PROGRAM = os.environ.get("ADMIN_REPLIES") or str(TOP / "crates/admin_replies/out/admin_replies")
HOST = b"Host: localhost:9001\r\n"
FIELD = b"A: b\r\n"
WHOLE = {
    b"GET /health HTTP/1.1\r\n" + HOST + b"\r\n": 200,
    b"GET /health HTTP/1.0\r\n\r\n": 200,
    b"GET /health HTTP/1.0\r\n" + HOST + b"\r\n": 200,
    b"GET /health HTTP/1.1\nhost: localhost\n\n": 200,
    b"\r\n\r\nGET /health HTTP/1.1\r\nHOST:127.0.0.1\r\n\r\n": 200,
    b"GET /ready HTTP/1.1\r\n" + HOST + b"\r\n": 503,
    b"POST /ready HTTP/1.1\r\n" + HOST + b"\r\n": 200,
    b"POST /ready HTTP/1.1\r\n" + HOST + b"Content-Length: 0\r\n\r\n": 200,
    b"POST /drain HTTP/1.1\r\n" + HOST + b"\r\n": 202,
    b"POST /drain?grace=0 HTTP/1.1\r\n" + HOST + b"\r\n": 202,
    b"POST /drain?grace=0000086400 HTTP/1.1\r\n" + HOST + b"\r\n": 202,
    b"GET /metrics HTTP/1.1\r\n" + HOST + b"\r\n": 200,
    # a second request behind the first, and bytes that are none
    b"GET /health HTTP/1.1\r\n" + HOST + b"\r\nGET /ready HTTP/1.1\r\n" + HOST + b"\r\n": 200,
    b"GET /health HTTP/1.1\r\n" + HOST + b"\r\n\0\xff": 200,
    # as many fields as there may be, and one more
    b"GET /health HTTP/1.1\r\n" + HOST + 63 * FIELD + b"\r\n": 200,
    b"GET /health HTTP/1.1\r\n" + HOST + 64 * FIELD + b"\r\n": 431,
    b"GET /" + 9_000 * b"a" + b" HTTP/1.1\r\n" + HOST + b"\r\n": 404,
    # RFC 9112, section 3.2
    b"GET /health HTTP/1.1\r\n\r\n": 400,
    b"GET /health HTTP/1.1\r\n" + HOST + HOST + b"\r\n": 400,
    b"GET /health HTTP/1.0\r\n" + HOST + HOST + b"\r\n": 400,
    # who asks: a browser says where a page comes from (Fetch Metadata Request Headers, section 2.1; RFC 6454, section 7.3)
    b"POST /drain HTTP/1.1\r\n" + HOST + b"Origin: http://example.org\r\n\r\n": 403,
    b"POST /drain HTTP/1.1\r\n" + HOST + b"ORIGIN: null\r\n\r\n": 403,
    b"POST /ready HTTP/1.1\r\n" + HOST + b"Sec-Fetch-Site: cross-site\r\n\r\n": 403,
    b"GET /metrics HTTP/1.1\r\n" + HOST + b"sec-fetch-site: same-site\r\n\r\n": 403,
    b"GET /metrics HTTP/1.1\r\n" + HOST + b"Sec-Fetch-Site:\r\n\r\n": 403,
    b"GET /metrics HTTP/1.1\r\n" + HOST + b"Sec-Fetch-Site: none\r\n\r\n": 200,
    b"GET /metrics HTTP/1.1\r\n" + HOST + b"Sec-Fetch-Site: same-origin\r\n\r\n": 200,
    b"POST /drain HTTP/1.0\r\nOrigin: http://localhost\r\n\r\n": 403,
    b"POST /drain HTTP/1.1\r\n" + HOST + b"Origin: http://example.org\r\nContent-Type: text/plain\r\nContent-Length: 3\r\n\r\na=b": 403,
    b"PUT /drain HTTP/1.1\r\n" + HOST + b"Origin: http://example.org\r\n\r\n": 403,
    b"OPTIONS /drain HTTP/1.1\r\n" + HOST + b"Origin: http://example.org\r\nAccess-Control-Request-Method: POST\r\n\r\n": 403,
    **{b"GET /health HTTP/1.1\r\nHost: " + host + b"\r\n\r\n": 403
       for host in (b"example.org", b"example.org:9001", b"localhost.example.org", b"localhostile:1", b"127.0.0.1.example.org", b"1.2.3.4a", b"admin.example.org", b"a", b"")},
    **{b"GET /health HTTP/1.1\r\nHost: " + host + b"\r\n\r\n": 200
       for host in (b"127.0.0.1", b"10.0.0.7:9001", b"[::1]", b"[fe80::1]:9001", b"LocalHost", b"localhost:1")},
    # bodies
    b"POST /ready HTTP/1.1\r\n" + HOST + b"Content-Length: 3\r\n\r\nabc": 413,
    b"POST /ready HTTP/1.1\r\n" + HOST + b"content-length: 00\r\n\r\n": 413,
    b"POST /ready HTTP/1.1\r\n" + HOST + b"Transfer-Encoding: chunked\r\n\r\n0\r\n\r\n": 413,
    b"GET /metrics HTTP/1.1\r\n" + HOST + b"Content-Length: 0\r\nContent-Length: 1\r\n\r\n": 413,
    # targets
    b"GET / HTTP/1.1\r\n" + HOST + b"\r\n": 404,
    b"GET /Health HTTP/1.1\r\n" + HOST + b"\r\n": 404,
    b"GET /health/ HTTP/1.1\r\n" + HOST + b"\r\n": 404,
    b"GET /health?a HTTP/1.1\r\n" + HOST + b"\r\n": 404,
    b"GET http://a/health HTTP/1.1\r\n" + HOST + b"\r\n": 404,
    b"OPTIONS * HTTP/1.1\r\n" + HOST + b"\r\n": 404,
    b"POST /drain?grace= HTTP/1.1\r\n" + HOST + b"\r\n": 404,
    b"POST /drain?grace=-1 HTTP/1.1\r\n" + HOST + b"\r\n": 400,
    b"POST /drain?grace=1s HTTP/1.1\r\n" + HOST + b"\r\n": 400,
    b"POST /drain?grace=86401 HTTP/1.1\r\n" + HOST + b"\r\n": 400,
    b"POST /drain?grace=" + 5_000 * b"9" + b" HTTP/1.1\r\n" + HOST + b"\r\n": 400,
    # malformed heads
    b"GET  /health HTTP/1.1\r\n" + HOST + b"\r\n": 400,
    b" GET /health HTTP/1.1\r\n" + HOST + b"\r\n": 400,
    b"GET /health\r\n" + HOST + b"\r\n": 400,
    b"GET /health HTTP/2.0\r\n" + HOST + b"\r\n": 400,
    b"GET /health HTTP/1.1 \r\n" + HOST + b"\r\n": 400,
    b"GET /health http/1.1\r\n" + HOST + b"\r\n": 400,
    b"G@T /health HTTP/1.1\r\n" + HOST + b"\r\n": 400,
    b"GET /he\x01lth HTTP/1.1\r\n" + HOST + b"\r\n": 400,
    b"GET /health HTTP/1.1\r\nHost : a\r\n\r\n": 400,
    b"GET /health HTTP/1.1\r\n Host: a\r\n\r\n": 400,
    b"GET /health HTTP/1.1\r\n" + HOST + b" folded\r\n\r\n": 400,
    b"GET /health HTTP/1.1\r\n" + HOST + b"A\r\n\r\n": 400,
    b"GET /health HTTP/1.1\r\n" + HOST + b"A: \0\r\n\r\n": 400,
    b"GET /health HTTP/1.1\r" + HOST: 400,
    b"\x16\x03\x01\x02\x00\x01\x00\x01\xfc\x03\x03": 400,
    b"\x00\x00\x00\x15\x07": 400,
}
# of a server that was given two names, and an empty one that no Host has
NAMED = {b"GET /health HTTP/1.1\r\nHost: " + host + b"\r\n\r\n": 200 for host in (b"admin.example", b"Admin.Example:9001", b"metrics.example", b"METRICS.example:80")}
OTHERS = {b"GET /health HTTP/1.1\r\nHost: " + host + b"\r\n\r\n": 403
          for host in (b"xadmin.example", b"admin.example.", b"metrics.example.org:80", b"admin.example,metrics.example", b"a:80")}
ALLOWED = {b"/health": "GET", b"/metrics": "GET", b"/ready": "GET, POST", b"/drain": "POST", b"/drain?grace=1": "POST", b"/drain?grace=x": "POST"}
IN_PART = [b"", b"\r\n", b"G", b"GET /health HTTP/1.1\r\n", b"GET /health HTTP/1.1\r\n" + HOST, b"GET /health HTTP/1.1\r\n" + HOST + b"\r", 8_000 * b"a"]
TOO_LONG = [8_192 * b"a", b"GET /" + 8_187 * b"a", b"GET /health HTTP/1.1\r\nA: " + 8_192 * b"a"]


class Reader:
    """What http.client reads of."""

    def __init__(self, data):
        self.data = data

    def makefile(self, *_, **__):
        return io.BytesIO(self.data)


def answer(sent, *words):
    return subprocess.run([PROGRAM, *words], input=sent, stdout=subprocess.PIPE, timeout=PATIENCE, check=True).stdout


def read(data):
    """The status, the fields and the body of a reply, and whether it has the length that it tells."""
    reply = http.client.HTTPResponse(Reader(data))
    reply.begin()
    body = reply.read()
    return reply.status, dict(reply.getheaders()), body, data.endswith(b"\r\n\r\n" + body) and int(reply.getheader("Content-Length")) == len(body)


def requests(report):
    for sent, wanted in {**WHOLE, **NAMED, **OTHERS}.items():
        status, fields, body, is_whole = read(answer(sent))
        report.case("a request", sent, (wanted, "close", True), (status, fields.get("Connection"), is_whole))
    for target, allowed in ALLOWED.items():
        for method in (b"PUT", b"HEAD", b"get", b"GET", b"POST"):
            if method.decode() not in allowed.split(", "):
                status, fields, *_ = read(answer(method + b" " + target + b" HTTP/1.1\r\n" + HOST + b"\r\n"))
                report.case("a method that is not allowed", (method, target), (405, allowed), (status, fields.get("Allow")))
    for target in (b"/health", b"/metrics", b"/nowhere"):
        reply = answer(b"HEAD " + target + b" HTTP/1.1\r\n" + HOST + b"\r\n")
        report.case("no content behind a reply to HEAD", target, b"", reply.partition(b"\r\n\r\n")[2])
    for sent in IN_PART:
        report.case("a head in part", sent, b"part\n", answer(sent))
    for sent in TOO_LONG:
        report.case("a head without an end", len(sent), 431, read(answer(sent))[0])
    request = b"GET /health HTTP/1.1\r\n" + HOST + b"\r\n"
    for length in range(len(request)):
        report.case("a request up to a byte", request[:length], b"part\n", answer(request[:length]))
    # from what some bytes are refused for, no bytes behind them lead back
    chance = random.Random(1)
    for _ in range(200):
        damaged = bytearray(request)
        damaged[chance.randrange(len(damaged))] = chance.randrange(256)
        parts = [answer(bytes(damaged[:length])) for length in range(0, len(damaged) + 1, 3)]
        refused = [part.startswith(b"HTTP/1.1 400") for part in parts]
        report.case("a damaged request, byte by byte", damaged, sorted(refused), refused)


def readiness(report):
    request = b"GET /ready HTTP/1.1\r\n" + HOST + b"\r\n"
    report.case("ready, before it was said", "", (503, b"not ready\n"), read(answer(request))[::2])
    report.case("ready, once it was said", "", (200, b"ready\n"), read(answer(request, "ready"))[::2])


def metrics(report):
    status, fields, body, _ = read(answer(b"GET /metrics HTTP/1.1\r\n" + HOST + b"\r\n"))
    report.case("the type", "", "text/plain; version=0.0.4; charset=utf-8", fields["Content-Type"])
    text = body.decode()
    lines = text.splitlines()
    for word in ("HELP", "TYPE"):
        names = re.findall(rf"^# {word} (\S+) ", text, re.M)
        report.case(f"{word}, once for each metric", "", sorted(set(names)), sorted(names))
    numbers = dict(line.rsplit(" ", 1) for line in lines if not line.startswith("#"))
    report.case("no sample stands twice", "", len(numbers), sum(not line.startswith("#") for line in lines))
    cells = {(command, status): number for name, number in numbers.items() for command, status in re.findall(r'requests_total\{command="(\w+)",status="(\w+)"\}', name)}
    report.case("a sample for each command and status", "", 9 * 25, len(cells))
    wanted = {("put", "Ok"): "1", ("query", "Ok"): "1", ("query", "Costly"): "1", ("none", "FrameFault"): "1", ("put_new", "Exists"): "1"}
    report.case("requests", "", wanted, {cell: number for cell, number in cells.items() if number != "0"})
    buckets = [(bound, int(number)) for name, number in numbers.items() for bound in re.findall(r'request_seconds_bucket\{le="(\S+)"\}', name)]
    report.case("bounds rise", "", sorted(map(float, dict(buckets))), list(map(float, dict(buckets))))
    # five requests took 1, 100, 101, 2,000,000 and 60,000,000 microseconds
    times = [1e-6, 1e-4, 1.01e-4, 2.0, 60.0]
    report.case("requests up to each bound", "", [sum(time <= float(bound) for time in times) for bound, _ in buckets], [number for _, number in buckets])
    report.case("the sum and the count", "", (62.000202, "5"), (float(numbers["path_server_request_seconds_sum"]), numbers["path_server_request_seconds_count"]))
    tenants = {name: [numbers[f'path_server_tenant_{name}{{tenant="{place}"}}'] for place in ("acme", 1)] for name in ("requests_total", "charged_units_total", "refused_bytes_total", "collections", "documents", "text_bytes", "memory_bytes", "connections_waiting")}
    wanted = {"requests_total": ["1", "3"], "charged_units_total": ["0", "700"], "refused_bytes_total": ["0", "90"], "collections": ["0", "2"], "documents": ["0", "3"], "text_bytes": ["0", "4"], "memory_bytes": ["0", "6"], "connections_waiting": ["0", "5"]}
    report.case("by tenant", "", wanted, tenants)
    singles = {"uptime_seconds": "17", "ready": "1", "connections_open": "5", "connections_total": "1", "read_bytes_total": "1000", "written_bytes_total": "2000",
               "connections_limit": "10000", "accept_refused": "0", "connections_waiting": "0", "dropped_lines_total": "3", "lost_lines_total": "4", "buffered_bytes": "65536", "buffered_limit_bytes": "1073741824",
               "charged_units_total": "700", "slow_queries_total": "1"}
    report.case("the others", "", singles, {name: numbers.get(f"path_server_{name}") for name in singles})
    # a value of a label has a backslash before a backslash, a double quote and the n of a line feed
    build = 'path_server_build_info{version="1.2.3",commit="a\\\\b\\"c\\nd",proved="yes",kit="kit 1"} 1'
    report.case("the build", "", [build], [line for line in lines if line.startswith("path_server_build_info{")])
    if has("promtool check metrics", "promtool"):
        ran = subprocess.run(["promtool", "check", "metrics"], input=body, capture_output=True)
        report.case("promtool check metrics", "", (0, b"", b""), (ran.returncode, ran.stdout, ran.stderr))


def main():
    report = Report()
    requests(report)
    readiness(report)
    metrics(report)
    report.close("the administration address")


if __name__ == "__main__":
    main()
