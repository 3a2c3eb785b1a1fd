#!/usr/bin/env python3
"""Tests the client of clients/python on what no server of ours sends: replies that are none, a connection that ends, silence. What it must
do then stands in docs/PROTOCOL.md. Its tests with a server stand in clients/python/tests. In a reply, `N` is the number of the request, and
`N+` the next one.
"""
import socket
import threading

from lib.running_server import Report
from path_client import REQUEST_LIMIT, BrokenConnection, Hit, Refused, Request, Usage, connect

KEY = bytes(16)
SOUND = {
    "usage": ("00000011 00 N 00000001 00000002 00000003", Usage(1, 2, 3)),
    "put": ("00000005 00 N", None),
    "get": ("00000006 00 N 31", b"1"),
    "list": ("0000000d 00 N 00000002 0161 0162", ["a", "b"]),
    "query": ("00000017 00 N 00000001 0164 00000003 24c3a9 00000001 31", [Hit("d", "$é", b"1")]),
    "remove": ("00000005 0f N", "NotFound"),
    "drop": ("00000005 4d N", "Status77"),
    "put_new": ("00000005 17 N", "Exists"),
}
ARGUMENTS = {"usage": [], "put": ["c", "d", "1"], "get": ["c", "d"], "list": ["c"], "query": ["c", "$"], "remove": ["c", "d"],
             "drop": ["c"], "put_new": ["c", "d", "1"]}
UNSOUND = [
    ("the end", "usage", ""),
    ("the end within a reply", "usage", "00000011 00 N 0000"),
    ("a body below 5 bytes", "usage", "00000004 00 000000"),
    ("a body above the limit", "usage", "00800001"),
    ("another number", "put", "00000005 00 N+"),
    ("the number of an earlier request", "put", "00000005 00 N-"),
    ("a framing fault", "put", "00000005 ff 00000000"),
    ("a payload where none is", "put", "00000006 00 N 00"),
    ("a payload behind a refusal", "drop", "00000006 0f N 00"),
    ("a payload too short", "usage", "00000010 00 N 00000001 00000002 000000"),
    ("a payload too long", "usage", "00000012 00 N 00000001 00000002 00000003 00"),
    ("fewer names than their number", "list", "0000000b 00 N 00000002 0161"),
    ("a name that is cut", "list", "0000000b 00 N 00000001 0261"),
    ("a path that is not UTF-8", "query", "00000015 00 N 00000001 0164 00000001 ff 00000001 31"),
    ("a value that is cut", "query", "00000015 00 N 00000001 0164 00000001 24 00000002 31"),
]


class Answering:
    """A server for one connection that reads a request, answers it with given bytes, one at a time, and ends; or says nothing. The bytes may
    be a function of the request's.
    """

    def __init__(self, reply):
        self.reply = reply
        self.listener = socket.create_server(("127.0.0.1", 0))
        self.address = self.listener.getsockname()
        self.thread = threading.Thread(target=self.run, daemon=True)
        self.thread.start()

    def run(self):
        connection, _ = self.listener.accept()
        with connection, self.listener:
            while self.reply is None and connection.recv(1 << 16):
                pass
            if self.reply is None:
                return
            try:
                request = connection.recv(1 << 16)
                reply = self.reply(request) if callable(self.reply) else self.reply
                for place in range(len(reply)):
                    connection.sendall(reply[place:place + 1])
                connection.shutdown(socket.SHUT_WR)
                connection.recv(1)
            except OSError:
                pass  # the client has seen enough


def numbered(digits):
    """The reply of these digits to a request."""
    def reply(request):
        number = int.from_bytes(request[5:9], "big")
        numbers = {name: f"{(number + step) % 2**32:08x}" for name, step in (("N", 0), ("N+", 1), ("N-", -1))}
        return bytes.fromhex("".join(numbers.get(it, it) for it in digits.split()))
    return reply


def result_of(call):
    try:
        return call()
    except Refused as refused:
        return refused.name
    except BrokenConnection:
        return "BrokenConnection"  # or the LostConnection below it, where a call was sent again
    except (TimeoutError, ValueError) as fault:
        return type(fault).__name__


def check_answers(report):
    for name, (digits, wanted) in SOUND.items():
        with connect(Answering(numbered(digits)).address, KEY, timeout=10.0) as client:
            report.case(f"{name}: a reply in single bytes", digits, wanted, result_of(lambda: getattr(client, name)(*ARGUMENTS[name])))
    for case, name, digits in UNSOUND:
        with connect(Answering(numbered(digits)).address, KEY, timeout=10.0) as client:
            for turn in ("", ", and the next call"):
                report.case(case + turn, digits, "BrokenConnection", result_of(lambda: getattr(client, name)(*ARGUMENTS[name])))


def check_silence(report):
    with connect(Answering(None).address, KEY, timeout=0.2) as client:
        report.case("silence", "", "TimedOut", result_of(client.usage))
        report.case("after silence", "", "BrokenConnection", result_of(client.usage))


def check_what_is_not_sent(report):
    """A request that has no frame is refused before anything is sent, and the connection goes on."""
    with connect(Answering(numbered(SOUND["usage"][0])).address, KEY, timeout=10.0) as client:
        report.case("a body above the limit", "", "ValueError", result_of(lambda: client.put("c", "d", " " * REQUEST_LIMIT)))
        report.case("a name of 256 bytes", "", "ValueError", result_of(lambda: client.list("c" * 256)))
        report.case("the next request", "", SOUND["usage"][1], result_of(client.usage))
    longest = Request(1, b" " * (REQUEST_LIMIT - 21), bytes)
    report.case("the longest frame", "", "00600000", longest.frame(KEY, 0)[:4].hex())
    report.case("a key of 15 bytes", "", "ValueError", result_of(lambda: connect("127.0.0.1:1", bytes(15))))
    report.case("no address", "", "ValueError", result_of(lambda: connect("127.0.0.1", KEY)))


def main():
    report = Report()
    check_answers(report)
    check_silence(report)
    check_what_is_not_sent(report)
    report.close("clients/python")


if __name__ == "__main__":
    main()
