#!/usr/bin/env python3
"""Texts above 64 KiB, which are read a share at a time beside other requests: tests/long_puts.py, on Linux alone.

Statuses are those of docs/PROTOCOL.md. Each refusal of a text, the quotas and Exists come as for a text that is read at once. Twelve tenants put 4 MiB
each at once, which are more than are read side by side, and are served meanwhile: they get what was there, or the whole text. A peer that goes in
the middle leaves none of its text, and no place that others wait for. Long texts, queries and short texts that twelve tenants ask for together all come.
"""
import socket
import threading
import time

from lib.running_server import Listening, Report, open_connection
from many_connections import MEBIBYTE, exchange, frame

KEYS = [bytes([place]) * 16 for place in range(1, 13)]
OK, NOT_FOUND = 0, 15
OLD = b'"old"'
ROUNDS = 20
BESIDE = 12


def many(leaf, before=b"[", behind=b"]", size=4 * MEBIBYTE):
    """An array of as many of these as fit."""
    count = (size - len(before) - len(behind) + 1) // (len(leaf) + 1)
    return before + b",".join([leaf] * count) + behind


ZEROS, ARRAYS = many(b"0"), many(b"[]")
LONG = many(b"0", size=MEBIBYTE)
REFUSED = {5: ZEROS + bytes(4 * MEBIBYTE + 1 - len(ZEROS)), 6: many(b"0", behind=b',"\xff"]'), 7: many(b"0", behind=b"}"), 8: many(b"0", behind=b"," + b"[" * 256 + b"]" * 257),
           9: many(b"0", behind=b",1e1000000000]"), 10: many(b"0", behind=b',"\\ud800"]'), 11: many(b"0", behind=b',{"a":1,"b":2,"\\u0061":3}]')}
"""Texts by the status with which they are refused: each has its fault at its end."""


def put(name, text, key, command=1):
    return frame(command, b"\x01c" + bytes([len(name)]) + name + text, key)


def get(name, key):
    return frame(2, b"\x01c" + bytes([len(name)]) + name, key)


def asked(connection, request):
    """The status and the payload of the reply to a request."""
    body = exchange(connection, request, 4)
    body = exchange(connection, b"", int.from_bytes(body, "big"))
    return body[0], body[5:]


def side_by_side(report, server):
    """Each tenant puts a text, and asks for it on another connection until its put is answered: it gets what was there, and then the text."""
    def tenant(key, came):
        with open_connection(server.address) as putting, open_connection(server.address) as getting:
            asked(putting, put(b"d", OLD, key))
            ended = []

            def go():
                ended.append(asked(putting, put(b"d", ZEROS, key)))

            thread = threading.Thread(target=go)
            thread.start()
            seen = set()
            while thread.is_alive():
                status, text = asked(getting, get(b"d", key))
                seen.add((status, "old" if text == OLD else "new" if text == ZEROS else text[:20]))
                time.sleep(0.01)
            thread.join()
            came[key] = (ended, seen <= {(OK, "old"), (OK, "new")}, asked(getting, get(b"d", key)) == (OK, ZEROS))

    came = {}
    threads = [threading.Thread(target=tenant, args=(key, came)) for key in KEYS]
    for it in threads:
        it.start()
    for it in threads:
        it.join()
    for key in KEYS:
        report.case("twelve tenants put 4 MiB each", key, ([(OK, b"")], True, True), came.get(key))


def refusals(report, server):
    """Each refusal of a long text leaves the document that was there, and so does Exists."""
    with open_connection(server.address) as connection:
        for status, text in REFUSED.items():
            asked(connection, put(b"d", OLD, KEYS[0]))
            report.case("a long text with a fault at its end", text[-40:], (status, b""), asked(connection, put(b"d", text, KEYS[0])))
            report.case("what was there", text[-40:], (OK, OLD), asked(connection, get(b"d", KEYS[0])))
        report.case("PUT_NEW of what is there", "", (23, b""), asked(connection, put(b"d", ARRAYS, KEYS[0], 8)))
        report.case("PUT_NEW with a fault", "", (7, b""), asked(connection, put(b"d", REFUSED[7], KEYS[0], 8)))
        report.case("PUT_NEW of what is not there", "", (OK, b""), asked(connection, put(b"n", ARRAYS, KEYS[0], 8)))
        report.case("and the text", "", (OK, ARRAYS), asked(connection, get(b"n", KEYS[0])))
        asked(connection, frame(6, b"\x01c", KEYS[0]))


def at_once(report, server, requests, key):
    """The statuses of requests that come together, each on a connection of its own."""
    connections = [open_connection(server.address) for _ in requests]
    for connection, request in zip(connections, requests):
        threading.Thread(target=connection.sendall, args=(request,), daemon=True).start()
    came = []
    for connection in connections:
        with connection:
            came.append(asked(connection, b"")[0])
    return sorted(came)


def quotas(report, server):
    """Of five texts of 4 MiB that come together four fit, by the 16 MiB of a tenant. So do two PUT_NEW of one name of which one is done."""
    whole = b'"' + b"q" * (4 * MEBIBYTE - 2) + b'"'
    requests = [put(b"%d" % place, whole, KEYS[1]) for place in range(5)]
    report.case("five texts beside a quota for four", "", [OK] * 4 + [14], at_once(report, server, requests, KEYS[1]))
    requests = [put(b"e", ZEROS, KEYS[2], 8), put(b"e", ARRAYS, KEYS[2], 8)]
    report.case("two PUT_NEW of one name", "", [OK, 23], at_once(report, server, requests, KEYS[2]))


def gone(report, server):
    """Peers send a text and go at once, again and again. A put behind them is done, and the document is whole or not there."""
    seen = set()
    for place in range(ROUNDS):
        for key in KEYS:
            with open_connection(server.address) as connection:
                connection.sendall(put(b"g", ARRAYS, key))
                if place % 2:
                    # a reset
                    connection.setsockopt(socket.SOL_SOCKET, socket.SO_LINGER, bytes([1, 0, 0, 0, 0, 0, 0, 0]))
    for key in KEYS:
        with open_connection(server.address) as connection:
            status, text = asked(connection, get(b"g", key))
            seen.add((status, text == ARRAYS))
            # another name: a whole put of a peer that went may still be done behind this one
            report.case("a put behind peers that went", key, (OK, b""), asked(connection, put(b"h", ZEROS, key)))
            report.case("its text", key, (OK, ZEROS), asked(connection, get(b"h", key)))
    report.case("documents of peers that went", "", True, seen <= {(OK, True), (NOT_FOUND, False)})


def in_turn(report, server):
    """Each tenant asks for a long text, a query and a short text again and again, on two connections. The first two take long, so that they are put off while
    others have turns: each reply comes, and is right."""
    asks = [(get(b"l", bytes(16)), (OK, LONG)), (frame(5, b"\x01n$[0]", bytes(16)), (OK, bytes(4))), (get(b"s", bytes(16)), (OK, OLD))]

    def ask(key, came):
        with open_connection(server.address) as connection:
            for _ in range(ROUNDS):
                came += [asked(connection, request[:9] + key + request[25:]) == wanted for request, wanted in asks]

    came = {(key, place): [] for key in KEYS for place in range(2)}
    for key in KEYS:
        with open_connection(server.address) as connection:
            for name, text in ((b"l", LONG), (b"s", OLD)):
                asked(connection, put(name, text, key))
    threads = [threading.Thread(target=ask, args=(key, came[key, place])) for key, place in came]
    for it in threads:
        it.start()
    for it in threads:
        it.join()
    for (key, place), right in came.items():
        report.case("long and short requests in turn", (key, place), [True] * (ROUNDS * len(asks)), right)


def beside_a_query(report, server):
    """A tenant's long text is read while its query comes as the first request of a new connection, or on one on which another tenant asked. Requests of others
    make the shares short. The put waits for the query, and both are answered."""
    done = threading.Event()

    def ask_on():
        with open_connection(server.address) as connection:
            while not done.is_set():
                asked(connection, get(b"s", KEYS[1]))

    with open_connection(server.address) as connection:
        asked(connection, frame(1, b"\x01z\x01z" + ZEROS, KEYS[0]))
        asked(connection, put(b"s", OLD, KEYS[1]))
    others = threading.Thread(target=ask_on, daemon=True)
    others.start()
    for place in range(BESIDE):
        with open_connection(server.address) as putting, open_connection(server.address) as querying:
            asked(putting, get(b"s", KEYS[0]))
            if place % 2:
                asked(querying, get(b"s", KEYS[1]))
            text = put(b"d", ARRAYS, KEYS[0])
            putting.sendall(text[:-1])
            time.sleep(0.1)
            putting.sendall(text[-1:])
            time.sleep(0.005 + 0.01 * (place % 6))
            report.case("a query beside a text that is read", place, (OK, bytes(4)), asked(querying, frame(5, b"\x01z$[?@>1]", KEYS[0])))
            report.case("the text that was read", place, (OK, b""), asked(putting, b""))
    done.set()
    others.join()


def main():
    report = Report()
    with Listening(KEYS) as server:
        refusals(report, server)
        quotas(report, server)
    with Listening(KEYS) as server:
        side_by_side(report, server)
        gone(report, server)
        in_turn(report, server)
    with Listening(KEYS) as server:
        beside_a_query(report, server)
    report.close("long puts")


if __name__ == "__main__":
    main()
