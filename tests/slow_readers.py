#!/usr/bin/env python3
"""Peers of `path_server listen` that read slowly, and peers that read nothing: tests/slow_readers.py, on Linux alone.

Beside `--idle 10`, and beside `--stall 10` while others wait for memory, peers read 10,000 and 100,000 bytes a second of a reply of 8 MB, without a
pause. None of them is closed, and what comes is the reply. A peer that reads nothing is closed once 30 seconds passed, and one at rest after 10. A
reply that the system took whole comes whole, although the connection is closed behind it. All of that happens at once, over loopback as it is, and
over one with an MTU of 1,500 where `unshare` makes a network of its own.
"""
import fcntl
import shutil
import socket
import struct
import subprocess
import sys
import threading
import time
from concurrent.futures import ThreadPoolExecutor

from lib.running_server import Listening, Report, not_run, open_connection
from limits import HALF, LEAST, LONG_QUERY, LONGEST_REPLY, deaf, long_reply, put
from many_connections import GET, GET_REPLY, KEY, PUT, PUT_REPLY, exchange, frame

SECONDS = 40
"""How long the peers go on."""
RATES = 10_000, 100_000
SHORT = b'"' + b"s" * 240_000 + b'"'
GET_SHORT = frame(2, b"\x01c\x01s")
OF_ITS_OWN = ["unshare", "--user", "--map-root-user", "--net"]
NUMBERS = struct.Struct("16si12x")
SIOCGIFFLAGS, SIOCSIFFLAGS, SIOCSIFMTU, IFF_UP = 0x8913, 0x8914, 0x8922, 1


class Reader:
    """A peer that asks for a reply and reads so many bytes of it a second, without a pause, until it ends or the time is over."""

    def __init__(self, connection, request, rate, until):
        self.connection, self.rate, self.until = connection, rate, until
        self.got, self.end = bytearray(), None
        connection.sendall(request)
        self.thread = threading.Thread(target=self.read, daemon=True)
        self.thread.start()

    def read(self):
        began = time.monotonic()
        while self.end is None and time.monotonic() < self.until:
            try:
                piece = self.connection.recv(self.rate // 10)
                self.end = None if piece else "end"
                self.got += piece
            except OSError as error:
                self.end = repr(error)
            time.sleep(max(began + len(self.got) / self.rate - time.monotonic(), 0))


def ends_of(server, until):
    """The connections that are closed until then: the name of each end by number, and the whole seconds from now to it."""
    ends, began = {}, time.monotonic()
    while time.monotonic() < until:
        for number, name in server.ends().items():
            ends.setdefault(number, (name, int(time.monotonic() - began)))
        time.sleep(0.2)
    return ends


def ended_within(report, name, end, how, least, most):
    """One case: a connection was closed for this reason, within so many seconds."""
    found, seconds = end or ("it is open", 0)
    return report.case(name, "", (how, True), (found, least <= seconds <= most) if found == how else end)


def goes_on(report, name, reader, end, wanted):
    """A reader that goes on is not closed, read at its rate, and what it got is the reply's front."""
    reader.thread.join()
    report.case(f"{name}: it is open", "", (None, None), (end, reader.end))
    report.case(f"{name}: its bytes are the reply's", "", True, wanted.startswith(reader.got))
    least = min(reader.rate * SECONDS * 3 // 4, len(wanted))
    report.case(f"{name}: it got {least} bytes", "", True, len(reader.got) >= least)


def prepared(server, report):
    """The texts are there. The long reply, and how many connections there were."""
    with open_connection(server.address) as connection:
        report.case("the texts", "", PUT_REPLY * 3, exchange(connection, PUT + put(b"l", b'{"b":' + HALF + b"}") + put(b"s", SHORT), 27))
    return long_reply(server), 2


def idle(report, place, server):
    """Beside an idle limit of ten seconds."""
    wanted, first = prepared(server, report)
    until = time.monotonic() + SECONDS
    silent, resting = deaf(server), open_connection(server.address)
    silent.sendall(LONG_QUERY)
    report.case("a reply", "", GET_REPLY, exchange(resting, GET, len(GET_REPLY)))
    readers = [Reader(open_connection(server.address), LONG_QUERY, rate, until) for rate in RATES]
    readers.append(Reader(deaf(server), LONG_QUERY, RATES[0], until))
    short = Reader(open_connection(server.address), GET_SHORT, RATES[0], until)
    ends = ends_of(server, until)
    for number, reader in enumerate(readers, first + 2):
        goes_on(report, f"{place}, --idle 10, reader {number}", reader, ends.get(number), wanted)
    short.thread.join()
    report.case(f"{place}, a reply that the system took whole", "", (len(SHORT) + 9, "end"), (len(short.got), short.end))
    ended_within(report, f"{place}, --idle 10, one that reads nothing", ends.get(first), "IdleLimit", 29, SECONDS)
    ended_within(report, f"{place}, --idle 10, one at rest", ends.get(first + 1), "IdleLimit", 9, 20)
    ended_within(report, f"{place}, --idle 10, one that was owed nothing", ends.get(first + 5), "IdleLimit", 9, 20)
    print(f"{place}, --idle 10: {ends}, read {[len(it.got) for it in readers]}", flush=True)


def stall(report, place, server):
    """Where others wait for memory, beside a limit of ten seconds on peers that stall: three replies have a share, and others wait for one."""
    wanted, first = prepared(server, report)
    until = time.monotonic() + SECONDS
    silent = deaf(server)
    silent.sendall(LONG_QUERY)
    readers = [Reader(open_connection(server.address), LONG_QUERY, rate, until) for rate in RATES]
    time.sleep(0.5)
    waiting = [deaf(server) for _ in range(12)]
    for connection in waiting:
        connection.sendall(LONG_QUERY)
    ends = ends_of(server, until)
    for number, reader in enumerate(readers, first + 1):
        goes_on(report, f"{place}, --stall 10, reader {number}", reader, ends.get(number), wanted)
    ended_within(report, f"{place}, --stall 10, one that reads nothing", ends.get(first), "StallLimit", 29, SECONDS)
    report.case(f"{place}, --stall 10, others wait", "", True, "connections wait for memory" in server.said())
    print(f"{place}, --stall 10: {ends}, read {[len(it.got) for it in readers]}", flush=True)


def try_both(report, place):
    memory = str(LEAST + 3 * LONGEST_REPLY)
    with Listening([KEY], "--idle", "10") as one, Listening([KEY], "--stall", "10", "--frame-time", "600", "--memory", memory) as other:
        with ThreadPoolExecutor(2) as pool:
            for done in [pool.submit(idle, report, place, one), pool.submit(stall, report, place, other)]:
                done.result()


def narrow():
    """Brings up the loopback of a network of its own, with an MTU of 1,500."""
    with socket.socket(socket.AF_INET, socket.SOCK_DGRAM) as any_socket:
        fcntl.ioctl(any_socket, SIOCSIFMTU, NUMBERS.pack(b"lo", 1_500))
        _, flags = NUMBERS.unpack(fcntl.ioctl(any_socket, SIOCGIFFLAGS, NUMBERS.pack(b"lo", 0)))
        fcntl.ioctl(any_socket, SIOCSIFFLAGS, NUMBERS.pack(b"lo", flags | IFF_UP))


def main(is_narrow):
    report, beside = Report(), None
    if is_narrow:
        narrow()
        try_both(report, "an MTU of 1,500")
        report.close("slow readers over an MTU of 1,500")
    if shutil.which(OF_ITS_OWN[0]) and subprocess.run([*OF_ITS_OWN, "true"], stderr=subprocess.DEVNULL).returncode == 0:
        beside = subprocess.Popen([*OF_ITS_OWN, sys.executable, __file__, "narrow"])
    else:
        not_run("slow readers over an MTU of 1,500", "unshare makes no network here")
    try_both(report, "loopback")
    if beside:
        report.case("over an MTU of 1,500", "", 0, beside.wait())
    report.close("slow readers")


if __name__ == "__main__":
    main(sys.argv[1:] == ["narrow"])
