#!/usr/bin/env python3
"""Serves connections that end in each way by the program, and compares its replies, its lines on standard error and its status.

The program is the one that bin/build makes, or the one that the environment's PATH_SERVER names. All numbers below are those of
docs/PROTOCOL.md: the replies are written out by hand.
"""
import os
import socket
import struct
import subprocess
import sys
from pathlib import Path

from path_client import REQUEST_LIMIT

TOP = Path(__file__).resolve().parent.parent
PROGRAM = os.environ.get("PATH_SERVER", str(TOP / "crates/path_program/out/path_program"))
KEY, OTHER = "00112233445566778899aabbccddeeff", "ffeeddccbbaa99887766554433221100"
PUT = bytes.fromhex(f"00000020 01 00000001 {KEY} 0163 0164 7b2261223a317d")
USAGE = bytes.fromhex(f"00000015 07 00000004 {KEY}")
OTHER_USAGE = bytes.fromhex(f"00000015 07 00000004 {OTHER}")
DONE_PUT = bytes.fromhex("00000005 00 00000001")
ONE_TEXT = bytes.fromhex("00000011 00 00000004 00000001 00000001 00000007")
NO_TEXT = bytes.fromhex("00000011 00 00000004 00000000 00000000 00000000")
SHORT = bytes.fromhex("00000005 01 00000000")
TOO_LONG = (REQUEST_LIMIT + 1).to_bytes(4, "big")
FRAME_FAULT = bytes.fromhex("00000005 ff 00000000")


def connected(port):
    stream = socket.create_connection(("127.0.0.1", port), timeout=20)
    stream.setsockopt(socket.IPPROTO_TCP, socket.TCP_NODELAY, 1)
    return stream


def read_exactly(stream, length):
    got = b""
    while len(got) < length:
        piece = stream.recv(length - len(got))
        if not piece:
            return got
        got += piece
    return got


def asked(port, pieces):
    """The replies on a connection that sends these pieces and then its end."""
    with connected(port) as stream:
        for piece in pieces:
            stream.sendall(piece)
        stream.shutdown(socket.SHUT_WR)
        return read_exactly(stream, 1 << 24)


def reset(port):
    """A connection whose input can't be read to its end."""
    with connected(port) as stream:
        stream.sendall(USAGE)
        assert read_exactly(stream, len(ONE_TEXT)) == ONE_TEXT
        stream.setsockopt(socket.SOL_SOCKET, socket.SO_LINGER, struct.pack("ii", 1, 0))


def closed_early(port):
    """Asks for more than the system takes for a connection that is closed before a reply is read."""
    text = b'"' + b"x" * 1_000_000 + b'"'
    fields = bytes.fromhex(f"01 00000001 {KEY} 0163 0165") + text
    get = bytes.fromhex(f"00000019 02 00000003 {KEY} 0163 0165")
    with connected(port) as stream:
        stream.sendall(struct.pack(">I", len(fields)) + fields + get * 64)
        read_exactly(stream, 9)
        stream.setsockopt(socket.SOL_SOCKET, socket.SO_LINGER, struct.pack("ii", 1, 0))


class Checks:
    def __init__(self):
        self.tried, self.failed = 0, 0

    def equal(self, what, got, wanted):
        self.tried += 1
        if got != wanted:
            self.failed += 1
            print(f"connections: {what}: {got!r:.300} and not {wanted!r:.300}", file=sys.stderr)


def serve(count):
    words = [PROGRAM, "serve", "127.0.0.1:0", f"{KEY},{OTHER}", str(count)]
    server = subprocess.Popen(words, stdin=subprocess.DEVNULL, stdout=subprocess.PIPE, stderr=subprocess.PIPE, encoding="ascii")
    return server, int(server.stdout.readline().rpartition(":")[2])


def each_end(checks):
    """One hub for all connections, a line for each end but Done, and the status 0 at last."""
    server, port = serve(9)
    try:
        checks.equal("a put in single bytes", asked(port, [bytes([one]) for one in PUT]), DONE_PUT)
        checks.equal("the text of another connection", asked(port, [USAGE]), ONE_TEXT)
        checks.equal("another tenant", asked(port, [OTHER_USAGE]), NO_TEXT)
        checks.equal("a length above the limit", asked(port, [USAGE + TOO_LONG]), ONE_TEXT + FRAME_FAULT)
        reset(port)
        checks.equal("after a fault", asked(port, [USAGE * 2]), ONE_TEXT * 2)
        checks.equal("a frame that is cut short", asked(port, [USAGE[:10]]), b"")
        closed_early(port)
        checks.equal("a frame with no body", asked(port, [bytes(4)]), SHORT)
        printed, errors = server.communicate(timeout=20)
    finally:
        server.kill()
    checks.equal("the status", server.returncode, 0)
    checks.equal("further lines", printed, "")
    lines = errors.splitlines()
    checks.equal("lines", lines[:2], ["connection 3: FrameFault", "connection 4: ReadFault"])
    checks.equal("the line of a peer that is gone", lines[2:] in (["connection 7: WriteFault"], ["connection 7: ReadFault"]), True)


def waiting_connections(checks):
    """Connections that wait are served in the order in which they came, the next after the first one's end."""
    server, port = serve(2)
    try:
        with connected(port) as first, connected(port) as second:
            second.sendall(USAGE)
            first.sendall(PUT)
            checks.equal("the first", read_exactly(first, len(DONE_PUT)), DONE_PUT)
            first.shutdown(socket.SHUT_WR)
            checks.equal("the second", read_exactly(second, len(ONE_TEXT)), ONE_TEXT)
        checks.equal("standard error", server.communicate(timeout=20)[1], "")
    finally:
        server.kill()
    checks.equal("the status", server.returncode, 0)


def main():
    if not os.environ.get("PATH_SERVER"):
        subprocess.run([TOP / "bin/path_server", "--proved", "--help"], check=True, stdout=subprocess.DEVNULL)
    checks = Checks()
    each_end(checks)
    waiting_connections(checks)
    print(f"connections: {checks.tried} checks, {checks.failed} of them differ")
    sys.exit(checks.failed > 0)


main()
