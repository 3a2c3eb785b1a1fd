#!/usr/bin/env python3
"""Runs `path_server call` against peers that answer with fixed bytes, and compares its lines, its status and what it sent.

A peer waits for the first request, gives its bytes and their end, and takes what else comes. So a reply ends early at each byte, requests
and replies have each limit, and a line is bad. The program is the one that bin/build makes, or the one that the environment's
PATH_SERVER names.
"""
import socket
import subprocess
import threading

from lib.running_server import PATIENCE, PROGRAM, Report

KEY = "00112233445566778899aabbccddeeff"
REQUESTS = [f"00000020 01 00000001 {KEY} 0163 0164 7b2261223a317d", f"0000001a 05 00000002 {KEY} 0163 242e61",
            f"00000019 02 00000003 {KEY} 0163 0164", f"00000015 07 00000004 {KEY}"]
REPLIES = ["00000005 00 00000001", "0000001a 00 00000002 00000001 0164 00000006 245b2761275d 00000001 31",
           "0000000c 00 00000003 7b2261223a317d", "00000011 00 00000004 00000001 00000001 00000007"]
BAD_LINES = {"00000005": 1, "\n": 1, "00000000\n\n00000000": 2, "00000000\n0000000100\n000000000\n": 3, "0000000": 1, "0000000g": 1,
             "00000000\r\n": 1, "0000000100ff": 1, "00000000\n00600001\n": 2, "00000000\n" * 6 + "0": 7,
             "00600001" + "0" * 12_582_914: 1}
EMPTY = "00000000\n"
DONE, READ_FAULT = (0, ""), (4, "path_server: ReadFault\nADDRESS: a reply did not come whole\n")


class Peer(threading.Thread):
    """Takes so many bytes of one connection, gives these, and keeps what came."""

    def __init__(self, count, given):
        super().__init__(daemon=True)
        self.count, self.given, self.came = count, given, b""
        self.listener = socket.create_server(("127.0.0.1", 0))
        self.address = f"127.0.0.1:{self.listener.getsockname()[1]}"
        self.start()

    def run(self):
        with self.listener, self.listener.accept()[0] as stream:
            stream.settimeout(PATIENCE)
            self.take(stream, self.count)
            try:
                stream.sendall(self.given)
                stream.shutdown(socket.SHUT_WR)
                self.take(stream, 1 << 30)
            except OSError:
                pass  # the program is gone

    def take(self, stream, count):
        pieces, left = [self.came], count - len(self.came)
        while left > 0 and (piece := stream.recv(min(left, 1 << 16))):
            pieces.append(piece)
            left -= len(piece)
        self.came = b"".join(pieces)


def call(lines, count, given, output=subprocess.PIPE):
    """Status and standard error, standard output, and what the peer got."""
    peer = Peer(count, given)
    ran = subprocess.run([PROGRAM, "call", peer.address], input=lines.encode(), stdout=output, stderr=subprocess.PIPE, timeout=PATIENCE)
    peer.join(PATIENCE)
    return (ran.returncode, ran.stderr.decode().replace(peer.address, "ADDRESS")), (ran.stdout or b"").decode(), peer.came


def lines_of(frames):
    return "".join(f"{frame.replace(' ', '')}\n" for frame in frames)


def bytes_of(frames):
    return bytes.fromhex("".join(frames))


def early_ends(report):
    """The lines of the replies that are whole are printed, and the request behind each of them was sent."""
    replies = bytes_of(REPLIES)
    for length in range(len(replies) + 1):
        whole = sum(length >= len(bytes_of(REPLIES[:count])) for count in range(1, 5))
        wanted = DONE if whole == 4 else READ_FAULT, lines_of(REPLIES[:whole]), bytes_of(REQUESTS[:whole + 1])
        report.case(f"replies that end after {length} bytes", "", wanted, call(lines_of(REQUESTS), 36, replies[:length]))


def bad_lines(report):
    for lines, number in BAD_LINES.items():
        wanted = (1, f"path_server: BadLine {number}\n"), "", b""
        report.case(f"bad line {number}", lines[:60], wanted, call(lines, 4, bytes(4)))


def limits(report):
    """The longest request, the longest reply, and one that is longer by a byte."""
    longest = "00600000" + "0" * 12_582_912
    report.case("the longest request", "", (DONE, EMPTY, bytes.fromhex(longest)), call(longest, 6_291_460, bytes(4)))
    body = b"0" * 8_388_608
    line = "00800000" + body.hex() + "\n"
    report.case("the longest reply", "", (DONE, line, bytes(4)), call(EMPTY, 4, bytes.fromhex("00800000") + body))
    report.case("a longer reply", "", (READ_FAULT, "", bytes(4)), call(EMPTY, 4, bytes.fromhex("00800001")))


def others(report):
    report.case("no line", "", (DONE, "", b""), call("", 0, b""))
    report.case("replies beyond the last", "", (DONE, lines_of(REPLIES[:1]), bytes(4)), call(EMPTY, 4, bytes_of(REPLIES[:1]) * 2))
    with open("/dev/full", "wb") as full:
        came = call(EMPTY * 2, 4, bytes(4), full)
        report.case("a fault whose lines cannot be written", "", (READ_FAULT, "", bytes(8)), came)
        came = call(EMPTY * 2, 4, bytes(8), full)
        report.case("lines that cannot be written", "", ((4, "path_server: WriteFault\nstandard output: no storage space\n"), "", bytes(8)), came)


def main():
    report = Report()
    early_ends(report)
    bad_lines(report)
    limits(report)
    others(report)
    report.close("fixed_replies")


main()
