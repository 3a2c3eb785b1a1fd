#!/usr/bin/env python3
"""Lines of the log on a full disk and into a closed pipe: tests/lost_lines.py

A limit on the size of files stands for the full disk: at it the system takes a part of a line, or nothing. Each line that is there is whole, each
that is not is counted, and once there is room a line that was begun is ended before the next one.
"""
import os
import re
import resource
import signal
import tempfile
import time

from administration import Administered
from lib.running_server import END_LINE, PATIENCE, Report, open_connection

NO_FRAME = b"\xff\xff\xff\xff"


def limited():
    """Of the process that is to be: a write above the limit fails, and a closed pipe ends nothing."""
    signal.signal(signal.SIGXFSZ, signal.SIG_IGN)
    signal.signal(signal.SIGPIPE, signal.SIG_IGN)


def ends(server, count):
    """Opens connections that end by a framing fault, a line each, below the most lines of a second."""
    for _ in range(count):
        with open_connection(server.address) as connection:
            connection.sendall(NO_FRAME)
            while connection.recv(1 << 16):
                pass
        time.sleep(0.02)


def counted(server):
    numbers = server.numbers()
    return int(numbers["lost_lines_total"]), int(numbers["dropped_lines_total"])


def on_a_full_disk(report):
    with tempfile.TemporaryFile() as errors, Administered(errors=errors, preexec_fn=limited) as server:
        ends(server, 3)
        # room for a part of the next line
        room = len(server.said().encode()) + 10
        resource.prlimit(server.process.pid, resource.RLIMIT_FSIZE, (room, resource.RLIM_INFINITY))
        ends(server, 5)
        report.case("the disk is full", "", room, os.fstat(errors.fileno()).st_size)
        lost, dropped = counted(server)
        report.case("of five lines one was begun", "", (4, 0), (lost, dropped))
        resource.prlimit(server.process.pid, resource.RLIMIT_FSIZE, (resource.RLIM_INFINITY, resource.RLIM_INFINITY))
        ends(server, 4)
        lines = server.said().splitlines(keepends=True)
        numbers = [int(END_LINE.fullmatch(line[:-1])[1]) if END_LINE.fullmatch(line[:-1]) and line.endswith("\n") else line for line in lines]
        # connections have their numbers from 0 on
        report.case("each line is whole", "", [0, 1, 2, 3, 8, 9, 10, 11], numbers)
        report.case("and no line more is lost", "", (4, 0), counted(server))
        server.finish(report)


def into_a_closed_pipe(report):
    reading, writing = os.pipe()
    with os.fdopen(writing, "wb") as errors, Administered(errors=errors, preexec_fn=limited) as server:
        ends(server, 2)
        until, text = time.monotonic() + PATIENCE, b""
        while text.count(b"\n") < 2 and time.monotonic() < until:
            text += os.read(reading, 65_536)
        report.case("lines into a pipe", "", 2, len(re.findall(rb"connection \d+ from \S+: FrameFault\n", text)))
        os.close(reading)
        ends(server, 5)
        report.case("lines into a closed pipe", "", 5, sum(counted(server)))


def main():
    report = Report()
    on_a_full_disk(report)
    into_a_closed_pipe(report)
    report.close("lost lines")


main()
