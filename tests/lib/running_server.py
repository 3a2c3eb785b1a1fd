"""A running `path_server serve` or `path_server listen`, connections to it byte by byte, and a report of what failed, for the scripts of tests/.

The program is the one that bin/build makes, or the one that the environment's PATH_SERVER names. It picks a free port itself.
Every process that was started has ended when a script ends, however that comes.
"""
import os
import re
import select
import shutil
import signal
import socket
import subprocess
import sys
import tempfile
import time
from pathlib import Path

from path_client import parse_address

TOP = Path(__file__).resolve().parent.parent.parent
PROGRAM = os.environ.get("PATH_SERVER") or str(TOP / "crates/path_program/out/path_program")
PATIENCE = 60.0
GIVE_BACK = {"MALLOC_MMAP_THRESHOLD_": "65536", "MALLOC_TRIM_THRESHOLD_": "65536"}
"""Has glibc give back at once what is freed, so that a process has the memory that is in use and no more."""
END_LINE = re.compile(r"(?:\d{4}-\d\d-\d\dT\d\d:\d\d:\d\dZ )?connection (\d+)(?: from \S+)?: (\w+)")
"""The line of an end: `serve` names the connection's number and the reason, `listen` the time and the peer's address too."""


NOT_RUN = 77
"""The status of a script that was not run, as of automake's tests."""


def not_run(what, why):
    """Tells what a script leaves out, and why, in a line that bin/check counts."""
    print(f"not run: {what}: {why}", flush=True)


def has(what, *tools):
    """Whether these commands are here. What takes them is told as not run where one is missing."""
    missing = [it for it in dict.fromkeys(tools) if not shutil.which(it)]
    if missing:
        not_run(what, f"no {' and no '.join(missing)} here")
    return not missing


def want(*tools):
    """Ends a script as not run where one of these commands is missing."""
    if not has(Path(sys.argv[0]).name, *tools):
        sys.exit(NOT_RUN)


class Report:
    """Counts cases, and prints of each that failed what was sent, wanted and got."""

    def __init__(self):
        self.cases = self.failed = 0

    def case(self, name, sent, wanted, got):
        self.cases += 1
        if wanted != got:
            self.failed += 1
            print(f"{name}\n  sent   {shown(sent)}\n  wanted {shown(wanted)}\n  got    {shown(got)}", flush=True)
        return wanted == got

    def close(self, what):
        """Prints the sum and ends the script with its status."""
        print(f"{what}: {self.cases} cases, {self.failed} of them differ")
        sys.exit(1 if self.failed else 0)


def shown(value):
    """A value for the report: bytes in hexadecimal digits, and the middle of what is long left out."""
    text = bytes(value).hex() if isinstance(value, (bytes, bytearray, memoryview)) else str(value)
    return text if len(text) <= 600 else f"{text[:400]} .. {text[-100:]} ({len(text)} characters)"


class Running:
    """The server for some keys, which serves `count` connections and then ends by itself; `more` is for its process."""

    def __init__(self, keys, count, **more):
        if not os.access(PROGRAM, os.X_OK):
            sys.exit(f"no program {PROGRAM}: bin/build makes it")
        signal.signal(signal.SIGTERM, lambda *_: sys.exit(143))
        self.errors = tempfile.TemporaryFile()
        self.start(["serve", "127.0.0.1:0", ",".join(key.hex() for key in keys), str(count)], stdin=subprocess.DEVNULL, **more)

    def start(self, words, **more):
        self.process = subprocess.Popen([PROGRAM, *words], stdout=subprocess.PIPE, stderr=self.errors, **more)
        try:
            self.address = self.read_address(words[0])
        except BaseException:
            self.stop()
            raise

    def read_address(self, subcommand):
        readable, _, _ = select.select([self.process.stdout], [], [], PATIENCE)
        line = self.process.stdout.readline() if readable else b""
        found = re.fullmatch(rb"listening (\S+:\d+)\n", line)
        if not found:
            sys.exit(f"{PROGRAM} {subcommand}: wanted the line `listening ADDRESS`, got {line!r} and {self.said()!r} on standard error")
        return found[1].decode()

    def __enter__(self):
        return self

    def __exit__(self, *_):
        self.stop()

    def stop(self):
        if self.process.poll() is None:
            self.process.kill()
        self.process.wait()
        self.process.stdout.close()

    def said(self):
        """What stands on standard error by now."""
        self.errors.seek(0)
        return self.errors.read().decode()

    def ends(self):
        """The names of the connections' ends on standard error, by number. A line of another form stands under the number -1."""
        found = [(line, END_LINE.fullmatch(line)) for line in self.said().splitlines()]
        return {int(it[1]) if it else -1: it[2] if it else line for line, it in found}

    def resident(self):
        """The resident memory in KiB, as Linux tells it."""
        return int(re.search(r"VmRSS:\s*(\d+) kB", Path(f"/proc/{self.process.pid}/status").read_text())[1])

    def finish(self, report):
        """After the last connection: the program ends by itself, with status 0 and nothing more on standard output."""
        try:
            output, _ = self.process.communicate(timeout=PATIENCE)
            report.case("the server after its last connection", "", (0, b""), (self.process.returncode, output))
        except subprocess.TimeoutExpired:
            report.case("the server after its last connection", "", "it ends", f"it runs on; standard error has {self.said()!r}")


class Listening(Running):
    """The server of many connections for some keys, with further words of its command line; it ends once its standard input is closed.

    Standard error goes into a file, or where `errors` says; standard input is a pipe, or what `stdin` says.
    """

    def __init__(self, keys, *words, errors=None, stdin=subprocess.PIPE, **more):
        signal.signal(signal.SIGTERM, lambda *_: sys.exit(143))
        self.errors = tempfile.TemporaryFile() if errors is None else errors
        joined = ",".join(key.hex() for key in keys)
        self.start(["listen", "127.0.0.1:0", joined, *words], stdin=stdin, **more)

    def stop(self):
        if self.process.stdin:
            self.process.stdin.close()
        super().stop()

    def processor_seconds(self):
        """The processor time that it used, as Linux tells it."""
        fields = Path(f"/proc/{self.process.pid}/stat").read_text().rpartition(")")[2].split()
        return (int(fields[11]) + int(fields[12])) / os.sysconf("SC_CLK_TCK")

    def finish(self, report, served=None):
        """Closes its standard input: it ends by itself once all connections are closed, and says how many it served, of so many requests."""
        name = "the server after the end of its standard input"
        self.process.stdin.close()
        try:
            output, status = self.process.stdout.read(), self.process.wait(timeout=PATIENCE)
        except subprocess.TimeoutExpired:
            return report.case(name, "", "it ends", f"it runs on; standard error has {self.said()!r}")
        found = re.fullmatch(rb"served (\d+) connections, (\d+) requests\n", output)
        counts = tuple(map(int, found.groups())) if found else output
        return report.case(name, "", (0, served or counts), (status, counts))


def open_connection(address):
    connection = socket.create_connection(parse_address(address), PATIENCE)
    connection.setsockopt(socket.IPPROTO_TCP, socket.TCP_NODELAY, 1)
    return connection


def is_turned_away(address):
    """Whether connections that are made come to be closed at once, without a byte. None may be refused meanwhile."""
    until = time.monotonic() + PATIENCE
    while time.monotonic() < until:
        try:
            with open_connection(address) as connection:
                connection.settimeout(0.1)
                return connection.recv(1) == b""
        except ConnectionRefusedError:
            return False
        except socket.timeout:
            # it is served still
            pass
        except ConnectionError:
            return True
    return False


def talk(connection, pieces, patience=PATIENCE):
    """Sends pieces, each by a call of its own, and takes in what comes meanwhile; then shuts the sending side down and reads on to the end.

    Gives the bytes that came, and the end: `end`, `reset`, or `silence` where nothing moved for `patience` seconds.
    """
    connection.setblocking(False)
    pieces, rest, sending, received = iter(pieces), b"", True, bytearray()
    while True:
        if sending and not rest:
            rest = next(pieces, b"")
            if not rest:
                sending = shut(connection)
        readable, writable, _ = select.select([connection], [connection] if sending else [], [], patience)
        if not readable and not writable:
            return bytes(received), "silence"
        try:
            if writable:
                rest = rest[connection.send(rest):]
        except OSError:
            sending = False
        try:
            piece = connection.recv(1 << 20) if readable else None
        except ConnectionError:
            return bytes(received), "reset"
        if piece == b"":
            return bytes(received), "end"
        received += piece or b""


def shut(connection):
    """Shuts the sending side down, where the other side has not ended the connection before; nothing more is to be sent."""
    try:
        connection.shutdown(socket.SHUT_WR)
    except OSError:
        pass
    return False


def reset(connection):
    """Ends a connection by a reset."""
    connection.setsockopt(socket.SOL_SOCKET, socket.SO_LINGER, b"\x01\x00\x00\x00\x00\x00\x00\x00")
    connection.close()


def frames_of(data):
    """A stream cut into its frames, lengths included; the last may be in part."""
    frames, at = [], 0
    while at < len(data):
        length = 4 + int.from_bytes(data[at:at + 4], "big")
        frames.append(bytes(data[at:at + length]))
        at += length
    return frames


def compare_replies(report, name, requests, wanted, got):
    """One case: the replies to a connection's requests. Where they differ, the first that does is shown with its request."""
    if b"".join(wanted) == got:
        return report.case(name, "", True, True)
    replies = frames_of(got)
    for place, (request, reply) in enumerate(zip(requests, wanted)):
        found = replies[place] if place < len(replies) else b""
        if found != reply:
            return report.case(f"{name}, request {place} of {len(requests)}", request, reply, found)
    return report.case(f"{name}, behind the last reply", requests[-1:], b"", b"".join(replies[len(wanted):]))
