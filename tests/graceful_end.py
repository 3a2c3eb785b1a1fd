#!/usr/bin/env python3
"""How bin/path_server_run ends `path_server listen`: the first SIGTERM or SIGINT lets the open connections go on to their ends, a second ends it at once,
and SIGHUP ends nothing. Connections that come meanwhile are closed without a byte. At the end of a drain's grace no reply is cut.

It does so below a shell and as process 1 of a container, whatever its own standard input is. Where the system doesn't let this user make a space of
processes (unshare), the cases of process 1 are not run, and the script says so. The program is the one that bin/build makes, or the one that the
environment's PATH_SERVER names.
"""
import os
import re
import shutil
import signal
import socket
import subprocess
import sys
import tempfile
import time
from pathlib import Path

from administration import Administered
from lib.running_server import PATIENCE, PROGRAM, TOP, Report, Running, is_turned_away, not_run, open_connection
from lib.traffic import KEYS
from path_client import connect, parse_address

RUN = TOP / "bin/path_server_run"
ALONE = ["unshare", "--user", "--map-root-user", "--pid", "--fork", "--mount-proc", "--kill-child"]
KEY = KEYS[0].hex()
EMPTY = bytes(4)


class Below(Running):
    """The server below bin/path_server_run, itself below `prefix`."""

    def __init__(self, prefix, stdin):
        signal.signal(signal.SIGTERM, lambda *_: sys.exit(143))
        self.errors, self.folder = tempfile.TemporaryFile(), tempfile.TemporaryDirectory()
        words = [*prefix, RUN, "listen", "127.0.0.1:0", KEY]
        self.process = subprocess.Popen(words, stdin=stdin, stdout=subprocess.PIPE, stderr=self.errors, start_new_session=True,
                                        env={**os.environ, "PATH_SERVER": str(PROGRAM), "TMPDIR": self.folder.name})
        try:
            self.address = self.read_address("listen")
        except BaseException:
            self.stop()
            raise
        self.shell = children(self.process.pid)[0] if prefix else self.process.pid

    def stop(self):
        if self.process.poll() is None:
            os.killpg(self.process.pid, signal.SIGKILL)
        super().stop()
        self.folder.cleanup()

    def ended(self):
        """The status and the last lines on standard output, or None where it runs on."""
        try:
            return self.process.wait(PATIENCE), self.process.stdout.read()
        except subprocess.TimeoutExpired:
            return None


def children(process):
    return [int(it) for it in Path(f"/proc/{process}/task/{process}/children").read_text().split()]


def serves_to_the_end(report, name, number, prefix=(), stdin=subprocess.DEVNULL):
    with Below(prefix, stdin) as server:
        report.case(f"{name}: what it left in its folder", "", [], os.listdir(server.folder.name))
        with connect(server.address, KEYS[0]) as client:
            client.put("c", "d", b'{"a":1}')
            os.kill(server.shell, number)
            report.case(f"{name}: a new connection", "", True, is_turned_away(server.address))
            report.case(f"{name}: a request on the open one", "", b'{"a":1}', client.get("c", "d"))
            report.case(f"{name}: while a connection is open", "", None, server.process.poll())
        status, output = server.ended() or (None, b"")
        report.case(f"{name}: status", "", 0, status)
        # connections that came before it took in none count too
        report.case(f"{name}: last line", "", True, bool(re.fullmatch(rb"served \d+ connections, 2 requests\n", output)) or output)


def ends_at_the_second(report, number):
    with Below([], subprocess.DEVNULL) as server, open_connection(server.address) as connection:
        connection.settimeout(PATIENCE)
        # what was not yet accepted is no open connection
        connection.sendall(EMPTY)
        report.case(f"{number}, twice: a reply before", EMPTY, 9, len(connection.recv(9, socket.MSG_WAITALL)))
        os.kill(server.shell, number)
        report.case(f"{number}, twice: a new connection", "", True, is_turned_away(server.address))
        os.kill(server.shell, number)
        status, output = server.ended() or (None, b"")
        report.case(f"{number}, twice: status", "", 128 + signal.SIGTERM, status)
        try:
            rest = connection.recv(1)
        except ConnectionResetError:
            rest = b""
        report.case(f"{number}, twice: the open connection ends", "", b"", rest)


def serves_on(report):
    """Neither the end of its own standard input nor its bytes end it."""
    with Below([], subprocess.PIPE) as server:
        server.process.stdin.write(b"x\n")
        server.process.stdin.close()
        time.sleep(0.2)
        with connect(server.address, KEYS[0]) as client:
            report.case("after the end of its standard input", "", (0, 0, 0), tuple(client.usage()))
        os.kill(server.shell, signal.SIGTERM)
        report.case("then SIGTERM: status", "", 0, (server.ended() or (None,))[0])


def outlives_its_terminal(report):
    """SIGHUP, sent to all processes of a session as its terminal is closed, ends nothing."""
    with Below([], subprocess.DEVNULL) as server:
        with connect(server.address, KEYS[0]) as client:
            client.put("c", "d", b"1")
            os.killpg(server.process.pid, signal.SIGHUP)
            time.sleep(0.3)
            report.case("SIGHUP: it serves on", "", (b"1", None), (client.get("c", "d"), server.process.poll()))
        os.kill(server.shell, signal.SIGTERM)
        report.case("SIGHUP, then SIGTERM: status", "", 0, (server.ended() or (None,))[0])


def tells_of_keys(report):
    """A key file that every user may read is told, and one that only its owner may read is not."""
    with tempfile.TemporaryDirectory() as at:
        keys = Path(at) / "keys"
        for mode, told in ((0o644, f"path_server_run: every user may read the keys in {keys}: chmod 600\n"), (0o600, ""), (0o640, "")):
            # no key, so that it ends at once
            keys.write_text("none")
            keys.chmod(mode)
            for words in (["--keys", keys], [f"--keys={keys}", "--log"]):
                ran = subprocess.run([RUN, "listen", "127.0.0.1:0", *words], stdin=subprocess.DEVNULL, capture_output=True, encoding="utf-8",
                                     env={**os.environ, "PATH_SERVER": str(PROGRAM)}, timeout=PATIENCE)
                report.case(f"a key file of mode {mode:o}", words, (3, told), (ran.returncode, "".join(ran.stderr.splitlines(True)[:-2])))


def slow_reader(address):
    """A connection whose peer's side has room for little of a long reply."""
    connection = socket.socket()
    connection.setsockopt(socket.SOL_SOCKET, socket.SO_RCVBUF, 65_536)
    connection.connect(parse_address(address))
    connection.settimeout(PATIENCE)
    return connection


def rest_of(connection):
    """What comes to the end."""
    return b"".join(iter(lambda: connection.recv(1 << 20), b""))


def drained(report):
    """At the end of a drain's grace a connection at rest is closed. On others each request that came whole is answered, and no reply is cut."""
    text, ask = b'{"b":"' + 3_999_998 * b"y" + b'"}', b"\x05" + bytes(4) + KEYS[0] + b"\x01c$['b','b']"
    query = len(ask).to_bytes(4, "big") + ask
    with Administered() as server:
        with connect(server.address, KEYS[0]) as client:
            client.put("c", "d", text)
        with open_connection(server.address) as connection:
            connection.sendall(query)
            connection.shutdown(socket.SHUT_WR)
            reply = rest_of(connection)
        report.case("a reply of 8 MB", "", True, len(reply) > 8_000_000)
        with slow_reader(server.address) as one, slow_reader(server.address) as several, open_connection(server.address) as quiet, open_connection(server.address) as half:
            one.sendall(query)
            several.sendall(query + query + query[:-1])
            half.sendall(query[:-1])
            heads = [it.recv(4, socket.MSG_WAITALL) for it in (one, several)]
            report.case("replies that are being written", "", [reply[:4]] * 2, heads)
            report.case("a drain", "", 202, server.ask("POST", "/drain?grace=1")[0])
            report.case("one at rest is closed behind the grace", "", b"", quiet.recv(1))
            report.case("so is one with half a request", "", b"", half.recv(1))
            report.case("a reply that was being written comes whole", "", True, rest_of(one) == reply[4:])
            report.case("each whole request is answered, and then comes the end", "", True, rest_of(several) == reply[4:] + reply)
        report.case("the server behind them", "", (0, True), server.ended())
        report.case("how they ended", "", ["Drained"] * 4, sorted(server.ends().values()))
    with Administered() as server:
        with connect(server.address, KEYS[0]) as client:
            client.put("c", "d", text)
        with slow_reader(server.address) as deaf:
            deaf.sendall(query)
            report.case("a reply that nobody reads", "", reply[:4], deaf.recv(4, socket.MSG_WAITALL))
            server.ask("POST", "/drain?grace=0")
            report.case("keeps no server for ever", "", (0, True), server.ended())
            report.case("how it ended", "", ["Drained"], sorted(server.ends().values()))


def at_every_moment(report, count=40):
    """A signal at any moment of the start is not lost: it ends, by the signal or with 0."""
    for place in range(count):
        process = subprocess.Popen([RUN, "listen", "127.0.0.1:0", KEY], stdin=subprocess.DEVNULL, stdout=subprocess.DEVNULL,
                                   env={**os.environ, "PATH_SERVER": str(PROGRAM)}, start_new_session=True)
        time.sleep(place / count * 0.04)
        process.send_signal(signal.SIGTERM)
        try:
            status = process.wait(PATIENCE)
        except subprocess.TimeoutExpired:
            os.killpg(process.pid, signal.SIGKILL)
            status = process.wait()
        report.case(f"SIGTERM after {place / count * 40:.0f} ms", "", True, status in (0, -signal.SIGTERM) or status)


def passes_on(report):
    """The statuses and lines of a program that serves nothing."""
    for program, word, wanted in ((PROGRAM, "0", (3, "path_server: BadKeys\nkey 1 is not 32 hexadecimal digits\n")), ("/none", KEY, (127, None))):
        ran = subprocess.run([RUN, "listen", "127.0.0.1:0", word], stdin=subprocess.DEVNULL, capture_output=True, encoding="utf-8",
                             env={**os.environ, "PATH_SERVER": str(program)}, timeout=PATIENCE)
        report.case(f"{program} that ends at once", word, wanted, (ran.returncode, ran.stderr if wanted[1] else None))


def main():
    # a shell that starts this in the background has it ignore SIGINT, and then no script below can trap it
    signal.signal(signal.SIGINT, signal.default_int_handler)
    report = Report()
    for number in (signal.SIGTERM, signal.SIGINT):
        serves_to_the_end(report, number.name, number)
        ends_at_the_second(report, number)
    serves_on(report)
    drained(report)
    outlives_its_terminal(report)
    tells_of_keys(report)
    at_every_moment(report)
    passes_on(report)
    if shutil.which("unshare") and subprocess.run([*ALONE, "true"], stderr=subprocess.DEVNULL).returncode == 0:
        serves_to_the_end(report, "SIGTERM as process 1", signal.SIGTERM, ALONE)
    else:
        not_run("SIGTERM as process 1", "unshare makes no space of processes here")
    report.close("graceful end")


if __name__ == "__main__":
    main()
