#!/usr/bin/env python3
"""Sends the session of docs/PROTOCOL.md, byte by byte as the page has it, to a running server and compares each reply with the page's.

Runs of lines of hexadecimal digits in the page are requests and replies by turns. The page's session in the shell, with `call`, and its
five lines of Python are run as they stand too, on the address of that server. Each name of a status that stands behind a reply is that
of the table, and each status of the table has been met but NoMemory, which no request brings about.
"""
import io
import re
import subprocess
from contextlib import redirect_stdout

from lib.running_server import PROGRAM, TOP, Report, Running, compare_replies, open_connection, talk
from path_client import Request, Status, connect

KEY = bytes.fromhex("00112233445566778899aabbccddeeff")
PAGE = (TOP / "docs/PROTOCOL.md").read_text(encoding="utf-8")
LINE = re.compile(r"    ([0-9a-f]{8}(?: .*?)?)(?: *# (.*))?")


def bytes_of(line):
    """The bytes of a line of the page."""
    data = bytearray()
    for word in line.replace("KEY", KEY.hex()).split():
        digits, _, times = word.partition("*")
        data += bytes.fromhex(digits) * int(times or "1")
    return bytes(data)


def session():
    """Each request of the page with its reply and the name that stands behind that."""
    found = [LINE.fullmatch(line) for line in PAGE.splitlines()]
    lines = [(bytes_of(it[1]), it[2] or "") for it in found if it]
    return [(request, reply, note) for (request, _), (reply, note) in zip(lines[::2], lines[1::2])]


def table():
    return {int(number): name for number, name in re.findall(r"\| (\d+) `[0-9a-f]{2}` \| (\w+) \|", PAGE)}


def filled(status):
    """The requests that bring about what the page says of a quota, and those that leave nothing behind."""
    if status == Status.TooManyCollections:
        names = [chr(letter) for letter in range(ord("a"), ord("p") + 1)]
        return [Request.put(name, "d", "1") for name in names], [Request.drop(name) for name in names]
    if status == Status.TooManyDocuments:
        return [Request.put("c", str(number), "1") for number in range(1_000)], [Request.drop("c")]
    if status == Status.TooManyBytes:
        texts = [" " * 1_048_575 + "1"] * 15 + [" " * 1_048_574 + "1"]
        puts = [Request.put("b", str(number), text) for number, text in enumerate(texts)]
        return [*puts, Request.put("c", "q", "0")], [Request.drop("b"), Request.drop("c")]
    return [], []


def check_session(report, address):
    met = set()
    sent, wanted = [], []
    for request, reply, note in session():
        status = reply[4]
        met.add(status)
        report.case("the name behind a reply of the page", reply, table()[status] if note else "", note.split(",")[0])
        before, after = filled(status)
        sent += [*(it.frame(KEY, 0) for it in before), request, *(it.frame(KEY, 0) for it in after)]
        done = bytes.fromhex("000000050000000000")
        wanted += [done] * len(before) + [reply] + [done] * len(after)
    got, end = talk(open_connection(address), sent)
    compare_replies(report, "the page's session", sent, wanted, got)
    report.case("the end after a framing fault", sent[-1], "end", end)
    report.case("the statuses of the page's session", "", set(table()) - {Status.NoMemory}, met)
    report.case("the statuses of the client", "", table(), {status.value: status.name for status in Status})


def block(start):
    """The lines of an indented block of the page from the one that begins so to the next blank line."""
    text = PAGE[PAGE.index("    " + start):]
    return "".join(line[4:] + "\n" for line in text[:text.index("\n\n")].splitlines())


def check_shell(report, address):
    """The page's lines for `call`, with this server's address in the place of the page's."""
    script = block("key=00112233445566778899aabbccddeeff\n    printf")
    script = script.replace("127.0.0.1:7001", address).replace("bin/path_server", f'"{PROGRAM}"')
    ran = subprocess.run(["sh", "-c", script], cwd=str(TOP), capture_output=True, timeout=60)
    wanted = (0, block("000000050000000001").encode(), b"")
    report.case("the page's session in the shell", script, wanted, (ran.returncode, ran.stdout, ran.stderr))


def check_python(report, address):
    script, output = block("from path_client import connect"), io.StringIO()
    with redirect_stdout(output):
        exec(script.replace("127.0.0.1:7001", address), {})
    report.case("the page's lines of Python", script, block("d $['a']"), output.getvalue())


def main():
    report = Report()
    with Running([KEY], 4) as server:
        check_shell(report, server.address)
        check_python(report, server.address)
        with connect(server.address, KEY) as client:
            left = client.pipeline([Request.get("c", "d"), Request.drop("c")])
            report.case("what the page's first lines left", "", [b'{"a":1}', None], left)
        check_session(report, server.address)
        server.finish(report)
        report.case("the ends on standard error", "", {3: "FrameFault"}, server.ends())
    report.close("docs/PROTOCOL.md")


if __name__ == "__main__":
    main()
