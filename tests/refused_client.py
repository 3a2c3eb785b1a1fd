#!/usr/bin/env python3
"""Lets each call for memory, each read and each write of path_client fail: tests/refused_client.py [SHARE [SEED]], on Linux.

As tests/refused_growths.py does for the server, with its library. A run ends with the output of one in which no call fails, or with a
status of a fault and a front of that output. What it says it has put is there, as it was put. No run takes more than 20 seconds. Where
there is no C compiler, nothing is run.
"""
import os
import random
import re
import subprocess
import sys
import tempfile
from pathlib import Path

from path_client import Request, connect
from refused_growths import Calls, Refusals
from lib.running_server import TOP, Listening, Report, want

PROGRAM = os.environ.get("PATH_CLIENT") or str(TOP / "crates/path_client/out/path_client")
KEY = bytes(range(16))
TEXT = b'{"items":[{"name":"tea","price":4},\n{"name":"pot","price":24.5}]}'
# a fault, and behind it the file or the address with the system's reason
FAULT = re.compile(rb"path_client: (NoMemory|ReadFault|WriteFault|NetFault)\b.*\n|\{\"error\":\"(NoMemory|ReadFault|WriteFault|NetFault)\".*\}\n|(standard input|standard output|[\w.:/-]+): [a-z ]+\n")
LINES = b'{"name":"a","text":"[1]"}\nnone\n{"name":"b","text":"[2]"}\n'


def ended(words, text, environment, address, key):
    more = {"PATH_SERVER_AT": address, "PATH_SERVER_KEY_FILE": key}
    try:
        ran = subprocess.run([PROGRAM, *words], input=text, capture_output=True, timeout=20, env={**environment, **more})
    except subprocess.TimeoutExpired:
        return "no end", b"", b""
    return ran.returncode, ran.stdout, ran.stderr


def fits(wanted, got):
    """Whether a run's end is the one in which no call fails, or one of a fault. Lines on standard error may be lost."""
    lines, known = got[2].splitlines(True), wanted[2].splitlines(True)
    if got[:2] == wanted[:2]:
        return all(line in known for line in lines)
    told = [line for line in lines if not FAULT.fullmatch(line)]
    return got[0] in (3, 4) and wanted[1].startswith(got[1]) and all(line in known for line in told)


def main():
    share = int(sys.argv[1]) if len(sys.argv) > 1 else 100
    want("cc")
    report = Report()
    with tempfile.TemporaryDirectory() as made, Listening([KEY]) as server:
        room = Path(made)
        (room / "key").write_text(KEY.hex())
        calls = Calls(room)
        refusals = Refusals(report, calls, share, random.Random(int(sys.argv[2]) if len(sys.argv) > 2 else 7))
        with connect(server.address, KEY) as client:
            client.pipeline([Request.put("c", "d", TEXT), Request.put("c", "e", b'"' + b"x" * 200_000 + b'"')])
            for words, text in ((["get", "c", "d"], b""), (["list", "c"], b""), (["query", "c", "$.items[*]"], b""),
                                (["query", "c", "$.items[*]", "--json"], b""), (["dump", "c"], b""), (["usage"], b""),
                                (["put", "t", "a", ], b"[3]"), (["load", "t"], LINES), (["load", "t", "--name", "$.id"], b'{"id":"a"}\n')):
                wanted = ended(words, text, calls.environment(), server.address, str(room / "key"))
                client.pipeline([Request.drop("t")])

                def run(name, kind, environment, words=words, text=text, wanted=wanted):
                    got = ended(words, text, environment, server.address, str(room / "key"))
                    report.case(name, text, wanted, wanted if fits(wanted, got) else got)
                    if got[0] == 0 and words[0] == "put":
                        report.case(f"{name}: what was put", text, text, client.get("t", "a"))
                    client.pipeline([Request.drop("t")])
                    return got != wanted

                refusals.each(" ".join(words), run)
        print(f"{refusals.runs} runs, {refusals.faults} of them with a fault")
    report.close("path_client with calls that fail")


if __name__ == "__main__":
    main()
