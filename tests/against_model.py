#!/usr/bin/env python3
"""Compares `path_server replay` with a plain model on random scripts: tests/against_model.py [SCRIPTS [SEED]].

Each script interleaves the events of a few connections of two tenants: requests of every command, cut anywhere, some of them malformed,
some behind a framing fault. The model (lib/plain_model.py) keeps a dictionary of dictionaries. It runs the program that bin/path_server
builds, or the one that the environment's PATH_SERVER names.
"""
import os
import random
import subprocess
import sys
from pathlib import Path

from lib.plain_model import STATUS, Server
from lib.traffic import KEYS, Traffic

TOP = Path(__file__).resolve().parent.parent
PROGRAM = os.environ.get("PATH_SERVER") or TOP / "crates/path_program/out/path_program"


def wanted_of(events, seen):
    server, lines = Server(KEYS), []
    for conn, what in events:
        if what == "open":
            server.open(conn)
        elif what == "close":
            server.close(conn)
        else:
            for frame in server.bytes(conn, what):
                seen[frame[4]] = seen.get(frame[4], 0) + 1
                lines.append(f"{conn} {frame.hex()}\n")
    return "".join(lines)


def script_of(chance, events):
    def digits(piece):
        return piece.hex() if chance.randrange(4) else piece.hex().upper()
    text = "".join(f"{conn} {what if isinstance(what, str) else digits(what)}\n" for conn, what in events)
    return text if chance.randrange(5) else text[:-1]


def main():
    scripts = int(sys.argv[1]) if len(sys.argv) > 1 else 1000
    chance = random.Random(int(sys.argv[2]) if len(sys.argv) > 2 else 1)
    seen, differing = {}, 0
    for _ in range(scripts):
        events = list(Traffic(chance).events())
        script, wanted = script_of(chance, events), wanted_of(events, seen)
        ran = subprocess.run([PROGRAM, "replay", ",".join(key.hex() for key in KEYS)], input=script.encode(), capture_output=True)
        if (ran.returncode, ran.stdout.decode(), ran.stderr) != (0, wanted, b""):
            differing += 1
            print(f"on the script\n{script}\nthe model says\n{wanted}and path_server, with status {ran.returncode}\n{ran.stdout.decode()}{ran.stderr.decode()}")
    names = {code: name for name, code in STATUS.items()}
    replies = ", ".join(f"{seen[code]} {names[code]}" for code in sorted(seen))
    print(f"{scripts} scripts, {differing} differing; replies: {replies}")
    sys.exit(1 if differing else 0)


if __name__ == "__main__":
    main()
