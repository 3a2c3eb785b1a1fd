#!/usr/bin/env python3
"""Times a tenant's GET beside another tenant that repeats a query of 9,000,000 units, in one process and in a process each: bench/apart.py [SECONDS]

Each line has the middle one of five rates and its times. The program is the one that bin/build makes, or the one that the environment's PATH_SERVER
names.
"""
import socket
import subprocess
import sys
import tempfile
import time

from many import middle, rates
from running import GET, PUT, QUERY, compiled, listening, name, need_program, read_exactly, reply, request

TURNS = 5
NOISY, QUIET = bytes([1]) * 16, bytes([2]) * 16
ROWS = b"[" + b",".join([b"[" + b",".join([b"0"] * 3_000) + b"]"] * 150) + b"]"
COSTLY = b"$[?" + b"||".join(b"count(@.*)>%d" % (99_999 - place) for place in range(20)) + b"]"
TEXT = b'{"a":1}'


def stored(port, key, text):
    with socket.create_connection(("127.0.0.1", port)) as connection:
        connection.sendall(request(PUT, name(b"c") + name(b"n") + text, key))
        assert read_exactly(connection, len(reply())) == reply()


def apart(seconds, turns=TURNS):
    """The middle rate and its times, where the tenants share a process and where they do not."""
    keys = f"{NOISY.hex()},{QUIET.hex()}"
    with tempfile.TemporaryDirectory() as folder, listening(keys) as (_, shared), listening(keys) as (_, own):
        load, flood = compiled(folder, "many_load.c"), compiled(folder, "many_flood.c")
        stored(shared, NOISY, ROWS)
        asked = request(GET, name(b"c") + name(b"n"), QUIET), len(reply(TEXT))
        for where, port in {"one process": shared, "a process each": own}.items():
            stored(port, QUIET, TEXT)
            flooding = subprocess.Popen([flood, str(shared), "1", str(seconds * turns + 2), "1"], stdin=subprocess.PIPE, stdout=subprocess.DEVNULL)
            flooding.stdin.write(request(QUERY, name(b"c") + COSTLY, NOISY))
            flooding.stdin.close()
            time.sleep(0.5)
            yield where, middle([rates(load, port, 1, seconds, asked) for _ in range(turns)])
            flooding.wait()


def main():
    need_program()
    for where, row in apart(float(sys.argv[1]) if len(sys.argv) > 1 else 2.0):
        print("{}: {:.0f} a second, median {:.0f}, 99 of 100 within {:.0f} us".format(where, *row), flush=True)


if __name__ == "__main__":
    main()
