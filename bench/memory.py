#!/usr/bin/env python3
"""Measures the resident memory of a server by the documents that it keeps, beside Redis with the same texts as strings: bench/memory.py.

Each tenant puts a thousand documents into one collection. The program is the one that bin/build makes, or the one that the environment's
PATH_SERVER names.
"""
import socket
import threading

from running import items, listening, need_program, put, redis, redis_words, resident

KINDS = ((271, (1_000, 10_000, 100_000)), (10_000, (1_000, 10_000)))
TENANT = 1_000


def send_all(port, frames, length):
    """Sends the frames, while a thread reads replies of that length each."""
    with socket.create_connection(("127.0.0.1", port)) as connection:
        left = length * len(frames)

        def read():
            nonlocal left
            while left:
                some = connection.recv(1 << 16)
                if not some:
                    return
                left -= len(some)

        reader = threading.Thread(target=read)
        reader.start()
        connection.sendall(b"".join(frames))
        reader.join()
        if left:
            raise ConnectionError(f"{left} bytes of the replies did not come")


def fill(text, count):
    """The bytes by which that many documents let the server and Redis grow, None for Redis where it is not installed."""
    keys = [at.to_bytes(16, "big") for at in range(1, 1 + -(-count // TENANT))]
    with listening(",".join(key.hex() for key in keys)) as (process, port):
        before = resident(process)
        for key in keys:
            send_all(port, [put(b"d%d" % at, text, key=key) for at in range(TENANT)], 9)
        ours = resident(process) - before
    with redis() as (process, port):
        if not port:
            return ours, None
        before = resident(process)
        for key in keys:
            send_all(port, [redis_words(b"SET", key.hex().encode() + b"/c/d%d" % at, text) for at in range(TENANT)], 5)
        return ours, resident(process) - before


def by_documents(kinds=KINDS):
    """For each length of a text and number of documents, how the server and Redis grow."""
    for length, counts in kinds:
        for count in counts:
            yield length, count, *fill(items(length), count)


def main():
    need_program()
    for length, count, ours, theirs in by_documents():
        told = f"; Redis {theirs / 2**20:.1f} MiB, {theirs / count:.0f}" if theirs else ""
        print(f"{count} documents of {length} bytes: {ours / 2**20:.1f} MiB, {ours / count:.0f} bytes each{told}", flush=True)


if __name__ == "__main__":
    main()
