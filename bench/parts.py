"""The parts of the report: bench/parts.py PART SETTINGS prints what a part measures as JSON, and everything else on standard error.

bench/report.py runs each part as a process of its own, so that one that fails or hangs takes nothing else along.
"""
import json
import os
import resource
import subprocess
import sys
import tempfile
import time
from pathlib import Path

import hostile
import many
import memory
import program
import sockets
from running import LIBRARY, TOP, compiled, items, need_program

NAMES = ("connections", "rounds", "queries", "memory", "beside", "reading", "unproved", "index", "compiled", "store", "hub", "hostile")
# those that call the crates directly, through the library of crates/path_bench
LINKED = ("reading", "index", "compiled", "store", "hub")


class Missing(Exception):
    """What a part needs and is not here."""


def library():
    if not os.access(LIBRARY, os.R_OK):
        raise Missing(f"no library {LIBRARY}: bin/build path_bench makes it")
    return LIBRARY


def texts(settings, folder):
    """The files of texts: those of a folder that was named, and one that is made."""
    named = sorted(Path(settings["texts"]).glob("*.json")) if settings["texts"] else []
    named = [it for it in named if it.stat().st_size > 100_000]
    made = Path(folder) / "orders_1m.json"
    made.write_bytes(items(1 << 20))
    return [made] if settings["quick"] else [*named, made]


def tables(printed):
    """The tables that a program printed: each a list of rows of cells, the first one its head."""
    found, last = [], None
    for line in printed.splitlines():
        if not line.startswith("|"):
            last = None
            continue
        if last is None:
            last = []
            found.append(last)
        if not line.startswith("|---"):
            last.append([cell.strip() for cell in line.strip().strip("|").split("|")])
    return found


def printed_by(folder, source, words=(), link=(), seconds=120):
    made = compiled(folder, source, library(), *link)
    ran = subprocess.run([made, *words], stdout=subprocess.PIPE, encoding="utf-8", timeout=seconds, check=True)
    return tables(ran.stdout)


# ---- what users ask

def connections(settings):
    seconds, turns = (0.2, 1) if settings["quick"] else (0.7, 5)
    rows = list(many.compare(seconds, turns))
    return {"rows": rows, "idle": {name: many.idle(*it, 500 if settings["quick"] else many.IDLE) for name, it in many.STILL.items()}}


def rounds(settings):
    how = (0.02, 1) if settings["quick"] else (1.0, 5)
    return {"echo": list(sockets.beside_echo(*how)), "redis": list(sockets.of_redis(*how)), "postgres": list(sockets.of_postgres(how[0]))}


def queries(settings):
    lengths = program.LENGTHS[:2] if settings["quick"] else program.LENGTHS
    rows = list(program.by_length(lengths, 0.1 if settings["quick"] else 2.0))
    return {"rows": rows, "served": [[it, *sockets.filtered(it, 0.02 if settings["quick"] else 1.0)] for it in lengths]}


def by_documents(settings):
    kinds = ((271, (1_000,)),) if settings["quick"] else memory.KINDS
    return {"rows": list(memory.by_documents(kinds))}


def beside(settings):
    return {"rows": list(many.beside(*((0.2, 1) if settings["quick"] else (1.0, 3))))}


# ---- the reader

def python_rate(file):
    """How fast Python's json reads a file, in GB/s: the best of some runs."""
    text, best = file.read_bytes(), float("inf")
    for _ in range(15):
        begin = time.perf_counter()
        json.loads(text)
        best = min(best, time.perf_counter() - begin)
    return len(text) / best / 1e9


def reading(settings):
    with tempfile.TemporaryDirectory() as folder:
        files = texts(settings, folder)
        head = Path("/usr/include/simdjson.h")
        if not head.exists():
            raise Missing("no simdjson: its headers are Debian's libsimdjson-dev")
        by_file, by_shape = printed_by(folder, "texts.cpp", files, ["-lsimdjson"])
        return {"files": by_file, "shapes": by_shape, "bytes": {it.name: it.stat().st_size for it in files},
                "python": {it.name: python_rate(it) for it in files}}


def index(settings):
    with tempfile.TemporaryDirectory() as folder:
        made, rows = compiled(folder, "index.cpp", library(), "-lsimdjson"), []
        for file in texts(settings, folder):
            ran = subprocess.run([made, file], stdout=subprocess.PIPE, encoding="utf-8", timeout=120, check=True)
            head, row = tables(ran.stdout)[0]
            rows = rows or [head]
            rows.append(row)
        return {"tables": [rows]}


# ---- the first answer

def unproved(settings):
    """How long the programs take to build without a proof, both at a time as the first call builds them."""
    with tempfile.TemporaryDirectory() as folder:
        began = time.monotonic()
        running = [subprocess.Popen([TOP / "bin/unproved", it, Path(folder) / it]) for it in ("path_client", "path_program")[:1 if settings["quick"] else 2]]
        if any([it.wait() for it in running]):
            raise Missing("bin/unproved made no program")
        used = resource.getrusage(resource.RUSAGE_CHILDREN)
        return {"wall": time.monotonic() - began, "processor": used.ru_utime + used.ru_stime}


# ---- the inside

def compiled_queries(settings):
    with tempfile.TemporaryDirectory() as folder:
        text = Path(folder) / "orders.json"
        text.write_bytes(items(1 << 20))
        return {"tables": [*printed_by(folder, "queries.cpp", [text]), *printed_by(folder, "decimals.cpp")]}


def store(_):
    with tempfile.TemporaryDirectory() as folder:
        return {"tables": printed_by(folder, "store.cpp")}


def hub(_):
    with tempfile.TemporaryDirectory() as folder:
        return {"tables": [*printed_by(folder, "hub.cpp"), *printed_by(folder, "frames.cpp")]}


def hostile_rows(settings):
    rows = list(hostile.measured(5.0, "10,000,000 units of h" if settings["quick"] else ""))
    return {"rows": rows}


PARTS = dict(zip(NAMES, (connections, rounds, queries, by_documents, beside, reading, unproved, index, compiled_queries, store, hub, hostile_rows)))


def main():
    need_program()
    result = os.fdopen(os.dup(1), "w", encoding="utf-8")
    os.dup2(2, 1)
    many.allow_descriptors()
    try:
        json.dump(PARTS[sys.argv[1]](json.loads(sys.argv[2])), result)
    except Missing as error:
        sys.exit(f"bench/parts.py: {error}")


if __name__ == "__main__":
    main()
