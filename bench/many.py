#!/usr/bin/env python3
"""Times requests over many connections at once beside an epoll loop in C with the same frames, and beside Redis: bench/many.py [SECONDS].

It compiles bench/many_echo.c and bench/many_load.c (cc), starts the program as `path_server listen`, the loop in C and, where it is
installed, Redis, and loads them in turns. Each line has for each of them the middle one of five rates and the times of a request. Then come
the bytes that an idle connection takes in the process, and the times of requests beside others that take long or come without a pause,
also of another tenant (bench/many_flood.c); of another tenant's so do those of Redis, and of PostgreSQL by pgbench. The program is the one that
bin/build makes, or the one that the environment's PATH_SERVER names.
"""
import contextlib
import resource
import socket
import subprocess
import sys
import tempfile
import threading
import time
from pathlib import Path

from running import (KEY, OTHER, compiled, get, listening, need_program, postgres, put, query, read_exactly, redis, redis_words, reply, request, resident,
                     started, USAGE)

TURNS = 5
COUNTS = (1, 100, 1_000, 10_000)
IDLE = 5_000
OTHERS = (1, 100)
LARGE = b"[" + b",".join(b'{"id":%d,"price":%d,"stock":%d}' % (at, at % 97, at % 1_009) for at in range(29_500)) + b"]"
COSTLY = b"$[?@.price<10&&@.stock>250].id"
# what is not there: the request, and how long the reply is
OURS, OF_REDIS = (get(b"n"), 9), (redis_words(b"GET", b"n"), 5)
STILL = {"is idle after a request": (request(USAGE), 21), "announces the longest body and sends nothing": ((6_291_456).to_bytes(4, "big"), 0)}
# other connections: what they ask, how many they are, and how many requests each has on its way; 0 as many as there is room for
BESIDE = {"nothing else": None, "one connection that repeats a query on 1 MiB": (query(COSTLY, b"q"), 1, 1),
          "four that send GET without a pause": (get(b"n"), 4, 0), "four with 64 queries on 1 MiB on their way": (query(COSTLY, b"q"), 4, 64)}
# another tenant's connections, each with one query on its way: on many documents of 64 KiB, and on one as long as may be; Redis does the same by a script
PART = LARGE[: LARGE.rindex(b",{", 0, 65_535)] + b"]"
PARTS = 150
WHOLE = b"[" + b",".join(b'{"id":%d,"price":%d,"stock":%d}' % (at, at % 97, at % 1_009) for at in range(113_000)) + b"]"
OF_ANOTHER = {"one connection that repeats a query on 150 documents of 64 KiB": (b"p", 1), "10 such connections": (b"p", 10),
              "100 such connections": (b"p", 100), "one connection that repeats a query on a document of 4 MiB": (b"w", 1)}
# and queries that cost most: one whose one child's filter costs 6,900,000 units, on a chain of arrays of 30 KiB, and a third tenant's, which goes over
# 2,000,000 children five times without a stop
NESTED, CHAIN = b"$[?count(@..[?@..*])>9]", b"[" * 231 + b",".join([b"0"] * 15_000) + b"]" * 231
WILDS, ZEROS, THIRD = b"$[*,*,*,*,*]", b"[" + b",".join([b"0"] * 2_097_000) + b"]", bytes([3]) * 16
DEAREST = {"one connection that repeats a filter in a filter": (b"c", 1), "10 such connections, each with a filter in a filter": (b"c", 10),
           "100 such connections, each with a filter in a filter": (b"c", 100),
           "one connection that repeats five wildcards on 4 MiB of zeros": (b"z", 1)}
ASKED = {b"p": COSTLY, b"w": COSTLY, b"c": NESTED, b"z": WILDS}
SCRIPT = b"""local n = 0
for _, text in ipairs(redis.call('LRANGE', ARGV[1], 0, -1)) do
    for _, it in ipairs(cjson.decode(text)) do if it.price < 10 and it.stock > 250 then n = n + 1 end end
end
return n"""
IN_SQL = "select count(*) from t, jsonb_path_query(d, '$[*] ? (@.price < 10 && @.stock > 250).id') where c = '{}'"


def times(load, port, count, seconds, asked=OURS):
    """Requests a second, and the median, the 99th percentile and the longest of their times in microseconds."""
    words = [load, str(port), str(count), str(seconds), str(asked[1])]
    ran = subprocess.run(words, check=True, input=asked[0], stdout=subprocess.PIPE)
    return tuple(map(float, ran.stdout.split()))


def rates(load, port, count, seconds, asked=OURS):
    """Requests a second, and the median and the 99th percentile of their times in microseconds."""
    return times(load, port, count, seconds, asked)[:3]


def rates_if_answered(load, port, count, seconds, asked):
    """The same, and 0 requests of five seconds each where no reply came for so long: bench/many_load.c then gives up."""
    try:
        return rates(load, port, count, seconds, asked)
    except subprocess.CalledProcessError:
        return 0.0, 5e6, 5e6


def middle(rows):
    """The row with the middle rate."""
    return sorted(rows)[len(rows) // 2]


def allow_descriptors():
    """As many descriptors as the system lets this process have."""
    _, most = resource.getrlimit(resource.RLIMIT_NOFILE)
    resource.setrlimit(resource.RLIMIT_NOFILE, (most, most))
    return most


def compare(seconds, turns=TURNS, counts=COUNTS):
    """For each number of connections, the middle row of each server by its name."""
    most = allow_descriptors()
    with contextlib.ExitStack() as stack:
        folder = stack.enter_context(tempfile.TemporaryDirectory())
        load, echo = compiled(folder, "many_load.c"), compiled(folder, "many_echo.c")
        servers = {"path_server": (stack.enter_context(listening())[1], OURS), "loop in C": (stack.enter_context(started([echo]))[1], OURS)}
        port = stack.enter_context(redis())[1]
        if port:
            servers["Redis"] = (port, OF_REDIS)
        for count in counts:
            if count + 100 > most:
                continue
            rows = {name: [] for name in servers}
            for _ in range(turns):
                for name, (port, asked) in servers.items():
                    rows[name].append(rates(load, port, count, seconds, asked))
            yield count, {name: middle(them) for name, them in rows.items()}


def idle(sent, replies, connections=IDLE):
    """How many bytes a connection takes in the process that sent these bytes, got a reply of so many, and then does nothing."""
    with listening() as (process, port), contextlib.ExitStack() as opened:
        before = resident(process)
        for _ in range(connections):
            connection = opened.enter_context(socket.create_connection(("127.0.0.1", port)))
            connection.sendall(sent)
            read_exactly(connection, replies)
        time.sleep(1)
        return (resident(process) - before) / connections


def beside(seconds, turns=TURNS):
    """The times of requests on so many connections beside others."""
    with tempfile.TemporaryDirectory() as folder, listening() as (_, port):
        load, flood = compiled(folder, "many_load.c"), compiled(folder, "many_flood.c")
        with socket.create_connection(("127.0.0.1", port)) as connection:
            connection.sendall(put(b"d", LARGE, b"q"))
            assert read_exactly(connection, 9) == reply()
        for name, others in BESIDE.items():
            for count in OTHERS:
                rows = []
                for _ in range(turns):
                    if others:
                        words = [flood, str(port), str(others[1]), str(seconds + 1), str(others[2])]
                        flooding = subprocess.Popen(words, stdin=subprocess.PIPE, stdout=subprocess.DEVNULL)
                        flooding.stdin.write(others[0])
                        flooding.stdin.close()
                        time.sleep(0.5)
                    rows.append(rates(load, port, count, seconds))
                    if others:
                        flooding.wait()
                yield name, count, middle(rows)


def stored(port, requests, wanted=None):
    """Sends each request once, and returns the last reply, which has fewer bytes than one read gives. Each reply is to be the wanted one, if one is named."""
    with socket.create_connection(("127.0.0.1", port)) as connection:
        for request in requests:
            connection.sendall(request)
            last = connection.recv(64)
            assert wanted in (None, last), last
    return last


def beside_another(seconds, turns=TURNS):
    """The times of requests on one connection, alone and beside another tenant's queries, and the same of Redis where it is installed, but for
    the queries that cost most."""
    texts = [*((b"d%d" % at, PART, b"p") for at in range(PARTS)), (b"d", WHOLE, b"w"), (b"d", CHAIN, b"c")]
    with contextlib.ExitStack() as stack:
        folder = stack.enter_context(tempfile.TemporaryDirectory())
        load, flood = compiled(folder, "many_load.c"), compiled(folder, "many_flood.c")
        port, theirs = stack.enter_context(listening(f"{KEY.hex()},{OTHER.hex()},{THIRD.hex()}"))[1], stack.enter_context(redis())[1]
        stored(port, [*(put(*words, OTHER) for words in texts), put(b"d", ZEROS, b"z", THIRD)], reply())
        servers = {"path_server": (port, OURS, lambda to: (query(ASKED[to], to, THIRD if to == b"z" else OTHER), []))}
        if theirs:
            stored(theirs, [redis_words(b"RPUSH", to, text) for _, text, to in texts if to != b"c"])
            asked = {to: redis_words(b"EVAL", SCRIPT, b"0", to) for to in (b"p", b"w")}
            lengths = {to: len(stored(theirs, [it])) for to, it in asked.items()}
            servers["Redis"] = (theirs, OF_REDIS, lambda to: (asked[to], [str(lengths[to])]))
        for name, others in [("nothing else", None), *OF_ANOTHER.items(), *DEAREST.items()]:
            asking = ["path_server"] if name in DEAREST else list(servers)
            rows = {it: [] for it in asking}
            for _ in range(turns):
                for it in asking:
                    port, ask, query_on = servers[it]
                    if others:
                        request, more = query_on(others[0])
                        words = [flood, str(port), str(others[1]), str(seconds + 1), "1", *more]
                        flooding = subprocess.Popen(words, stdin=subprocess.PIPE, stdout=subprocess.DEVNULL)
                        flooding.stdin.write(request)
                        flooding.stdin.close()
                        time.sleep(0.5)
                    rows[it].append((times if it == "path_server" else rates_if_answered)(load, port, 1, seconds, ask))
                    if others:
                        flooding.wait()
            yield name, {it: middle(them) for it, them in rows.items()}


def timed_statement(folder, ask, name, statement, connections, seconds):
    """Rate, median and 99th percentile of a prepared statement on so many connections, by what pgbench logs of each."""
    script = Path(folder, f"{name}.sql")
    script.write_text(statement + ";\n", encoding="utf-8")
    ask("pgbench", "-n", "-M", "prepared", "-c", str(connections), "-T", str(round(seconds)), "-f", str(script), "-l", "--log-prefix", f"{folder}/{name}")
    took = []
    for log in Path(folder).glob(f"{name}.*[0-9]"):
        took += (float(line.split()[2]) for line in log.read_text(encoding="utf-8").splitlines())
        log.unlink()
    took.sort()
    return len(took) / round(seconds), took[len(took) // 2], took[len(took) * 99 // 100]


def of_postgres_beside_another(seconds, turns=TURNS):
    """What `beside_another` has, of PostgreSQL with the same texts in a column of jsonb; nothing where it is not installed."""
    with tempfile.TemporaryDirectory() as folder, postgres() as ask:
        if not ask:
            return
        Path(folder).chmod(0o777)
        rows = "".join(f"insert into t values ('p', {at}, $${PART.decode()}$$);" for at in range(PARTS)) + f"insert into t values ('w', 0, $${WHOLE.decode()}$$);"
        ask("psql", "-q", given=f"create table t (c text, id int, d jsonb, primary key (c, id)); {rows}")
        for name, others in [("nothing else", None), *OF_ANOTHER.items()]:
            found = []
            for _ in range(turns):
                if others:
                    statement = IN_SQL.format(others[0].decode())
                    flooding = threading.Thread(target=timed_statement, args=(folder, ask, "others", statement, others[1], seconds + 2))
                    flooding.start()
                    time.sleep(0.5)
                found.append(timed_statement(folder, ask, "asked", "select d from t where c = 'n' and id = 0", 1, seconds))
                if others:
                    flooding.join()
            yield name, middle(found)


def main():
    need_program()
    allow_descriptors()
    seconds = float(sys.argv[1]) if len(sys.argv) > 1 else 2.0
    told = "{}: {:.0f} a second, median {:.0f}, 99 of 100 within {:.0f} us"
    for count, rows in compare(seconds):
        print(f"{count} connections:", "; ".join(told.format(name, *row) for name, row in rows.items()), flush=True)
    for name, (sent, replies) in STILL.items():
        print(f"a connection that {name}: {idle(sent, replies):.0f} bytes in the process", flush=True)
    for name, count, row in beside(seconds):
        print(told.format(f"{count} beside {name}", *row), flush=True)
    for name, rows in beside_another(seconds):
        told_all = ((told if len(row) < 4 else told + ", longest {:.0f} us").format(it, *row) for it, row in rows.items())
        print(f"one of another tenant beside {name}:", "; ".join(told_all), flush=True)
    for name, row in of_postgres_beside_another(seconds):
        print(f"one of another tenant beside {name}:", told.format("PostgreSQL", *row), flush=True)


if __name__ == "__main__":
    main()
