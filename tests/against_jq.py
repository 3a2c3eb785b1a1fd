#!/usr/bin/env python3
"""Compares `path_server query` with jq on random texts and queries: tests/against_jq.py [ROUNDS [SEED]].

Each query is written twice, as a JSONPath query and as a jq program that says the same in jq's terms (a slice by the bounds of
RFC 9535, section 2.3.4.2.2). Paths, values and their order have to agree. It needs jq (Debian: jq), and runs
the program that bin/build makes, or the one that the environment's PATH_SERVER names. Numbers are small, since jq reads them as doubles.
"""
import json
import os
import random
import subprocess
import sys
from pathlib import Path

from lib.random_queries import Queries, document, quoted
from lib.running_server import want

TOP = Path(__file__).resolve().parent.parent
PROGRAM = os.environ.get("PATH_SERVER") or TOP / "crates/path_program/out/path_program"
QUERIES_PER_TEXT = 40

PRELUDE = r"""
def member(n): if type == "object" and has(n) then .[n] else empty end;
def wild: if type == "object" or type == "array" then .[] else empty end;
def at(i): if type != "array" then empty
  elif i >= 0 then (if i < length then .[i] else empty end)
  else (length as $n | if $n + i >= 0 then .[$n + i] else empty end) end;
def clamp(low; high): if . < low then low elif . > high then high else . end;
def from_end($n): if . < 0 then . + $n else . end;
def slice($from; $to; $step): if type != "array" or $step == 0 then empty else length as $n
  | (if $from == null then (if $step > 0 then 0 else $n - 1 end) else ($from | from_end($n)) end) as $first
  | (if $to == null then (if $step > 0 then $n else - $n - 1 end) else ($to | from_end($n)) end) as $last
  | (if $step > 0 then [($first | clamp(0; $n)), ($last | clamp(0; $n))]
     else [($first | clamp(-1; $n - 1)), (if $to == null then -1 else ($last | clamp(-1; $n - 1)) end)] end) as $bounds
  | .[range($bounds[0]; $bounds[1]; $step)] end;
def ordered: type == "number" or type == "string";
def less(x; y): (x | length) == 1 and (y | length) == 1
  and (x[0] | ordered) and (x[0] | type) == (y[0] | type) and x[0] < y[0];
def long: if length == 1 and (.[0] | type == "string" or type == "array" or type == "object") then [.[0] | length] else [] end;
def lone: if length == 1 then . else [] end;
"""


def normalized(path):
    """The normalized path (RFC 9535, section 2.7)."""
    return "$" + "".join(f"[{step}]" if isinstance(step, int) else f"[{quoted(step)}]" for step in path)


def of_jq(text, programs):
    """For each program its pairs of a path and a value, or nothing where jq has none."""
    lists = ", ".join(f"[path({program}) as $p | [$p, getpath($p)]]" for program in programs)
    words = ["jq", "-c", f"{PRELUDE} . as $root | {lists}"]
    done = subprocess.run(words, input=text, capture_output=True, text=True, check=True)
    return [[(normalized(path), value) for path, value in json.loads(line)] for line in done.stdout.splitlines()]


def of_program(text, query):
    done = subprocess.run([PROGRAM, "query", query], input=text, capture_output=True, text=True)
    if done.returncode != 0:
        return done.stderr.strip()
    lines = [line.split("\t", 1) for line in done.stdout.split("\n")[:-1]]
    return [(path, json.loads(value)) for path, value in lines]


def main():
    want("jq")
    if "PATH_SERVER" not in os.environ:
        subprocess.run([TOP / "bin/path_server", "--proved", "--help"], stdout=subprocess.DEVNULL, check=True)
    rounds = int(sys.argv[1]) if len(sys.argv) > 1 else 50
    seed = int(sys.argv[2]) if len(sys.argv) > 2 else 1
    chance = random.Random(seed)
    tried = hits = differing = 0
    for _ in range(rounds):
        text = json.dumps(document(chance, 5), ensure_ascii=chance.random() < 0.5)
        pairs = [Queries(chance).query(2) for _ in range(QUERIES_PER_TEXT)]
        for (query, _), wanted in zip(pairs, of_jq(text, [jq for _, jq in pairs])):
            found = of_program(text, "$" + query)
            tried, hits = tried + 1, hits + len(wanted)
            if found != wanted:
                differing += 1
                print(f"{text}\n${query}\n  jq {wanted}\n  path_server {found}")
    print(f"{tried} queries, {hits} hits, {differing} differing")
    sys.exit(1 if differing else 0)


if __name__ == "__main__":
    main()
