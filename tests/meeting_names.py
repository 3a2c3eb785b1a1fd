#!/usr/bin/env python3
"""Reads texts of objects whose names were made to have one hash, or one mark: tests/meeting_names.py [BYTES].

The names are made for a factor that is known, the one that stands in the source of the hash. `path_server query` hashes by it. A server hashes the
names of long texts by one that is drawn from its keys, for which nobody else can make them. Each text has names of one kind: as they are meant, or with
an escape. What `path_server query` says of it is compared: one member is found, and a name that comes again is refused. The time is compared with that
of a text of the same length whose hashes differ; it is at most 12 times as long in the best of three tries. BYTES is the length of the texts, 4 MiB by default.
Objects of 15 to 18 and of 63 to 66 members have names of one mark, of one place among the marks, and usual ones, each with and without a name that
comes again. What is said of them is compared with Python's `json`, which hands out the pairs of each object. One more object, of a quarter of BYTES, has short names
of one hash in no order.
The program is the one that bin/build makes, or the one that the environment's PATH_SERVER names.
"""
import bisect
import functools
import itertools
import json
import os
import random
import re
import string
import subprocess
import sys
import time
from pathlib import Path

from lib.running_server import PROGRAM, Report

SOURCE = Path(__file__).resolve().parent.parent / "crates/json_strings/src/hashes.rt"
FACTOR = int(re.search(r"const FACTOR: u64 = (0x[0-9A-Fa-f_]+);", SOURCE.read_text(encoding="utf-8"))[1].replace("_", ""), 16)
WORDS = 2**64
LETTERS = 8
"""So many scalar values are one word of a hash."""
TARGET = 0x0123456789ABCDEF
RATIO, TRIES = 12, 3
HALF = 2**32
SHORT_LETTERS = bytes(it for it in range(33, 127) if chr(it) not in '"\\')
SIZES = [*range(15, 19), *range(63, 67)]
MARKED = 10_000
STAMP, PLACE = 47, 55
"""A name's stamp is what is above so many bits of its hash, and its place what is above so many."""


def chained(found, word, factor):
    """A hash with one more word behind it, as the source has it."""
    product = found * factor
    return (product - (product >> 64) + word) % WORDS


def hash_of(name, factor=FACTOR):
    """The hash of a name of ASCII."""
    found = 0
    for at in range(0, len(name), LETTERS):
        found = chained(found, int.from_bytes(name[at:at + LETTERS].encode("ascii"), "big"), factor)
    return found


def spread(found, factor):
    """The half of a hash that stands before a member's number."""
    return found * factor % WORDS >> 32


@functools.cache
def meeting_words(before, count, factor):
    """So many words of eight letters that behind these words make names of one half of a hash: the first four letters are made for the last four."""
    found = chained(hash_of(before, factor), 0, factor) if before else 0
    inverse, target, pairs, words = pow(factor, -1, HALF), TARGET >> 32, bytearray(1 << 16), []
    for pair in itertools.product(SHORT_LETTERS, repeat=2):
        pairs[int.from_bytes(bytes(pair), "big")] = 1
    steps = [it * factor for it in SHORT_LETTERS]
    for front in itertools.product(SHORT_LETTERS, repeat=3):
        last = int.from_bytes(bytes(front), "big") << 8
        high, low = divmod(found + last, HALF)
        if low + 256 > HALF:
            continue
        product = low * factor
        firsts = [((target - (product + step >> 32)) * inverse - high) % HALF for step in steps]
        words += [(first << 32 | last + it).to_bytes(8, "big").decode() for it, first in zip(SHORT_LETTERS, firsts) if pairs[first >> 16] and pairs[first & 65535]]
        if len(words) >= count:
            break
    return words[:count]


def padded(front):
    """These letters, and as many more as whole words have."""
    return front + "x" * (-len(front) % LETTERS)


def names_of(front, count, meets, factor=FACTOR):
    """So many names that begin with these letters, of one half of a hash or of many."""
    before = padded(front)
    words = meeting_words(before, count, factor) if meets else [f"{number:0{LETTERS}}" for number in range(count)]
    names = [before + word for word in words]
    if meets and len({spread(hash_of(name, factor), factor) for name in names[:1000]}) > 1:
        sys.exit(f"meeting_names: the hash of {SOURCE} is another one")
    return names


def short_text(length, again=False, before=""):
    """One object of about so many bytes, of short names of one hash behind the same letters, in no order; its last name is its first one again if that is wanted."""
    names = names_of(before, length // (len(padded(before)) + 13), True)
    random.Random(17).shuffle(names)
    return ("{" + ",".join(map(spelt, names[:-1] + names[:1] if again else names)) + "}").encode()


def spelt(name):
    return '"' + name.replace("\n", "\\n") + '":0'


def text_of(front, length, meets, again=False):
    """One object of about so many bytes; its last name is its first one again if that is wanted."""
    names = names_of(front, length // (len(spelt(padded(front) + "x" * LETTERS)) + 1), meets)
    if again:
        names[-1] = names[0]
    return ("{" + ",".join(map(spelt, names)) + "}").encode()


def ask(text, query):
    """Status, output and error of the program, and how long it took."""
    began = time.monotonic()
    ended = subprocess.run([PROGRAM, "query", query], input=text, capture_output=True)
    return (ended.returncode, ended.stdout, ended.stderr), time.monotonic() - began


def try_kind(report, kind, front, length):
    meeting, usual = text_of(front, length, True), text_of(front, length, False)
    report.case(f"{kind}: lengths", "", len(usual), len(meeting))
    path = list(json.loads(meeting))[77].replace("\n", "\\n").replace("'", "\\'")
    report.case(f"{kind}: a member", path, (0, f"$['{path}']\t0\n".encode(), b""), ask(meeting, f"$['{path}']")[0])
    again = ask(text_of(front, length, True, again=True), "$.none")[0]
    report.case(f"{kind}: a name that comes again", "", (1, b"", b"DuplicateName"), (*again[:2], again[2].split(b"\n")[0].split()[-1]))
    ratios = []
    for _ in range(TRIES):
        (met, took), (left, least) = ask(meeting, "$.none"), ask(usual, "$.none")
        report.case(f"{kind}: no member", "$.none", ((0, b"", b""), (0, b"", b"")), (met, left))
        ratios.append(took / least)
        if min(ratios) <= RATIO:
            break
    report.case(f"{kind}: at most {RATIO} times as long, {min(ratios):.1f}", "", True, min(ratios) <= RATIO)


def try_short(report, length):
    """Short names of one hash: each is found, and one that comes again."""
    text = short_text(length)
    paths = list(json.loads(text))
    for name in (paths[0], paths[len(paths) // 2], paths[-1]):
        path = name.replace("'", "\\'")
        report.case("short names of one hash: a member", path, (0, f"$['{path}']\t0\n".encode(), b""), ask(text, f"$['{path}']")[0])
    report.case("short names of one hash: no member", "$.none", (0, b"", b""), ask(text, "$.none")[0])
    again = ask(short_text(length, again=True), "$.none")[0]
    report.case("short names of one hash: a name that comes again", "", (1, b"", b"DuplicateName"), (*again[:2], again[2].split(b"\n")[0].split()[-1]))


def two_words(data, first, last):
    """The four bytes from one place on, and those from another on, as one word."""
    return (int.from_bytes(data[first:first + 4], "little") << 32) + int.from_bytes(data[last:last + 4], "little")


def stamp_hash(name):
    """The hash of a name of 14 letters by its bytes, with the quotes, as the source has it for stamps."""
    data = f'"{name}"'.encode()
    return (two_words(data, 0, 12) * FACTOR + two_words(data, 4, 8)) * FACTOR % WORDS


def marked_names(count, above, chance):
    """So many names of 14 letters whose hashes are the same above so many bits: eight letters in the midst that fit three at each end."""
    drawn = ("".join(chance.choices(string.ascii_lowercase, k=8)) for _ in range(8 * MARKED))
    middles = {two_words(middle.encode(), 0, 4) * FACTOR % WORDS: middle for middle in drawn}
    parts, names = sorted(middles), []
    while len(names) < count:
        ends = "".join(chance.choices(string.ascii_lowercase, k=6))
        wanted = ((TARGET >> above << above) - two_words(f'"{ends}"'.encode(), 0, 4) * FACTOR * FACTOR) % WORDS
        at = bisect.bisect_left(parts, wanted)
        if at < len(parts) and parts[at] - wanted < 2**above:
            names.append(ends[:3] + middles[parts[at]] + ends[3:])
    if {stamp_hash(name) >> above for name in names} != {TARGET >> above}:
        sys.exit("meeting_names: these names have several hashes")
    return names


def object_of(names, depth=0):
    """An object of these names as they are spelt, with so many objects around it."""
    return '{"in":' * depth + "{" + ",".join(f'"{name}":{at}' for at, name in enumerate(names)) + "}" * (depth + 1)


def object_told(pairs):
    if len(dict(pairs)) < len(pairs):
        raise KeyError("DuplicateName")
    return dict(pairs)


def told(text, lines_of):
    """Status, output and fault that are to be said of a text: the lines of its value as Python reads it, or that a name comes again."""
    try:
        value = json.loads(text, object_pairs_hook=object_told)
    except KeyError:
        return 1, b"", b"DuplicateName"
    return 0, "".join(f"{path}\t{found}\n" for path, found in lines_of(value)).encode(), b""


def said(text, query):
    status, output, error = ask(text.encode(), query)[0]
    return status, output, error.split(b"\n")[0].split()[-1] if error else b""


def member_lines(value):
    """Path and value of each member of the innermost object."""
    path = "$"
    while isinstance(value.get("in"), dict):
        path, value = path + "['in']", value["in"]
    return [(f"{path}['{name}']", found) for name, found in value.items()]


def try_sizes(report, kind, names):
    """Objects of each size: no name comes again, or the first one, one in the midst or the last one does; and a name is spelt by an escape."""
    for size in SIZES:
        some, middle = names[:size], size // 2
        escaped = f"\\u{ord(some[-2][0]):04x}{some[-2][1:]}"
        kinds = {"none twice": some, "the first twice": [*some[:-1], some[0]], "the last twice": [*some[:-1], some[-2]],
                 "one in the midst twice": [*some[:middle], some[middle - 1], *some[middle + 1:]],
                 "one by an escape": [*some[:-2], escaped, some[-1]], "one twice, by an escape": [*some[:-1], escaped]}
        for depth in (0, 1, 9):
            case, query = f"{kind}, {size} members, {depth} deep", "$" + "['in']" * depth
            for which, spelt_names in kinds.items():
                text = object_of(spelt_names, depth)
                report.case(f"{case}, {which}", text, told(text, member_lines), said(text, query + ".*"))
            text, last = object_of(some, depth), f"{query}['{some[-1]}']"
            report.case(f"{case}, by name", text, told(text, lambda value, last=last: [it for it in member_lines(value) if it[0] == last]), said(text, f"{last[:-1]},'none']"))


def try_marks(report):
    chance = random.Random(16)
    marked = marked_names(MARKED, STAMP, chance)
    try_sizes(report, "usual names", [f"n{at}" for at in range(SIZES[-1])])
    try_sizes(report, "long names that begin and end alike", [f"in_reply_to_number_{at:02}_of_the_status_id" for at in range(SIZES[-1])])
    try_sizes(report, "names of one mark", marked)
    try_sizes(report, "names of one place", marked_names(SIZES[-1], PLACE, chance))
    for again in ([], marked[-1:]):
        objects = [marked[at:at + 63] for at in range(0, MARKED, 63)]
        objects[-1] += again
        for text in (object_of(marked + again), "[" + ",".join(map(object_of, objects)) + "]"):
            report.case(f"{MARKED} names of one mark", text, told(text, lambda value: []), said(text, "$.none"))
    name = "\\u0061" * MARKED
    for names in ([name, "b"], [name, "a" * MARKED], [name, name]):
        report.case(f"{MARKED} escapes in a name", names[1], told(object_of(names), member_lines), said(object_of(names), "$.*"))


def main():
    if not os.access(PROGRAM, os.X_OK):
        sys.exit(f"no program {PROGRAM}: bin/build makes it")
    report, length = Report(), int(sys.argv[1]) if len(sys.argv) > 1 else 4 << 20
    for kind, front in (("names as they are meant", ""), ("names with an escape", "\n"), ("many escapes", "\n" * 16)):
        try_kind(report, kind, front, length)
    try_short(report, length // 4)
    try_marks(report)
    report.close("meeting_names")


if __name__ == "__main__":
    main()
