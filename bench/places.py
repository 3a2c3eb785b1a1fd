#!/usr/bin/env python3
"""Times finding and saying the place of a refused text of 4 MiB: bench/places.py [WORD].

A row is the text, the refusal, the milliseconds of processor time, the instructions a byte (where valgrind is there, and of a text of 256 KiB), the
greatest memory, and the place. Each figure is the difference to a run that only reads the text; times are the best of 5 runs. With a WORD, only the rows
that have it in their names are run. The last line is the number of rows above 40 ms, and the exit status is 1 where there is one. The program is the
one that `rt ci` makes, or the one that the environment's REFUSAL_PLACES names.
"""
import os
import re
import shutil
import subprocess
import sys
import tempfile
from pathlib import Path

from running import TOP

sys.path.append(str(TOP / "tests"))
from meeting_names import text_of

PROGRAM = os.environ.get("REFUSAL_PLACES") or str(TOP / "crates/refusal_places/out/refusal_places")
ROOM, COUNTED, RUNS, AIM = 1 << 22, 1 << 18, 5, 40
USUAL = '{"id":12,"name":"abc","tags":["x","y"],"price":1.5}'


def texts(room):
    """What each text of so many bytes is, its refusal, and the text."""

    def filled(part, begin="", end=""):
        return begin + part * ((room - len(begin) - len(end)) // len(part)) + end

    names = "".join(f'"k{at:06}":0,' for at in range(room // 12 - 2))
    yield "opening brackets", "NotJson", filled("[")
    yield "brackets that open and close", "NotJson", filled("[[],[]],", "[")
    yield "numbers of a digit", "NotJson", filled("1,", "[")
    yield "a long string", "NotJson", filled("x", '"')
    yield "objects in objects", "NotJson", filled('{"a":')
    yield "arrays of a number", "NotJson", filled("[1],", "[")
    yield "objects of a member", "NotJson", filled('{"a":1},', "[")
    yield "usual objects", "NotJson", filled(USUAL + ",", "[", "}")
    yield "words", "NotJson", filled("true,null,", "[")
    yield "escapes", "NotJson", filled("\\u0041\\n", '["')
    yield "characters above ASCII", "NotJson", filled("\u00e9", '["')[:room // 2]
    yield "blanks", "NotJson", filled(" ", "", "x")
    yield "line feeds", "NotJson", filled("\n", "", "x")
    yield "256 levels", "NotJson", filled("[" * 256 + "]" * 256 + ",", "[")
    yield "numbers, then a deep array", "TooDeep", filled("1,", "[", "[" * 256 + "]" * 256 + "]")
    yield "256 levels, then 257", "TooDeep", filled("[" * 255 + "]" * 255 + ",", "[", "[" * 256 + "]" * 256 + "]")
    yield "numbers, then a long one", "NumberLimit", filled("1,", "[", "7" * 257 + "]")
    yield "long numbers, then a longer one", "NumberLimit", filled("7" * 256 + ",", "[", "7" * 257 + "]")
    yield "escapes, then a lone surrogate", "LoneSurrogate", filled("\\u0041", '"', '\\ud800"')
    yield "surrogates, then a lone one", "LoneSurrogate", filled("\\ud83d\\ude00", '"', '\\ud800"')
    yield "backslashes, then a lone surrogate", "LoneSurrogate", filled("\\\\", '"', '\\ud800"')
    yield "letters, then a lone surrogate", "LoneSurrogate", filled("u", '"', '\\ud800"')
    yield "an object of many names", "DuplicateName", "{" + names + '"k000000":0}'
    yield "many objects of a name", "DuplicateName", filled('{"a":1},', "[", '{"a":1,"a":1}]')
    yield "usual objects, then a name again", "DuplicateName", filled(USUAL + ",", "[", '{"a":1,"a":1}]')
    yield "names of one hash", "DuplicateName", text_of("", room, True, True).decode()
    yield "escaped names of one hash", "DuplicateName", text_of("\n", room, True, True).decode()


def run(words, file):
    """What a program prints of a file, its milliseconds of processor time, and its greatest memory in KiB."""
    source = os.open(file, os.O_RDONLY)
    reading, writing = os.pipe()
    child = os.posix_spawn(words[0], words, {}, file_actions=[(os.POSIX_SPAWN_DUP2, source, 0), (os.POSIX_SPAWN_DUP2, writing, 1)])
    os.close(source)
    os.close(writing)
    with open(reading, "rb") as pipe:
        said = pipe.read()
    _, status, used = os.wait4(child, 0)
    if os.waitstatus_to_exitcode(status):
        sys.exit(f"{words[0]} ended with {os.waitstatus_to_exitcode(status)}")
    return said.decode(), (used.ru_utime + used.ru_stime) * 1000, used.ru_maxrss


def instructions(file):
    """How many instructions the program takes for a file."""
    words = ["valgrind", "--tool=callgrind", "--callgrind-out-file=/dev/null", PROGRAM]
    with open(file, "rb") as source:
        done = subprocess.run(words, stdin=source, stdout=subprocess.DEVNULL, stderr=subprocess.PIPE, text=True, check=True)
    return int(re.search(r"Collected : (\d+)", done.stderr).group(1))


def beside(measure, file, refusal, text):
    """What is measured of a refused text, and of a run that only reads it."""
    figures = []
    for name in (refusal, "Nothing"):
        Path(file).write_text(f"{name} {text.encode().hex()}", encoding="ascii")
        figures.append(measure(file))
    return figures


def ran(file):
    """What the program says of a file, and the least time and memory of some runs."""
    runs = [run([PROGRAM], file) for _ in range(RUNS)]
    return runs[0][0], min(it[1] for it in runs), min(it[2] for it in runs)


def main():
    word, slow = " ".join(sys.argv[1:]), 0
    print("| text | refusal | ms | instructions a byte | KiB | place |\n|---|---|---:|---:|---:|---|")
    with tempfile.NamedTemporaryFile() as room:
        for (name, refusal, text), (_, _, short) in zip(texts(ROOM), texts(COUNTED)):
            if word in name:
                (said, time, memory), (_, idle, unused) = beside(ran, room.name, refusal, text)
                each = ""
                if shutil.which("valgrind"):
                    count, least = beside(instructions, room.name, refusal, short)
                    each = f"{(count - least) / len(short.encode()):.1f}"
                print(f"| {name} | {refusal} | {time - idle:.0f} | {each} | {memory - unused} | {said.split(':')[0]} |", flush=True)
                slow += time - idle > AIM
    print(f"{slow} above {AIM} ms")
    sys.exit(slow > 0)


main()
