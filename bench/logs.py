"""What bin/build and bin/check printed of their times: bench/report.py --build FILE and --gate FILE record it."""
import re

SPAN = r"(\d+):(\d\d)"
STARTED = re.compile(rf"\[{SPAN}\] ")
ROW = re.compile(rf"(\S.*?) +{SPAN} +{SPAN} +(\d+) +(\d+)")
END = re.compile(r"(\d+) passed, (\d+) failed")
KEPT = re.compile(r"(?:rt: )?\w+ is kept: ")
BUILT = re.compile(r"bin/build: all (\d+) crates are there, (\d+) proved now, (\d+) min (\d+) s, (\d+) min (\d+) s of processor time")


class NoTimes(Exception):
    """A file that does not say how long a whole run took."""


def seconds(minutes, rest):
    return int(minutes) * 60 + int(rest)


def of_build(text):
    """The crates of a first build, its seconds, and those of all processors."""
    found = BUILT.search(text)
    if not found:
        raise NoTimes("no line of bin/build that tells the end of a build")
    if found[1] != found[2]:
        raise NoTimes(f"not a first build: {int(found[1]) - int(found[2])} crates were proved before")
    return {"crates": int(found[1]), "wall": seconds(found[3], found[4]), "processor": seconds(found[5], found[6])}


def of_gate(text):
    """The seconds of a gate, how many crates it kept from an earlier run, and its parts: name, seconds, those of all processors, passed, failed."""
    lines = text.splitlines()
    started = [STARTED.match(line) for line in lines]
    rows = [ROW.fullmatch(line) for line in lines]
    if not lines or not END.fullmatch(lines[-1]) or not any(rows):
        raise NoTimes("not what a whole run of bin/check printed: it has no table at its end")
    parts = [[it[1], seconds(it[2], it[3]), seconds(it[4], it[5]), int(it[6]), int(it[7])] for it in rows if it]
    kept = sum(bool(it and KEPT.match(line[it.end():])) for it, line in zip(started, lines))
    return {"wall": max(seconds(*it.groups()) for it in started if it), "kept": kept, "parts": parts}
