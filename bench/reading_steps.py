#!/usr/bin/env python3
"""How a form of the reader is measured before it is proved: bench/reading_steps.py STEP ..

    build TREE FILE                       makes a program of the tree's reader, without a proof and about as fast as a proved one (bin/unproved --fast)
    instructions PROGRAM.. -- TEXT..      the instructions of one read of each text, a byte and by function, as callgrind counts them
    turns PROGRAM.. -- TEXT..             the microseconds of a read: the least of many runs, the programs one after the other, with the ratio to the last
    verdicts SEED COUNT ONE OTHER         has two programs read so many made texts, and says where their verdicts or counts of nodes differ
    peer FILE                             makes a program that reads with simdjson's DOM for SSE4.2, to be used in the place of a PROGRAM

A form of the code is a clone of the repository. One whose instructions are not fewer is not faster, and instructions do not depend on what else the machine
does. Times do, and on the address of the code, so that a ratio moves by a tenth: take them last, on a quiet machine.

A PROGRAM reads from its standard input how many rounds it goes, and texts, each behind its length, in four bytes each; it writes a line for each text.
"""
import os
import random
import re
import resource
import shutil
import struct
import subprocess
import sys
import tempfile
from pathlib import Path

from running import TOP

ROUNDS, TURNS, LEAST_SHARE = 100, 5, 0.005
# what is freed is kept, so that no round waits for fresh pages
KEPT = {**os.environ, "MALLOC_MMAP_THRESHOLD_": str(1 << 30), "MALLOC_TRIM_THRESHOLD_": str(1 << 30)}
CRATE = "reading_rounds: json_text json_tape standard_streams\n"
SOURCE = """//! Reads each text on its standard input so many times, and says what came of it.
#![tactic(auto)]

use json_tape::Document;
use json_text::TextFault;
use standard_streams::{read_past, write_whole};
use std::alloc::{AllocError, Global};
use std::io;
use std::process::ExitCode;

fn main(rt: HostRuntime) -> ExitCode {
    match run(&rt) {
        Ok(true) => ExitCode::SUCCESS,
        _ => ExitCode::from(4),
    }
}

fn run<R: Input + Print + AllocGlobal>(rt: &R) -> io::Result<bool> {
    let Ok(bytes) = read_past(rt.alloc(), rt.reader(), 1 << 30) else {
        return Ok(false);
    };
    let rounds = number_at(bytes.as_slice(), 0);
    let mut out = Vec::new(rt.alloc());
    let mut place = 4;
    'texts: for _ in 0..bytes.len() {
        if place >= bytes.len() {
            break;
        }
        let length = number_at(bytes.as_slice(), place) as usize;
        let text = bytes.get(place + 4..place + 4 + length).unwrap_or_default();
        let mut nodes = 0;
        let mut name = "";
        'rounds: for _ in 0..rounds {
            match Document::read(rt.alloc(), text) {
                Ok(document) => nodes = document.node_count(),
                Err(fault) => name = name_of(fault),
            }
        }
        say(rt.alloc(), name, nodes, &mut out)?;
        place += 4 + length;
    }
    Ok(write_whole(&mut io::writer(rt), out.as_slice()).is_ok())
}

fn say(alloc: Global, name: &str, nodes: u32, out: &mut Vec<u8>) -> Result<(), AllocError> {
    let line = format!(in alloc; "{name} {nodes}\\n")?;
    out.extend_from_slice(line.as_bytes())
}

fn number_at(bytes: &[u8], place: usize) -> u32 {
    match bytes.get(place..place + 4) {
        Some(four) => u32::from_be_bytes([four[0], four[1], four[2], four[3]]),
        None => 0,
    }
}

fn name_of(fault: TextFault) -> &'static str {
    match fault {
        TextFault::TooLong => "TooLong",
        TextFault::NotUtf8 => "NotUtf8",
        TextFault::NotJson => "NotJson",
        TextFault::TooDeep => "TooDeep",
        TextFault::NumberLimit => "NumberLimit",
        TextFault::LoneSurrogate => "LoneSurrogate",
        TextFault::DuplicateName => "DuplicateName",
        TextFault::Memory => "Memory",
    }
}
"""


def build(tree, file):
    with tempfile.TemporaryDirectory() as folder:
        room, tree = Path(folder), Path(tree).resolve()
        (room / "crates/reading_rounds/src").mkdir(parents=True)
        (room / "crates/reading_rounds/src/main.rt").write_text(SOURCE, encoding="utf-8")
        for it in (tree / "crates").iterdir():
            (room / "crates" / it.name).symlink_to(it)
        (room / "crates.txt").write_text((tree / "crates.txt").read_text(encoding="utf-8") + CRATE, encoding="utf-8")
        (room / "HANDLES").write_text((tree / "HANDLES").read_text(encoding="utf-8"), encoding="utf-8")
        # the tools are those of this tree, since a form may be of a commit without them
        shutil.copytree(TOP / "bin", room / "bin", symlinks=True)
        subprocess.run([room / "bin/unproved", "--fast", "reading_rounds", Path(file).resolve()], check=True)


def peer(file):
    words = ["g++", "-O3", "-DNDEBUG", "-std=c++17", TOP / "bench/parsed.cpp", "-lsimdjson", "-o", file]
    subprocess.run(words, check=True)


# ---- what a program is given

def given(texts, rounds):
    return struct.pack(">I", rounds) + b"".join(struct.pack(">I", len(it)) + it for it in texts)


def lines_of(program, texts, rounds=1):
    return subprocess.run([program], input=given(texts, rounds), stdout=subprocess.PIPE, env=KEPT, check=True).stdout.decode().splitlines()


def apart(words):
    """The programs and the texts among words."""
    middle = words.index("--")
    return words[:middle], [Path(it) for it in words[middle + 1 :]]


# ---- instructions

def counted(program, text, rounds):
    """The instructions by function of a run."""
    with tempfile.TemporaryDirectory() as folder:
        out = Path(folder) / "out"
        subprocess.run(["valgrind", "--tool=callgrind", f"--callgrind-out-file={out}", program], input=given([text], rounds), env=KEPT, capture_output=True, check=True)
        told = subprocess.run(["callgrind_annotate", "--threshold=100", "--show-percs=no", out], stdout=subprocess.PIPE, encoding="utf-8", check=True).stdout
    found = {}
    for line in told.splitlines():
        row = re.match(r"\s*([\d,]+)\s+(\S.*)$", line)
        if row and "PROGRAM TOTALS" not in line:
            name = re.sub(r"^\S*?:", "", re.sub(r"\[.*", "", row[2]).strip(), count=1)
            found[name] = found.get(name, 0) + int(row[1].replace(",", ""))
    return found


def instructions(programs, texts):
    for text in texts:
        read = text.read_bytes()
        for program in programs:
            more, fewer = counted(program, read, 3), counted(program, read, 2)
            spent = {name: count - fewer.get(name, 0) for name, count in more.items()}
            print(f"{text.name} {Path(program).name}: {sum(spent.values()) / 1e6:.2f} million, {sum(spent.values()) / len(read):.2f} a byte")
            for name, count in sorted(spent.items(), key=lambda it: -it[1]):
                if count > LEAST_SHARE * len(read):
                    print(f"    {count / 1e6:9.3f} {count / len(read):6.2f} a byte  {name[:110]}")


# ---- times

def seconds_of(program, data):
    before = resource.getrusage(resource.RUSAGE_CHILDREN)
    subprocess.run([program], input=data, stdout=subprocess.DEVNULL, env=KEPT, check=True)
    after = resource.getrusage(resource.RUSAGE_CHILDREN)
    return after.ru_utime + after.ru_stime - before.ru_utime - before.ru_stime


def turns(programs, texts):
    print("| text | " + " | ".join(f"{Path(it).name}, us" for it in programs) + " | ratios to the last |")
    for text in texts:
        read, least = text.read_bytes(), {it: float("inf") for it in programs}
        one, many = given([read], 1), given([read], 1 + ROUNDS)
        for _ in range(TURNS):
            for it in programs:
                least[it] = min(least[it], (seconds_of(it, many) - seconds_of(it, one)) / ROUNDS)
        told = [least[it] * 1e6 for it in programs]
        print(f"| {text.name} | " + " | ".join(f"{it:.0f}" for it in told) + " | " + ", ".join(f"{told[-1] / it:.2f}" for it in told) + " |", flush=True)


# ---- made texts

LETTERS = [b"a", b"z", b" ", b"\xc3\xa9", b"\xe2\x82\xac", b"\xf0\x9f\x98\x80", b"\\n", b"\\\\", b'\\"', b"\\/", b"\\u00e9", b"\\ud83d\\ude00", b"\\u0000"]
WRONG = [b"\\ud83d", b"\\ude00", b"\\ude00\\ud83d", b"\\x", b"\\u12g4", b"\\u123", b"\x01", b"\xff", b"\xc3", b"\xed\xa0\x80", b"\xf4\x90\x80\x80", b"\\"]
NUMBERS = [b"0", b"-0", b"7", b"-12", b"123456789", b"0.5", b"1e3", b"-1.25E-7", b"12345678901234567890", b"1e999999999"]
BROKEN = [b"01", b"-", b"1.", b".5", b"1e", b"+1", b"1e1000000000", b"9" * 257, b"nul", b"tru", b"Infinity"]


def string(draw, is_wrong):
    parts = draw.choices(LETTERS, k=draw.choice((0, 1, 3, 8, 17, 40, 70)))
    if is_wrong:
        parts.insert(draw.randint(0, len(parts)), draw.choice(WRONG))
    return b'"' + b"".join(parts) + b'"'


def named(draw, count):
    """The names of an object: most differ, some are alike but for their spelling, and few are repeated."""
    names = [b'"%s%d"' % (draw.choice((b"n", b"a long name that is above sixteen bytes ", b"\\u006e", b"\xc3\xa9")), it) for it in range(count)]
    if count > 1 and draw.random() < 0.05:
        names[-1] = names[draw.randrange(count - 1)]
    return names


def value(draw, depth):
    kind = draw.random()
    if depth == 0 or kind < 0.3:
        return string(draw, draw.random() < 0.01) if draw.random() < 0.5 else draw.choice(BROKEN if draw.random() < 0.01 else [*NUMBERS, b"true", b"false", b"null"])
    blank = draw.choice((b"", b"", b" ", b"\n  ", b"\t" * 9))
    if kind < 0.6:
        return b"[" + blank + (b"," + blank).join(value(draw, depth - 1) for _ in range(draw.choice((0, 1, 2, 5)))) + blank + b"]"
    names = named(draw, draw.choice((0, 1, 2, 5, 16, 17, 63, 64, 65, 66) if draw.random() < 0.1 else (0, 1, 2, 4)))
    return b"{" + blank + (b"," + blank).join(it + blank + b":" + value(draw, depth - 1) for it in names) + blank + b"}"


def made(draw):
    """A text: most are JSON, and some are cut, have a byte changed, or begin at another place of a block."""
    text = b" " * draw.choice((0, 0, 1, 31, 63)) + value(draw, draw.randint(0, 5))
    kind = draw.random()
    if kind < 0.1:
        return text[: draw.randint(0, len(text))]
    if kind < 0.2 and text:
        at = draw.randrange(len(text))
        return text[:at] + bytes([draw.choice((0, 34, 44, 58, 92, 93, 125, 128, 255, draw.randrange(256)))]) + text[at + 1 :]
    return text


def verdicts(seed, count, one, other):
    draw = random.Random(int(seed))
    texts = [made(draw) for _ in range(int(count))]
    mine, others = lines_of(one, texts), lines_of(other, texts)
    differ = [it for it in zip(texts, mine, others) if it[1] != it[2]]
    for text, this, that in differ[:10]:
        print(f"{this!r} and {that!r}: {text!r}"[:1000])
    refused = sum(it.split()[0].isalpha() for it in mine)
    print(f"{len(texts)} texts, {refused} refused, {len(differ)} differ")
    return bool(differ) or len(mine) != len(texts) or len(others) != len(texts)


def main():
    step, *words = sys.argv[1:] or [""]
    if step == "build" and len(words) == 2:
        build(*words)
    elif step == "peer" and len(words) == 1:
        peer(*words)
    elif step in ("instructions", "turns") and "--" in words:
        {"instructions": instructions, "turns": turns}[step](*apart(words))
    elif step == "verdicts" and len(words) == 4:
        sys.exit(verdicts(*words))
    else:
        sys.exit(__doc__)


if __name__ == "__main__":
    main()
