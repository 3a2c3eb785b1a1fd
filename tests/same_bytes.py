#!/usr/bin/env python3
"""Whether a build depends on where it is made: tests/same_bytes.py

A small program is made twice at once by bin/unproved, in folders of different names and depths, and compared byte by byte. The programs of PATH_SERVER
and PATH_CLIENT, or those that bin/build makes, hold no path of the folders in which a build or the gate makes them. docs/PROVED.md, "Trusted", says what
else was compared.
"""
import os
import shutil
import subprocess
import tempfile
from concurrent.futures import ThreadPoolExecutor
from pathlib import Path

from lib.running_server import PROGRAM, TOP, Report, not_run

CLIENT = os.environ.get("PATH_CLIENT") or str(TOP / "crates/path_client/out/path_client")
CRATES = "standard_streams: thiserror\nsmall_program: standard_streams\n"
MAIN = """//! Writes what it reads.
#![tactic(auto)]

use standard_streams::{read_past, write_whole};
use std::io;
use std::process::ExitCode;

fn main(rt: HostRuntime) -> ExitCode {
    let Ok(bytes) = read_past(rt.alloc(), rt.reader(), 1_000) else {
        return ExitCode::from(4);
    };
    match write_whole(&mut io::writer(&rt), bytes.as_slice()) {
        Ok(()) => ExitCode::SUCCESS,
        Err(_) => ExitCode::from(3),
    }
}
"""
PLACES = [f"{TOP}/", "path-server-check-", "/crates/", "/src/"]


def made(tree):
    """The program as bin/unproved makes it in a tree of its own, or what it says where it makes none."""
    (tree / "crates/small_program/src").mkdir(parents=True)
    (tree / "crates/small_program/src/main.rt").write_text(MAIN)
    (tree / "crates.txt").write_text(CRATES)
    shutil.copytree(TOP / "crates/standard_streams/src", tree / "crates/standard_streams/src")
    shutil.copytree(TOP / "bin", tree / "bin", ignore=shutil.ignore_patterns("__pycache__"))
    ran = subprocess.run([tree / "bin/unproved", "small_program", tree / "made"], stdin=subprocess.DEVNULL, capture_output=True, encoding="utf-8")
    return (tree / "made").read_bytes() if ran.returncode == 0 else ran.stderr.strip()


def main():
    report = Report()
    with tempfile.TemporaryDirectory() as at, ThreadPoolExecutor() as pool:
        room = Path(at)
        one, other = pool.map(made, (room / "one", room / "another/folder, with a longer/path"))
        if isinstance(one, bytes) and isinstance(other, bytes):
            report.case("two folders", (len(one), len(other)), True, one == other)
            ran = subprocess.run([room / "one/made"], input=b"[1]", capture_output=True)
            report.case("what it does", "", (0, b"[1]"), (ran.returncode, ran.stdout))
        else:
            not_run("two builds", one if isinstance(one, str) else other)
    for program in (PROGRAM, CLIENT):
        data = Path(program).read_bytes()
        report.case("paths in a program", program, [], [it for it in PLACES if it.encode() in data])
    report.close("the same bytes")


main()
