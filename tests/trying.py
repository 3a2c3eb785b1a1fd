#!/usr/bin/env python3
"""Tests `bin/edits try` on a made crate, with the prover: an edit that turns a body or a definition is refused, at the function that it is about,
though others have no proof, and at the clause that it names; one that is still proved, as to any function that it names, that cannot be read, or that says nothing is told; what was refused is not tried again; and
where a function is not proved as it stands, no edit counts as refused. Where the crate is proved elsewhere the same edits are refused without a control."""
import os
import re
import subprocess
import sys
import tempfile
from pathlib import Path

EDITS_TOOL = Path(__file__).resolve().parent.parent / "bin/edits"
SOURCE = """//! Made for a test.
#![tactic(auto)]
ghost use Rattle.std.specs.Prelude.{◌≡◌, ◌≤◌};
ghost use Rattle.made.specs.Numbers.{three};

/// One more than another, of which no proof is there.
pub fn next(number: u8) -> u8
    requires { number ≡ 1 }
    ensures { result ≡ 2 }
{
    number + 1
}

/// Two.
pub fn two() -> u8
    ensures { result ≡ 2 }
{
    next(1)
}

/// Four.
pub fn fourth() -> u8
    ensures value { result ≡ 4 }
    ensures small { result ≤ 9 }
{
    4
}

/// Three.
pub fn third() -> u8
    ensures { result ≡ three }
{
    3
}
"""
NUMBERS = """use Rattle.std.specs.Prelude.{ℕ}

abbrev pub three : ℕ
three = 3
"""
EDITS = {
    "turned": ("file: src/lib.rt\nold:     next(1)\nnew:     next(1) + 1\n", "refused: "),
    "defined": ("# by: third\nfile: specs/Numbers.antt\nold: three = 3\nnew: three = 4\n", "refused: "),
    "halved": ("# by: third two\nfile: specs/Numbers.antt\nold: three = 3\nnew: three = 6\n", "NOT REFUSED: two is proved"),
    "same": ("file: src/lib.rt\nold:     3\nnew:     1 + 2\n", "NOT REFUSED: it is proved"),
    "valued": ("# at: value\nfile: src/lib.rt\nold:     4\nnew:     5\n", "refused: at a clause, `returns-clause-value`: "),
    "enlarged": ("# at: small\nfile: src/lib.rt\nold:     4\nnew:     6\n", "NOT REFUSED: it is refused, but not at its clause small: at a clause: "),
    "alone": ("# at: returns\nfile: src/lib.rt\nold:     next(1)\nnew:     next(1) - 1\n", "refused: at a clause, `returns`: "),
    "unread": ("file: src/lib.rt\nold:     next(1)\nnew:     next(none)\n", "NOT REFUSED: it cannot be read"),
    "unjudged": ("file: specs/Numbers.antt\nold: three = 3\nnew: three = 5\n", "NOT REFUSED: it changes no function"),
}


def write(root, source):
    crate = root / "crates/made"
    for part in ("src", "specs", "must-fail"):
        (crate / part).mkdir(parents=True, exist_ok=True)
    (root / "HANDLES").write_text("Handles allowed: none.\n")
    (root / "crates.txt").write_text("made:\n")
    (crate / "src/lib.rt").write_text(source)
    (crate / "specs/Lib.antt").write_text("pub mod Numbers\n")
    (crate / "specs/Numbers.antt").write_text(NUMBERS)
    for name, (text, _) in EDITS.items():
        (crate / f"must-fail/{name}.edit").write_text(text)


def tried(root, *more):
    words = [sys.executable, EDITS_TOOL, "--root", root, "try", "must-fail", "--libraries", root, *more]
    done = subprocess.run(words, stdin=subprocess.DEVNULL, stdout=subprocess.PIPE, env={**os.environ, "XDG_CACHE_HOME": f"{root}/kept"}, encoding="utf-8")
    return done.returncode, done.stdout.splitlines()


def line_of(name, lines):
    return next((line for line in lines if line.startswith(f"made/{name}.edit: ")), "")


def main():
    wrong, right = [], []

    def expect(what, holds, lines):
        if holds:
            right.append(what)
        else:
            wrong.append(what)
            print(f"{what}:", *lines, sep="\n    ")

    with tempfile.TemporaryDirectory() as made:
        root = Path(made)
        write(root, SOURCE)
        status, lines = tried(root)
        for name, (_, said) in EDITS.items():
            expect(f"{name} is told", said in line_of(name, lines), lines)
        expect("turned is refused at its function", re.search(r"src/lib\.rt:\d+", line_of("turned", lines)), lines)
        expect("all are counted", lines[-1] == "4 passed, 5 failed" and status == 1, lines)
        status, lines = tried(root, "--only", "turned")
        expect("a refused one is kept", "refused before" in line_of("turned", lines) and status == 0, lines)
        write(root, SOURCE.replace("result ≡ 2 }\n{\n    next", "result ≡ 7 }\n{\n    next"))
        status, lines = tried(root, "--only", "turned")
        expect("a control that fails is told", any("not proved without one" in line for line in lines), lines)
        expect("no edit counts then", lines[-1] == "0 passed, 1 failed" and status == 1, lines)
        write(root, SOURCE)
        status, lines = tried(root, "--anew", "--proved", "--times")
        for name, (_, said) in EDITS.items():
            expect(f"{name} is told without a control", said in line_of(name, lines), lines)
        expect("there is no control", not any(line.endswith(": control") for line in lines), lines)
    print(f"{len(right)} passed, {len(wrong)} failed")
    sys.exit(1 if wrong else 0)


main()
