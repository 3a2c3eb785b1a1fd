#!/usr/bin/env python3
"""Tests `bin/edits fit` on a made crate: an edit that fits passes, and each that does not is named with its reason. `bin/edits list` prints the edits
of each function. And tests of bin/tools/edits.py what judges an edit, that edits are tried together only where none changes what another one is judged
by, that an open goal counts for its own function alone, and that an edit which names its clause is refused only where the prover found that clause open."""
import subprocess
import sys
import tempfile
from pathlib import Path

BIN = Path(__file__).resolve().parent.parent / "bin"
sys.path.insert(0, str(BIN / "tools"))
from edits import AT_CLAUSE, IN_AN_ANSWER, STOPPED_SEARCH, Edit, functions_of, homes_of, in_groups, joined, kind_of, that_refuse
SOURCE = "const ZERO: u8 = 0;\nfn one() -> u8 {\n    1\n}\nfn two() -> u8 {\n    2\n}\n"
FITTING = {
    "must-fail/turned": "file: src/lib.rt\nold:     1\nnew:     3\n",
    "must-fail/emptied": "file: src/lib.rt\nold:     2\nnew:\n",
    "planted/one_after_the_other": "file: src/lib.rt\nold:     1\nnew:     3\nold:     3\nnew:     4\n",
    "planted/named": "# by: one two\nfile: src/lib.rt\nold: = 0\nnew: = 1\n",
}
MISFITS = {
    "planted/gone": ("file: src/lib.rt\nold:     7\nnew:     3\n", "stands 0 times"),
    "planted/twice": ("file: src/lib.rt\nold: -> u8\nnew: -> u16\n", "stands 2 times"),
    "must-fail/changed_before": ("file: src/lib.rt\nold:     1\nnew:     3\nold:     1\nnew:     4\n", "stands 0 times"),
    "must-fail/no_new": ("file: src/lib.rt\nold:     1\n", "line 3 stands between"),
    "must-fail/no_file": ("old:     1\nnew:     3\n", "line 1 is no"),
    "must-fail/no_pair": ("file: src/lib.rt\n", "no pair"),
    "must-fail/same": ("file: src/lib.rt\nold:     1\nnew:     1\n", "same text"),
    "must-fail/outside": ("file: crates.txt\nold: a\nnew: b\n", "no file below"),
    "must-fail/missing": ("file: src/none.rt\nold: a\nnew: b\n", "cannot be read"),
    "must-fail/remark": ("# a remark\nfile: src/lib.rt\nold:     1\nnew:     3\n", "line 1 is no"),
    "planted/unnamed": ("file: src/lib.rt\nold: = 0\nnew: = 1\n", "names none that judges it"),
    "planted/misnamed": ("# by: three\nfile: src/lib.rt\nold: = 0\nnew: = 1\n", "names three, which is no function"),
    "planted/turned": ("file: src/lib.rt\nold:     1\nnew:     3\n", "has its name"),
}


LISTED = {"must-fail": ["made::one: turned", "made::two: emptied"], "planted": ["made::one: named, one_after_the_other", "made::two: named"]}


def said_of(root, *words):
    done = subprocess.run([sys.executable, BIN / "edits", "--root", root, *words], stdout=subprocess.PIPE, universal_newlines=True)
    return done.returncode, done.stdout.splitlines()


def write(root, edits):
    crate = Path(root) / "crates/made"
    for folder in ("src", "must-fail", "planted"):
        (crate / folder).mkdir(parents=True, exist_ok=True)
    (crate / "src/lib.rt").write_text(SOURCE)
    for name, text in edits.items():
        (crate / f"{name}.edit").write_text(text)


CALLS = """const LIMIT: u8 = 9;

/// One.
#[inline]
pub fn one() -> u8 {
    1
}

impl Two {
    fn two(&self) -> u8
        ensures { result ≡ 3 }
    {
        one() + 2
    }

    fn three() -> u8 {
        if true { 30 } else { 31 }
    }
}
"""
PLACES = {
    "three_a": ("{ 30 }", "{ 28 + 2 }"),
    "clause_of_two": ("≡ 3", "≡ 4"),
    "one": ("    1", "    7"),
    "two": ("+ 2", "+ 7"),
    "three_b": ("{ 31 }", "{ 7 }"),
    "limit": ("u8 = 9", "u8 = 7"),
}
OPEN = {
    "note: src/made.rt:4:1: it is not proved that what the function ensures holds when it returns (`returns`)": ["one"],
    "note: src/made.rt:13:9: it is not proved that this sum fits (`add`)": ["two"],
    "note: src/made.rt:13:9: `search` found no proof (`invariant_of-result`); `search` gave up at one of its limits": ["two"],
    "note: `returns` of proofs/made/Two/three/Answers.antt must prove: c.result ≡ 30": ["three"],
    "./proofs/made/Two/two/Answers.antt:3:1: error: `returns`: expected type `a`": ["two"],
    "./proofs/made/Two/two/Answers.antt:3:1: error: `c.args` has no field `gone`": [],
    "./proofs/made/Two/two/Answers.antt:3:1: error: `returns`: record `A` (nearest: .going)\n  has no field `gone`": [],
    "./proofs/two/three/Answers.antt:3:1: error: `returns`: expected type `a`": [],
    "./proofs/other/Two/two/Answers.antt:3:1: error: `returns`: expected type `a`": [],
    "note: src/other.rt:13:9: it is not proved that this sum fits (`add`)": [],
    "./proofs/Lemmas.antt:3:1: error: `shorter`: expected type `a`": [],
    "logic=not-proved": [],
}


# an open goal of an edit, how it refuses, and whether it does so where the edit names the clause `small`
HOW = {
    "note: src/made.rt:4:1: it is not proved that what the function ensures holds when it returns (`returns-clause-small`)": (AT_CLAUSE, True),
    "note: src/made.rt:4:1: it is not proved that what the function ensures holds when it returns (`returns-clause-value`)": (AT_CLAUSE, False),
    "note: src/made.rt:4:1: it is not proved that what the function ensures holds when it returns (`returns-clause-small`); `search` gave up at one of its limits": (STOPPED_SEARCH, False),
    "./proofs/made/one/Answers.antt:3:1: error: `returns-clause-small`: expected type `a`": (IN_AN_ANSWER, False),
}


# a type in one file, and functions of it and of its traits in another
APART = {"src/made.rt": "pub struct Two<T> {\n    one: T,\n}\n", "src/apart.rt": """impl<T: Drop> Two<T> {
    fn three(&self) {
        one()
    }
}

impl<T> From<T> for Two<T> {
    fn from(it: T) {
        one()
    }
}
"""}


def test_names():
    """The prover names a type's own functions by the type's module, and those of a trait by the file that they stand in."""
    found = [it.path for file, text in APART.items() for it in functions_of(file, text, homes_of(APART))]
    assert found == ["made::Two::three", "apart::TwoFromT::from"], found


def test_kinds():
    """An edit that names no clause is refused by each open goal, and one that names it at this clause alone."""
    for line, (kind, is_at_clause) in HOW.items():
        assert kind_of(line) == kind, line
        assert that_refuse([line], []) == [line], line
        assert that_refuse([line], ["small"]) == ([line] if is_at_clause else []), line


def test_groups(crate):
    (crate / "src").mkdir(parents=True)
    (crate / "src/made.rt").write_text(CALLS)
    for name, (old, new) in PLACES.items():
        (crate / f"{name}.edit").write_text(f"file: src/made.rt\nold: {old}\nnew: {new}\n")
    edits = {name: Edit(crate / f"{name}.edit", crate) for name in PLACES}
    assert [edit.judges for edit in edits.values()] == [["made::Two::three"], ["made::Two::two"], ["made::one"], ["made::Two::two"], ["made::Two::three"], []], edits
    groups = [[it.name.split(".")[0] for it in group] for group in in_groups(edits.values(), crate)]
    assert groups == [["three_a", "clause_of_two"], ["one", "two", "three_b"], ["limit"]], groups
    for lines, wanted in OPEN.items():
        (line,) = joined(lines.split("\n"))
        assert [it.name for it in functions_of("src/made.rt", CALLS) if it.is_at(line)] == wanted, lines


def main():
    test_names()
    test_kinds()
    with tempfile.TemporaryDirectory() as folder:
        test_groups(Path(folder) / "made")
    with tempfile.TemporaryDirectory() as root:
        write(root, FITTING)
        assert said_of(root, "fit") == (0, [f"{len(FITTING)} edits, 0 of them do not fit"]), said_of(root, "fit")
        (Path(root) / "crates.txt").write_text("made:\n")
        for kind, wanted in LISTED.items():
            assert said_of(root, "list", kind, "made") == (0, wanted), said_of(root, "list", kind, "made")
        write(root, {name: text for name, (text, _) in MISFITS.items()})
        status, lines = said_of(root, "fit")
        assert status == 1 and lines[-1] == f"{len(FITTING) + len(MISFITS)} edits, {len(MISFITS)} of them do not fit", lines
        for name, (_, why) in MISFITS.items():
            line = [it for it in lines if it.startswith(f"crates/made/{name}.edit: ")]
            assert len(line) == 1 and why in line[0], (name, lines)
    print(f"{len(FITTING)} edits pass, {len(MISFITS)} are named, {len(OPEN)} lines are told apart")


main()
