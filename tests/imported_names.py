#!/usr/bin/env python3
"""Tests bin/tools/imports.py: which imports of a file are told as unused, and which cite the proofs of another crate. tests/imported_names.py."""
import sys
import tempfile
from pathlib import Path

TOP = Path(__file__).resolve().parent.parent
sys.path.insert(0, str(TOP / "bin/tools"))
from imports import cited_in, unused_in
from lib.running_server import Report

CASES = [
    ("a function", "a.rt", "use crate::places::{first, last};\n\nfn ends() { first() }\n", ["last"]),
    ("a name over lines", "a.rt", "use crate::places::{\n    first,\n    last,\n};\n\nfn ends() { last() }\n", ["first"]),
    ("a name of a comment alone", "a.rt", "use crate::places::first;\n\n// as first\nfn ends() {}\n", ["first"]),
    ("another name", "a.rt", "use crate::places::first as begin;\n\nfn ends() { first() }\n", ["begin"]),
    ("a module", "a.rt", "use std::mem::{self, swap};\n\nfn ends() { mem::take(); }\n", ["swap"]),
    ("a name of a clause", "a.rt", "ghost use Rattle.std.specs.Prelude.{◌≡◌, length};\n\nfn ends()\n    ensures { length result ≡ 0 }\n{}\n", []),
    ("an operator", "a.rt", "ghost use Rattle.std.specs.Prelude.{◌≡◌, ◌++◌};\n\nfn ends()\n    ensures { result ≡ 0 }\n{}\n", ["◌++◌"]),
    ("a trait", "a.rt", "use crate::wires::Wire;\nuse std::io::Read;\n\npub trait Wire {}\n", []),
    ("a name that is handed on", "a.rt", "pub use places::first;\n", []),
    ("a definition", "a.antt", "use Rattle.std.specs.Prelude.{ℕ, List, suc}\n\nabbrev pub next : ℕ → ℕ\nnext n = suc n -- no List\n", ["List"]),
    ("words between operands", "a.antt", "use Rattle.std.specs.Prelude.{if◌then◌else◌, ◌∷◌}\n\nabbrev pub f : A\nf = if b then c else d\n", ["◌∷◌"]),
    ("a record of one's own", "a.antt", "use Rattle.a.b.f.Given as goal\nuse Rattle.a.b.g.Given as other\n\nproof : goal.result\n", ["other"]),
    ("an end of a `do`", "a.antt", "use Rattle.a.Reading.{◌>>=◌}\n\nread = do\n    first\n", []),
]
CITING = [
    ("another crate above the reader", "query_machine/proofs/Steps.antt", "use Rattle.node_lists.proofs.Adding.{append_nil}\n", ["node_lists"]),
    ("an answer of a function", "query_machine/proofs/runs/go_on/Answers.antt", "use Rattle.node_lists.proofs.Adding as adding\n", ["node_lists"]),
    ("a definition", "query_machine/specs/Levels.antt", "use Rattle.node_lists.proofs.Adding.{append_nil}\n", ["node_lists"]),
    ("another crate's definitions", "query_machine/proofs/Steps.antt", "use Rattle.node_lists.specs.Laws.{SplitsNodes}\n", []),
    ("its own", "node_lists/proofs/Below.antt", "use Rattle.node_lists.proofs.Adding.{append_nil}\n", []),
    ("the standard library", "node_lists/proofs/Below.antt", "use Rattle.std.proofs.Common.{arith}\n", []),
    ("a crate of the reader", "json_walk/proofs/Below.antt", "use Rattle.node_lists.proofs.Adding.{append_nil}\n", []),
]


def main():
    report = Report()
    for name, file, text, wanted in CASES:
        with tempfile.TemporaryDirectory(prefix="path-server-imports-") as made:
            source = Path(made) / "places/src" / file
            source.parent.mkdir(parents=True)
            source.write_text(text, encoding="utf-8")
            report.case(name, text, wanted, [spare for _, names in unused_in(Path(made)) for spare in names])
    for name, file, text, wanted in CITING:
        with tempfile.TemporaryDirectory(prefix="path-server-imports-") as made:
            source = Path(made) / file
            source.parent.mkdir(parents=True)
            source.write_text(text, encoding="utf-8")
            (Path(made) / "node_lists").mkdir(exist_ok=True)
            report.case(f"cites: {name}", text, wanted, [other for _, others in cited_in(Path(made)) for other in others])
    report.close("imported names")


main()
