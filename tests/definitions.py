#!/usr/bin/env python3
"""Tests bin/definitions on two made crates: a definition counts where an exported contract names it, or another one that does; what private
functions, types, traits and models name does not. And each way in which the page may be wrong is told."""
import subprocess
import sys
import tempfile
from pathlib import Path

DEFINITIONS = Path(__file__).resolve().parent.parent / "bin/definitions"
FILES = {
    "low/src/lib.rt": """//! A crate.
mod hidden;
mod kept;
pub mod laws;

pub use kept::{
    Kept, Reads,
    count as count_of,
};
""",
    "low/src/kept.rt": """ghost use Rattle.std.specs.Prelude.{◌≡◌, List};
ghost use Rattle.low.specs.Named.{IsNamed as IsIt, size};
ghost use Rattle.low.specs.Private.{is_private};
ghost use Rattle.low.specs.Traits as traits;

use crate::hidden::Hidden;

/// Kept. is_private
pub struct Kept {
    text: String,
}

impl Model for Kept {
    ghost use Rattle.low.specs.Values.{Value};
    ghost use Rattle.low.specs.Views.{view_of};

    ghost Value = { Value };

    ghost view = { λ k. view_of k };

    ghost invariant = { λ k. is_private
        (view_of k) };
}

impl Kept {
    /// Reads it.
    #[inline]
    pub fn read(
        text: &[u8], // is_private
    ) -> Result<Kept, Fault>
        requires { text.now.is_private ≡ record { is_private = [] } }
        ensures named { (IsIt text.now) }
    {
        let is_private = false;
    }

    pub(crate) fn within(&self) -> bool
        ensures { is_private self.now }
    {
        true
    }

    fn inside(&self) -> bool
        ensures { is_private self.now }
    {
        true
    }
}

impl Hidden for Kept {
    fn hide(&self)
        ensures { is_private self.now }
    {}
}

pub trait Reads<'a> {
    ghost told: { Self → traits.Told };

    fn told(&self) -> bool
        requires { traits.may_tell self.now };
}

impl<'a> Reads<'a> for Kept {
    fn told(&self) -> bool
        ensures { size self.now }
    {
        true
    }
}

pub const fn count(kept: &Kept) -> usize
    ensures {
        size kept.now ≡ 0
    }
{
    0
}

pub fn unexported()
    ensures { is_private }
{}
""",
    "low/src/hidden.rt": """ghost use Rattle.low.specs.Private.{is_private};

pub trait Hidden {
    fn hide(&self)
        ensures { is_private self.now };
}

pub struct Unseen {
    ghost unseen: { is_private },
}

impl Unseen {
    pub fn new()
        ensures { is_private }
    {}
}
""",
    "low/src/laws.rt": """ghost use Rattle.low.specs.Lawful.{IsLawful};

pub fn is_lawful()
    ensures { IsLawful }
{}

fn is_private() {}
""",
    "high/src/lib.rt": """ghost use Rattle.low.specs.Handed.{IsHanded};
ghost use Rattle.low.specs.Called.{is_called};

pub mod laws;

pub use low::Kept;

#[unsafe(no_mangle)]
pub extern "C" fn call() -> bool
    ensures { result ≡ is_called }
{
    true
}

pub struct Fact {
    pub byte: u8,
    ghost small: { IsHanded byte },
}
""",
    "high/src/laws.rt": "pub use low::laws::is_lawful;\n",
    "low/specs/Called.antt": "-- What is called.\nabbrev pub is_called : Bool\nis_called = true\n",
    "low/specs/Lib.antt": "pub mod Named\n",
    "low/specs/Named.antt": """-- What is named.
use Rattle.low.specs.Reached.{reached, Chosen}
use Rattle.low.specs.Beside.{beside}
use Rattle.low.specs.Values.{Value, tree_of, place}

-- beside
pub record IsNamed (text : List ℕ) : Type 0 where
  pub beside : ℕ
  -- the tree
  pub tree : tree_of (record { place = 0 }) ≡ reached text

abbrev pub size : Value → ℕ
size v = 0

abbrev pub unused : ℕ
unused = beside
""",
    "low/specs/Reached.antt": """-- What is reached.
abbrev mutual
  pub reached : ℕ → ℕ
  reached n = odd n

  pub odd : ℕ → ℕ
  odd n = reached n

pub data Choice : Type 0 where
  Chosen Left : Choice
""",
    "low/specs/Values.antt": """-- What a value stands for.
use Rattle.low.specs.Trees.{Tree, Leaf}

pub record Value : Type 0 where
  pub place : ℕ

abbrev pub tree_of : Value → Tree
tree_of v = Leaf

abbrev pub place : ℕ
place = 0
""",
    "low/specs/Trees.antt": """-- Trees.
module _ (P : Type 0) where
  mutual
    pub data Tree : Type 0 where
      Leaf : Tree
""",
    "low/specs/Traits.antt": """-- What a trait tells.
use Rattle.low.specs.Chosen.{Chosen}

pub record Told : Type 0 where
  pub told : Chosen

abbrev pub may_tell : ℕ
may_tell = 0
""",
    "low/specs/Chosen.antt": "-- What is chosen.\npub use Rattle.low.specs.Choices.{Choice as Chosen}\n",
    "low/specs/Choices.antt": "-- Choices.\npub data Choice : Type 0 where\n  A : Choice\n",
    "low/specs/Lawful.antt": "-- A law.\nabbrev pub IsLawful : Type 0\nIsLawful = ⊥\n",
    "low/specs/Handed.antt": "-- What another crate names.\nabbrev pub IsHanded : ℕ → Type 0\nIsHanded n = ⊥\n",
    "low/specs/Private.antt": "-- What is private.\nabbrev pub is_private : ℕ\nis_private = 0\n",
    "low/specs/Views.antt": "-- What a view is.\nabbrev pub view_of : ℕ\nview_of = 0\n",
    "low/specs/Beside.antt": "-- What stands beside.\nabbrev pub beside : ℕ\nbeside = 0\n",
}
LIST = ["Called", "Choices †", "Handed", "Lawful", "Named", "Reached †", "Traits", "Trees †", "Values"]
PAGE = """# Definitions

Not in a table: `low/specs/Private.antt`.

| notion | source | file |
|---|---|---|
| a notion | | `low/specs/Called.antt`, `Choices.antt` †, `Handed.antt` |
| another | RFC 8259 | `low/specs/Lawful.antt`, `low/specs/Named.antt`, `Reached.antt` † |
| a third | | `low/specs/Traits.antt`, `Trees.antt` †, `low/specs/Values.antt` |
"""
WRONG = {
    ("`low/specs/Named.antt`", "`low/specs/Private.antt`"): ["low/specs/Named.antt is missing: low::Kept::read names it", "low/specs/Private.antt is listed for nothing"],
    (", `Reached.antt` †", ""): ["low/specs/Reached.antt is missing: low::Kept::read stands on it"],
    ("`Reached.antt` †", "`Reached.antt`"): ["low/specs/Reached.antt is to have a †"],
    ("`Handed.antt`", "`Handed.antt` †"): ["low/specs/Handed.antt is to be without a †: high::Fact names it"],
    ("| a third", "| twice | | `low/specs/Traits.antt` |\n| a third"): ["low/specs/Traits.antt is listed 2 times"],
    ("`Handed.antt`", "`Handed.antt`, `Gone.antt`"): ["low/specs/Gone.antt is listed for nothing"],
}
OWN = "and what its own value stands for:"
BELIEVED = {
    "low::Kept::read": ["     3 of   16  low/specs/Named.antt", "     5 of   10  low/specs/Reached.antt", "2 files, 8 lines",
                        OWN, "     3 of    5  low/specs/Trees.antt", "     4 of   11  low/specs/Values.antt", "2 files, 7 lines"],
    "low::count_of": ["     2 of   16  low/specs/Named.antt", "     2 of   11  low/specs/Values.antt", "2 files, 4 lines"],
    "low::laws": ["     2 of    3  low/specs/Lawful.antt", "1 file, 2 lines"],
    "high::Kept::told": ["0 files, 0 lines", OWN, "     2 of   16  low/specs/Named.antt", "     2 of   11  low/specs/Values.antt", "2 files, 4 lines"],
    "high::laws": ["     2 of    3  low/specs/Lawful.antt", "1 file, 2 lines"],
    "high::call": ["     2 of    3  low/specs/Called.antt", "1 file, 2 lines"],
    "high::Fact": ["     2 of    3  low/specs/Handed.antt", "1 file, 2 lines"],
}


def said(root, *words):
    done = subprocess.run([sys.executable, DEFINITIONS, "--root", root, *words], stdout=subprocess.PIPE, stderr=subprocess.PIPE, encoding="utf-8")
    return done.returncode, done.stdout.splitlines()


def main():
    with tempfile.TemporaryDirectory() as folder:
        root = Path(folder)
        for name, text in {**{f"crates/{it}": text for it, text in FILES.items()}, "docs/DEFINITIONS.md": PAGE}.items():
            (root / name).parent.mkdir(parents=True, exist_ok=True)
            (root / name).write_text(text, encoding="utf-8")
        listed = [f"low/specs/{it.split()[0]}.antt{it[len(it.split()[0]):]}" for it in LIST]
        assert said(root) == (0, listed), said(root)
        assert said(root, "--check") == (0, [f"{len(LIST)} passed, 0 failed"]), said(root, "--check")
        for (old, new), faults in WRONG.items():
            assert PAGE.count(old) == 1, old
            (root / "docs/DEFINITIONS.md").write_text(PAGE.replace(old, new), encoding="utf-8")
            status, lines = said(root, "--check")
            assert status == 1 and len(lines) == len(faults) + 1 and lines[-1].endswith(f" passed, {len(faults)} failed"), lines
            assert all(line.startswith(f"docs/DEFINITIONS.md: {fault}") for line, fault in zip(lines, faults)), lines
        for path, lines in BELIEVED.items():
            assert said(root, path) == (0, lines), (path, said(root, path))
        assert said(root, "low::Kept::inside") == (2, []) == said(root, "none"), said(root, "none")
        (root / "docs/DEFINITIONS.md").write_text(PAGE, encoding="utf-8")
        (root / "crates/low/specs/Choices.antt").write_text(FILES["low/specs/Choices.antt"].split("\n", 1)[1], encoding="utf-8")
        status, lines = said(root, "--check")
        assert status == 1 and lines[0].endswith("low/specs/Choices.antt does not begin with a sentence on what it defines"), lines
        (root / "crates/low/specs/Lawful.antt").write_text("-- None.\n", encoding="utf-8")
        assert said(root)[0] == 1
        (root / "crates/low/specs/Lawful.antt").write_text(FILES["low/specs/Lawful.antt"], encoding="utf-8")
        (root / "crates/low/src/laws.rt").write_text("pub use crate::hidden::gone;\n", encoding="utf-8")
        assert said(root)[0] == 1
    print(f"{len(LIST)} files are listed, {len(WRONG) + 1} wrong pages are told, and what {len(BELIEVED)} paths stand on")


main()
