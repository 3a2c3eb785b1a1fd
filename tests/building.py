#!/usr/bin/env python3
"""Tests bin/build on a made tree of three crates with a made toolchain: each crate is proved once, over the libraries of those below it; libraries stand
in build/proved and programs where their crates have them, or all in the crates' folders with --keep; a second run proves nothing, and one after an edit what
changed and all above it; what a killed run left is put back; a crate that is not proved keeps those above it from being tried; and what goes on in the
background has the least share of a processor that others want."""
import os
import re
import shutil
import subprocess
import sys
import tempfile
import time
from pathlib import Path

BIN = Path(__file__).resolve().parent.parent / "bin"
# proves a crate, but one whose text says that it is wrong, where the library that is there is not of this text, and tells over which libraries
RT = """#!/bin/sh
[ "$1" = --version ] && echo "made kit $(cat "$(dirname "$0")/number" 2>/dev/null)" && exit
name=$(basename "$PWD") text=$(cat src/*.rt)
echo "$text" | grep -q wrong && echo "not proved" && exit 1
over=$(cat ../*/out/rlib/made 2>/dev/null | tr '\\n' ' ')
if [ "$1" = lib ]; then
    [ "$(cat out/rlib/stamp 2>/dev/null)" = "$text" ] && exit 0
    mkdir -p out/rlib
    echo "$name" >out/rlib/made
    echo "$text" >out/rlib/stamp
    cat /proc/self/autogroup >out/rlib/group 2>/dev/null
else
    mkdir -p out
    printf '#!/bin/sh\\necho made of %s, over %s\\n' "$text" "$over" >out/$name
    chmod +x out/$name
    echo "$text" >out/$name.stamp
fi
echo "logic=proved functions=1"
case $text in *unhelpful*) exit 3 ;; esac
"""
CRATES = {"low": ("", "lib"), "middle": (" low", "lib"), "top": (" middle low", "main")}
failures, cases = [], 0


def check(name, found, wanted):
    global cases
    cases += 1
    if found != wanted:
        failures.append(name)
        print(f"FAILED: {name}: {found!r} in the place of {wanted!r}")


class Tree:
    def __init__(self, room):
        self.at = room / "tree"
        shutil.copytree(BIN, self.at / "bin", ignore=shutil.ignore_patterns("__pycache__"))
        (self.at / "HANDLES").write_text("Handles allowed: none.\n")
        (self.at / "crates.txt").write_text("".join(f"{name}:{uses}\n" for name, (uses, _) in CRATES.items()))
        for name in CRATES:
            self.write(name, f"{name} one")
        (room / "rt").write_text(RT)
        (room / "rt").chmod(0o755)
        self.env = {**os.environ, "PATH": f"{room}:{os.environ['PATH']}"}

    def write(self, name, text):
        file = self.at / "crates" / name / "src" / f"{CRATES[name][1]}.rt"
        file.parent.mkdir(parents=True, exist_ok=True)
        file.write_text(f"{text}\n")

    def build(self, *flags):
        """The crates that a run proved, those that it found as they were, and its exit status."""
        how = {"env": self.env, "stdin": subprocess.DEVNULL, "stderr": subprocess.PIPE, "encoding": "utf-8", "timeout": 60}
        ended = subprocess.run([self.at / "bin/build", *flags, "top"], **how)
        return [sorted(re.findall(rf"^bin/build: {one} (\w+), ", ended.stderr, re.M)) for one in ("proved", "kept")], ended.returncode

    def goes_on_behind(self):
        """Whether a run in the background came to its end."""
        self.build("--behind")
        log, until = self.at / "build/log", time.monotonic() + 60
        while time.monotonic() < until and not (log.exists() and "crates are there" in log.read_text()):
            time.sleep(0.05)
        return time.monotonic() < until

    def verified(self):
        """What bin/build --verify says of the program, and its status."""
        ended = subprocess.run([self.at / "bin/build", "--verify", "crates/top/out/top"], cwd=self.at, env=self.env, stdout=subprocess.PIPE, encoding="utf-8", timeout=60)
        return ended.stdout.replace("crates/top/out/top: ", ""), ended.returncode

    def version(self):
        return subprocess.run([self.at / "bin/version", self.at / "crates/top/out/top"], stdout=subprocess.PIPE, encoding="utf-8").stdout.splitlines()[1:]

    def says(self):
        return subprocess.run([self.at / "crates/top/out/top"], stdout=subprocess.PIPE, encoding="utf-8").stdout

    def libraries(self):
        """Where libraries stand."""
        return sorted(str(it.relative_to(self.at).parent) for it in self.at.rglob("rlib"))


def manifested(tree):
    """The manifest says of which program, commit, toolchain and crates it is, and each difference is told."""
    program = tree.at / "crates/top/out/top"
    file, whole = program.with_name("top.manifest"), program.read_bytes()
    check("no commit", tree.verified(), ("proved of 3 crates, commit unknown, kit made kit \n", 0))
    check("its version", tree.version(), ["commit unknown", "kit made kit ", "proved: 3 crates"])
    git = ["git", "-C", tree.at, "-c", "user.name=one", "-c", "user.email=one@example.org"]
    for words in (["init", "-q"], ["add", "crates/*/src/*", "crates.txt", "HANDLES"], ["commit", "-q", "-m", "one"]):
        subprocess.run([*git, *words], check=True)
    commit = subprocess.run([*git, "rev-parse", "HEAD"], stdout=subprocess.PIPE, encoding="utf-8").stdout.strip()
    (tree.at / ".git/info/exclude").write_text("out/\n")
    tree.build()
    check("a commit", tree.verified(), (f"proved of 3 crates, commit {commit}, kit made kit \n", 0))
    program.write_bytes(whole + b"\n")
    check("another program", [tree.verified()[0].startswith("the program has the SHA-256 "), tree.verified()[1]], [True, 1])
    check("its version", tree.version(), ["not proved: its manifest is that of another program"])
    program.write_bytes(whole)
    tree.write("middle", "middle three")
    check("another crate", tree.verified(), ("the crate middle is another than was proved\n", 1))
    tree.build()
    check("a commit with changes", tree.verified(), (f"proved of 3 crates, commit {commit} with changes, kit made kit \n", 0))
    (tree.at / "crates/low/specs").mkdir()
    (tree.at / "crates/low/specs/Lib.antt").write_text("")
    check("a file more", tree.verified(), ("the crate low is another than was proved\n", 1))
    shutil.rmtree(tree.at / "crates/low/specs")
    lines = (tree.at / "crates.txt").read_text()
    (tree.at / "crates.txt").write_text(lines.replace("top: middle low", "top: middle"))
    check("another line of crates.txt", tree.verified(), ("the crate top is another than was proved\n", 1))
    (tree.at / "crates.txt").write_text(lines)
    (tree.at.parent / "number").write_text("two")
    check("another toolchain", tree.verified(), ("the toolchain here is made kit two, and was made kit \n", 1))
    (tree.at.parent / "number").unlink()
    file.unlink()
    check("no manifest", tree.verified(), ("there is no crates/top/out/top.manifest\n", 1))
    check("its version", tree.version(), ["not proved: it has no manifest"])


def main():
    with tempfile.TemporaryDirectory(prefix="building-") as made:
        tree = Tree(Path(made))
        proved = [f"build/proved/crates/{it}/out" for it in ("low", "middle")]
        check("a first run", tree.build(), ([["low", "middle", "top"], []], 0))
        check("its program", tree.says(), "made of top one, over low middle\n")
        check("its libraries", tree.libraries(), proved)
        check("a second run", tree.build()[0][1][:2], ["low", "middle"])
        tree.write("low", "low two")
        check("an edit below", tree.build(), ([["low", "middle", "top"], []], 0))
        tree.write("middle", "middle two")
        check("an edit between", tree.build(), ([["middle", "top"], ["low"]], 0))
        tree.write("middle", "wrong")
        check("a fault", tree.build(), ([[], ["low"]], 1))
        check("the program before it", tree.says(), "made of top one, over low middle\n")
        tree.write("middle", "middle two")
        # as a run that was killed while it proved low
        lent = tree.at / "build/rooms/statements/low/crates/low/out"
        lent.parent.mkdir(parents=True)
        (tree.at / proved[0]).rename(lent)
        check("what a killed run left", tree.build()[0][1][:2], ["low", "middle"])
        tree.write("low", "low three")
        check("--keep", tree.build("--keep"), ([["low", "middle", "top"], []], 0))
        check("its libraries too", tree.libraries(), proved + [f"crates/{it}/out" for it in ("low", "middle")])
        tree.write("low", "low four")
        check("what rt finds current with --keep", tree.build("--keep")[0][1][:1], ["middle"])
        tree.write("top", "unhelpful")
        check("a program that refuses --help", tree.build(), ([["low", "middle", "top"], []], 0))
        tree.write("low", "low five")
        check("--behind", tree.goes_on_behind(), True)
        # of the session's group, as Linux tells it where it has such groups
        group = (tree.at / proved[0] / "rlib/group").read_text()
        check("its share", group.split()[1:], ["nice", "19"] if group else [])
        manifested(tree)
        check("rooms are put away", [it.name for it in (tree.at / "build/rooms").rglob("*") if it.name in CRATES], [])
    print(f"{cases} cases, {len(failures)} differ")
    sys.exit(1 if failures else 0)


main()
