#!/usr/bin/env python3
"""Tests bin/quick-rt on made toolchains: it does what their rt does, with the same arguments, output and exit status; the sum of a crate is made once
though many ways lead to it, and anew once the prover has run; a library of statements is made where it is not current, and has its sum beside it
if the prover made it; and where a toolchain's rt is another program, that one runs."""
import os
import subprocess
import sys
import tempfile
from pathlib import Path

QUICK_RT = Path(__file__).resolve().parent.parent / "bin/quick-rt"
# a chain of crates, each of which names all below it, so that 2 to the power of their number ways lead down
RT = '''#!/usr/bin/env python3
import os
import sys
import types


class Crate:
    made = []
    rlib = "out/rlib/made.rlib"

    def __init__(self, name, deps):
        self.name, self.deps = name, deps

    def stamp(self):
        self.made.append(self.name)
        return self.name + "".join(it.stamp() for it in self.deps)

    def call(self, *words):
        print("called", *words)
        return STATUS

    def prove(self, *commands):
        raise SystemExit(9)

    def is_built(self):
        file = "out/rlib/stamp"
        return os.path.isfile(file) and open(file).read() == self.stamp()

    def words(self, flags, keeps):
        return ["--crate-name", self.name, *flags, str(keeps)]

    def build_rlib(self, flags, anew):
        return self.call("whole", *flags)


rtlib = types.SimpleNamespace(Crate=Crate, RATTLE="prover", help_of=lambda verb: HELP)


def main(words):
    crates = []
    for name in "abcdefghijklmnop":
        crates.append(Crate(name, list(crates)))
    top = crates[-1]
    if words[0] == "lib":
        return top.build_rlib(words[1:], False)
    if words[0] == "prove":
        try:
            top.stamp()
            top.prove()
        finally:
            top.stamp()
            print(len(Crate.made))
    is_same = top.stamp() == top.stamp()
    before, status = len(Crate.made), top.call(*words[1:])
    top.stamp()
    print(is_same, before, len(Crate.made))
    return status


HELP, STATUS = "--statements", 7
if __name__ == "__main__":
    sys.exit(main(sys.argv[1:]))
'''
BUILT = "called prover build --crate-name p --jobs 2 False --statements -o out/rlib/made.rlib\n"
OTHERS = {"another program": '#!/bin/sh\necho "other $@"\nexit 5\n', "another inside": '#!/usr/bin/env python3\nimport sys\nprint("other", *sys.argv[1:])\nsys.exit(5)\n'}
failures = []


def check(name, found, wanted):
    if found != wanted:
        failures.append(name)
        print(f"FAILED: {name}: {found!r} in the place of {wanted!r}")


def ran(room, text, *words):
    """What bin/quick-rt prints with this rt, and its exit status."""
    kit = room / "kit/bin"
    kit.mkdir(parents=True, exist_ok=True)
    (kit / "rt").write_text(text)
    (kit / "rt").chmod(0o755)
    # rt is found by a link, as after an installation
    (room / "bin").mkdir(exist_ok=True)
    if not (room / "bin/rt").is_symlink():
        (room / "bin/rt").symlink_to(kit / "rt")
    env = {**os.environ, "PATH": f"{room}/bin:{os.environ['PATH']}"}
    how = {"cwd": room, "env": env, "stdin": subprocess.DEVNULL, "stdout": subprocess.PIPE, "encoding": "utf-8", "timeout": 60}
    ended = subprocess.run([sys.executable, QUICK_RT, *words], **how)
    return ended.stdout, ended.returncode


def main():
    with tempfile.TemporaryDirectory(prefix="quick-rt-") as made:
        room = Path(made)
        check("sums are made once, and anew behind the prover", ran(room, RT, "call", "x", "--y"), ("called x --y\nTrue 16 32\n", 7))
        check("an exit of the prover", ran(room, RT, "prove"), ("32\n", 9))
        statements, stamp = ["lib", "--jobs", "2", "--statements"], room / "out/rlib/stamp"
        check("statements that are refused", (ran(room, RT, *statements), stamp.is_file()), ((BUILT, 7), False))
        well = RT.replace("STATUS = \"--statements\", 7", "STATUS = \"--statements\", 0")
        check("statements", (ran(room, well, *statements), stamp.is_file()), ((BUILT, 0), True))
        check("statements that are current", ran(room, well, *statements), ("", 0))
        stamp.write_text("of others")
        check("statements of other files", ran(room, well, *statements), (BUILT, 0))
        check("a library with its proofs", ran(room, well, "lib", "--jobs", "2"), ("called whole --jobs 2\n", 0))
        check("a toolchain without statements", ran(room, well.replace("HELP, STATUS = \"--", "HELP, STATUS = \""), *statements), ("called whole --jobs 2\n", 0))
        for name, text in OTHERS.items():
            check(name, ran(room, text, *statements), ("other lib --jobs 2\n", 5))
    ended = subprocess.run([sys.executable, QUICK_RT, "version"], env={"PATH": "/nowhere"}, stdout=subprocess.PIPE, stderr=subprocess.PIPE, encoding="utf-8")
    check("no rt", (ended.returncode, ended.stderr), (1, "bin/quick-rt: there is no command rt on the PATH\n"))
    print(f"{len(OTHERS) + 9} cases, {len(failures)} differ")
    sys.exit(1 if failures else 0)


main()
