"""Copies of a crate in which the prover judges some functions alone.

A function is proved from its own text and from what the others promise. So in a copy of its crate every function that is not to be judged
gets the body `unreachable!()` and a hole in the place of its proof, and `rattle check --allow-holes --only F ..` judges the others as in the
whole crate, without a proof of it. Some keep what they have: a `const fn` keeps its body, since it runs while the crate is read; a method that a trait
has a body for and a function whose result is an `impl` type keep body and proof; and so do all functions of a cycle of calls that one of
the judged functions is in.
"""
import os
import re
import shutil
import subprocess
import threading
from pathlib import Path

from edits import CYCLE, functions_of, homes_of, sources_of

PARTS = ("src", "specs", "proofs")
PROOFS = ("Invariants.antt", "Answers.antt", "Proof.antt")
BODY = "unreachable!()"
HOLE = """use Rattle.{crate}.proofs.{module}.Statement.{{statement}}

pub {name}_spec : {{M : Type 1}} → statement M
{name}_spec = ?
"""


def front_end(kit, crates, name, libraries):
    """The words that tell `rattle` of a crate, whose libraries stand in libraries/NAME/out/rlib as rt leaves them there."""
    here = lambda it: Path(libraries) / "crates" / it / "out/rlib"
    root = "main" if crates.is_program(name) else "lib"
    words = ["--crate-name", name, f"src/{root}.rt", "--extern", f"std={kit}/rlibs/std.rlib", "-L", f"dependency={kit}/rlibs"]
    for it in crates.lines[name].split(":")[1].split():
        words += ["--extern", f"{it}={here(it) if it in crates.uses else kit / 'rlibs'}/{it}.rlib"]
    for it in crates.below([name]):
        words += ["-L", f"dependency={here(it)}"]
    return [*words, "--links", f"{name}=", "--antt-project", f"{kit}/rattle/logic/antt-project.json", "--logic-built", f"{kit}/logic_built"]


def source_files(folder):
    """The texts of a crate's source files, and those of them that are part of it without its tests."""
    texts = sources_of(folder)
    tests = {word.rstrip(";") for text in texts.values() for part in text.split("#[cfg(test)]\n")[1:] for word in part.split("\n")[0].split()[-1:] if word.endswith(";")}
    return texts, [it for it in texts if not tests & {*Path(it).with_suffix("").parts}]


def cut(file, text, homes, is_whole):
    """The text of a source file with the bodies of the functions cut for which is_whole does not hold."""
    lines = text.split("\n")
    for it in reversed(functions_of(file, text, homes)):
        if is_whole(it):
            continue
        if not it.is_const and it.opening < it.last:
            far = len(lines[it.last - 1]) - 1
            lines[it.opening : it.last - 1] = [" " * far + "    " + BODY]
        if it.cycle:
            at = next(at for at in range(it.first - 1, it.opening) if CYCLE.match(lines[at] + "\n"))
            del lines[at]
    return "\n".join(lines)


# Where the prover can save nothing, it does not look for the lines that a proof could begin with, for which it begins once more.
UNSAVED = ["sh", "-c", 'trap "" XFSZ; ulimit -f 8; exec "$@"', "sh"]


class HoledCopy:
    """A copy of a crate in a folder of its own, in which only these functions, given by their paths, can be judged."""

    def __init__(self, at, folder, name, words, judged):
        self.at, self.words, self.name = at, words, name
        for part in PARTS:
            if (folder / part).is_dir():
                shutil.copytree(folder / part, at / part)
        self.texts, self.files = source_files(folder)
        self.homes = homes_of(self.texts)
        code = [it for file in self.files for it in functions_of(file, self.texts[file], self.homes)]
        self.unknown = [it for it in judged if it not in {one.path for one in code}]
        cycles = {it.cycle for it in code if it.cycle and it.path in judged}
        self.whole = {it.path for it in code if it.path in judged or it.cycle in cycles}
        for it in code:
            if not self.is_whole(it):
                self.make_hole(it)
        self.put(self.texts)

    def is_whole(self, function):
        return function.stays or function.path in self.whole

    def make_hole(self, function):
        """Puts a hole in the place of a function's proof, or of that of its cycle."""
        proof = self.at / function.proof()
        proof.mkdir(parents=True, exist_ok=True)
        for file in PROOFS:
            (proof / file).unlink(missing_ok=True)
        module = function.path.replace("::", ".")
        (proof / "Proof.antt").write_text(HOLE.format(crate=self.name, module=module, name=function.name), encoding="utf-8")
        if function.cycle:
            shutil.rmtree(proof.parent / f"+{function.cycle[1]}", ignore_errors=True)

    def put(self, texts):
        """Writes these texts into the copy, those of sources with what is cut."""
        for file, text in texts.items():
            (self.at / file).write_text(cut(file, text, self.homes, self.is_whole) if file in self.files else text, encoding="utf-8")

    def functions(self, file):
        """The functions of a file as it stands in the copy."""
        return functions_of(file, (self.at / file).read_text(encoding="utf-8"), self.homes)

    def check(self, judged, seconds, is_saved=False):
        """What the prover says of these functions, as lines, which are none where it takes longer than so many seconds, and the processor seconds that
        it took, with how long each of its stages took on the clock. What is saved serves later checks."""
        only = [word for it in judged for word in ("--only", it)]
        words = [*self.words, "--jobs", "1", "--incremental", "kept", "--allow-holes", "--stage-times", "stages", *only]
        words = words if is_saved else [*UNSAVED, *words]
        (self.at / "kept").mkdir(exist_ok=True)
        how = {"cwd": self.at, "stdin": subprocess.DEVNULL, "stdout": subprocess.PIPE, "stderr": subprocess.STDOUT}
        process = subprocess.Popen(words, **how)
        limit = threading.Timer(seconds, process.kill)
        limit.start()
        said = process.stdout.read().decode(errors="replace").splitlines()
        _, process.returncode, used = os.wait4(process.pid, 0)
        is_late = not limit.is_alive()
        limit.cancel()
        return [] if is_late else said, used.ru_utime + used.ru_stime, self.stages()

    def stages(self):
        """The stages of the last check that took a second or more."""
        told = (self.at / "stages").read_text(encoding="utf-8") if (self.at / "stages").is_file() else ""
        return [f"{name} {float(seconds):.0f}" for name, seconds in re.findall(r"^stage (\S+) (\S+)", told, re.M) if float(seconds) >= 1]
