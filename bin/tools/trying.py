"""Has the prover refuse the edits of crates; `bin/edits try --help` says how."""
import hashlib
import os
import re
import shutil
import subprocess
import sys
import tempfile
import threading
import time
from pathlib import Path

from edits import KINDS, Edit, apply, goal_of, in_groups, is_open, joined, kind_of, that_refuse
from holes import PARTS, HoledCopy, front_end
from proving import QUICK_RT, Task, run_all

TOOLS = [Path(__file__).resolve().parent / it for it in ("edits.py", "holes.py", "trying.py")]
SECONDS = 1800
SILENCE = 60
UNREAD = re.compile(r"(?:\./)?(src|specs)/\S+?:\d+:\d+: error: (?!`[^`]*`: )|(?:\./)?specs/\S+?:\d+:\d+: error: .*(is not in scope|has no field|is no name)")
ENDED = re.compile(r"only=\d+ ")


def span(seconds):
    return f"{int(seconds) // 60} min {int(seconds) % 60} s"


class Libraries:
    """Where the libraries stand, and which of them are there."""

    def __init__(self, folder, are_named):
        self.folder, self.changed, self.named, self.is_over = folder, threading.Condition(), set(), not are_named
        if are_named:
            threading.Thread(target=self.read, daemon=True).start()

    def read(self):
        for line in sys.stdin:
            with self.changed:
                self.named.add(line.strip())
                self.changed.notify_all()
        with self.changed:
            self.is_over = True
            self.changed.notify_all()

    def wait(self, names):
        """Waits until these are there, or no more will come; which are missing."""
        with self.changed:
            self.changed.wait_for(lambda: self.is_over or self.named.issuperset(names))
        return [it for it in names if not self.format(it).is_file()]

    def format(self, name):
        """The file of a library that holds a sum of all the others."""
        return self.folder / "crates" / name / f"out/rlib/{name}.rlib/format"


class Kept:
    """What was refused before, by the content of all that it rests on, and the line that told it."""

    DAYS = 30

    def __init__(self, kit, is_anew):
        self.folder, self.is_anew = Path(os.environ.get("XDG_CACHE_HOME") or Path.home() / ".cache") / "path_server/edits", is_anew
        rattle = (kit / "bin/rattle").stat()
        self.base = hashlib.sha256(repr((rattle.st_size, rattle.st_mtime_ns)).encode())
        for file in (kit / "KIT-ID", kit / "WHAT", *TOOLS):
            self.base.update(file.read_bytes())
        self.folder.mkdir(parents=True, exist_ok=True)
        for it in self.folder.iterdir():
            if time.time() - it.stat().st_mtime > self.DAYS * 86400:
                it.unlink(missing_ok=True)

    def crate(self, folder, line, formats):
        """A sum of a crate and of the libraries below it."""
        found = self.base.copy()
        found.update(line.encode())
        for file in formats:
            found.update(file.read_bytes())
        for part in PARTS:
            for file in sorted((folder / part).rglob("*")):
                if file.is_file():
                    found.update(repr((str(file.relative_to(folder)), file.read_bytes())).encode())
        return found

    def at(self, crate, edit):
        found = crate.copy()
        found.update(edit.read_bytes())
        return self.folder / found.hexdigest()

    def told(self, at):
        try:
            return None if self.is_anew else at.read_text(encoding="utf-8")
        except OSError:
            return None

    def keep(self, at, line):
        made = at.with_suffix(f".{os.getpid()}")
        made.write_text(line, encoding="utf-8")
        made.replace(at)


class Trial:
    """The edits of a crate, and what came of them."""

    def __init__(self, crates, name, files, kit, libraries, kept, is_proved, are_timed):
        self.crates, self.name, self.files, self.kit, self.libraries, self.kept = crates, name, files, kit, libraries, kept
        self.is_proved, self.are_timed = is_proved, are_timed
        self.said, self.refused, self.copy, self.places, self.checks, self.spent = [], dict.fromkeys(KINDS, 0), None, {}, 0, 0.0

    def run(self, *_):
        started = time.monotonic()
        missing = self.libraries.wait(self.crates.below([self.name]))
        if missing:
            self.said.append(f"{self.name}: there is no library {missing[0]}")
        else:
            with tempfile.TemporaryDirectory(prefix="try-edits-") as at:
                self.try_all(Path(at))
        how = ", ".join(f"{count} {kind}" for kind, count in self.refused.items() if count)
        self.said.append(f"{self.name}: {self.count()} of {len(self.files)} refused{f' ({how})' if how else ''}, {self.checks} checks, {self.spent:.0f} s of a processor, {span(time.monotonic() - started)}")
        return True

    def count(self):
        return sum(self.refused.values())

    def try_all(self, at):
        folder = self.crates.folder(self.name)
        crate = self.kept.crate(folder, self.crates.lines[self.name], [self.libraries.format(it) for it in self.crates.below([self.name])])
        self.places = {it.name: self.kept.at(crate, it) for it in self.files}
        for file in self.files:
            told = self.kept.told(self.places[file.name])
            if told:
                kind, _, line = told.partition("\n")
                self.tell(file.name, kind, line, "refused before")
        left = [Edit(it, folder) for it in self.files if not self.kept.told(self.places[it.name])]
        for edit in [it for it in left if not it.judges]:
            self.said.append(f"{self.name}/{edit.name}: NOT REFUSED: it changes no function, and names none that judges it")
        left = [it for it in left if it.judges]
        if left and self.control(at, folder, left):
            again = [edit for group in in_groups(left, folder) for edit in self.try_group(group)]
            for edit in again:
                # what is saved has the prover say more
                for it in self.try_group([edit], is_saved=True):
                    self.against(it)

    def control(self, at, folder, edits):
        """Makes the copy in which the edits are tried; whether all functions that judge them are proved in it as they stand, which another run says where it
        proves the crate."""
        judges = list(dict.fromkeys(path for it in edits for path in it.judges))
        words = [str(self.kit / "bin/rattle"), "check", *front_end(self.kit, self.crates, self.name, self.libraries.folder)]
        self.copy = HoledCopy(at, folder, self.name, words, judges)
        against = [f"{it}, which an edit names, is no function of the crate" for it in self.copy.unknown]
        if not against and not self.is_proved:
            against = self.against_control(self.check("control", judges, is_saved=True), judges)
        if against:
            self.said += [f"{self.name}: its edits were not tried, since it is not proved without one:", *against[:5]]
        return not against

    def against_control(self, lines, judges):
        """What the lines of a check of the functions as they stand say against them."""
        against = [line for line in lines if is_open(line) or UNREAD.match(line)] + [f"{it} was not judged" for it in judges if not self.is_whole(it, lines)]
        return against or ([] if was_judged(lines) else lines[-5:] or ["the check did not end"])

    def is_whole(self, path, lines):
        """Whether the lines of a check tell that a function is proved, but for what others promise."""
        return any(line.startswith((f"fn {self.name}::{path}: no holes", f"fn {self.name}::{path}: depends on a hole")) for line in lines)

    def check(self, what, judged, is_saved=False):
        """What the prover says of these functions in the copy."""
        lines, spent, stages = self.copy.check(judged, SECONDS, is_saved)
        self.checks, self.spent = self.checks + 1, self.spent + spent
        if self.are_timed:
            self.said.append(f"{self.name}: {spent:.0f} s of a processor for {len(judged)} functions ({', '.join(stages)}): {what}")
        return joined(lines)

    def try_group(self, group, is_saved=False):
        """Tries edits together; those that no goal refused, each with what the check said."""
        folder, texts = self.crates.folder(self.name), {}
        for edit in group:
            apply(edit.pairs, folder, texts)
        before = {file: (folder / file).read_text(encoding="utf-8") for file in texts}
        try:
            self.copy.put(texts)
            lines = self.check(" ".join(it.name for it in group), list(dict.fromkeys(path for it in group for path in it.judges)), is_saved)
            now = {it.path: it for file in self.copy.files for it in self.copy.functions(file)}
        finally:
            self.copy.put(before)
        left = []
        for edit in group:
            edit.lines = lines
            edit.told = self.told_of(edit, lines, now) if was_judged(lines) else []
            told = that_refuse(edit.told, edit.clauses)
            if told:
                line = min(told, key=lambda it: KINDS.index(kind_of(it)))
                self.tell(edit.name, kind_of(line), line, "refused")
                self.kept.keep(self.places[edit.name], f"{kind_of(line)}\n{line}")
            else:
                left.append(edit)
        return left

    def told_of(self, edit, lines, now):
        """The lines of a check that tell of the goals that refuse an edit. That of a definition is tried alone, and may break a lemma before it breaks
        the laws that it is about, of which none may be proved then."""
        if edit.functions:
            return [line for line in lines if any(now[it].is_at(line) for it in edit.judges if it in now)]
        return [] if any(self.is_whole(it, lines) for it in edit.judges) else [line for line in lines if is_open(line)]

    def against(self, edit):
        """Says why an edit that was tried alone is not refused."""
        unread = next((line for line in edit.lines if UNREAD.match(line)), None)
        whole = [it for it in edit.judges if self.is_whole(it, edit.lines)]
        if not edit.lines:
            why = f"its check did not end within {span(SECONDS)}"
        elif unread or not was_judged(edit.lines):
            why = f"it cannot be read: {unread or edit.lines[-1]}"
        elif edit.told:
            why = f"it is refused, but not at its clause {' or '.join(edit.clauses)}: {kind_of(edit.told[0])}: {edit.told[0]}"
        elif not whole:
            why = "only a proof no longer fits, which says little of the contract: " + next((line for line in edit.lines if ": error: " in line), "")
        else:
            why = "it is proved" if len(whole) == len(edit.judges) else f"{whole[0]} is proved"
        self.said.append(f"{self.name}/{edit.name}: NOT REFUSED: {why[:300]}")

    def tell(self, name, kind, line, how):
        self.refused[kind] += 1
        self.said.append(f"{self.name}/{name}: {how}: {kind}, `{goal_of(line)}`: {line[:200]}")


def was_judged(lines):
    return bool(lines) and bool(ENDED.match(lines[-1])) and not any(UNREAD.match(line) for line in lines)


def prove_libraries(crates, names):
    """Has rt prove what these crates stand on; whether it did."""
    for name in crates.below(names):
        ended = subprocess.run([QUICK_RT, "lib"], cwd=crates.folder(name), stdin=subprocess.DEVNULL, stdout=subprocess.PIPE, stderr=subprocess.STDOUT, encoding="utf-8")
        if ended.returncode:
            print(*ended.stdout.splitlines()[-12:], f"{name} is not proved", sep="\n", flush=True)
            return False
    return True


def try_edits(crates, kind, names, word, folder, are_named, are_proved, is_anew, are_timed, many):
    """Tries the edits of a kind whose name has the word, of the crates that are named or of all, many crates at a time. The libraries stand in a folder like
    that of the repository, which may be told to come as they are named on standard input; with no folder they are proved first. Prints what
    comes of them; how many were refused, and how many were not. Where another run proves all crates, there is no control."""
    kit = Path(shutil.which("rt")).resolve().parent.parent
    edits = {name: sorted(it for it in (crates.folder(name) / kind).glob("*.edit") if word in it.name) for name in names or crates.uses}
    edits = {name: files for name, files in edits.items() if files}
    print("trying " + ", ".join(f"{len(files)} edits of {name}" for name, files in edits.items()), flush=True)
    total = sum(len(files) for files in edits.values())
    if not folder and not prove_libraries(crates, edits):
        return 0, max(total, 1)
    libraries, kept = Libraries((folder or crates.top).resolve(), are_named), Kept(kit, is_anew)
    trials = {name: Trial(crates, name, files, kit, libraries, kept, are_proved, are_timed) for name, files in edits.items()}

    def tell(task, how):
        lines = [f"still at {', '.join(how)}"] if task is None else trials[task.name].said
        print(*lines, sep="\n", flush=True)

    run_all([Task(name, [], it.run) for name, it in trials.items()], many, tell, SILENCE)
    passed = sum(it.count() for it in trials.values())
    return passed, total - passed
