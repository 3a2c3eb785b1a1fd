"""The crates of the repository, and rooms in which they are proved side by side.

While rt works in a crate it locks that one and all below it, so that in one tree two crates over a common one wait for each other. Here each
has a room of its own: a folder with copies of its sources and of those below it, and with links to the libraries made of these. What rt
keeps goes by the content of the files, so it is of use in any folder.
"""
import os
import re
import shutil
import subprocess
from concurrent.futures import FIRST_COMPLETED, ThreadPoolExecutor, wait
from pathlib import Path

QUICK_RT = Path(__file__).resolve().parent.parent / "quick-rt"
PARTS = ("src", "specs", "proofs", "c")
BYTES_EACH = 2_500_000_000
# lines of source from which two jobs make a check shorter. Each job reads all that lies below anew
LARGE = 300
JOBS = 2
# the part of the longest way from which on a crate is not behind others
NEAR = 3 / 4


def rooms_in_memory():
    """How many checks there is memory for."""
    found = re.search(r"MemAvailable:\s+(\d+)", Path("/proc/meminfo").read_text())
    return max(int(found[1]) * 1024 // BYTES_EACH, 1)


def lanes():
    """How many checks there are processors and memory for."""
    return min(len(os.sched_getaffinity(0)), rooms_in_memory())


class Crates:
    """What crates.txt says: for each crate those of the repository that it stands on."""

    def __init__(self, top):
        self.top, self.lower = top, {}
        lines = [line.partition("#")[0] for line in (top / "crates.txt").read_text(encoding="utf-8").splitlines()]
        self.lines = {line.split(":")[0].split()[0]: line for line in lines if ":" in line}
        self.uses = {name: [it for it in line.split(":")[1].split() if it in self.lines] for name, line in self.lines.items()}

    def folder(self, name):
        return self.top / "crates" / name

    def below(self, names):
        """All crates below these, each behind those that it stands on."""
        found = {}
        for lower in (it for name in names for it in self.uses[name]):
            # found once, since many ways lead to most
            if lower not in self.lower:
                self.lower[lower] = [*self.below([lower]), lower]
            found.update(dict.fromkeys(self.lower[lower]))
        return list(found)

    def is_program(self, name):
        return (self.folder(name) / "src/main.rt").is_file()

    def lines_of(self, name):
        """How many lines of source there are: what a check takes grows with them."""
        sources = (self.folder(name) / "src").rglob("*.rt")
        return sum(file.read_text(encoding="utf-8").count("\n") for file in sources)


class Room:
    """A folder with the sources of a crate and of those below it, and what is kept of the crate's own proof."""

    def __init__(self, at, crates, name):
        self.name, self.folder = name, at / "crates" / name
        needed = [*crates.below([name]), name]
        at.mkdir(parents=True)
        shutil.copy2(crates.top / "HANDLES", at)
        (at / "crates.txt").write_text("".join(f"{crates.lines[it]}\n" for it in needed), encoding="utf-8")
        for it in needed:
            for part in PARTS:
                if (crates.folder(it) / part).is_dir():
                    shutil.copytree(crates.folder(it) / part, at / "crates" / it / part)

    def lend(self, name, library):
        """Links to the library of a crate below, which was made elsewhere."""
        shutil.copytree(library, self.folder.parent / name / "out/rlib", copy_function=os.link)

    def library(self):
        return self.folder / "out/rlib"

    def rt(self, *words, behind=False):
        """The exit status of a command of rt in the crate, what it said, and the seconds of a processor that it took. One that is behind others lets
        these have the processors."""
        how = {"cwd": self.folder, "stdin": subprocess.DEVNULL, "stdout": subprocess.PIPE, "stderr": subprocess.STDOUT}
        with subprocess.Popen([*(["nice"] if behind else []), QUICK_RT, *words], **how) as ran:
            said = ran.stdout.read().decode(errors="replace").splitlines()
            _, status, used = os.wait4(ran.pid, 0)
            ran.returncode = -(status & 127) if status & 127 else status >> 8
        return ran.returncode, said, used.ru_utime + used.ru_stime


class Task:
    """Something to do once others are done: a function of how many jobs it may use, and of whether it is behind others, whose answer says whether it
    went well. What it takes grows with its length; one of at least `LARGE` lines takes less time with several jobs."""

    def __init__(self, name, waits, work, length=0):
        self.name, self.waits, self.work, self.length = name, waits, work, length


def ways(tasks):
    """For each task, which stands behind those that it waits for, the greatest length of it and of some that wait for one another behind it."""
    found = dict.fromkeys((it.name for it in tasks), 0)
    for task in reversed(tasks):
        found[task.name] += task.length
        for lower in task.waits:
            found[lower] = max(found[lower], found[task.name])
    return found


def run_all(tasks, many, tell, silence):
    """Does the tasks, many at a time, those with the longest way before them first; one whose work did not go well, and all that wait for it, stay
    undone. The end comes no sooner than that of the longest way: so large tasks whose way is near to it have several jobs each, as far as there are
    lanes and memory, and a lane less is left to others for each. All others have a job each, and those whose way is not near are behind. tell gets
    each task that is done, with whether it went well, and nothing but the names of those that run where none was done for so many seconds."""
    done, failed, running, ahead, runs, way, rooms = set(), set(), set(), set(), {}, ways(tasks), max(rooms_in_memory(), many)
    with ThreadPoolExecutor(max(len(tasks), 1)) as pool:

        def begin(task, jobs, behind):
            running.add(task.name)
            runs[pool.submit(task.work, jobs, behind)] = task

        while True:
            left = [it for it in tasks if it.name not in {*done, *failed, *running}]
            ready = sorted((it for it in left if done.issuperset(it.waits)), key=lambda it: -way[it.name])
            longest = max((way[it] for it in [*running, *(it.name for it in ready)]), default=0)
            for task in ready:
                is_near, jobs = way[task.name] >= NEAR * longest, len(running) + (JOBS - 1) * len(ahead)
                if is_near and task.length >= LARGE and JOBS * (len(ahead) + 1) <= many and jobs + JOBS <= rooms:
                    ahead.add(task.name)
                    begin(task, JOBS, False)
                elif len(running) < many and jobs < rooms:
                    begin(task, 1, not is_near)
            if not runs:
                return
            ended = wait(runs, timeout=silence, return_when=FIRST_COMPLETED).done
            for it in ended:
                task = runs.pop(it)
                running.discard(task.name)
                ahead.discard(task.name)
                (done if it.result() else failed).add(task.name)
                tell(task, it.result())
            if not ended:
                tell(None, sorted(running))
