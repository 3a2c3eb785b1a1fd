#!/usr/bin/env python3
"""Tests in which order bin/build proves crates, on made tasks: each is done once, behind those that it waits for; those with the longest ways before them
go first, with several jobs, though others run, as far as there is memory; what waits for one that did not go well stays undone."""
import sys
import threading
import time
from pathlib import Path

sys.path.insert(0, str(Path(__file__).resolve().parent.parent / "bin/tools"))
import proving
from proving import JOBS, Task, run_all, ways

MANY = 4
# a chain of large tasks, one of nearly its length, a large one that is far from it, and small ones that nothing waits for: the name, what it waits for, its
# length
CHAIN = [("low", [], 400), ("middle", ["low"], 400), ("high", ["middle", "low"], 400)]
NEAR = [("near", [], 1000)]
OTHERS = [*((f"other{at}", [], 10) for at in range(8)), ("far", [], 300), ("beside", ["low"], 10)]
failures = []


def check(name, holds):
    if not holds:
        failures.append(name)
        print(f"FAILED: {name}")


def ran(named, failing=(), rooms=2 * MANY):
    """What was told of each task, and how each was begun: when, with how many jobs, and whether behind another one. There is memory for so many jobs,
    of which there are never more."""
    begun, told, lock, at_once = {}, {}, threading.Lock(), [0]
    proving.rooms_in_memory = lambda: rooms

    def work_of(name, length):
        def work(jobs, behind):
            with lock:
                begun[name] = (len(begun), jobs, behind, set(told))
                at_once[0] += jobs
                check(f"there is memory for {name}", at_once[0] <= rooms)
            time.sleep(0.02 if length < 100 else 0.1)
            with lock:
                at_once[0] -= jobs
            return name not in failing

        return work

    def tell(task, how):
        if task:
            told[task.name] = how

    run_all([Task(name, waits, work_of(name, length), length) for name, waits, length in named], MANY, tell, 60)
    return begun, told


def main():
    named = [*OTHERS, *NEAR, *CHAIN]
    check("ways", ways([Task(*it[:2], None, it[2]) for it in CHAIN]) == {"low": 1200, "middle": 800, "high": 400})
    begun, told = ran(named)
    check("each is done once", told == {name: True for name, _, _ in named} and len(begun) == len(named))
    for name, waits, _ in named:
        check(f"{name} is behind those that it waits for", begun[name][3].issuperset(waits))
    check("the longest ways go first", {begun["low"][0], begun["near"][0]} == {0, 1})
    for name, _, _ in [*NEAR, *CHAIN]:
        check(f"{name} has its jobs", begun[name][1:3] == (JOBS, False))
    for name, _, _ in OTHERS:
        check(f"{name} is behind, with one job", begun[name][1:3] == (1, True))
    check("others are done meanwhile", begun["high"][3] & {name for name, _, _ in OTHERS})
    begun, told = ran(named, ["middle"])
    check("what waits for a failed one stays undone", told == {**{name: True for name, _, _ in [*OTHERS, *NEAR, CHAIN[0]]}, "middle": False} and "high" not in begun)
    begun, told = ran(named, rooms=MANY)
    check("each is done in little memory", told == {name: True for name, _, _ in named})
    print(f"{0 if failures else 1} passed, {len(failures)} failed")
    sys.exit(1 if failures else 0)


main()
