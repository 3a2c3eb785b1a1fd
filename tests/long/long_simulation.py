#!/usr/bin/env python3
"""Runs tests/simulation.py with one seed after the other for so many minutes: tests/long/long_simulation.py MINUTES [SEED]."""
import sys
import time
from pathlib import Path

sys.path.insert(0, str(Path(__file__).resolve().parent.parent))
from simulation import check, run


def main():
    if len(sys.argv) < 2:
        sys.exit(__doc__)
    check()
    stop, seed = time.monotonic() + 60 * float(sys.argv[1]), int(sys.argv[2]) if len(sys.argv) > 2 else 1
    runs = failed = 0
    while time.monotonic() < stop:
        more, differ = run(seed)
        runs, failed, seed = runs + more, failed + differ, seed + more
    print(f"long simulation: {runs} runs, {failed} of them differ, up to seed {seed - 1}")
    sys.exit(1 if failed else 0)


main()
