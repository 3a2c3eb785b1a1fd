#!/usr/bin/env python3
"""The loop of `path_server listen` over a system that a test holds: tests/simulation.py [SEED].

The program crates/simulated_loop, which bin/check proves and builds, runs the loop over pipes and a clock of its own, with everything that
happens decided by a seed. It compares each reply with the peer's own record, and tells where one that goes on waited too long or was closed.
Here it has from one peer to thousands. In the last runs a library (lib/failing_calls.c, compiled by `cc` into a temporary folder; where there is
no cc, these are left out) refuses growths of the loop and the hub, and all goes on. long/long_simulation.py goes on for longer.
"""
import os
import subprocess
import sys
import tempfile
from pathlib import Path

from lib.running_server import has
from refused_growths import Calls

PROGRAM = os.environ.get("SIMULATED_LOOP") or str(Path(__file__).resolve().parent.parent / "crates/simulated_loop/out/simulated_loop")
SIZES = ((1, 50_000), (5, 60_000), (20, 60_000), (100, 40_000), (1_000, 2_500), (4_000, 1_000))
"""Peers and rounds."""
SCARCE = ((5, 40_000, 7), (50, 20_000, 101))
"""Peers, rounds, and of how many growths one is refused."""


def is_good(seed, peers, rounds, environment=None):
    """One run, with refused growths if there is an environment for them. Whether all went as it must."""
    words = [str(it) for it in (seed, peers, rounds, int(environment is not None))]
    done = subprocess.run([PROGRAM, *words], stdin=subprocess.DEVNULL, stdout=subprocess.DEVNULL, stderr=subprocess.PIPE, text=True, env=environment)
    told = done.stderr.strip() if done.returncode in (0, 1) else f"status {done.returncode}: {done.stderr.strip()}"
    print(f"seed {seed}, {peers} peers: {told}", flush=True)
    return done.returncode == 0 and (", 0 refused" in told) == (environment is None)


def run(seed):
    """One run for each size, from this seed on: how many there were, and how many failed."""
    runs = [is_good(seed + place, *size) for place, size in enumerate(SIZES)]
    if has("runs with calls for memory that fail", "cc"):
        with tempfile.TemporaryDirectory() as folder:
            calls = Calls(Path(folder))
            for place, (peers, rounds, each) in enumerate(SCARCE, len(SIZES)):
                environment = calls.environment("memory", each, FAILING_ON="each", FAILING_WITHIN="odd")
                runs.append(is_good(seed + place, peers, rounds, environment))
    return len(runs), runs.count(False)


def check():
    if not os.access(PROGRAM, os.X_OK):
        sys.exit(f"no program {PROGRAM}: bin/check builds it")


if __name__ == "__main__":
    check()
    runs, failed = run(int(sys.argv[1]) if len(sys.argv) > 1 else 1)
    print(f"simulation: {runs} runs, {failed} of them differ")
    sys.exit(1 if failed else 0)
