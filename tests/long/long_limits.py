#!/usr/bin/env python3
"""The cases of tests/limits.py with larger numbers: tests/long/long_limits.py [NAME..], on Linux alone.

300 clients that put 4 MiB at the default limit on memory, 200 that read nothing of 8 MB, 10,000 idle connections, 100,000 faults beside a standard
error that nobody reads, and the others. It needs 20,000 descriptors (`ulimit -n`).
"""
import sys
from pathlib import Path

sys.path.insert(0, str(Path(__file__).resolve().parent.parent))
from limits import main

main(False, sys.argv[1:])
