#!/usr/bin/env python3
"""Checks the clients' types: mypy --strict for the package of Python, tsc --strict for a program over that of Node. A tool that is not there is
told as not run.
"""
import shutil
import subprocess
import sys
from pathlib import Path

CLIENTS = Path(__file__).resolve().parent.parent / "clients"
CHECKS = [
    (["mypy", "--strict", "--python-version", "3.8", "--cache-dir", "/dev/null", "path_client", "tests/typed_use.py"], CLIENTS / "python"),
    (["tsc", "--strict", "--noEmit", "--target", "es2022", "--module", "node16", "--moduleResolution", "node16", "test/types/node.d.ts",
      "test/types/use.ts"], CLIENTS / "node"),
]


def main():
    failed = False
    for command, folder in CHECKS:
        if not shutil.which(command[0]):
            print(f"{command[0]}: not run, since it is not installed")
            continue
        ran = subprocess.run(command, cwd=folder, stdout=subprocess.PIPE, stderr=subprocess.STDOUT, timeout=300)
        print(f"{command[0]}: {'the types hold' if ran.returncode == 0 else ran.stdout.decode()}")
        failed = failed or ran.returncode != 0
    sys.exit(failed)


if __name__ == "__main__":
    main()
