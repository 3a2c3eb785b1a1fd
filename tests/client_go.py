#!/usr/bin/env python3
"""Runs the tests of the client for Go, where there is Go: gofmt, go vet and go test, without a network."""
import os
import shutil
import subprocess
import sys
import tempfile
from pathlib import Path

FOLDER = Path(__file__).resolve().parent.parent / "clients/go"
COMMANDS = [["gofmt", "-l", "."], ["go", "vet", "./..."], ["go", "test", "-count=1", "./..."]]


def main():
    if not shutil.which("go") or not shutil.which("gofmt"):
        print("not run, since there is no Go here")
        return
    with tempfile.TemporaryDirectory(prefix="path-client-go-") as cache:
        environment = {**os.environ, "GOCACHE": cache, "GOPROXY": "off", "GOFLAGS": "-mod=mod", "CGO_ENABLED": "0"}
        for command in COMMANDS:
            ran = subprocess.run(command, cwd=FOLDER, env=environment, stdout=subprocess.PIPE, stderr=subprocess.STDOUT, timeout=300)
            output = ran.stdout.decode().strip()
            print(f"{' '.join(command)}: {output or 'done'}")
            if ran.returncode or command[0] == "gofmt" and output:
                sys.exit(1)


if __name__ == "__main__":
    main()
