#!/usr/bin/env python3
"""What systemd says of deploy/path_server@.service: tests/deploy/unit.py

`systemd-analyze verify` finds nothing to mend, and `security` rates its exposure below 2 of 10. What the unit starts with is run as it stands: its
ExecStart, with the variables of a shard's .env, serves and ends at SIGTERM.
"""
import os
import re
import shlex
import signal
import subprocess
import tempfile
from pathlib import Path

from deployment import TOP, free_ports
from lib.running_server import PATIENCE, PROGRAM, Report, want
from path_client import connect

UNIT = TOP / "deploy/path_server@.service"
RUN = "/usr/local/bin/path_server_run"
EXPOSURE = 2.0
ALLOCATOR = ["MALLOC_MMAP_THRESHOLD_=33554432", "MALLOC_TRIM_THRESHOLD_=268435456"]


def analyzed(report, folder):
    """The unit with the program's place exchanged, since it is not installed here."""
    unit = folder / "path_server@1.service"
    unit.write_text(UNIT.read_text().replace(RUN, str(TOP / "bin/path_server_run")))
    ran = subprocess.run(["systemd-analyze", "verify", unit], capture_output=True, encoding="utf-8")
    # what it says of other units of this machine is not ours
    said = [line for line in ran.stderr.splitlines() if "path_server" in line]
    report.case("systemd-analyze verify", "", [], said)
    ran = subprocess.run(["systemd-analyze", "security", "--offline=yes", f"--threshold={EXPOSURE * 10:.0f}", unit], capture_output=True, encoding="utf-8")
    found = re.search(r"Overall exposure level for \S+: ([\d.]+)", ran.stdout)
    print(f"exposure {found[1] if found else ran.stdout[-300:] + ran.stderr[-300:]}", flush=True)
    report.case("systemd-analyze security", "", (True, 0), (bool(found) and float(found[1]) < EXPOSURE, ran.returncode))


def allocator_of(run):
    """The settings of the allocator in the environment of the program that path_server_run started."""
    program = Path(f"/proc/{run}/task/{run}/children").read_text(encoding="ascii").split()[0]
    variables = Path(f"/proc/{program}/environ").read_bytes().split(b"\0")
    return sorted(it.decode() for it in variables if it.startswith(b"MALLOC_"))


def started(report, folder):
    key, (port,) = os.urandom(16), free_ports(1)
    (folder / "keys").touch(0o600)
    (folder / "keys").write_text(key.hex() + "\n")
    lines = [line.split("=", 1) for line in UNIT.read_text().splitlines() if re.match(r"\w+=", line)]
    settings = dict(lines)
    variables = {"ADDRESS": f"127.0.0.1:{port}", "OPTIONS": "--idle 600", "CREDENTIALS_DIRECTORY": str(folder)}
    text = re.sub(r"\$\{(\w+)\}", lambda it: variables[it[1]], settings["ExecStart"]).replace("$OPTIONS", variables["OPTIONS"])
    words = shlex.split(text.replace(RUN, str(TOP / "bin/path_server_run")))
    with subprocess.Popen(words, stdin=subprocess.DEVNULL, stdout=subprocess.PIPE, env={**os.environ, "PATH_SERVER": str(PROGRAM)}) as process:
        try:
            report.case("ExecStart", words, f"listening 127.0.0.1:{port}\n".encode(), process.stdout.readline())
            report.case("the allocator of the program", "", ALLOCATOR, allocator_of(process.pid))
            with connect(f"127.0.0.1:{port}", key) as client:
                report.case("a tenant of it", "", (0, 0, 0), tuple(client.usage()))
            process.send_signal(signal.SIGTERM)
            report.case("its end", "", 0, process.wait(PATIENCE))
        finally:
            process.kill()
    report.case("who gets SIGTERM", "", "mixed", settings.get("KillMode"))
    report.case("what an end with status 0 brings", "", "on-failure", settings.get("Restart"))


def main():
    want("systemd-analyze")
    report = Report()
    with tempfile.TemporaryDirectory() as at:
        analyzed(report, Path(at))
        started(report, Path(at))
    report.close("the unit")


main()
