#!/usr/bin/env python3
"""Tests how bin/check counts: what ends with 77 or says `not run: ..` is neither passed nor failed, and stands with its reason before the last line.
A script with cases by the clock that fails runs once more.
And each script that takes a command says so where the command is missing, on a PATH without it.
"""
import contextlib
import importlib.machinery
import importlib.util
import io
import os
import shutil
import subprocess
import sys
import tempfile
from pathlib import Path

TOP = Path(__file__).resolve().parent.parent
sys.dont_write_bytecode = True
loader = importlib.machinery.SourceFileLoader("check", str(TOP / "bin/check"))
check = importlib.util.module_from_spec(importlib.util.spec_from_loader("check", loader))
loader.exec_module(check)
from lib.running_server import Report

# a script, and what it counts: passed, failed, and what was not run
SCRIPTS = {
    "true": (1, 0, []),
    "exit 1": (0, 1, []),
    "exit 77": (0, 0, ["it does not say why"]),
    "echo 'not run: all: no cc here'; exit 77": (0, 0, ["all: no cc here"]),
    "echo 'not run: one: no jq here'; echo 'not run: two: no nc here'": (1, 0, ["one: no jq here", "two: no nc here"]),
    "echo 'not run: one: no jq here'; exit 1": (0, 1, ["one: no jq here"]),
    "echo 'it was not run: no'": (1, 0, []),
}
# scripts, and the commands without which they have nothing to run
TAKEN = {"against_jq.py": "jq", "refused_growths.py": "cc", "refused_listening.py": "cc", "refused_client.py": "cc", "refused_calls.py": "cc", "deploy/alerts.py": "promtool",
         "deploy/unit.py": "systemd-analyze", "deploy/balanced.py": "haproxy", "deploy/moves.py": "haproxy", "deploy/crowded.py": "haproxy",
         "deploy/packaged.py": "haproxy"}


def counted(report):
    for script, wanted in SCRIPTS.items():
        gate, said = check.Gate(), io.StringIO()
        with contextlib.redirect_stdout(said):
            gate.run("a script", ["sh", "-c", script])
            with contextlib.suppress(SystemExit):
                gate.end()
        report.case("what a script counts", script, wanted, (gate.passed, gate.failed, [why for _, why in gate.left_out]))
        passed, failed, left_out = wanted
        lines = [f"{len(left_out)} not run", *[f"    a script: {why}" for why in left_out], f"{passed} passed, {failed} failed"]
        report.case("the last lines", script, lines, said.getvalue().splitlines()[-len(lines):])


def run_twice(report, room):
    """A script with cases by the clock that fails runs once more, and counts by its second run alone."""
    for script, passed, times in (("true", 1, 1), ("exit 77", 0, 1), (f"test -e {room}/ran || {{ touch {room}/ran; exit 1; }}", 1, 2), ("exit 1", 0, 2)):
        gate, said = check.Gate(), io.StringIO()
        with contextlib.redirect_stdout(said):
            gate.run("a script", ["sh", "-c", script], again=True)
            with contextlib.suppress(SystemExit):
                gate.end()
        wanted = (passed, times, [f"{times - 1} run twice", *["    a script"] * (times - 1)])
        lines = said.getvalue().splitlines()
        at = next(place for place, line in enumerate(lines) if line.endswith("run twice"))
        report.case("a script that may run twice", script, wanted, (gate.passed, sum(line.endswith("== a script") for line in lines), lines[at:at + times]))
    names = {script[0] for script in check.SCRIPTS}
    report.case("scripts with cases by the clock that there are not", "", set(), check.BY_THE_CLOCK - names)


def left_out(report, room):
    """Each script on a PATH that has all commands but the one."""
    for script, tool in TAKEN.items():
        thin = room / tool
        if not thin.is_dir():
            thin.mkdir()
            for folder in reversed(os.environ["PATH"].split(":")):
                for it in Path(folder).iterdir() if Path(folder).is_dir() else ():
                    if it.name != tool:
                        (thin / it.name).unlink(missing_ok=True)
                        (thin / it.name).symlink_to(it)
        ran = subprocess.run([sys.executable, TOP / "tests" / script], env={**os.environ, "PATH": str(thin)}, stdin=subprocess.DEVNULL, capture_output=True, encoding="utf-8", timeout=60)
        # another command may be missing here
        missing = [it for it in ("dpkg-deb", "dpkg", "haproxy", "openssl", "socat", "curl")[0 if "packaged" in script else 2:6 if "packaged" in script else 4] if it == tool or script.startswith("deploy/") and not shutil.which(it)] if tool == "haproxy" else [tool]
        wanted = f"not run: {Path(script).name}: no {' and no '.join(missing)} here\n"
        report.case("a script without its command", script, (77, wanted), (ran.returncode, ran.stdout + ran.stderr))


def set_up(report, room):
    """bin/check --set-up asks for the package of each command that is missing, and tells which is still missing. The gate goes on without it."""
    thin, asked = room / "bin", room / "asked"
    thin.mkdir()
    for tool in ("python3", "env", *set(check.TOOLS) - {"haproxy", "xxd"}):
        (thin / tool).symlink_to(shutil.which(tool) or "/bin/true")
    # a network that has haproxy alone
    for tool, text in {"apt-get": f"""for last; do :; done
echo "$last" >>{asked}
[ "$last" != haproxy ] || /bin/ln -s /bin/true {thin}/haproxy
[ "$last" = haproxy ]"""}.items():
        (thin / tool).write_text(f"#!/bin/sh\n{text}\n")
        (thin / tool).chmod(0o755)
    is_root = os.geteuid() == 0
    ran = subprocess.run([sys.executable, TOP / "bin/check", "--set-up"], env={**os.environ, "PATH": str(thin)}, stdin=subprocess.DEVNULL, capture_output=True, encoding="utf-8", timeout=60)
    wanted = ["update", "haproxy", "xxd"] if is_root else []
    report.case("packages that are asked for", "", wanted, asked.read_text().split() if asked.exists() else [])
    told = f"bin/check: not here, and what takes them is not run: {'xxd' if is_root else 'haproxy xxd'}\n"
    report.case("what is still missing", "", (1, told), (ran.returncode, ran.stderr))
    # .ci/run goes on where that fails
    (room / ".ci").mkdir()
    shutil.copy(TOP / ".ci/run", room / ".ci/run")
    (thin / "check").write_text(f"#!/bin/sh\necho called $1 >>{room}/calls\n[ -z $1 ] && echo '3 passed, 0 failed'\n")
    (thin / "check").chmod(0o755)
    ran = subprocess.run([room / ".ci/run"], stdin=subprocess.DEVNULL, capture_output=True, encoding="utf-8", timeout=60)
    report.case(".ci/run", "", (0, "3 passed, 0 failed\n", "called --set-up\ncalled\n"), (ran.returncode, ran.stdout, (room / "calls").read_text()))


def main():
    report = Report()
    counted(report)
    with tempfile.TemporaryDirectory() as room:
        set_up(report, Path(room))
    with tempfile.TemporaryDirectory() as room:
        run_twice(report, room)
    with tempfile.TemporaryDirectory() as room:
        left_out(report, Path(room))
    used = {line for script in check.SCRIPTS for line in script if line in ("node",)} | set(TAKEN.values())
    report.case("each command has its packages", "", set(), used - set(check.TOOLS))
    here = {" ".join(it).split()[0].removeprefix("tests/") for it in check.SCRIPTS}
    report.case("each of these scripts is run by the gate", "", set(), set(TAKEN) - here)
    report.close("counting")


main()
