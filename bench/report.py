#!/usr/bin/env python3
"""The report: bench/report.py [--only PART,..] [--quick] [--texts FOLDER] [--into FOLDER] [--draw | --check | --build FILE | --gate FILE]
measures the program beside the peers that are installed, and writes docs/BENCHMARKS.md, its plots (docs/plots) and the figures in README.

  --only PART,..   measures these parts and keeps what is recorded of the others: {parts}
  --quick          measures so little that it only shows that each part works; writes nowhere but into --into
  --texts FOLDER   reads the JSON files of this folder (*.json, 100,000 bytes and more) beside the text that is made
  --into FOLDER    writes the page, the plots and README's part there, and not into the repository
  --draw           measures nothing, and writes page and plots of what is recorded
  --build FILE     records the times of a first build, of which FILE is what bin/build printed (build/log), and draws
  --gate FILE      records the times of a gate, of which FILE is what bin/check printed, and draws; both as run on the processors that
                   the report may run on (`taskset`)
  --check          measures and writes nothing: status 1 if the page or README is not what the recorded figures give

What was measured is recorded in docs/plots/figures.json. A part that fails or takes more than {most} minutes is recorded as not measured, and
the others go on. The program is the one that bin/build makes; with the environment's PATH_SERVER or PATH_BENCH naming others, which may have
no proof, it writes into --into alone. `bin/build` makes the library of crates/path_bench, which some parts call. Plots need matplotlib (Debian's
python3-matplotlib).
"""
import argparse
import datetime
import json
import os
import re
import shutil
import signal
import subprocess
import sys
import tempfile
import time
from pathlib import Path

import logs
import page
from parts import LINKED, NAMES
from running import TOP, need_program, postgres_folder

HERE = Path(__file__).resolve().parent
FIGURES, PLOTS, PAGE, README = "docs/plots/figures.json", "docs/plots", "docs/BENCHMARKS.md", "README.md"
MOST = 240


def first_line(*words):
    """What a tool says of its version, or nothing where it is not here."""
    if not words[0] or not shutil.which(words[0]):
        return ""
    ran = subprocess.run(words, stdin=subprocess.DEVNULL, stdout=subprocess.PIPE, stderr=subprocess.STDOUT, encoding="utf-8", errors="replace")
    return ran.stdout.strip().partition("\n")[0]


def version(*words):
    found = re.search(r"\d+\.\d+(?:\.\d+)*", first_line(*words))
    return found[0] if found else ""


def of_simdjson():
    try:
        found = re.search(r"SIMDJSON_VERSION_MAJOR = (\d+).*?VERSION_MINOR = (\d+).*?VERSION_REVISION = (\d+)", Path("/usr/include/simdjson.h").read_text(errors="replace"), re.S)
    except OSError:
        return ""
    return ".".join(found.groups()) if found else "of an unknown version"


def machine():
    info, memory = Path("/proc/cpuinfo").read_text(), Path("/proc/meminfo").read_text()
    name = re.search(r"^model name\s*: (.*)$", info, re.M)
    kind = ", a virtual machine" if re.search(r"^flags\s*:.*\bhypervisor\b", info, re.M) else ""
    gibibytes = int(re.search(r"MemTotal:\s*(\d+)", memory)[1]) / 2**20
    return f"{name[1] if name else os.uname().machine}, {os.cpu_count()} processors, {gibibytes:.0f} GiB{kind}, Linux {os.uname().release}"


def commit():
    return first_line("git", "-C", str(TOP), "rev-parse", "--short", "HEAD") or "unknown"


def now():
    return datetime.datetime.now(datetime.timezone.utc).strftime("%Y-%m-%d %H:%M UTC")


def peers():
    folder = postgres_folder()
    found = {"Redis": version("redis-server", "--version"), "PostgreSQL": version(f"{folder}/postgres", "--version") if folder else "", "jq": version("jq", "--version"),
             "gojq": version("gojq", "--version"), "SQLite": version("sqlite3", "--version"), "Python": sys.version.split()[0], "simdjson": of_simdjson()}
    return [f"{name} {it}" for name, it in found.items() if it], [name for name, it in found.items() if not it]


def about(named):
    program = "a build that the environment named" if named else f"commit {commit()}, proved and built by {first_line('rt', 'version') or 'an unknown toolchain'}"
    return {"date": now(), "commit": commit(), "machine": machine(), "program": program, "peers": peers()[0], "load": os.getloadavg()[0]}


def measure(name, settings):
    """Runs a part as a process of its own. What it measured, or why it did not."""
    began = time.monotonic()
    words = [sys.executable, HERE / "parts.py", name, json.dumps(settings)]
    with tempfile.TemporaryFile("w+") as said:
        process = subprocess.Popen(words, stdin=subprocess.DEVNULL, stdout=subprocess.PIPE, stderr=said, encoding="utf-8", start_new_session=True)
        try:
            printed, _ = process.communicate(timeout=MOST)
            failed = process.returncode and f"it ended with status {process.returncode}"
        except subprocess.TimeoutExpired:
            failed = f"it took more than {MOST // 60} minutes"
        finally:
            try:
                os.killpg(process.pid, signal.SIGKILL)
            except ProcessLookupError:
                pass
            process.wait()
        said.seek(0)
        lines = said.read().strip().splitlines()
    entry = {"date": now(), "commit": commit(), "seconds": round(time.monotonic() - began, 1)}
    if not failed:
        return {**entry, "result": json.loads(printed)}
    print("\n".join(lines), file=sys.stderr)
    reason = lines[-1].replace("bench/parts.py: ", "").replace(f"{TOP}/", "") if lines else failed
    return {**entry, "failed": " ".join(reason.split())[:160].rstrip(".")}


def make_library():
    """Has bin/build make the library of crates/path_bench of the sources as they stand, unless the environment names one. What keeps it from that is told."""
    if os.environ.get("PATH_BENCH"):
        return
    print("crates/path_bench ..", end=" ", flush=True)
    began = time.monotonic()
    try:
        ran = subprocess.run([TOP / "bin/build", "path_bench"], stdin=subprocess.DEVNULL, stdout=subprocess.PIPE, stderr=subprocess.STDOUT, encoding="utf-8")
        failed = ran.stdout if ran.returncode else ""
    except OSError as error:
        failed = f"no bin/build: {error}\n"
    print(f"{time.monotonic() - began:.0f} s" + (": NOT MADE" if failed else ""), flush=True)
    print(failed, end="", file=sys.stderr)


def read_times(name, reader, file):
    """What a log says of times, as a part of the report: of this commit, on this machine and on the processors that this process may run on."""
    try:
        result = reader(file.read_text(encoding="utf-8", errors="replace"))
    except (OSError, logs.NoTimes) as error:
        sys.exit(f"bench/report.py: --{name} {file}: {error}")
    return {"date": now(), "commit": commit(), "machine": machine(), "processors": len(os.sched_getaffinity(0)), "result": result}


def draw(figures_file, folder):
    """Draws with the first Python here that has matplotlib."""
    for python in dict.fromkeys([sys.executable, "/usr/bin/python3", shutil.which("python3") or sys.executable]):
        has = subprocess.run([python, "-c", "import matplotlib"], stderr=subprocess.DEVNULL).returncode == 0 if os.access(python, os.X_OK) else False
        if has:
            return subprocess.run([python, HERE / "plots.py", figures_file, folder]).returncode == 0
    print("bench/report.py: no plots, since no Python here has matplotlib (Debian's python3-matplotlib)", file=sys.stderr)
    return False


def recorded():
    at = TOP / FIGURES
    return json.loads(at.read_text(encoding="utf-8")) if at.exists() else {"about": {}, "parts": {}}


def with_figures(text, figures):
    """README with the comparison that the figures give."""
    before, begin, rest = text.partition(page.BEGIN)
    _, end, after = rest.partition(page.END)
    if not begin or not end:
        sys.exit(f"bench/report.py: {README} has no place for the figures")
    return page.with_times(before, figures) + page.readme(figures) + page.with_times(after, figures)


def write(figures, folder):
    (folder / PLOTS).mkdir(parents=True, exist_ok=True)
    record = json.dumps(figures, indent=1)
    (folder / FIGURES).write_text(re.sub(r"\[\n\s+([^\[\]{}]*?)\n\s+\]", lambda it: "[" + " ".join(it[1].split()) + "]", record) + "\n", encoding="utf-8")
    draw(folder / FIGURES, folder / PLOTS)
    (folder / PAGE).write_text(page.benchmarks(figures), encoding="utf-8")
    text = (TOP / README).read_text(encoding="utf-8")
    (folder / README).write_text(with_figures(text, figures), encoding="utf-8")


def check():
    figures, text = recorded(), (TOP / README).read_text(encoding="utf-8")
    wrong = [it for it, is_right in ((PAGE, (TOP / PAGE).read_text(encoding="utf-8") == page.benchmarks(figures)), (README, text == with_figures(text, figures)))
             if not is_right]
    for it in wrong:
        print(f"{it} is not what {FIGURES} gives: bench/report.py --draw writes it")
    return 1 if wrong else 0


def read_words():
    shown = __doc__.format(parts=", ".join(NAMES), most=MOST // 60)
    words = argparse.ArgumentParser(usage=argparse.SUPPRESS, description=shown, formatter_class=argparse.RawDescriptionHelpFormatter, add_help=False)
    words.add_argument("--help", action="store_true")
    words.add_argument("--only", default=",".join(NAMES))
    words.add_argument("--texts")
    for option in ("--into", "--build", "--gate"):
        words.add_argument(option, type=Path)
    for flag in ("--quick", "--draw", "--check"):
        words.add_argument(flag, action="store_true")
    given = words.parse_args()
    if given.help:
        print(shown)
        sys.exit()
    given.only = given.only.split(",")
    unknown = [it for it in given.only if it not in NAMES]
    if unknown:
        sys.exit(f"bench/report.py: no part {unknown[0]}; the parts are {', '.join(NAMES)}")
    return given


def main():
    given = read_words()
    if given.check:
        sys.exit(check())
    read = {"build": (logs.of_build, given.build), "gate": (logs.of_gate, given.gate)}
    read = {name: read_times(name, *it) for name, it in read.items() if it[1]}
    measures = not given.draw and not read
    named = bool(os.environ.get("PATH_SERVER") or os.environ.get("PATH_BENCH"))
    if (given.quick or named) and not given.into and measures:
        sys.exit("bench/report.py: a quick run, or a program that the environment names, needs --into FOLDER")
    figures, folder = recorded(), given.into or TOP
    figures["parts"].update(read)
    if measures:
        need_program()
        if len(given.only) == len(NAMES) or not figures["about"]:
            figures["about"] = about(named)
        if os.getloadavg()[0] > 0.5:
            print(f"bench/report.py: other work runs here, the load is {os.getloadavg()[0]:.2f}; the figures will be worse than on a quiet machine", file=sys.stderr)
        for it in peers()[1]:
            print(f"bench/report.py: not here, and left out: {it}", file=sys.stderr)
        if set(LINKED) & set(given.only):
            make_library()
        settings = {"quick": given.quick, "texts": given.texts and str(Path(given.texts).resolve())}
        for name in given.only:
            print(f"{name} ..", end=" ", flush=True)
            figures["parts"][name] = measure(name, settings)
            it = figures["parts"][name]
            print(f"{it['seconds']:.0f} s" + (f": NOT MEASURED: {it['failed']}" if "failed" in it else ""), flush=True)
    write(figures, folder)
    failed = [name for name in given.only if "failed" in figures["parts"][name]] if measures else []
    told = f"; {len(given.only) - len(failed)} parts measured, {len(failed)} not" if measures else ""
    print(f"wrote {folder / PAGE}, {folder / README} and the plots in {folder / PLOTS}{told}")
    sys.exit(1 if failed else 0)


if __name__ == "__main__":
    main()
