#!/usr/bin/env python3
"""Runs the commands of the pages and compares what they print with what the pages show: tests/pages.py [PAGE..].

The pages are README.md, CONTRIBUTING.md, those of docs/, and the README.md of each crate and client. In each:

- A block whose first line begins with `$ ` is a session. Such a line is a command, one that ends with a backslash goes on behind `> `,
  and the lines behind it are what it prints, on standard output and standard error. `..` in such a line stands for any characters, and a line that is
  `..` alone for any lines.
- An indented paragraph that begins with a command (SCRIPT) is run whole. What it prints is the next indented paragraph, where nothing stands
  between the two but a paragraph that begins with `prints`. A server in front is put behind.
- All commands of a page run in one shell, in a folder of their own that has this repository's files in it. Ports are exchanged for free ones.
- Commands that prove, build, install or take long (LONG) are not run: that what they name is there is all that is tested. How many of these
  and of other blocks are left out is told.
- A table below a line "On `TEXT`:" whose rows are a query and the values that it selects is asked of the program.
- An example in Rust of a crate's page is a test. `rt try --test` compiles and runs them all, where there is rt.
- A link to a file, and what stands between backquotes and begins with a folder of this repository or with a crate and its folder, is there.
- The pictures are what their script draws, and the figures of README and docs/BENCHMARKS.md those that bench/report.py recorded. A line beside
  "bin/definitions PATH" in a table, `N files, M lines`, is what that command counts. README's two counts of lines are those of docs/PROVED.md.

It runs the programs that bin/build makes, or those that the environment's PATH_SERVER and PATH_CLIENT name.
"""
import os
import re
import select
import shutil
import signal
import socket
import subprocess
import sys
import tempfile
import time
from pathlib import Path

from lib.running_server import PATIENCE, PROGRAM, TOP, Report, has, not_run

LONG = re.compile(r"(?:\w+=\S* )*(?:nice )?(bin/(?:check\b(?!-)|build\b|edits try|check-layout|unproved|path_server --proved)\S*|tests/\S+|bench/\S+|rt\b|g\+\+|c\+\+|apt-get|"
                  r"git clone|pip|npm|install -|systemctl|docker|\./\w+$|\(cd )")
FOLDERS = "bin|bench|clients|crates|deploy|docs|tests"
PATH = re.compile(rf"`((?:{FOLDERS})/[\w./@-]*\w/?)(?:[ `].*)?")
IN_CRATE = re.compile(r"`(\w+/(?:src|specs|proofs)/[\w./+-]*\w)`")
ADDRESS = re.compile(r"((?:127\.0\.0\.1|TCP-LISTEN)[: ])([1-9]\d{3,4})")
SCRIPT = re.compile(r"(?:bin/|deploy/|printf |echo |cat |export |exec |for [^\n]*; do|haproxy -db |key=|socat |sed -i |curl |\(\. )")
# what a command takes that does not name it
TAKEN = {"openssl": re.compile(r"certificates\.sh|shards\.py|etc/\$it"), "haproxy": re.compile(r"shards\.py table (?:dump|move|upgrade)")}
SERVES = re.compile(r"^bin/path_server(?:_run)? (?:listen|serve) [^&|]*\Z", re.M)
TOOLS = re.compile(r"(?:\A|\| *|\n|\$\(|etc/)(jq|nc|xxd|curl|node|socat|haproxy|openssl)\b")
COUNTED = re.compile(r"`bin/definitions (\w+::[\w:]+)`[^|]*\|(?:[^|]*\|)*? *(\d+ files?, [\d,]+ lines)")
SETTLES = 0.3
PROGRAMS = {"path_server": PROGRAM, "path_client": os.environ.get("PATH_CLIENT") or str(TOP / "crates/path_client/out/path_client")}


def pages():
    found = [TOP / "README.md", TOP / "CONTRIBUTING.md", TOP / "CHANGELOG.md", *sorted((TOP / "docs").glob("*.md")), TOP / "tests/README.md"]
    return [*found, *sorted((TOP / "crates").glob("*/README.md")), *sorted((TOP / "clients").glob("*/README.md"))]


def parts(text):
    """A page as paragraphs of prose, whose language is None, and of code, indented by four or between fences, each with its lines."""
    language, block = None, []
    for line in [*text.splitlines(), ""]:
        fence = re.fullmatch(r"```(\w*)", line)
        if language:
            if fence:
                yield language, block
                language, block = None, []
            else:
                block.append(line)
            continue
        is_code = line.startswith("    ")
        if block and (fence or not line or is_code != block[0].startswith("    ")):
            yield ("", [it[4:] for it in block]) if block[0].startswith("    ") else (None, block)
            block = []
        if fence:
            language = fence[1] or "text"
        elif line:
            block.append(line)


def of_console(lines):
    """Each command of a session with the lines that it prints."""
    command, printed = None, []
    for line in lines:
        if command is not None and command.endswith("\\") and line.startswith("> "):
            command += "\n" + line[2:]
        elif line.startswith("$ "):
            if command is not None:
                yield command, printed
            command, printed = line[2:], []
        else:
            printed.append(line)
    yield command, printed


def sessions(text, shown=None):
    """Each command of a page with the lines that it prints, or None where the page does not show them. `shown` gets the blocks that are neither."""
    script, told = None, ""
    for language, lines in [*parts(text), (None, ["."])]:
        if language is None:
            told = " ".join(lines)
            if script and not told.startswith("prints"):
                yield script, None
                script = None
        elif lines and lines[0].startswith("$ "):
            yield from of_console(lines)
        elif language == "" and SCRIPT.match(lines[0]):
            if script:
                yield script, None
            script = "\n".join(lines)
        elif script:
            yield script, lines
            script = None
        elif shown is not None and language != "rust":
            shown.append(lines)


def fits(wanted, got):
    """Whether lines are those of a page, where `..` may stand for what differs from run to run."""
    pattern = ""
    for line in wanted:
        pattern += r"(?:.*\n)*?" if line == ".." else ".*?".join(map(re.escape, line.split(".."))) + "\n"
    return re.fullmatch(pattern, "".join(line + "\n" for line in got)) is not None


def free_port(taken=set()):
    """One that was not given before."""
    with socket.socket() as one:
        one.bind(("127.0.0.1", 0))
        port = str(one.getsockname()[1])
    if port in taken:
        return free_port()
    taken.add(port)
    return port


class Shell:
    """A shell in a folder with the repository's files, where bin/path_server is the program."""

    END = "-- end of a command --"

    def __init__(self, folder):
        for it in TOP.iterdir():
            if it.name not in ("bin", ".git", "build"):
                (folder / it.name).symlink_to(it)
        (folder / "bin").mkdir()
        for name, at in {**{it.name: it for it in (TOP / "bin").iterdir()}, **{name: at for name, at in PROGRAMS.items() if os.access(at, os.X_OK)}}.items():
            (folder / "bin" / name).symlink_to(at)
        self.process = subprocess.Popen(["bash", "--norc"], cwd=folder, stdin=subprocess.PIPE, stdout=subprocess.PIPE, stderr=subprocess.STDOUT, start_new_session=True,
                                        env={**os.environ, "PATH_SERVER": str(PROGRAM), "PYTHONDONTWRITEBYTECODE": "1"})
        os.set_blocking(self.process.stdout.fileno(), False)
        self.rest = ""

    def __enter__(self):
        return self

    def __exit__(self, *_):
        os.killpg(self.process.pid, signal.SIGKILL)
        self.process.wait()

    def more(self, seconds):
        """Takes what the shell prints within these seconds. False at its end."""
        if select.select([self.process.stdout], [], [], seconds)[0]:
            data = self.process.stdout.read()
            self.rest += (data or b"").decode("utf-8", "replace")
            return bool(data)
        return True

    def run(self, command, wanted):
        """The lines that a command prints; those of one in the background, as soon as they are the wanted ones."""
        self.process.stdin.write(f"{command}\necho '{self.END}'\n".encode())
        self.process.stdin.flush()
        is_behind, until = command.rstrip().endswith("&"), time.monotonic() + PATIENCE
        while time.monotonic() < until:
            printed = [line for line in self.rest.splitlines() if line != self.END]
            if self.END in self.rest and (not is_behind or wanted is None or fits(wanted, printed)):
                break
            if not self.more(SETTLES):
                break
        self.rest = ""
        return printed


def run_sessions(report, name, text):
    """Runs the commands of a page. It gives how many commands and other blocks it leaves out."""
    ports, left_out, shown = {}, 0, []

    def exchanged(line):
        return ADDRESS.sub(lambda it: it[1] + (ports.get(it[2]) or ports.setdefault(it[2], free_port())), line)

    with tempfile.TemporaryDirectory(prefix="path-server-pages-") as at, Shell(Path(at)) as shell:
        for command, wanted in sessions(text, shown):
            if LONG.match(command):
                left_out += 1
                for line in command.splitlines():
                    there = re.search(r"(?<![\w/])(?:bin|tests|bench)/[\w./-]+", line.partition("#")[0])
                    report.case(f"{name}: what a command names", line, True, not there or (TOP / there[0]).exists())
                continue
            if not has(f"{name}: {command.splitlines()[0]}", *TOOLS.findall(command), *[tool for tool, it in TAKEN.items() if it.search(command)]):
                continue
            command = SERVES.sub(lambda it: f"{it[0]} </dev/null &", command)
            lines = None if wanted is None else [exchanged(line) for line in wanted]
            got = shell.run(exchanged(command), lines)
            if lines is not None:
                report.case(f"{name}: $ {command}", "", lines, lines if fits(lines, got) else got)
    return left_out, len(shown)


def ask_tables(report, name, text):
    """The queries of tables, on the text that stands in front of them."""
    for given, table in re.findall(r"^On `(.+)`:\n\n((?:\|.*\n)+)", text, re.M):
        for query, values in re.findall(r"^\| `(.+?)` \| ((?:`[^`]+`(?:, )?)+) \|$", table, re.M):
            ran = subprocess.run([PROGRAM, "query", query.replace("\\|", "|")], input=given.encode(), capture_output=True, timeout=PATIENCE)
            got = [line.partition("\t")[2] for line in ran.stdout.decode().splitlines()]
            report.case(f"{name}: {query}", given, re.findall("`([^`]+)`", values), got)


def look_for_files(report, name, text):
    folder = (TOP / name).parent
    for link in re.findall(r"\]\(([^)#:]+)(?:#[^)]*)?\)", text):
        report.case(f"{name}: a link", link, True, (folder / link).exists())
    for path in [it for it in PATH.findall(text) if "NAME" not in it]:
        is_there = any(TOP.glob(path)) or "/out/" in path or (TOP / f"{path}.rt").exists() or (folder / path).exists()
        report.case(f"{name}: a file or folder", path, True, is_there)
    for path in IN_CRATE.findall(text):
        report.case(f"{name}: a file or folder of a crate", path, True, (TOP / "crates" / path).exists())


def count_definitions(report, name, text):
    for path, wanted in COUNTED.findall(text):
        ran = subprocess.run([TOP / "bin/definitions", path], capture_output=True, encoding="utf-8")
        found = re.search(r"^\d+ files?, \d+ lines$", ran.stdout, re.M)
        report.case(f"{name}: bin/definitions {path}", "", wanted.replace(",", ""), found[0].replace(",", "") if found else ran.stderr)


def compare_counts(report):
    """The lines of definitions in README with those in docs/PROVED.md, which count_definitions compares with the command."""
    counted = dict(COUNTED.findall((TOP / "docs/PROVED.md").read_text(encoding="utf-8")))
    wanted = [counted[path].split()[2] for path in ("json_tape::Document::read", "path_hub::run")]
    found = re.search(r"([\d,]+) lines\s+say which texts are accepted, ([\d,]+)\s+the whole theorem", (TOP / "README.md").read_text(encoding="utf-8"))
    report.case("README.md: lines of definitions", "", wanted, list(found.groups()) if found else "none")


def try_examples(report, chosen):
    """The examples in Rust, as the tests of a crate in a copy of the sources."""
    found = {page.parent.name: "\n".join(block) for page in chosen for language, block in parts(page.read_text(encoding="utf-8")) if language == "rust"}
    if not found or not shutil.which("rt"):
        if found:
            not_run("the examples in Rust", "no rt here")
        return
    with tempfile.TemporaryDirectory(prefix="path-server-examples-") as at:
        room = Path(at)
        shutil.copytree(TOP / "crates", room / "crates", ignore=shutil.ignore_patterns("out", "must-fail", "planted", "proofs"))
        sources = room / "crates/page_examples/src"
        sources.mkdir(parents=True)
        names = sorted(found)
        for name in names:
            (sources / f"{name}_page.rt").write_text(found[name] + "\n", encoding="utf-8")
        modules = "".join(f"#[cfg(test)]\nmod {name}_page;\n" for name in names)
        (sources / "lib.rt").write_text(f"#![tactic(auto)]\n\n{modules}", encoding="utf-8")
        used = sorted({it for code in found.values() for it in re.findall(r"^use (\w+)::", code, re.M)} - {"std"})
        (room / "crates.txt").write_text((TOP / "crates.txt").read_text(encoding="utf-8") + f"page_examples: {' '.join(used)}\n", encoding="utf-8")
        ran = subprocess.run(["rt", "try", "--test"], cwd=sources.parent, stdin=subprocess.DEVNULL, stdout=subprocess.PIPE, stderr=subprocess.STDOUT, encoding="utf-8", timeout=600)
        for name in names:
            passed = re.search(rf"^test {name}_page::\w+ \.\.\. ok$", ran.stdout, re.M)
            report.case(f"crates/{name}/README.md: its example", found[name], True, bool(passed) or ran.stdout[-400:])


def main():
    if not os.access(PROGRAM, os.X_OK):
        sys.exit(f"no program {PROGRAM}: bin/build makes it")
    report, chosen = Report(), [it for it in pages() if not sys.argv[1:] or str(it.relative_to(TOP)) in sys.argv[1:]]
    left_out = {}
    for page in chosen:
        name, text = str(page.relative_to(TOP)), page.read_text(encoding="utf-8")
        left_out[name] = run_sessions(report, name, text)
        ask_tables(report, name, text)
        look_for_files(report, name, text)
        count_definitions(report, name, text)
    for place, what in enumerate(("commands that prove, build, install or take long", "other blocks, as of another language")):
        told = [f"{name} {counts[place]}" for name, counts in left_out.items() if counts[place]]
        print(f"{sum(it[place] for it in left_out.values())} {what}, not run{': ' * bool(told)}{', '.join(told)}", flush=True)
    compare_counts(report)
    drawn = subprocess.run([TOP / "docs/pictures/draw.py", "--check"], stdout=subprocess.PIPE, encoding="utf-8")
    report.case("the pictures are those of docs/pictures/draw.py", "", "", drawn.stdout)
    figures = subprocess.run([TOP / "bench/report.py", "--check"], stdout=subprocess.PIPE, encoding="utf-8")
    report.case("the figures are those of bench/report.py", "", "", figures.stdout)
    try_examples(report, chosen)
    report.close(f"{len(chosen)} pages")


if __name__ == "__main__":
    main()
