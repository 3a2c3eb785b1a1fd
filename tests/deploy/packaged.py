#!/usr/bin/env python3
"""The package of deploy/package, installed in a root of its own, and docs/OPERATING.md tried there as it says for systemd: tests/deploy/packaged.py

Commands of the page run as they stand, but that the root's folder is in front of absolute paths, that ports are free ones, and that `systemctl` is a
script that starts what the unit says. Visitors of both tenants compare each reply meanwhile. Then a shard is drained by the page's `POST /drain` while
clients of it go on, one fails, each is loaded again, the package is upgraded below running shards, one is stopped below clients, and all is removed.
"""
import json
import os
import pwd
import re
import shutil
import signal
import subprocess
import tempfile
import time
import urllib.request
from pathlib import Path

from deployment import CLIENT, TOP, children, wait_until
from visits import Held, Visits
from lib.running_server import PATIENCE, PROGRAM, Report, has, is_turned_away, not_run, open_connection, want
import pages
from pages import ADDRESS, Shell, fits, free_port, sessions

report = Report()
# pages.py leaves this block out, as it does all that installs
pages.SCRIPT = re.compile(f"{pages.SCRIPT.pattern}|apt-get install")
# what systemctl does with the units of the root: a process is known by its file of the root's run/
SYSTEMCTL = """#!/usr/bin/env python3
import os, re, shlex, signal, subprocess, sys, time
root, words = os.environ["ROOT"], [it for it in sys.argv[1:] if not it.startswith("-")]
def file(name):
    return f"{root}/run/{name}.pid"
def start(name, command, variables):
    log = open(f"{root}/run/{name}.log", "a")
    open(file(name), "w").write(str(subprocess.Popen(command, env={**os.environ, **variables}, stdin=subprocess.DEVNULL, stdout=log, stderr=log, start_new_session=True).pid))
if words[0] == "enable":
    for unit in words[1:]:
        name = unit.partition("@")[2]
        text = open(f"{root}/lib/systemd/system/path_server@.service").read().replace("%i", name)
        settings = dict(re.findall(r"^(\\w+)=(.*)$", text, re.M))
        given = open(root + settings["EnvironmentFile"]).read()
        variables = dict(re.findall(r'^(\\w+)="?(.*?)"?$', given, re.M))
        keys = root + settings["LoadCredential"].partition(":")[2]
        line = settings["ExecStart"].replace("${CREDENTIALS_DIRECTORY}/keys", keys).replace("${ADDRESS}", variables["ADDRESS"]).replace("$OPTIONS", variables["OPTIONS"])
        start(name, shlex.split(root + line), {})
elif words[0] in ("disable", "stop"):
    for unit in words[1:]:
        name = unit.partition("@")[2]
        number = int(open(file(name)).read())
        os.kill(number, signal.SIGTERM)
        until = time.monotonic() + 30
        while time.monotonic() < until and os.path.exists(f"/proc/{number}/exe"):
            time.sleep(0.05)
        os.unlink(file(name))
elif words == ["restart", "haproxy"]:
    start("haproxy", ["haproxy", "-Ws", "-f", f"{root}/etc/haproxy/haproxy.cfg", "-p", f"{root}/run/haproxy.own", "-S", f"{root}/run/haproxy-master.sock"], {})
elif words[0] == "list-units":
    for it in os.listdir(f"{root}/run"):
        if it.endswith(".pid") and it != "haproxy.pid":
            print(f"path_server@{it[:-4]}.service loaded active running")
"""
USED = re.compile(r"umask|new-key|certificates\.sh|> table|apt-get install \./|table (?:ready|dump|move|upgrade)|show stat' .*f1,2,18|socat TCP-LISTEN")


class Root:
    def __init__(self, at):
        self.at, self.made = at / "root", at / "made"
        for it in ("run", "etc/haproxy", "var/lib/dpkg/info", "var/lib/dpkg/updates", "var/lib/dpkg/triggers"):
            (self.at / it).mkdir(parents=True)
        (self.at / "var/lib/dpkg/status").touch()
        (at / "bin").mkdir()
        (at / "bin/systemctl").write_text(SYSTEMCTL)
        (at / "bin/systemctl").chmod(0o755)
        self.env = {**os.environ, "ROOT": str(self.at), "PATH": f"{at}/bin:{self.at}/usr/bin:{os.environ['PATH']}"}
        # the programs beside the scripts are those that were installed
        self.env.pop("PATH_SERVER", None)

    def run(self, *words, **more):
        return subprocess.run(words, env=self.env, stdin=subprocess.DEVNULL, stdout=subprocess.PIPE, stderr=subprocess.STDOUT, encoding="utf-8", timeout=PATIENCE, **more)

    def dpkg(self, *words):
        return self.run("dpkg", f"--root={self.at}", "--force-not-root", "--force-script-chrootless", "--force-depends", "--log=/dev/null", *words)

    def package(self, revision):
        ran = self.run(TOP / "deploy/package", "--unproved", PROGRAM, CLIENT, "--revision", revision, self.made)
        report.case("deploy/package", ran.stdout, 0, ran.returncode)
        return ran.stdout.strip()

    def processes(self):
        return {it.stem: int(it.read_text()) for it in (self.at / "run").glob("*.pid")}

    def stop(self):
        for number in self.processes().values():
            try:
                os.killpg(number, signal.SIGKILL)
            except ProcessLookupError:
                pass


def installed(root, file):
    before = Path(file).read_bytes()
    report.case("the same package again", "", True, Path(root.package("1")).read_bytes() == before)
    report.case("installed", "", 0, root.dpkg("--install", file).returncode)
    modes = {"etc/path_server": 0o700, "usr/lib/path_server/path_server": 0o755, "lib/systemd/system/path_server@.service": 0o644}
    modes.update({f"usr/share/path_server/{it}": 0o644 for it in ("alerts.yaml", "dashboard.json")})
    report.case("modes", "", modes, {name: (root.at / name).stat().st_mode & 0o777 for name in modes})
    for name in ("alerts.yaml", "dashboard.json"):
        report.case("an installed file", name, True, (root.at / "usr/share/path_server" / name).read_bytes() == (TOP / "deploy" / name).read_bytes())
    proved = "proved: " if Path(f"{PROGRAM}.manifest").is_file() else "not proved: it has no manifest"
    said = root.run("path_server", "--version").stdout.splitlines()
    report.case("path_server --version", "", [True, True], [said[0].startswith("path_server "), said[-1].startswith(proved)])
    report.case("path_client", "", 32, len(root.run("path_client", "new-key").stdout.strip()))
    report.case("path_shards", "", 0, root.run("path_shards", "--help").returncode)
    for name in ("path_server", "path_client"):
        script = f". {root.at}/usr/share/bash-completion/completions/{name}; COMP_WORDS=({name} l); COMP_CWORD=1; _{name}; echo ${{COMPREPLY[*]}}"
        report.case("a completion", name, {"path_server": "listen\n", "path_client": "list load\n"}[name], root.run("bash", "-c", script).stdout)
    script = f". {root.at}/usr/share/bash-completion/completions/path_server; COMP_WORDS=(path_server listen --ke); COMP_CWORD=2; _path_server; echo ${{COMPREPLY[*]}}"
    report.case("a completion of an option", "", "--keys\n", root.run("bash", "-c", script).stdout)
    if has("manual pages", "man", "col"):
        for page, word in (("path_server", "--frame-time"), ("path_client", "put-new"), ("path_shards", "move acme 2")):
            ran = root.run("sh", "-c", f"MANWIDTH=120 man --warnings --local-file {root.at}/usr/share/man/man1/{page}.1.gz | col -b")
            report.case("a manual page", page, (True, []), (word in ran.stdout, [line for line in ran.stdout.splitlines() if "warning" in line and page in line]))
    if has("the installed unit", "systemd-analyze"):
        unit = root.at / "path_server@1.service"
        unit.write_text((root.at / "lib/systemd/system/path_server@.service").read_text().replace("=/usr/bin/", f"={root.at}/usr/bin/"))
        ran = root.run("systemd-analyze", "verify", unit)
        report.case("systemd-analyze verify", "", [], [line for line in ran.stdout.splitlines() if "path_server" in line])


def refused(root, at):
    """A program that is not as its manifest says is put into no package."""
    copy = at / "copy"
    for name in ("bin", "deploy"):
        shutil.copytree(TOP / name, copy / name, ignore=shutil.ignore_patterns("__pycache__"))
    for name in ("crates.txt", "CHANGELOG.md"):
        shutil.copy(TOP / name, copy / name)
    program = copy / "crates/path_program/out/path_program"
    program.parent.mkdir(parents=True)
    shutil.copy(PROGRAM, program)
    for manifest, wanted in (("", "there is no"), ("program path_program\nsha256 0\n", "the program has the SHA-256")):
        if manifest:
            program.with_name("path_program.manifest").write_text(manifest)
        ran = root.run(copy / "deploy/package", at / "none")
        report.case("a program that was not proved", manifest, (1, True, False), (ran.returncode, wanted in ran.stdout, (at / "none").exists()))


def tried(root, room, file):
    """The commands of the page, with the table in the root."""
    ports = {}

    def changed(text):
        text = re.sub(r"apt-get install \./\S+", f"dpkg --root={root.at} --force-not-root --force-script-chrootless --force-depends --log=/dev/null -i {file} >/dev/null", text)
        text = re.sub(r"(?<![\w/])/(etc/path_server|etc/haproxy|run/haproxy)", rf"{root.at}/\1", text)
        text = text.replace("etc/haproxy.sock", f"{root.at}/etc/path_server/haproxy.sock").replace("etc/master.sock", "run/haproxy-master.sock").replace("bin/path_client", "path_client")
        # a collection more, of the visitors
        text = text.replace("collections=shop", "collections=shop,visits")
        text = re.sub(r"deploy/shards\.py table (?!write)", f"path_shards {root.at}/etc/path_server/table ", text)
        return ADDRESS.sub(lambda it: it[1] + (ports.get(it[2]) or ports.setdefault(it[2], free_port())), text)

    os.environ.update(root.env)
    os.environ.pop("PATH_SERVER", None)
    with Shell(room) as shell:
        shell.run("unset PATH_SERVER", None)
        for command, wanted in sessions((TOP / "docs/OPERATING.md").read_text(encoding="utf-8")):
            if not USED.search(command) or "bad" in command:
                continue
            if "table move" in command:
                # from here on, through a move and an upgrade, which end connections: no reply is wrong
                keys = [bytes.fromhex((room / f"{name}.key").read_text().strip()) for name in ("acme", "globex")]
                visits = [Visits(report, f"127.0.0.1:{ports['7400']}", [key], ["visits"], True) for key in keys]
            lines = None if wanted is None else [changed(line) for line in wanted]
            if "ls dumps" in command:
                lines.append("visits.lines")
            got = shell.run(changed(command), lines)
            if lines is not None:
                report.case(f"$ {command}", "", lines, lines if fits(lines, got) else got)
            if "systemctl" in command:
                table = f"{root.at}/etc/path_server/table"
        counts = [it.finish("a visitor of the trial") for it in visits]
        print(f"the trial under traffic: {counts} replies and ended connections", flush=True)
        told_of_tenants(root, table)
        plain = f"127.0.0.1:{ports['7400']}"
        drained(root, room, table, plain)
        failed_and_removed(root, room, table, plain)


def told_of_tenants(root, table):
    """Metrics of each shard of the table: by the tenants' names, of this build, and ready."""
    lines = [line.split() for line in Path(table).read_text().splitlines()]
    for words in lines:
        if words[:1] == ["shard"]:
            line, wanted = words[1], {"probe"} | {it[3].partition("=")[2] for it in lines if it[:1] == ["tenant"] and words[1] in it[2].split(",")}
            with urllib.request.urlopen(f"http://{words[3]}/metrics", timeout=PATIENCE) as reply:
                page = reply.read().decode()
            names = set(re.findall(r'^path_server_tenant_documents\{tenant="(.*)"\}', page, re.M))
            report.case("labels of tenants", line, wanted, names)
            report.case("a shard is ready", line, True, "\npath_server_ready 1\n" in page)
            build = re.search(r'^path_server_build_info\{version="(.*)",commit="(.*)",proved="(yes|no)",kit="(.*)"\} 1$', page, re.M)
            said = root.run("path_server", "--version").stdout.splitlines()
            report.case("the build", line, (said[0].split()[1], "yes" if said[-1].startswith("proved: ") else "no"), build and (build[1], build[3]))


def asked(root, room, plain, *words):
    """What path_client prints for acme, or its status."""
    ran = root.run("path_client", "--at", plain, "--key-file", room / "acme.key", *words)
    return ran.stdout if ran.returncode == 0 else ran.returncode


def drained(root, room, table, plain):
    """Shard 4 is drained by the page's command for it. What its clients ask meanwhile is answered, and no reply is cut by the grace's end."""
    shard, admin = next(line.split()[2:4] for line in Path(table).read_text().splitlines() if line.startswith("shard 4 "))
    text = json.dumps("x" * 200_000).encode()
    (room / "large").write_bytes(text)
    for name in ("acme", "globex"):
        ran = root.run("path_client", "--at", plain, "--key-file", room / f"{name}.key", "put", "shop", "large", room / "large")
        report.case("a long text", name, (0, ""), (ran.returncode, ran.stdout))
    root.run("path_shards", table, "dump", room / "dumps")
    keys = [bytes.fromhex((room / f"{name}.key").read_text().strip()) for name in ("acme", "globex")]
    held = [Held(plain, key, ("shop", "large"), text) for key in keys * 4]
    report.case("before a drain", "", True, wait_until(lambda: all(it.count for it in held)))
    command, _ = next(it for it in sessions((TOP / "docs/OPERATING.md").read_text(encoding="utf-8")) if "-X POST" in it[0] and "drain" in it[0])
    before, counts = root.processes()["4"], [it.count for it in held]
    ran = root.run("sh", "-c", re.sub(r"127\.0\.0\.1:\d+", admin, command.partition(";")[0]))
    report.case("the page's drain", command, (0, ""), (ran.returncode, ran.stdout))
    report.case("a connection that comes meanwhile", "", True, is_turned_away(shard))
    report.case("ready meanwhile", "", "503", root.run("curl", "-s", "-o", "/dev/null", "-w", "%{http_code}", f"http://{admin}/ready").stdout)
    time.sleep(3)
    report.case("each connection goes on", "", [True] * len(held), [it.is_alive() and it.count > count for it, count in zip(held, counts)])
    report.case("new ones through HAProxy are closed", "", 4, asked(root, room, plain, "get", "shop", "cup"))
    for it in held:
        it.join(PATIENCE)
    report.case("each ends with the grace, at a frame's boundary", "", [(False, b"")] * len(held), [(it.is_alive(), it.left) for it in held])
    print(f"the drain: {sum(it.count for it in held)} replies of {len(text)} bytes, whole, on {len(held)} connections", flush=True)
    report.case("the shard ends", "", True, wait_until(lambda: not os.path.exists(f"/proc/{before}/exe")))
    said = (root.at / "run/4.log").read_text().splitlines()
    report.case("as it was asked to", "", True, bool(re.fullmatch(r"served \d+ connections, \d+ requests", said[-1])) or said[-1])
    restarted(root, room, table, plain, "drained")


def listens(address):
    """Whether a connection to this address is made."""
    try:
        open_connection(address).close()
    except OSError:
        return False
    return True


def restarted(root, room, table, plain, why):
    """Shard 4 is started, gives no answer while it is empty, and is loaded and marked ready as the page says."""
    root.run("systemctl", "enable", "--now", "path_server@4")
    report.case(f"{why}: an empty shard gives no answer", "", True, wait_until(lambda: asked(root, room, plain, "list", "shop") == 4))
    shard = next(line.split()[2] for line in Path(table).read_text().splitlines() if line.startswith("shard 4 "))
    report.case(f"{why}: it listens", shard, True, wait_until(lambda: listens(shard)))
    ran = root.run("path_shards", table, "load", room / "dumps", "--shard", "4")
    report.case(f"{why}: loaded", ran.stdout, 0, ran.returncode)
    root.run("path_shards", table, "ready", "4")
    report.case(f"{why}: served again", "", True, wait_until(lambda: asked(root, room, plain, "get", "shop", "cup") == '{"price":3}\n'))


def stopped(root, room, plain):
    """`systemctl stop` ends a shard behind its clients: 50 that go on get each reply whole, until they close their connections themselves."""
    (room / "small").write_bytes(b"[1]")
    report.case("a short text", "", "", asked(root, room, plain, "put", "shop", "small", room / "small"))
    key = bytes.fromhex((room / "acme.key").read_text().strip())
    held = [Held(plain, key, ("shop", "small"), b"[1]") for _ in range(50)]
    report.case("before a stop", "", True, wait_until(lambda: all(it.count for it in held)))
    with subprocess.Popen(["systemctl", "stop", "path_server@4"], env=root.env, stdin=subprocess.DEVNULL) as stop:
        report.case("new ones are closed", "", True, wait_until(lambda: asked(root, room, plain, "get", "shop", "cup") == 4))
        counts = [it.count for it in held]
        time.sleep(3)
        report.case("each goes on", "", (None, [True] * 50), (stop.poll(), [it.is_alive() and it.count > count for it, count in zip(held, counts)]))
        for it in held:
            it.goes = False
        for it in held:
            it.join(PATIENCE)
        report.case("no reply is cut", "", [b""] * 50, [it.left for it in held])
        report.case("the stop ends behind them", "", 0, stop.wait(PATIENCE))
    print(f"systemctl stop: {sum(it.count for it in held)} replies on 50 connections", flush=True)


def failed_and_removed(root, room, table, plain):
    before = root.processes()
    report.case("who runs", "", {"1", "3", "4", "reception", "haproxy"}, set(before))
    users = {pwd.getpwuid(os.stat(f"/proc/{worker}").st_uid).pw_name for worker in children(before["haproxy"])}
    report.case("the user of HAProxy's workers", "", {"haproxy"}, users)
    root.run("path_shards", table, "dump", room / "dumps")
    # the package is upgraded below the shards
    ran = root.dpkg("--install", root.package("2"))
    report.case("upgraded", "", (0, True), (ran.returncode, "go on with the program of" in ran.stdout))
    report.case("the shards go on", "", (before, '{"price":3}\n'), (root.processes(), asked(root, room, plain, "get", "shop", "cup")))
    os.killpg(before["4"], signal.SIGKILL)
    restarted(root, room, table, plain, "failed")
    ran = root.dpkg("--remove", "path-server")
    report.case("a removal below running shards", "", (1, True), (ran.returncode, "their texts would be lost" in ran.stdout))
    stopped(root, room, plain)
    root.run("systemctl", "disable", "--now", "path_server@1", "path_server@3", "path_server@reception")
    report.case("removed", "", 0, root.dpkg("--remove", "path-server").returncode)
    left = [it for it in ("usr/bin/path_server", "usr/lib/path_server", "lib/systemd/system/path_server@.service") if (root.at / it).exists()]
    report.case("what it leaves", "", ([], True), (left, (root.at / "etc/path_server/table").exists()))
    report.case("purged", "", (0, False), (root.dpkg("--purge", "path-server").returncode, (root.at / "etc/path_server").exists()))


def main():
    want("dpkg-deb", "dpkg", "haproxy", "openssl", "socat", "curl")
    with tempfile.TemporaryDirectory(prefix="path-server-package-") as at:
        root = Root(Path(at))
        try:
            file = root.package("1")
            if os.geteuid() != 0:
                not_run("the package in a root of its own", "this user is not root")
                report.close("the package")
            installed(root, file)
            refused(root, Path(at))
            room = Path(at) / "room"
            room.mkdir()
            tried(root, room, file)
        finally:
            root.stop()
    report.close("the package")


main()
