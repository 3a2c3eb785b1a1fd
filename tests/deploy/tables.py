#!/usr/bin/env python3
"""What deploy/shards.py makes of tables, good and bad: tests/deploy/tables.py. Where there is HAProxy, it reads each configuration."""
import hashlib
import re
import subprocess
import tempfile
from pathlib import Path

from deployment import TOP
from lib.running_server import Report, has

KEYS = [f"{place:032x}" for place in range(600)]
FORM = "a line is `shard NAME ADDRESS [ADMIN]`, `reception ADDRESS [ADMIN]`, `probe KEY`, `tenant KEY SHARD[,SHARD..] [WORD..]` or a setting"
GOOD = ["folder made", 'options --words="--idle 600"', "reception 127.0.0.1:7100", f"probe {KEYS[0]}", "shard 1 127.0.0.1:7101", "shard 2 127.0.0.1:7102 127.0.0.1:9002", f"tenant {KEYS[1]} 1,2 alice bob",
        f"tenant {KEYS[10].upper()} 2"]
# lines behind the good ones, and what is wrong with each
BAD = {
    f"tenant {KEYS[1]} 1": "9: the key stands twice, first in line 7",
    f"tenant {KEYS[10]} 1": "9: the key stands twice, first in line 8",
    "shard 3 127.0.0.1:7103": "9: the shard 3 has no tenants",
    f"shard 3 127.0.0.1:7103 127.0.0.1:7101\ntenant {KEYS[2]} 1": "9: the address 127.0.0.1:7101 stands twice",
    f"shard 3 127.0.0.1:9002\ntenant {KEYS[2]} 1": "9: the address 127.0.0.1:9002 stands twice",
    f"shard 3 127.0.0.1:7103 9003\ntenant {KEYS[2]} 1": "9: 9003 is no address: a host, a colon and a port",
    "shard 2 127.0.0.1:7103": "9: the shard 2 stands twice",
    f"shard 3 127.0.0.1:7101\ntenant {KEYS[2]} 1": "9: the address 127.0.0.1:7101 stands twice",
    f"tenant {KEYS[2]} 3": "9: there is no shard 3",
    f"tenant {KEYS[2]} 1,": "9: there is no shard (none)",
    f"tenant {KEYS[2]} 1,1": "9: a shard stands twice",
    f"tenant {KEYS[2][1:]} 1": "9: a key has 32 hexadecimal digits",
    f"tenant {KEYS[2][1:]}g 1": "9: a key has 32 hexadecimal digits",
    f"tenant {KEYS[2]} 1 a,b": "9: a,b is no common name",
    f"tenant {KEYS[0]} 1": "9: the probe's key is a tenant's",
    f"tenant {KEYS[2]}": f"9: {FORM}",
    "tenants": f"9: {FORM}",
    f"probe {KEYS[2]}": "9: a second probe",
    "reception 127.0.0.1:7103": "9: a second reception",
    "shard 3 7103": "9: 7103 is no address: a host, a colon and a port",
    "shard 3 127.0.0.1:0": "9: 127.0.0.1:0 is no address: a host, a colon and a port",
    "shard 3 127.0.0.1:65536": "9: 127.0.0.1:65536 is no address: a host, a colon and a port",
    "shard ../3 127.0.0.1:7103": "9: ../3 is no name of a shard",
    "shard probe 127.0.0.1:7103": "9: probe is no name of a shard",
    f"tenant {KEYS[2]} 1 name=a/b": "9: a/b is no name of a tenant",
    f"tenant {KEYS[2]} 1 name=probe": "9: probe is no name of a tenant",
    f"tenant {KEYS[2]} 1 name={65 * 'n'}": f"9: {65 * 'n'} is no name of a tenant",
    f'tenant {KEYS[2]} 1 name="acme"': '9: "acme" is no name of a tenant',
    "shard two words 127.0.0.1:7103": "9: words is no address: a host, a colon and a port",
    f"tenant {KEYS[2]} 1 name=acme\ntenant {KEYS[3]} 1 name=acme": "10: the name acme stands twice, first in line 9",
    f"tenant {KEYS[2]} 1 collections=a/b": "9: a/b is no name of a collection",
    f"tenant {KEYS[2]} 1 color=red": "9: a tenant has no word color=",
    f"tenant {KEYS[2]} 1 moving=2": "9: moving=2 is none of its other shards",
    f"tenant {KEYS[2]} 1,2 moving=1": "9: moving=1 is none of its other shards",
    f"tenant {KEYS[2]} 1,2 leaving=3": "9: leaving=3 is none of its other shards",
    "options --plain=": "9: options: --plain or --tls is wanted",
    "options --color red": "9: options: unrecognized arguments: --color red",
    "options --all many": "9: options: argument --all: invalid int value: 'many'",
    'options --words="--idle': "9: options: No closing quotation",
    "\n".join(f"tenant {key} 1" for key in KEYS[20:275]): "5: the shard 1 has 257 keys with the probe's; a process has at most 256",
}


def run(folder, lines):
    table = folder / "table"
    table.write_text("".join(f"{line}\n" for line in lines))
    return subprocess.run([TOP / "deploy/shards.py", table, "write"], capture_output=True, encoding="utf-8")


def good(report, folder):
    ran = run(folder, ["# a table", "", *GOOD])
    made = folder / "made"
    written = {f"{name}.{kind}" for name in ("1", "2", "reception") for kind in ("keys", "env")} | {"probe.key", "tenants.map", "grants.map", "haproxy.cfg"}
    report.case("a good table", GOOD, (0, ""), (ran.returncode, ran.stderr))
    report.case("what it says", "", {f"{it} is written" for it in written}, set(ran.stdout.splitlines()))
    report.case("keys of the first shard", "", [f"{KEYS[0]} probe", KEYS[1]], (made / "1.keys").read_text().splitlines())
    report.case("keys of the second shard", "", [f"{KEYS[0]} probe", KEYS[1], KEYS[10]], (made / "2.keys").read_text().splitlines())
    digests = [hashlib.sha256(bytes.fromhex(key)).hexdigest().upper() for key in (KEYS[1], KEYS[10])]
    report.case("tenants.map", "", [f"{digests[0]} shard-1", f"{digests[1]} shard-2"], (made / "tenants.map").read_text().splitlines())
    report.case("grants.map", "", [f"alice:{digests[0]} 1", f"bob:{digests[0]} 1"], (made / "grants.map").read_text().splitlines())
    report.case("1.env", "", 'ADDRESS=127.0.0.1:7101\nOPTIONS="--idle 600"\n', (made / "1.env").read_text())
    report.case("2.env", "", 'ADDRESS=127.0.0.1:7102\nOPTIONS="--idle 600 --admin 127.0.0.1:9002"\n', (made / "2.env").read_text())
    report.case("who may read", "", {0o600}, {it.stat().st_mode & 0o777 for it in made.iterdir()})
    reception = (made / "reception.keys").read_text()
    (made / "1.keys").chmod(0o644)
    report.case("the same table again", "", "1.keys is written\n", run(folder, ["# a table", "", *GOOD]).stdout)
    report.case("the reception's key", "", reception, (made / "reception.keys").read_text())
    ran = run(folder, [*GOOD, "shard 3 127.0.0.1:7103", f"tenant {KEYS[2]} 1,3"])
    report.case("a shard that tenants are to be moved to", "", (0, [f"{KEYS[0]} probe", KEYS[2]]), (ran.returncode, (made / "3.keys").read_text().splitlines()))
    # what is another's is left
    (made / "other.keys").write_text(KEYS[3])
    ran = run(folder, GOOD)
    report.case("files of a shard that is gone", "", (False, False, True), tuple((made / it).exists() for it in ("3.keys", "3.env", "other.keys")))
    report.case("what it says of them", "", {"3.keys is removed", "3.env is removed"}, {it for it in ran.stdout.splitlines() if it.endswith("removed")})
    run(folder, [*GOOD[:-1], f"{GOOD[-1]} name=acme moving=1".replace(" 2 ", " 2,1 ")])
    report.case("a tenant's name stands behind its key", "", [f"{KEYS[0]} probe", KEYS[1], f"{KEYS[10]} acme"], (made / "2.keys").read_text().splitlines())
    report.case("a tenant that is being moved", "", [f"{digests[0]} shard-1", f"{digests[1]} paused"], (made / "tenants.map").read_text().splitlines())
    run(folder, GOOD)
    # a command that copies the files to where HAProxy runs, whenever some were written
    copied = [*GOOD, f"written cp {made}/tenants.map {folder}/copy && echo copied >>{folder}/copies"]
    for tenants, times in ((copied, 0), ([*copied, f"tenant {KEYS[4]} 1"], 1), ([*copied, f"tenant {KEYS[4]} 1"], 1), (copied, 2)):
        run(folder, tenants)
        got = (folder / "copies").read_text().count("\n") if (folder / "copies").exists() else 0
        same = not times or (folder / "copy").read_text() == (made / "tenants.map").read_text()
        report.case("the command of `written`", tenants[-1], (times, True), (got, same))
    more = f"tenant {KEYS[4]} 2"
    report.case("a command of `written` that fails", "", 1, run(folder, [*GOOD, more, "written exit 3"]).returncode)
    for times in (3, 3):
        run(folder, [*copied, more])
        report.case("it is run until it succeeds", "", times, (folder / "copies").read_text().count("\n"))
    report.case("and then the copy is the file", "", True, (folder / "copy").read_text() == (made / "tenants.map").read_text())
    run(folder, GOOD)
    text = "".join(it.read_text() for it in made.iterdir() if it.suffix in (".cfg", ".map"))
    report.case("no tenant's key is in a file for HAProxy", "", [], [key for key in (KEYS[1], KEYS[10]) if key in text.lower()])
    report.case("the reception's key is nobody's", "", False, (made / "reception.keys").read_text().strip() in KEYS)
    # with HAProxy's own 4, a new connection waits for most of a minute behind thousands of busy ones
    report.case("connections that HAProxy takes in a turn", "", ["64"], re.findall(r"^ +tune\.maxaccept (\d+)$", (made / "haproxy.cfg").read_text(), re.M))
    if has("HAProxy reads it", "haproxy"):
        for words in ("--plain=127.0.0.1:7000", "--plain=:7000 --all=100 --tenant=5 --source=7 --shard=50", "--user root"):
            run(folder, [f"options {words}", *GOOD])
            report.case("HAProxy reads it", words, 0, subprocess.run(["haproxy", "-c", "-f", made / "haproxy.cfg"], capture_output=True).returncode)
        run(folder, [line.replace("127.0.0.1", "localhost") for line in GOOD])
        report.case("HAProxy reads it with names of hosts", "", 0, subprocess.run(["haproxy", "-c", "-f", made / "haproxy.cfg"], capture_output=True).returncode)


def bad(report, folder):
    for lines, fault in BAD.items():
        ran = run(folder, [*GOOD, lines])
        report.case("a bad table", lines[:80], (1, "", f"{folder / 'table'}:{fault}\n"), (ran.returncode, ran.stdout, ran.stderr))
    for place, what in ((0, "there is no folder"), (2, "there is no reception"), (3, "there is no probe")):
        ran = run(folder, GOOD[:place] + GOOD[place + 1:])
        report.case("a table without a line", GOOD[place], (1, f"{folder / 'table'}: {what}\n"), (ran.returncode, ran.stderr))
    ran = run(folder, GOOD[:4])
    report.case("a table without shards", "", (1, f"{folder / 'table'}: there is no shard\n"), (ran.returncode, ran.stderr))
    ran = run(folder, [*GOOD, *list(BAD)[:3]])
    report.case("all faults are told", "", 3, len(ran.stderr.splitlines()))
    report.case("nothing was written", "", False, (folder / "made").exists())


def main():
    report = Report()
    with tempfile.TemporaryDirectory() as at:
        bad(report, Path(at))
        good(report, Path(at))
    report.close("tables")


main()
