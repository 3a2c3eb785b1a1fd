#!/usr/bin/env python3
"""Runs shards of path_server and the HAProxy in front of them, from one table: deploy/shards.py TABLE COMMAND ..

  write                            writes the files that follow from the table, and has HAProxy read them
  reload                           has HAProxy read them and the certificates anew
  ready SHARD..                    marks shards ready, once they are loaded
  move TENANT SHARD                moves a tenant's texts and connections to another shard
  undo TENANT                      takes a move back that was interrupted
  upgrade SHARD NEW [ADDRESS [ADMIN]]
                                   starts the shard NEW, moves all tenants of SHARD there and ends it
  dump FOLDER [TENANT..]           writes the texts of all tenants, or of some, into files
  load FOLDER [TENANT..]           puts them back
  show                             prints where each tenant is

Each may be interrupted: the same command goes on. Lines of the table (blank ones, and those that begin with `#`, say nothing):

{forms}

FOLDER gets, readable by its owner alone: NAME.keys and NAME.env of each shard and of the reception, probe.key, haproxy.cfg, tenants.map and
grants.map. Files of a shard that the table no longer has are removed. What is wrong with the table is told on standard error, a line each, and then
nothing is written and the status is 1.
"""
import argparse
import os
import subprocess
import sys
from pathlib import Path

HERE = Path(__file__).resolve().parent
sys.dont_write_bytecode = True
sys.path[:0] = [str(HERE), str(HERE / "python"), str(HERE.parent / "clients/python")]
import shard_table
from shard_moves import Stopped
from shard_upgrades import Upgrade


def parsed():
    parser = argparse.ArgumentParser(description=__doc__.format(forms=shard_table.FORMS), formatter_class=argparse.RawDescriptionHelpFormatter,
                                     usage="deploy/shards.py TABLE COMMAND ..")
    parser.add_argument("--options", action="version", version=shard_table.Options().format_help(), help="print the words of the line `options`")
    parser.add_argument("table")
    verbs = parser.add_subparsers(dest="verb", required=True, metavar="COMMAND")
    verbs.add_parser("write")
    verbs.add_parser("reload")
    verbs.add_parser("show")
    verbs.add_parser("ready").add_argument("shards", nargs="+")
    move, undo, upgrade = verbs.add_parser("move"), verbs.add_parser("undo"), verbs.add_parser("upgrade")
    for it in (move, undo):
        it.add_argument("tenant")
    move.add_argument("shard")
    move.add_argument("--replace", action="store_true", help="drop what the tenant has at the new shard")
    undo.add_argument("--old-copy", action="store_true", help="serve the texts from before the move, since the new shard has lost them")
    upgrade.add_argument("shard")
    upgrade.add_argument("new")
    upgrade.add_argument("address", nargs="*")
    for name in ("dump", "load"):
        it = verbs.add_parser(name)
        it.add_argument("folder")
        it.add_argument("tenants", nargs="*")
        it.add_argument("--shard", help="only tenants that this shard serves")
        if name == "load":
            it.add_argument("--replace", action="store_true", help="drop what they have there")
    for it in (move, undo, upgrade):
        it.add_argument("--wait", type=float, default=0, metavar="SECONDS", help="how long a tenant's open connections have to end by themselves")
    for it in verbs.choices.values():
        it.add_argument("--patience", type=float, default=30, metavar="SECONDS", help="how long a shard or HAProxy has to answer")
    return parser.parse_args()


def show(fleet):
    for tenant in fleet.table.tenants.values():
        words = [f"to {tenant.moving}, paused"] * bool(tenant.moving) + [f"still dropped at {tenant.leaving}"] * bool(tenant.leaving)
        print(" ".join([tenant.name, tenant.digest[:8].lower(), "shard", tenant.places[0], *words]))


def main():
    given = parsed()
    os.umask(0o077)
    fleet = Upgrade(given.table, lambda line: print(line, flush=True), getattr(given, "wait", 0), given.patience)
    calls = {"write": fleet.write, "reload": fleet.read_anew, "show": lambda: show(fleet), "ready": lambda: fleet.ready(given.shards),
             "move": lambda: fleet.move(given.tenant, given.shard, given.replace), "undo": lambda: fleet.undo(given.tenant, given.old_copy),
             "upgrade": lambda: fleet.upgrade(given.shard, given.new, *given.address),
             "dump": lambda: fleet.dump(given.folder, given.tenants, given.shard),
             "load": lambda: fleet.load(given.folder, given.tenants, given.shard, given.replace)}
    calls[given.verb]()


if __name__ == "__main__":
    try:
        main()
    except shard_table.Faulty as faults:
        sys.exit("\n".join(faults.args))
    except (Stopped, OSError, ValueError, subprocess.CalledProcessError) as why:
        sys.exit(f"shards.py: {why}")
