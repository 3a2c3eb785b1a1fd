#!/usr/bin/env python3
"""Compares lists with the tables of crates/protocol: the statuses and commands of docs/PROTOCOL.md, those of the clients for Python, Node and Go, and
those of the plain model of the tests. A client's sentence for a status is the table's advice, but for the name of a key file behind it.

It needs neither a program nor the languages of the clients: their sources are read.
"""
import re

import path_client
from lib.plain_model import STATUS
from lib.running_server import TOP, Report
from path_client.frames import COMMANDS

ROW = re.compile(r'^    (\d+) "(\w+)" "((?:[^"\\]|\\.)*)";', re.M)
BYTE = re.compile(r'^    (\d+) "(\w+)";', re.M)
SENTENCE = r"""(?:"((?:[^"\\]|\\.)*)"|'((?:[^'\\]|\\.)*)')"""
RETIRED = 19
FAULT = {255: "FrameFault"}


def text(path):
    return (TOP / path).read_text(encoding="utf-8")


def table():
    """The name and the advice of each status that a reply may have, by its number."""
    rows = {int(number): (name, advice.removesuffix(" in ")) for number, name, advice in ROW.findall(text("crates/protocol/src/statuses.rt"))}
    return {number: row for number, row in rows.items() if number != RETIRED}


def refusals(path, call):
    """The statuses of a client's source: number, name and sentence are the arguments of a call, of which the last two may be in either quotes."""
    found = re.findall(rf"\b{call}\((\d+), {SENTENCE}, {SENTENCE}\)", text(path))
    return {int(number): (a or b, c or d) for number, a, b, c, d in found}


def python_refusals():
    """The statuses of the Python client: each class below Refused."""
    return {it.status: (it.__name__, it.sentence) for it in path_client.Refused.__subclasses__() if it.status in table()}


def check_statuses(report):
    statuses = table()
    names = {number: name for number, (name, _) in statuses.items()}
    refused = {number: row for number, row in statuses.items() if number != 0}
    page = {int(number): name for number, name in re.findall(r"\| (\d+) `[0-9a-f]{2}` \| (\w+) \|", text("docs/PROTOCOL.md"))}
    report.case("numbers follow one another", "", list(range(len(statuses) + 1)), sorted([*statuses, RETIRED]))
    report.case("docs/PROTOCOL.md", "", {**names, **FAULT}, page)
    report.case("the plain model", "", {**names, **FAULT}, {number: name for name, number in STATUS.items() if number != RETIRED})
    report.case("the Python client's enum", "", {**names, **FAULT}, {it.value: it.name for it in path_client.Status})
    report.case("the Python client's classes", "", refused, python_refusals())
    report.case("the Node client", "", refused, refusals("clients/node/refusals.js", "refusal"))
    report.case("the Go client", "", refused, refusals("clients/go/client.go", "status"))
    for path, line in (("clients/node/index.d.ts", "export declare class {} extends Refused"), ("clients/node/index.js", "{},"), ("clients/python/path_client/__init__.py", '"{}",')):
        report.case(f"names in {path}", "", [], [name for name, _ in refused.values() if line.format(name) not in text(path)])


def check_commands(report):
    commands = {int(byte): name.upper() for byte, name in BYTE.findall(text("crates/protocol/src/commands.rt"))}
    page = {int(byte): name for byte, name in re.findall(r"^\| (\d) ([A-Z_]+) \|", text("docs/PROTOCOL.md"), re.M)}
    report.case("bytes follow one another", "", list(range(1, len(commands) + 1)), sorted(commands))
    report.case("commands of docs/PROTOCOL.md", "", commands, page)
    report.case("commands of the Python client", "", commands, COMMANDS)
    for path in ("clients/node/frames.js", "clients/go/client.go"):
        found = {int(byte): name for byte, _, name in re.findall(r"\bcommand\((\d+), (['\"])([A-Z_]+)\2", text(path))}
        report.case(f"commands of {path}", "", commands, found)


def main():
    report = Report()
    check_statuses(report)
    check_commands(report)
    report.close("lists of the protocol")


if __name__ == "__main__":
    main()
