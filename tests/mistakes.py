#!/usr/bin/env python3
"""Where usual mistakes in texts and queries are, and what may stand there: tests/mistakes.py [NUMBER]

Of each line of tests/mistakes.cases, the program `path_server query`, the program `refusal_places` (the one that `rt ci` makes, or the one that the
environment's REFUSAL_PLACES names), the Python client's places and, if there is Node, the Node client's say the same. So they do of texts and queries
cut at each byte, with each byte replaced by others, and of NUMBER random changes (2,000 by default). The place of what does not follow a grammar is
compared with a parser over the RFC's ABNF (tests/lib/earley.py), and of texts with that of Python's json where it refuses the same.
"""
import json
import os
import random
import re
import shutil
import subprocess
import sys
import time

from lib import earley
from lib.json_verdict import verdict
from lib.running_server import PATIENCE, PROGRAM, TOP, Report
from path_client.places import find_place

PLACES = os.environ.get("REFUSAL_PLACES") or str(TOP / "crates/refusal_places/out/refusal_places")
NODE = """import { findPlace } from '%s'; import fs from 'node:fs';
for (const line of fs.readFileSync(0, 'utf8').split('\\n')) {
  const [name, digits = ''] = line.split(' ');
  if (name) console.log(JSON.stringify(String(findPlace(Buffer.from(digits, 'hex'), name))));
}""" % (TOP / "clients/node/places.js")
QUERIES = ("QueryTooLong", "NotWellFormed", "NotValid")
GRAMMARS = {"NotJson": (earley.grammar("rfc8259.abnf"), "JSON-text"), "NotWellFormed": (earley.grammar("rfc9535.abnf"), "jsonpath-query")}
TEXTS = ['{"a":1,"b":[true,false,null],"c":{"d":-0.5e+10}}', '[1,2.25,-3e5,"x\\n\\u00e9y",{}, [] ]', ' { "k" : [ "v" , 0 ] } ',
         '"\\ud83d\\ude00 é𝄞"', "-12.5E-3", '[[[[1]]],[{"a":{}}]]', "null", '{"":"","a b":[10,200]}', "[ true , false ]", '{"a":{"a":{"a":[]}}}']
MEANT = ['{"a":1,"\\u0061":2,"b":{"a":3,"a":1e1000000000}}', '["\\ud800","\\udc00\\ud800","\\ud83d\\ude00\\ud83dx"]',
         '{"x":[1E-9999999999,' + "1" * 257 + "]}", "[" * 257 + "]" * 257]
ASKED = ["$.a.b[0]['c']", "$[?@.a==1 && @.b>2].c", "$..x[*,1:2:3,-1]", "$[?length(@.n)<=3||!(@.x)]", "$[?count(@..*)>1,?@['a'][0]!=\"z\"]",
         "$[?value($.a)==true&&!@.q]", '$ [ 1 : -2 , "\\u00e9\\ud83d\\ude00" ] .é', '$[?f(@.a,1,"x",g(2),@.b==null)]', "$[?(@.a||@.b)&&(1.5e-3<@.c)]",
         "$[?@[?@.x>0]]", "$[?1==$.a['b'][0]]", "$[?@ ['a'] [ 1 ]<@[ 'b' ] .c&&@]", "$[?'a'>=$ .b]"]
TEXT_SIGNS = "{}[],:\"\\/ \n0123456789-+.eEtrufalsnabD'é𝄞\x01x"
QUERY_SIGNS = "$@[]().,:?!=<>&|*\"'\\ \n0123456789-+eEtrufalsnabDdC_é𝄞x"
OTHERS = "{}[],:\"\\ 01-.e$@?('é"


def bytes_of(field):
    """The bytes of a table's field: pieces between backquotes as docs/TABLES.md has them."""
    made = b""
    for number, piece in enumerate(field.split("`")):
        if number % 2 == 0:
            made += piece.encode()
        elif piece.startswith("x"):
            made += bytes.fromhex(piece[1:])
        else:
            count, text = piece.split("*", 1)
            made += int(count) * text.encode()
    return made


def table():
    """The lines of the table: the refusal, the place, what is said, the bytes, and the hint or nothing."""
    for line in (TOP / "tests/mistakes.cases").read_text(encoding="utf-8").split("\n"):
        if line and not line.startswith("#"):
            name, at, said, field, *hint = line.split("\t")
            data = bytes_of(field)
            if name in GRAMMARS and not said.startswith(("level", "expected")):
                said = f"expected {said}, found {found_at(data, int(at))}"
            yield name, None if at == "-" else int(at), said, data, f"hint: {hint[0]}" if hint else None


def found_at(data, at):
    if at == len(data):
        return "the end of the text"
    return f"'{chr(data[at])}'" if 0x20 <= data[at] < 0x7F else f"byte 0x{data[at]:02x}"


def answers(cases):
    """What the program says of refused texts and queries."""
    lines = "".join(f"{name} {data.hex()}\n" for name, data in cases)
    ran = subprocess.run([PLACES], input=lines.encode(), stdout=subprocess.PIPE, timeout=10 * PATIENCE, check=True)
    return ran.stdout.decode("utf-8", "replace").splitlines()


def node_answers(cases):
    lines = "".join(f"{name} {data.hex()}\n" for name, data in cases)
    ran = subprocess.run(["node", "--input-type=module", "-e", NODE], input=lines.encode(), stdout=subprocess.PIPE, timeout=10 * PATIENCE, check=True)
    return [json.loads(line) for line in ran.stdout.decode().splitlines()]


def place_of(said):
    found = re.search(r"\(byte (\d+)\): ", said)
    return int(found[1]) if found else None


def by_grammar(name, text):
    """The bytes before the place at which a text no longer follows its grammar; nothing if it follows it."""
    at, is_whole = earley.longest(*GRAMMARS[name], text)
    return None if is_whole else len(text[:at].encode())


def by_json(text):
    """The place that Python's json gives, where it looks for what the grammar does."""
    try:
        json.loads(text)
    except ValueError as error:
        what = re.match(r"Expecting '[,:]' delimiter|Extra data", error.msg)
        if what and not re.match(r"[.eE]", text[error.pos:]):
            return len(text[:error.pos].encode())
    return None


def compare(report, cases):
    """The same is said by all, and of a grammar at the place that the parser finds."""
    told = answers(cases)
    for (name, data), said in zip(cases, told):
        if name in GRAMMARS:
            report.case(f"{name}, by the grammar", data, by_grammar(name, data.decode()), place_of(said))
        if name == "NotJson" and by_json(data.decode()) is not None:
            report.case("NotJson, by Python's json", data, by_json(data.decode()), place_of(said))
        report.case(f"{name}, in Python", data, said.split(" | ")[0], str(find_place(data, name) or ""))
    if shutil.which("node"):
        for (name, data), said, other in zip(cases, told, node_answers(cases)):
            report.case(f"{name}, in Node", data, said.split(" | ")[0], "" if other == "undefined" else other)


def changed(random, text, signs):
    """A text with a few random changes."""
    text = list(text)
    for _ in range(random.choice([1, 1, 1, 2, 3])):
        at = random.randrange(len(text) + 1)
        kind = random.choice(["cut", "replace", "insert", "remove"])
        if kind == "cut":
            text = text[:at]
        elif kind == "insert":
            text.insert(at, random.choice(signs))
        elif at < len(text):
            text[at:at + 1] = random.choice(signs) if kind == "replace" else ""
    return "".join(text)


def refused(text, is_query):
    """The case of a text or a query, if it is refused for a reason whose place is known. A query of the grammar may break a rule or not."""
    if is_query:
        return [("NotValid" if by_grammar("NotWellFormed", text) is None else "NotWellFormed", text.encode())]
    name = verdict(text.encode())
    return [(name, text.encode())] if name else []


def try_table(report):
    cases = list(table())
    told = answers([(name, data) for name, _, _, data, _ in cases])
    for (name, at, said, data, hint), got in zip(cases, told):
        line, _, behind = got.partition(" | ")
        report.case(f"the hint of {name} of the table", data, hint or "", behind)
        report.case(f"{name} of the table", data, (at, said), (place_of(line), line if at is None else line.split("): ", 1)[-1]))
        if name in GRAMMARS and not said.startswith(("level", "expected UTF-8")):
            report.case(f"{name} of the table, by the grammar", data, at, by_grammar(name, data.decode()))
        if at is not None:
            report.case(f"{name} of the table, in Python", data, line, str(find_place(data, name) or ""))
    if shutil.which("node"):
        for (name, at, _, data, _), got, other in zip(cases, told, node_answers([(name, data) for name, _, _, data, _ in cases])):
            if at is not None:
                report.case(f"{name} of the table, in Node", data, got.split(" | ")[0], other)
    for (name, _, _, data, _), line in zip(cases, told):
        words, text = (data, b"1") if name in QUERIES else (b"$", data)
        # a word of a command line is UTF-8
        if "UTF-8" not in line or name == "NotUtf8":
            ran = subprocess.run([PROGRAM, "query", words], input=text, stdout=subprocess.PIPE, stderr=subprocess.PIPE, timeout=PATIENCE)
            lines = ran.stderr.decode("utf-8", "replace").split("\n")
            report.case(f"{name} of the table, by the program", data, [f"path_server: {name}", *line.split(" | "), ""], lines)


def try_long(report):
    """Texts of 4 MiB: each place is found in a moment."""
    size = 4_194_304
    cases = [("NotJson", b"[" * size, size), ("NotJson", b" " * (size - 1) + b"x", size - 1), ("NotJson", b'"' + b"a" * (size - 2) + b"\n", size - 1),
             ("NotJson", b"[" + b"1," * (size // 2 - 1), size - 1), ("TooDeep", b"[" * (size // 2) + b"]" * (size // 2), 256)]
    ones, names = b"[" + b"1," * 2_090_000, b"{" + b",".join(b'"%016x":0' % place for place in range(155_659))
    alike = b"{" + b",".join(b'"' + b"x" * 4_000 + b'%d":0' % place for place in range(1_000))
    escaped = b"{" + b",".join(b'"\\u0061%d":0' % place for place in range(200_000))
    cases += [("TooDeep", ones + b"[" * 256 + b"]" * 257, len(ones) + 255), ("NumberLimit", ones + b"1e9999999999,1e9999999999]", len(ones)),
              ("LoneSurrogate", ones + b'"\\ud800\\ud800"]', len(ones) + 1), ("DuplicateName", names + b',"%016x":0,"%016x":0}' % (7, 6), len(names) + 1),
              ("DuplicateName", alike + b',"' + b"x" * 4_000 + b'7":0}', len(alike) + 1), ("DuplicateName", escaped + b',"a7":0}', len(escaped) + 1),
              ("DuplicateName", b"[" + b'{"a":1},' * 500_000 + b'{"a":1,"a":2}]', 4_000_008)]
    for name, data, at in cases:
        started = time.monotonic()
        said = answers([(name, data)])[0]
        report.case(f"{name} in 4 MiB", data[:20], (at, True), (place_of(said), time.monotonic() - started < 5))


def main():
    number = int(sys.argv[1]) if len(sys.argv) > 1 else 2_000
    rng, report = random.Random(number), Report()
    try_table(report)
    try_long(report)
    cases = []
    for text, is_query in [(text, False) for text in TEXTS] + [(text, True) for text in ASKED]:
        for at in range(len(text)):
            cases += refused(text[:at], is_query)
            for other in rng.sample(OTHERS, 4 if number <= 2_000 else 20):
                cases += refused(text[:at] + other + text[at + 1:], is_query)
    for _ in range(number // 2):
        cases += refused(changed(rng, rng.choice(TEXTS + MEANT), TEXT_SIGNS), False)
        cases += refused(changed(rng, rng.choice(ASKED), QUERY_SIGNS), True)
    compare(report, cases)
    report.close("places of mistakes")


main()
