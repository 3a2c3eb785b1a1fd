#!/usr/bin/env python3
"""Runs the program path_client and compares its status, output and errors byte for byte: tests/client_commands.py [LINES].

Each subcommand goes to a running server; what is invalid is told before anything is sent; peers with fixed replies stand for servers that
answer nonsense, end early or say nothing. Then documents with names of every letter of the alphabet are dumped and loaded, and are the
same byte for byte; so are those of the JSON files in the folder that the environment's PATH_DATA names, if there is one. Documents that
one client put are read by the others (Python, and Node where there is one). At last so many LINES (10,000) are loaded: in less than 32 MiB,
and with 100,000 or more at no less than half of the rate at which the server takes their frames.

The programs are those of crates/*/out/, or those that the environment's PATH_SERVER and PATH_CLIENT name.
"""
import io
import json
import os
import pty
import random
import re
import shutil
import string
import subprocess
import sys
import tempfile
import time
from contextlib import redirect_stdout
from pathlib import Path

from client_itself import Answering
from path_client import Request, connect
from lib.running_server import TOP, Listening, Report, has, open_connection, talk

PROGRAM = os.environ.get("PATH_CLIENT") or str(TOP / "crates/path_client/out/path_client")
KEY, STRANGER = bytes.fromhex("00112233445566778899aabbccddeeff"), bytes(16)
TEXT = b'{"items":[{"name":"tea","price":4},\n{"name":"pot","price":24.5}]}'
ALPHABET = string.ascii_letters + string.digits + ".-_"
MEMORY_KIB = 32 * 1024


class Room:
    """A folder with files of keys, and the program run in it."""

    def __init__(self, report, address):
        self.report, self.address = report, address
        self.folder = Path(tempfile.mkdtemp(prefix="path-client-"))
        self.file("key", KEY.hex().upper() + "\n")

    def file(self, name, text):
        path = self.folder / name
        path.write_bytes(text if isinstance(text, bytes) else text.encode())
        return str(path)

    def run(self, *words, text=b"", **more):
        environment = {**os.environ, "PATH_SERVER_AT": self.address, "PATH_SERVER_KEY_FILE": str(self.folder / "key"), **more}
        return subprocess.run([PROGRAM, *words], input=text, capture_output=True, env=environment, cwd=self.folder, timeout=120)

    def case(self, words, status, output=b"", errors=b"", text=b"", **more):
        """One run and what it is to print; what is `any` is not compared."""
        ran = self.run(*words, text=text, **more)
        got = (ran.returncode, output if output is any else ran.stdout, errors if errors is any else ran.stderr)
        self.report.case(f"path_client {' '.join(words)[:200]}", text, (status, output, errors), got)
        return ran

    def refused(self, words, status, line, text=b"", second=None, **more):
        """A run that fails with this line, and with this one behind it if there is one."""
        ran = self.case(words, status, b"", any, text, **more)
        lines = ran.stderr.decode("utf-8", "replace").split("\n")
        if "--json" in words:
            lines[0] = "path_client: {error}: {message}".format(**json.loads(ran.stderr))
        self.report.case(f"what path_client {' '.join(words)[:200]} says", text, f"path_client: {line}", lines[0])
        if second is not None:
            self.report.case(f"what it says of the place, of path_client {' '.join(words)[:200]}", text, second, lines[1])


def check_subcommands(report, room):
    room.case(["put", "shop", "order-1"], 0, text=TEXT)
    room.case(["put", "shop", "order-2", room.file("text", b" [1] ")], 0)
    room.refused(["put-new", "shop", "order-1"], 1, "Exists: the document exists: put replaces it", text=b"1")
    room.case(["put-new", "shop", "order-3"], 0, text=b"1")
    room.case(["get", "shop", "order-1"], 0, TEXT)
    room.case(["get", "shop", "order-2"], 0, b" [1] ")
    room.case(["list", "shop"], 0, b"order-1\norder-2\norder-3\n")
    room.case(["list", "none"], 0)
    room.case(["query", "shop", "$.items[?@.price<10].name"], 0, b"order-1\t$['items'][0]['name']\t\"tea\"\n")
    room.case(["query", "shop", "$.items"], 0, b"order-1\t$['items']\t" + TEXT[9:-1] + b"\n")
    room.case(["--json", "query", "shop", "$.items"], 0,
              b'{"document":"order-1","path":"$[\'items\']","value":' + TEXT[9:-1].replace(b"\n", b" ") + b"}\n")
    odd = '{"\\u0001\'\\\\\\"é": 1}'.encode()
    room.case(["put", "odd", "o"], 0, text=odd)
    room.case(["query", "odd", "$.*", "--json"], 0, '{"document":"o","path":"$[\'\\\\u0001\\\\\'\\\\\\\\\\"é\']","value":1}\n'.encode())
    room.case(["query", "none", "$"], 0)
    room.case(["usage"], 0, f"collections 2, documents 4, bytes {len(TEXT) + 6 + len(odd)}\n".encode())
    room.case(["usage", "--json"], 0, f'{{"collections":2,"documents":4,"bytes":{len(TEXT) + 6 + len(odd)}}}\n'.encode())
    room.case(["remove", "shop", "order-3"], 0)
    room.refused(["remove", "shop", "order-3"], 1, "NotFound: there is no such document or collection")
    room.case(["drop", "odd"], 0)
    room.refused(["drop", "odd"], 1, "NotFound: there is no such document or collection")
    room.refused(["put", "shop", "order-1"], 1, "NotJson: the text is not JSON (RFC 8259)", text=b"{",
                 second="line 1, column 2 (byte 1): expected a name in double quotes or '}', found the end of the text")
    room.refused(["query", "shop", "$["], 2, "NotWellFormed: the query is not well-formed (RFC 9535, section 2.1)",
                 second="line 1, column 3 (byte 2): expected a name in quotes, a number, ':', '*' or '?', found the end of the text")
    room.refused(["query", "shop", "$[?count(@)]"], 2, "NotValid: the query is not valid (RFC 9535, section 2.1)")
    room.case(["get", "shop", "order-1"], 0, TEXT)
    check_places(report, room)
    report.case("the time of a ping", "", True, bool(re.fullmatch(rb"\d+\.\d{3} ms\n", room.case(["ping"], 0, any).stdout)))
    room.case(["drop", "shop"], 0)


def check_places(report, room):
    """Where a text or a query is refused, as lines and as JSON, and what the system refused."""
    text = b'{"a": 1,\n "b": 2,\n}'
    place = "line 3, column 1 (byte 18): expected a name in double quotes, found '}'"
    for verb in ("put", "put-new"):
        ran = room.case([verb, "shop", "broken"], 1, b"", (
            f"path_client: NotJson: the text is not JSON (RFC 8259)\n{place}\nhint: no comma stands behind the last one\n").encode(), text)
        ran = room.case([verb, "shop", "broken", "--json"], 1, b"", any, text)
        report.case(f"{verb} as JSON", text, {
            "error": "NotJson", "message": "the text is not JSON (RFC 8259)", "byte": 18, "line": 3, "column": 1, "expected": "a name in double quotes",
            "said": "expected a name in double quotes, found '}'", "hint": "no comma stands behind the last one"}, json.loads(ran.stderr))
    twice = b'{"a":1,\n"\\u0061":2}'
    room.refused(["put", "shop", "broken"], 1, "DuplicateName: an object has the same name twice", text=twice,
                 second='line 2, column 1 (byte 8): the name "\\u0061" again, first at line 1, column 2 (byte 1)')
    ran = room.case(["put", "shop", "broken", "--json"], 1, b"", any, twice)
    report.case("a name twice as JSON", twice, {"byte": 1, "line": 1, "column": 2}, json.loads(ran.stderr).get("first"))
    ran = room.case(["query", "shop", "$[?@.a=1]", "--json"], 2, b"", any)
    found = json.loads(ran.stderr)
    report.case("a query as JSON", "", ("NotWellFormed", 7, "'='", "equality is =="), tuple(found.get(it) for it in ("error", "byte", "expected", "hint")))
    ran = room.case(["get", "shop", "a \"\\", "--json"], 3, b"", any)
    report.case("a name as JSON", "", "BadName", json.loads(ran.stderr)["error"])
    ran = room.case(["put", "shop", "o", "no \"file\"", "--json"], 4, b"", any)
    report.case("a file as JSON", "", ("ReadFault", 'no "file"', True), tuple(json.loads(ran.stderr).get(it) for it in ("error", "of")) + (
        bool(json.loads(ran.stderr).get("reason")),))
    near, far = pty.openpty()
    environment = {**os.environ, "PATH_SERVER_AT": room.address, "PATH_SERVER_KEY_FILE": str(room.folder / "key")}
    ran = subprocess.run([PROGRAM, "put", "shop", "broken"], input=b"[1,\n 2 3]", stdout=subprocess.PIPE, stderr=far, env=environment, timeout=60)
    os.close(far)
    told = os.read(near, 65_536).decode().replace("\r", "").split("\n")
    os.close(near)
    report.case("a place on a terminal", "", [
        "path_client: NotJson: the text is not JSON (RFC 8259)", "line 2, column 4 (byte 7): expected ',' or ']', found '3'", " 2 3]", "   ^", ""], told)
    room.refused(["put", "shop", "o"], 1, "TooLong: a text has at most 4194304 bytes", text=b" " * 4_194_304 + b"1",
                 second="4194305 bytes or more, at most 4194304 are read")


def check_questions(report, room):
    """Documents with a hit, the first hits, and one document that is fetched: its lines are those that the server gives of it."""
    for name, total in (("o1", 10), ("o2", 30), ("o3", 24)):
        room.case(["put", "orders", name], 0, text=b'{"id":"%s","total":%d,"items":[1,\n2,3]}' % (name.encode(), total))
    room.case(["query", "--names", "orders", "$[?$.total<25]"], 0, b"o1\no3\n")
    room.case(["query", "--names", "orders", "$[?$.total<0]"], 0)
    room.case(["query", "--names", "--limit", "1", "orders", "$.items[*]"], 0, b"o1\n")
    room.case(["query", "--limit", "4", "orders", "$.items[*]"], 0, b"".join(
        b"%s\t$['items'][%d]\t%d\n" % it for it in ((b"o1", 0, 1), (b"o1", 1, 2), (b"o1", 2, 3), (b"o2", 0, 1))))
    for query in ("$", "$..*", "$.items[::-1]", "$[?$.total<25]", "$.none"):
        for form in ([], ["--json"]):
            whole = room.run("query", "orders", query, *form).stdout
            hits = re.findall(rb"o2\t\$.*?\n(?=o\d\t\$|\Z)|\{\"document\":\"o2\".*\n", whole, re.S if not form else 0)
            room.case(["query", "--document", "o2", "orders", query, *form], 0, b"".join(hits))
    room.case(["query", "--document", "o2", "--limit", "2", "orders", "$.items[*]"], 0, b"o2\t$['items'][0]\t1\no2\t$['items'][1]\t2\n")
    room.case(["query", "--document", "o2", "--names", "orders", "$.items[*]"], 0, b"o2\n")
    room.case(["query", "--document", "o2", "--names", "orders", "$.none"], 0)
    room.refused(["query", "--document", "o4", "orders", "$"], 1, "NotFound: there is no such document or collection")
    room.refused(["query", "--document", "o 4", "orders", "$"], 3, "BadName: a document's name has 1 to 128 ASCII letters, digits, '.', '-' or '_'")
    room.refused(["query", "--document", "o2", "orders", "$["], 2, "NotWellFormed: the query is not well-formed (RFC 9535, section 2.1)")
    room.refused(["query", "--document", "o2", "orders", "$[?count(@)]"], 2, "NotValid: the query is not valid (RFC 9535, section 2.1)")
    room.refused(["query", "--document", "o2", "orders", "$" + " " * 4_096], 2, "QueryTooLong: a query has at most 4096 bytes")
    room.case(["put", "orders", "deep"], 0, text=b"[" * 128 + b"]" * 128)
    room.refused(["query", "--document", "deep", "orders", "$..*..*..*..*"], 2, "Costly: the query costs more than 10000000 units: ask for less")
    text = b'["' + b"x" * 3_000_000 + b'"]'
    room.case(["put", "orders", "large"], 0, text=text)
    room.refused(["query", "orders", "$[0,0,0]"], 1, "ReplyTooLarge: the reply would have more than 8388608 bytes: ask for fewer hits")
    room.case(["query", "--document", "large", "orders", "$[0,0,0]"], 0, b"large\t$[0]\t" + text[1:-1] + (b"\nlarge\t$[0]\t" + text[1:-1]) * 2 + b"\n")
    for words in (["--limit", "0"], ["--limit", "x"], ["--document"]):
        room.case(["query", "orders", "$", *words], 3, errors=any)
    room.case(["drop", "orders"], 0)


def check_keys(report, room):
    new = [room.run("new-key").stdout for _ in range(2)]
    report.case("two new keys", "", (True, True, True), (*(bool(re.fullmatch(rb"[0-9a-f]{32}\n", it)) for it in new), new[0] != new[1]))
    for name, text, line in (
        ("empty", "", "NoKey: path_client new-key makes a key for the empty file "),
        ("blank", " \n", "NoKey: path_client new-key makes a key for the empty file "),
        ("several", f"{KEY.hex()},{KEY.hex()}", "SeveralKeys: a client uses one key: make a file with one of the keys in "),
        ("lines", f"{KEY.hex()}\n{KEY.hex()}\n", "SeveralKeys: a client uses one key: make a file with one of the keys in "),
        ("short", KEY.hex()[1:], "BadKey: a key has 32 hexadecimal digits, unlike the one in "),
        ("long", KEY.hex() + "0", "BadKey: a key has 32 hexadecimal digits, unlike the one in "),
    ):
        path = room.file(name, text)
        room.refused(["usage"], 3, line + path, PATH_SERVER_KEY_FILE=path)
    room.refused(["usage", "--key-file", "none.txt"], 3, "ReadFault: cannot read the key file none.txt")
    room.refused(["usage"], 3, "NoKeyFile: give the file with the tenant's key by --key-file FILE or PATH_SERVER_KEY_FILE", PATH_SERVER_KEY_FILE="")
    stranger = room.file("stranger", STRANGER.hex())
    room.refused(["usage", "--key-file", stranger], 1, f"NoTenant: the server has no tenant with the key in {stranger}")
    spaced = room.file("spaced", f"\r\n\t {KEY.hex()} ,\n")
    room.case(["--key-file", spaced, "usage"], 0, b"collections 0, documents 0, bytes 0\n")


def check_what_is_invalid(room):
    room.refused(["usage"], 3, "NoAddress: give the server's address by --at ADDR or PATH_SERVER_AT", PATH_SERVER_AT="")
    room.refused(["usage", "--at", "127.0.0.1"], 3, "NoAddress: an address is a host, a colon and a port, not 127.0.0.1")
    for words, second, more in ((["get", "c", "\udcff"], "word 3 is not UTF-8", {}), (["usage"], "PATH_SERVER_AT is not UTF-8", {"PATH_SERVER_AT": "\udcff"})):
        room.refused(words, 3, "BadCommandLine: an argument or an environment variable is not UTF-8", second=second, **more)
    room.refused(["usage", "--at", "127.0.0.1:1"], 4, "NetFault: no server answers at 127.0.0.1:1", second="127.0.0.1:1: connection refused")
    room.refused(["usage", "--at", "no-host.invalid:1"], 4, "NetFault: no address of the host is known: no-host.invalid:1")
    for seconds in ("0", "1.", ".5", "1.2345", "1e3", "-1", "86400.001", "86401", "", "1,5"):
        room.case(["usage", "--timeout", seconds], 3, errors=any)
    for seconds in ("0.001", "1.5", "86400", "30.250"):
        room.refused(["usage", "--timeout", seconds, "--at", "127.0.0.1:1"], 4, "NetFault: no server answers at 127.0.0.1:1")
    collection = "BadName: a collection's name has 1 to 64 ASCII letters, digits, '.', '-' or '_'"
    document = "BadName: a document's name has 1 to 128 ASCII letters, digits, '.', '-' or '_'"
    for name in ("", "a b", "a/b", "é", "a" * 65, "a\n"):
        room.refused(["list", name], 3, collection)
        room.refused(["get", "c", name + ("b" * 64 if len(name) > 64 else "")], 3, document)
    room.refused(["put", "c", "d"], 1, "TooLong: a text has at most 4194304 bytes", text=b" " * 4_194_304 + b"1")
    room.refused(["query", "c", "$" + " " * 4_096], 2, "QueryTooLong: a query has at most 4096 bytes")
    room.refused(["put", "c", "d", "none.json"], 4, "ReadFault: cannot read the input", second="none.json: entity not found")
    room.refused(["load", "c", "--name", "$..id"], 3, "NameQuery: --name takes a singular query, such as $.id")
    for words in ([], ["fetch"], ["get", "c"], ["get", "c", "d", "e"], ["usage", "--timeout", "0"], ["list", "c", "--name", "$.a"]):
        room.case(words, 3, errors=any)
    room.case(["--version"], 0, b"path_client 1.0.0\n")
    if os.path.exists("/dev/full"):
        with open("/dev/full", "wb") as full:
            ended = subprocess.run([PROGRAM, "new-key"], stdout=full, stderr=subprocess.PIPE, timeout=60)
        room.report.case("new-key to a full device", "", (4, b"path_client: WriteFault: cannot write the output"), (ended.returncode, ended.stderr.split(b"\n")[0]))
    reading, writing = os.pipe()
    os.close(reading)
    ended = subprocess.run([PROGRAM, "new-key"], stdout=writing, stderr=subprocess.PIPE, timeout=60)
    os.close(writing)
    room.report.case("new-key to a closed pipe", "", (0, b""), (ended.returncode, ended.stderr))


def check_peers(room):
    """Servers that answer what is no reply. None of them is told as done."""
    for name, words, reply, line in (
        ("the end", ["usage"], "", "ReadFault: the server closed the connection, but the request may have been carried out: "),
        ("the end within a reply", ["usage"], "00000011 00 00000001 0000", "ReadFault: the server closed the connection, but the request may have been carried out: "),
        ("a body below 5 bytes", ["usage"], "00000004 00 000000", "NoReply: this is not the answer of a path_server: "),
        ("a body above the limit", ["usage"], "00800001", "NoReply: this is not the answer of a path_server: "),
        ("another protocol", ["usage"], b"HTTP/1.1 400 Bad Request\r\n\r\n".hex(), "NoReply: this is not the answer of a path_server: "),
        ("another number", ["drop", "c"], "00000005 00 00000002", "NoReply: this is not the answer of a path_server: "),
        ("a framing fault", ["drop", "c"], "00000005 ff 00000000", "FrameFault: the server could not read the request: "),
        ("a payload behind a refusal", ["drop", "c"], "00000006 0f 00000001 00", "NoReply: this is not the answer of a path_server: "),
        ("a payload too short", ["usage"], "00000010 00 00000001 00000001 00000002 000000", "NoReply: this is not the answer of a path_server: "),
        ("a payload too long", ["usage"], "00000012 00 00000001 00000001 00000002 00000003 00", "NoReply: this is not the answer of a path_server: "),
        ("fewer names than their number", ["list", "c"], "0000000b 00 00000001 00000002 0161", "NoReply: this is not the answer of a path_server: "),
        ("a name that is none", ["list", "c"], "0000000b 00 00000001 00000001 0120", "NoReply: this is not the answer of a path_server: "),
        ("a value that is cut", ["query", "c", "$"], "00000015 00 00000001 00000001 0164 00000001 24 00000002 31", "NoReply: this is not the answer of a path_server: "),
        ("a path that is not UTF-8", ["--json", "query", "c", "$"], "00000015 00 00000001 00000001 0164 00000001 ff 00000001 31", "NoReply: this is not the answer of a path_server: "),
        ("a status to come", ["drop", "c"], "00000005 4d 00000001", "Unknown: the server is newer than this client"),
    ):
        peer = Answering(bytes.fromhex(reply))
        address = "127.0.0.1:{}".format(peer.address[1])
        status = 1 if name == "a status to come" else 4
        room.refused([*words, "--at", address], status, line + (address if line.endswith(": ") else ""))
    for words, reply, output in (
        (["usage"], "00000011 00 00000001 00000001 00000002 00000003", b"collections 1, documents 2, bytes 3\n"),
        (["list", "c"], "0000000d 00 00000001 00000002 0161 0162", b"a\nb\n"),
        (["query", "c", "$"], "00000017 00 00000001 00000001 0164 00000003 24c3a9 00000001 31", "d\t$é\t1\n".encode()),
    ):
        room.case([*words, "--at", "127.0.0.1:{}".format(Answering(bytes.fromhex(reply)).address[1])], 0, output)
    silent = "127.0.0.1:{}".format(Answering(None).address[1])
    began = time.monotonic()
    room.refused(["usage", "--at", silent, "--timeout", "1"], 4, f"Timeout: the server did not answer in time and may still carry out the request: {silent}")
    room.report.case("the seconds that silence is waited for", "", True, 0.9 < time.monotonic() - began < 20)


def generated():
    """Documents whose names have every letter of the alphabet, the shortest and the longest, and whose texts have what is escaped."""
    names = [*ALPHABET, *(letter * 2 + str(place) for place, letter in enumerate(ALPHABET)), "d" * 128]
    parts = ['"\\u0000\\n\\t\\"\\\\\\/"', '"é€😀\u2028"', "-0.0e-10", "[ ]", '{"a":\t{}\r\n}', '"\\ud83d\\ude00"', "true", '"' + "x" * 5_000 + '"']
    chance = random.Random(7)
    texts = {name: " \n" * (place % 3) + "[" + ",\n".join(chance.choices(parts, k=place % 5)) + "]\r" for place, name in enumerate(names)}
    return {name: text.encode() for name, text in texts.items()}


def split_file(path):
    """Values in a JSON file as they stand there, each of 16 KiB at most: 900 at most."""
    text, decoder, found, at = path.read_text(encoding="utf-8"), json.JSONDecoder(), [], 0
    while len(found) < 900:
        start = re.compile(r'[{\["0-9tfn-]').search(text, at)
        if not start:
            break
        try:
            _, end = decoder.raw_decode(text, start.start())
        except ValueError:
            end = len(text)
        at = start.end()
        if end - start.start() <= 16_384:
            found.append(text[start.start():end].encode())
            at = end
    return {f"{ALPHABET[place % len(ALPHABET)]}{place}.{path.stem}"[:128]: it for place, it in enumerate(found)}


def check_dump(report, room, documents, what):
    """Documents that the Python client put are dumped and loaded, and are the same; so they are in the dump of what was loaded."""
    with connect(room.address, KEY) as client:
        client.pipeline([Request.drop("c"), Request.drop("copy")])
        client.pipeline(Request.put("c", name, text) for name, text in documents.items())
        dump = room.case(["dump", "c"], 0, any).stdout
        lines = [json.loads(line) for line in dump.split(b"\n")[:-1]]
        report.case(f"{what}: the dump by Python's json", "", documents, {it["name"]: it["text"].encode() for it in lines})
        sizes = sum(map(len, documents.values()))
        client.drop("c")
        room.case(["load", "copy"], 0, f"loaded {len(documents)} documents, {sizes} bytes\n".encode(), text=dump)
        found = client.pipeline(Request.get("copy", name) for name in documents)
        report.case(f"{what}: texts that were loaded", "", list(documents.values()), found)
        report.case(f"{what}: the dump of what was loaded", "", dump, room.run("dump", "copy").stdout)
        client.drop("copy")


def check_load(report, room):
    lines = (b'{"name":"a","text":"{"}\n\nnope\n{"name":"x y","text":"1"}\n{"text":"1"}\r\n{"name":"b"}\n{"name":7,"text":"1"}\n'
             b'\xff\n{"text":"[1]","name":"c","more":null}')
    refused = b"".join(b"path_client: line %s\n" % it for it in (
        b"3: NotJson\nline 3, column 2 (byte 1): expected 'u', found 'o'", b"4: BadName: x y", b"5: NoName", b"6: NoText", b"7: NoName",
        b"8: NotUtf8\nline 8, column 1 (byte 0): expected UTF-8, found byte 0xff",
        b"1: NotJson: a\nin the text: line 1, column 2 (byte 1): expected a name in double quotes or '}', found the end of the text"))
    refused += b"path_client: Refused: the lines above were not stored\n"
    room.case(["load", "c"], 1, b"loaded 1 documents, 3 bytes\n", refused, text=lines)
    room.case(["get", "c", "c"], 0, b"[1]")
    named = b'{"id":"n1","v": 1}\n{"id":2}\n{"id":"n\\u0032"}\n{"a":1,"a":2}\n[]\n{"id":"n 3"}\n'
    refused = b"".join(b"path_client: line %s\n" % it for it in (
        b"2: NoName", b"4: DuplicateName\nline 4, column 8 (byte 7): the name \"a\" again, first at line 4, column 2 (byte 1)", b"5: NoName", b"6: BadName: n 3"))
    refused += b"path_client: Refused: the lines above were not stored\n"
    room.case(["load", "c", room.file("lines", named), "--name", "$.id"], 1, b"loaded 2 documents, 34 bytes\n", refused)
    room.case(["get", "c", "n1"], 0, b'{"id":"n1","v": 1}')
    room.case(["get", "c", "n2"], 0, b'{"id":"n\\u0032"}')
    text = b'"' + b"\n".replace(b"\n", b" ") * 4_194_303 + b'"'
    long_line = json.dumps({"name": "long", "text": text.decode()}).encode() + b'\n{"name":"next","text":"1"}\n'
    room.case(["load", "c"], 1, b"loaded 1 documents, 1 bytes\n",
              b"path_client: line 1: TooLong: long\npath_client: Refused: the lines above were not stored\n", text=long_line)
    room.case(["load", "c"], 0, b"loaded 0 documents, 0 bytes\n")
    ran = room.case(["load", "c", "--json"], 1, b"loaded 0 documents, 0 bytes\n", any, text=b'{"name":"a","text":"[1,]"}\n[\n')
    told = [json.loads(it) for it in ran.stderr.decode().splitlines()]
    report.case("refused lines as JSON", "", [("NotJson", 2, None, 2), ("NotJson", 1, "a", 1), ("Refused", None, None, None)],
                [tuple(it.get(name) for name in ("error", "input_line", "document", "line")) for it in told])
    room.case(["drop", "c"], 0)


def check_progress(report, room):
    """On a terminal the load tells how far it is."""
    near, far = pty.openpty()
    lines = b"".join(b'{"name":"d%d","text":"%d"}\n' % (place % 100, place) for place in range(500))
    environment = {**os.environ, "PATH_SERVER_AT": room.address, "PATH_SERVER_KEY_FILE": str(room.folder / "key")}
    ran = subprocess.run([PROGRAM, "load", "c"], input=lines, stdout=subprocess.PIPE, stderr=far, env=environment, timeout=60)
    os.close(far)
    told = os.read(near, 65_536)
    os.close(near)
    report.case("a load on a terminal", "", (0, b"loaded 500 documents, 1390 bytes\n"), (ran.returncode, ran.stdout))
    report.case("its progress", "", True, bool(re.fullmatch(rb"(\r\d+ documents, \d+ bytes, \d+ documents/s)+\r?\n", told)) or told)
    room.case(["drop", "c"], 0)


def check_three_clients(report, room):
    """What each client put, the others read."""
    with connect(room.address, KEY) as client:
        client.put("c", "python", "[1]")
        room.case(["put", "c", "shell"], 0, text=b"[2]")
        if has("what the client for Node put", "node"):
            script = """import { connect } from '%s';
                const client = await connect({ at: process.argv[1], key: '%s' });
                await client.put('c', 'node', '[3]');
                for (const hit of await client.query('c', '$[0]')) console.log(hit.document, hit.path, hit.value.toString());
                client.close();""" % ((TOP / "clients/node/index.js").as_uri(), KEY.hex())
            ran = subprocess.run(["node", "--input-type=module", "-e", script, room.address], capture_output=True, timeout=60)
            report.case("what Node reads", "", (0, b"node $[0] 3\npython $[0] 1\nshell $[0] 2\n", b""), (ran.returncode, ran.stdout, ran.stderr))
        else:
            client.put("c", "node", "[3]")
        room.case(["query", "c", "$[0]"], 0, b"node\t$[0]\t3\npython\t$[0]\t1\nshell\t$[0]\t2\n")
        found = [(hit.document, hit.path, hit.value) for hit in client.query("c", "$[0]")]
        report.case("what Python reads", "", [("node", "$[0]", b"3"), ("python", "$[0]", b"1"), ("shell", "$[0]", b"2")], found)
        client.drop("c")


def most_memory(process):
    """The most resident memory that a process had, in KiB, as Linux tells it, or 0 where it has ended."""
    try:
        return int(re.search(r"VmHWM:\s*(\d+) kB", Path(f"/proc/{process}/status").read_text())[1])
    except (OSError, TypeError):
        return 0


def blocks_of(page):
    """The indented blocks of a page."""
    return [re.sub("(?m)^    ", "", it) for it in re.findall(r"(?:^    .*\n)+", page, re.M)]


def check_page(report, room):
    """Runs the lines of docs/CLIENTS.md behind those that start a server, and compares what they print with the block behind them."""
    text = (TOP / "docs/CLIENTS.md").read_text(encoding="utf-8")
    blocks = blocks_of(text[text.index("## Find documents"):])
    environment = {**os.environ, "PATH_SERVER_AT": room.address, "PATH_SERVER_KEY_FILE": str(room.folder / "key")}
    with connect(room.address, KEY) as client:
        for place, block in enumerate(blocks):
            behind = blocks[place + 1] if place + 1 < len(blocks) else ""
            wanted = "" if re.match("bin/|echo|printf|for |from |import |const ", behind) else behind
            if re.match("bin/|echo|printf", block):
                script = block.replace("bin/path_client", PROGRAM)
                ran = subprocess.run(["bash", "-c", script], stdout=subprocess.PIPE, stderr=subprocess.STDOUT, env=environment, cwd=room.folder, timeout=60)
                report.case("lines of docs/CLIENTS.md", block, wanted, ran.stdout.decode())
            elif block.startswith(("for ", "from ", "import ")):
                names = {"client": client, "orders": [("a", "[1]")]}
                with redirect_stdout(io.StringIO()) as printed:
                    exec(block, names)
                report.case("lines of Python of docs/CLIENTS.md", block, (wanted, [None] * ("results" in block)), (printed.getvalue(), names.get("results", [])))
            elif block.startswith("const ") and has("lines of Node of docs/CLIENTS.md", "node"):
                orders = "import { connect, request } from 'path-client'; const client = await connect({ at: '127.0.0.1:7000', key: '%s' }); const orders = [['b', '[1]']];"
                report.case("lines of Node of docs/CLIENTS.md", block, (0, "1\n", ""), run_node(room, f"{orders % KEY.hex()}\n{block}\nconsole.log(results.length); client.close();"))
        client.pipeline(Request.drop(name) for name in ("copy", "orders", "shop", "things"))
    check_examples(report, room)


def run_node(room, script):
    """What a script for Node does, with this server and the client as it stands here."""
    script = script.replace("'path-client'", f"'{(TOP / 'clients/node/index.js').as_uri()}'").replace("127.0.0.1:7000", room.address)
    ran = subprocess.run(["node", "--input-type=module", "-e", script], capture_output=True, encoding="utf-8", timeout=60)
    return ran.returncode, ran.stdout, ran.stderr


def check_examples(report, room):
    """The examples of the clients' own pages print what stands behind them."""
    for name, start in (("python", "    import path_client"), ("node", "    import { connect")):
        page = (TOP / f"clients/{name}/README.md").read_text(encoding="utf-8")
        example, _, behind = page[page.index(start):].partition("\nprints `")
        example, wanted = re.sub("(?m)^    ", "", example), behind[:behind.index("`.\n")] + "\n"
        if name == "node":
            if has("the example of clients/node/README.md", "node"):
                report.case("the example of clients/node/README.md", example, (0, wanted, ""), run_node(room, example))
            continue
        with redirect_stdout(io.StringIO()) as printed:
            exec(example.replace("127.0.0.1:7000", room.address).replace('"acme.key"', repr(str(room.folder / "key"))), {})
        report.case("the example of clients/python/README.md", example, wanted, printed.getvalue())
    if has("the example of clients/go/README.md", "go"):
        page = (TOP / "clients/go/README.md").read_text(encoding="utf-8")
        edit, (example, wanted) = blocks_of(page)[0], page[page.index("    package main"):].split("\nprints\n\n")
        example, wanted = re.sub("(?m)^    ", "", example), blocks_of(wanted)[0]
        folder = room.folder / "go"
        folder.mkdir()
        (folder / "go.mod").write_text("module user\n\ngo 1.19\n")
        (folder / "main.go").write_text(example.replace("127.0.0.1:7000", room.address).replace("acme.key", str(room.folder / "key")))
        script = edit.replace("/path/of/clients/go", str(TOP / "clients/go")) + "go run ."
        offline = {**os.environ, "GOCACHE": str(folder / "cache"), "GOPROXY": "off", "GOFLAGS": "", "CGO_ENABLED": "0"}
        ran = subprocess.run(["bash", "-ec", script], cwd=folder, env=offline, stdout=subprocess.PIPE, stderr=subprocess.STDOUT, timeout=300)
        report.case("the example of clients/go/README.md", example, wanted, ran.stdout.decode())
    with connect(room.address, KEY) as client:
        client.drop("shop")


def load_once(report, room, path, wanted):
    """One load of a file: the seconds that it took, and the most memory that the program had, in KiB."""
    environment = {**os.environ, "PATH_SERVER_AT": room.address, "PATH_SERVER_KEY_FILE": str(room.folder / "key")}
    began, memory = time.monotonic(), 0
    with open(path, "rb") as given, subprocess.Popen([PROGRAM, "load", "c"], stdin=given, stdout=subprocess.PIPE, env=environment) as process:
        while process.poll() is None:
            memory = max(memory, most_memory(process.pid))
            time.sleep(0.01)
        took, output = time.monotonic() - began, process.stdout.read()
    report.case("many documents", "", (0, wanted), (process.returncode, output))
    return took, memory


def check_many(report, room, count):
    """So many documents loaded: the memory that it takes, and where there are enough of them, its rate beside that of their frames alone, each
    the best of three.
    """
    texts = [json.dumps({"id": place, "name": "tea", "price": place / 7}).encode() for place in range(count)]
    frames = b"".join(Request.put("c", str(place % 900), text).frame(KEY, place) for place, text in enumerate(texts))
    lines = b"".join(json.dumps({"name": str(place % 900), "text": text.decode()}).encode() + b"\n" for place, text in enumerate(texts))
    path, wanted = room.file("many", lines), f"loaded {count} documents, {sum(map(len, texts))} bytes\n".encode()
    alone, loads = [], []
    for _ in range(3):
        began = time.monotonic()
        talk(open_connection(room.address), (frames[at:at + 65_536] for at in range(0, len(frames), 65_536)))
        alone.append(time.monotonic() - began)
        loads.append(load_once(report, room, path, wanted))
    took, memory = min(loads)[0], max(it for _, it in loads)
    report.case("the memory of many documents in KiB", "", True, 0 < memory < MEMORY_KIB or memory)
    print(f"{count} documents loaded at {count / took:.0f} a second, with {memory} KiB; their frames are taken at {count / min(alone):.0f} a second")
    if count >= 100_000:
        report.case("the rate beside that of the frames alone", "", True, took <= 2 * min(alone) or (took, alone))
    room.case(["drop", "c"], 0)


def main():
    report = Report()
    if not os.access(PROGRAM, os.X_OK):
        sys.exit(f"no program {PROGRAM}: bin/path_client builds it")
    with Listening([KEY]) as server:
        room = Room(report, server.address)
        try:
            check_questions(report, room)
            check_keys(report, room)
            check_subcommands(report, room)
            check_what_is_invalid(room)
            check_peers(room)
            check_dump(report, room, generated(), "generated documents")
            for path in sorted(Path(os.environ["PATH_DATA"]).glob("*.json")) if "PATH_DATA" in os.environ else []:
                check_dump(report, room, split_file(path), path.name)
            check_load(report, room)
            check_progress(report, room)
            check_three_clients(report, room)
            check_page(report, room)
            check_many(report, room, int(sys.argv[1]) if len(sys.argv) > 1 else 10_000)
        finally:
            shutil.rmtree(room.folder)
    report.close("path_client")


if __name__ == "__main__":
    main()
