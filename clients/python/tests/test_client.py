#!/usr/bin/env python3
"""Tests of the client against a running server: clients/python/tests/test_client.py.

The program is the one that bin/build makes, or the one that the environment's PATH_SERVER names.
"""
import asyncio
import datetime
import decimal
import json
import os
import pickle
import re
import sys
import tempfile
import time
import tracemalloc
import unittest
import unittest.mock
from pathlib import Path

TOP = Path(__file__).resolve().parents[3]
sys.path[:0] = [str(TOP / "clients/python"), str(TOP / "tests")]

import path_client
from path_client import BrokenConnection, Exists, Hit, NotFound, NotJson, NotValid, NotWellFormed, Refused, Request, TimedOut, Usage
from lib.running_server import Listening

KEY, OTHER, STRANGER = (bytes([place] * 16) for place in (1, 2, 3))
TEXT = b'{"items": [{"name": "tea", "price": 4}, {"name": "pot", "price": 24.5}]}'
CHEAP = "$.items[?@.price<10].name"
HIT = Hit("order-1", "$['items'][0]['name']", b'"tea"')


class Served(unittest.TestCase):
    @classmethod
    def setUpClass(cls):
        cls.server = Listening([KEY, OTHER])
        cls.address = cls.server.address

    @classmethod
    def tearDownClass(cls):
        cls.server.stop()
        cls.server.errors.close()

    def setUp(self):
        with path_client.connect(self.address, KEY) as client:
            client.pipeline([Request.drop(name) for name in ("shop", "more")])


class OneThread(Served):
    def setUp(self):
        super().setUp()
        self.client = path_client.connect(self.address, KEY)
        self.addCleanup(self.client.close)

    def test_commands(self):
        client = self.client
        client.put("shop", "order-1", TEXT)
        client.put_new("shop", "order-2", "[1]")
        self.assertEqual(client.get("shop", "order-1"), TEXT)
        self.assertEqual(client.query("shop", CHEAP), [HIT])
        self.assertEqual(client.list("shop"), ["order-1", "order-2"])
        self.assertEqual(client.usage(), Usage(1, 2, len(TEXT) + 3))
        client.remove("shop", "order-2")
        client.drop("shop")
        self.assertEqual(client.list("shop"), [])
        self.assertLess(client.ping(), 30)

    def test_refusals(self):
        self.client.put("shop", "order-1", "[1]")
        for kind, place, call in (
            (NotJson, ("PUT", "shop", "order-1"), lambda: self.client.put("shop", "order-1", "{")),
            (Exists, ("PUT_NEW", "shop", "order-1"), lambda: self.client.put_new("shop", "order-1", "[]")),
            (NotFound, ("GET", "shop", "order-2"), lambda: self.client.get("shop", b"order-2")),
            (NotFound, ("DROP", "more", ""), lambda: self.client.drop("more")),
            (NotWellFormed, ("QUERY", "shop", ""), lambda: self.client.query("shop", "$[")),
        ):
            with self.assertRaises(kind) as refused:
                call()
            found = refused.exception
            self.assertEqual((found.name, found.command, found.collection, found.document), (kind.__name__, *place))
        self.assertEqual(str(pickle.loads(pickle.dumps(found))), str(found))
        self.assertEqual(self.client.get("shop", "order-1"), b"[1]")

    def test_places(self):
        with self.assertRaises(NotJson) as refused:
            self.client.put("shop", "order-1", '{"a": 1,\n "b": 2,\n}')
        found = refused.exception
        self.assertEqual((found.place.byte, found.line, found.column, found.expected), (18, 3, 1, "a name in double quotes"))
        self.assertTrue(str(found).endswith("\nline 3, column 1 (byte 18): expected a name in double quotes, found '}'"))
        self.assertEqual(str(pickle.loads(pickle.dumps(found))), str(found))
        with self.assertRaises(NotFound) as refused:
            self.client.get("shop", "order-2")
        self.assertIsNone(refused.exception.place)

    def test_places_in_queries(self):
        for query, kind, byte, expected, said in (
            ("$[?@.a=1]", NotWellFormed, 7, "'='", "line 1, column 8 (byte 7): expected '=', found '1'"),
            ("$.é[?count(1)>1]", NotValid, 12, None, "line 1, column 12 (byte 12): the argument is a query"),
        ):
            with self.assertRaises(kind) as refused:
                self.client.query("shop", query)
            found = refused.exception
            self.assertEqual((found.place.byte, found.expected, str(found).split("\n")[1:]), (byte, expected, [said]))

    def test_the_place_in_a_long_text(self):
        """It takes long to find, so that only who asks for it waits, and once."""
        with self.assertRaises(NotJson) as refused:
            self.client.put("shop", "order-1", b"[" + b"1," * 400_000 + b"]")
        found, moments = refused.exception, []
        for ask in (lambda: str(found), lambda: found.place.byte, lambda: (found.line, found.column, found.expected)):
            began = time.monotonic()
            moments.append((ask(), time.monotonic() - began))
        (told, short), (byte, long), (rest, again) = moments
        self.assertEqual((told.count("\n"), byte, rest), (0, 800_001, (1, 800_002, "a value")))
        self.assertLess(max(short, again), long / 10)

    def test_documents_with_a_hit(self):
        for name, total in (("a", 10), ("b", 30), ("c", 24)):
            self.client.put_json("shop", name, {"id": name, "total": total, "items": [1, 2]})
        self.assertEqual(self.client.documents("shop", "$[?$.total<25]"), ["a", "c"])
        self.assertEqual(self.client.documents("shop", "$[?$.total<0]"), [])
        self.assertEqual(len(self.client.query("shop", "$[?$.total<25]")), 6)

    def test_a_value_in_a_query(self):
        """The JSON text of a string or a number is a literal of a query, whatever is in it."""
        values = ["it's", 'a "quote"', "back\\slash", "', $..*", "\n\t\x00\x7f/", "\u2028é\U0001f600", "", 4, -1.5e-7, 1e22, True, None]
        for place, value in enumerate(values):
            self.client.put_json("shop", "{:02}".format(place), {"tags": [value]})
        for ascii_only in (True, False):
            for place, value in enumerate(values):
                query = "$.tags[?@=={}]".format(json.dumps(value, ensure_ascii=ascii_only))
                self.assertEqual(self.client.documents("shop", query), ["{:02}".format(place)], query)

    def test_hits_one_by_one(self):
        """A reply of 8 MB is not copied to go over its hits."""
        text = b"[" + b",".join([b'"' + b"x" * 998 + b'"'] * 4_000) + b"]"
        self.client.put("shop", "a", text)
        self.client.put("shop", "b", text)
        hits = self.client.hits("shop", "$[*]")
        self.assertEqual(len(hits), 8_000)
        tracemalloc.start()
        found = sum(len(hit.value) for hit in hits)
        _, most = tracemalloc.get_traced_memory()
        tracemalloc.stop()
        self.assertEqual(found, 8_000_000)
        self.assertLess(most, 100_000)
        self.assertEqual([*hits], self.client.query("shop", "$[*]"))

    def test_json(self):
        text = b'{"a":1.10,"b":9007199254740993,"c":[1E400,"\xc3\xa9",null,true],"d":{}}'
        self.client.put("shop", "exact", text)
        value = self.client.get_json("shop", "exact", exact=True)
        self.assertEqual(value["a"], decimal.Decimal("1.10"))
        self.client.put_json("shop", "again", value)
        self.assertEqual(self.client.get("shop", "again"), text.replace(b"1E400", b"1E+400"))
        self.assertEqual(self.client.pipeline([Request.put_json("shop", "plain", {"a": [1, "é", 0.1]})]), [None])
        self.assertEqual(self.client.get("shop", "plain"), '{"a":[1,"é",0.1]}'.encode())
        self.assertEqual(self.client.get_json("shop", "plain"), {"a": [1, "é", 0.1]})
        for value in (float("nan"), decimal.Decimal("Infinity"), {"a": datetime.date(2026, 11, 28)}, {1: decimal.Decimal(1)}):
            self.assertRaises((TypeError, ValueError), self.client.put_json, "shop", "none", value)
        self.assertRaises(NotFound, self.client.get, "shop", "none")

    def test_texts_that_are_none(self):
        """What is neither str nor bytes is not stored as other bytes."""
        for value in ({"a": 1}, [49, 50], 5, True, None, datetime.date(2026, 11, 28)):
            self.assertRaisesRegex(TypeError, "put_json", self.client.put, "shop", "none", value)
        self.assertRaises(TypeError, self.client.get, "shop", 7)
        self.assertRaises(TypeError, self.client.query, "shop", ["$"])
        for value in (bytearray(b"[1]"), memoryview(b"[1]")):
            self.client.put("shop", "one", value)
            self.assertEqual(self.client.get("shop", "one"), b"[1]")
        self.assertRaises(NotFound, self.client.get, "shop", "none")

    def test_another_key(self):
        with path_client.connect(self.address, STRANGER) as client:
            with self.assertRaisesRegex(Refused, "NoTenant"):
                client.usage()

    def test_requests_that_are_none(self):
        for call in (
            lambda: self.client.get("", "d"),
            lambda: self.client.get("c" * 65, "d"),
            lambda: self.client.get("c", "d" * 129),
            lambda: self.client.get("c c", "d"),
            lambda: self.client.put("shop", "order-1", b" " * (path_client.TEXT_LIMIT + 1)),
            lambda: self.client.put("shop", "order-1", '"\ud83d"'),
            lambda: self.client.query("shop", "$" + " " * path_client.QUERY_LIMIT),
        ):
            with self.assertRaises(ValueError):
                call()
        self.client.put("c" * 64, "d" * 128, b" " * (path_client.TEXT_LIMIT - 1) + b"1")
        self.client.drop("c" * 64)
        with self.assertRaises(ValueError):
            path_client.connect(self.address, KEY[1:])

    def test_pipeline(self):
        puts = [Request.put("shop", str(place), str(place)) for place in range(900)]
        found = self.client.pipeline([*puts, Request.get("shop", "none"), Request.query("shop", "$[0]"), Request.get("shop", "899")])
        self.assertEqual(found[:900], [None] * 900)
        self.assertEqual(found[900].name, "NotFound")
        self.assertEqual(found[901:], [[], b"899"])

    def test_a_pipeline_whose_requests_fail(self):
        """Those before are carried out, and the fault has their results."""
        def requests():
            yield Request.put("shop", "a", "1")
            yield Request.get("shop", "a")
            yield Request.put("shop", "a b", "1")

        with self.assertRaises(ValueError) as fault:
            self.client.pipeline(requests())
        self.assertEqual(fault.exception.results, [None, b"1"])
        self.assertEqual(self.client.get("shop", "a"), b"1")

    def test_a_pipeline_of_what_are_no_requests(self):
        for it in (("put", "shop", "a", "1"), None, "get"):
            with self.assertRaisesRegex(TypeError, "a pipeline takes requests") as found:
                self.client.pipeline([Request.put("shop", "a", "1"), it])
            self.assertEqual(found.exception.results, [None])
            self.assertEqual(self.client.get("shop", "a"), b"1")

    def test_a_call_within_a_pipeline(self):
        self.client.put("shop", "a", "1")
        with self.assertRaisesRegex(RuntimeError, "another client"):
            self.client.pipeline(Request.put("shop", "b", self.client.get("shop", name)) for name in ("a",))
        with path_client.pool(self.address, KEY) as many:
            many.pipeline(Request.put("shop", "b", many.get("shop", name)) for name in ("a",))
        self.assertEqual(self.client.get("shop", "b"), b"1")

    def test_a_pipeline_of_large_texts(self):
        text = b'"' + b"x" * 1_000_000 + b'"'
        found = self.client.pipeline(it for _ in range(20) for it in (Request.put("shop", "large", text), Request.get("shop", "large")))
        self.assertEqual(found, [None, text] * 20)

    def test_a_new_connection(self):
        with Listening([KEY], "--idle", "1") as server:
            with path_client.connect(server.address, KEY) as client:
                client.put("shop", "order-1", "1")
                wait_for_the_end(client)
                self.assertEqual(client.get("shop", "order-1"), b"1")
                server.stop()
                wait_for_the_end(client)
                self.assertRaisesRegex(BrokenConnection, "no new connection to 127.0.0.1:", client.usage)
            self.assertRaisesRegex(BrokenConnection, "the client is closed", client.usage)
            server.errors.close()


def wait_for_the_end(client):
    """Waits until the server has closed the client's connection."""
    client._links.get().connection.wait(False, 60)


class ManyTasks(Served):
    def run_tasks(self, tasks):
        async def body():
            async with await path_client.connect_async(self.address, KEY) as client:
                await tasks(client)
        asyncio.run(body())

    def test_commands(self):
        async def tasks(client):
            await client.put("shop", "order-1", TEXT)
            await client.put_new("shop", "order-2", "[1]")
            self.assertEqual(await client.get("shop", "order-1"), TEXT)
            self.assertEqual(await client.query("shop", CHEAP), [HIT])
            self.assertEqual(await client.list("shop"), ["order-1", "order-2"])
            self.assertEqual(await client.usage(), Usage(1, 2, len(TEXT) + 3))
            await client.remove("shop", "order-2")
            await client.drop("shop")
            with self.assertRaisesRegex(Refused, "NotFound"):
                await client.drop("shop")
            self.assertLess(await client.ping(), 30)
        self.run_tasks(tasks)

    def test_calls_that_overlap(self):
        async def tasks(client):
            await asyncio.gather(*(client.put("shop", str(place), str(place)) for place in range(300)))
            found = await asyncio.gather(*(client.get("shop", str(place)) for place in range(300)))
            self.assertEqual(found, [str(place).encode() for place in range(300)])
        self.run_tasks(tasks)

    def test_pipeline(self):
        async def tasks(client):
            text = b'"' + b"x" * 1_000_000 + b'"'
            found = await client.pipeline(it for _ in range(20) for it in (Request.put("shop", "large", text), Request.get("shop", "large")))
            self.assertEqual(found, [None, text] * 20)
            found = await client.pipeline([Request.get("shop", "none"), Request.usage()])
            self.assertEqual((found[0].name, found[1]), ("NotFound", Usage(1, 1, 1_000_002)))
        self.run_tasks(tasks)

    def test_async_sources(self):
        async def puts():
            for place in range(200):
                await asyncio.sleep(0)
                yield Request.put("shop", str(place), str(place))
            raise KeyError("the source")

        async def tasks(client):
            with self.assertRaises(KeyError) as fault:
                await client.pipeline(puts())
            self.assertEqual(fault.exception.results, [None] * 200)
            self.assertEqual(len(await client.documents("shop", "$")), 200)
            self.assertEqual(len(await client.hits("shop", "$")), 200)
            await client.put_json("shop", "a", [decimal.Decimal("1.10")])
            self.assertEqual(await client.get_json("shop", "a", exact=True), [decimal.Decimal("1.10")])
        self.run_tasks(tasks)

    def test_a_client_in_two_loops(self):
        client = path_client.AsyncClient(self.address, KEY)

        async def use():
            async with path_client.connect_async(self.address, KEY) as other:
                await asyncio.gather(*(client.put("shop", str(place), "1") for place in range(20)))
                return await other.list("shop") == await client.list("shop")
        for _ in range(3):
            self.assertTrue(asyncio.run(use()))

    def test_a_call_that_is_cancelled(self):
        async def tasks(client):
            await client.put("shop", "order-1", "1")
            call = asyncio.ensure_future(client.get("shop", "order-1"))
            await asyncio.sleep(0)
            call.cancel()
            self.assertEqual(await client.usage(), Usage(1, 1, 1))
        self.run_tasks(tasks)

    def test_silence_and_a_new_connection(self):
        async def take(reader, writer):
            await reader.read()
            writer.close()

        async def tasks():
            silent = await asyncio.start_server(take, "127.0.0.1", 0)
            async with await path_client.connect_async(silent.sockets[0].getsockname(), KEY, timeout=0.2) as client:
                ends = await asyncio.gather(client.usage(), client.list("shop"), return_exceptions=True)
                self.assertIn(TimedOut, map(type, ends))
                self.assertLessEqual(set(map(type, ends)), {TimedOut, BrokenConnection})
                client.address, client.timeout = path_client.parse_address(self.address), 30.0
                self.assertEqual(await client.list("shop"), [])
            silent.close()
        asyncio.run(tasks())


class Opening(Served):
    def test_what_is_invalid(self):
        for address in ("127.0.0.1", "127.0.0.1:65536", "127.0.0.1:0", "127.0.0.1:-1", "127.0.0.1:http", ":7000", "::1:7000",
                        "http://127.0.0.1:7000", "tcp://127.0.0.1:7000/", "127.0.0.1:7000/x", ("127.0.0.1", 99_999), "", ("127.0.0.1", "7000"), b"127.0.0.1:7000",
                        ("127.0.0.1",), 7000):
            self.assertRaises(ValueError, path_client.connect, address, KEY)
            self.assertRaises(ValueError, path_client.connect_async, address, KEY)
        for key in (KEY[1:], "0123456789abcdef", "0" * 31, "g" * 32, 7):
            self.assertRaises(ValueError, path_client.connect, self.address, key)
        for timeout in (0, -1, None, float("nan"), float("inf"), "30", 1e12):
            self.assertRaises(ValueError, path_client.connect, self.address, KEY, timeout)
        for context in (True, "tls"):
            for opener in (path_client.connect, path_client.connect_async, path_client.pool):
                self.assertRaisesRegex(ValueError, "SSLContext", opener, self.address, KEY, ssl=context)
        for size in (0, -1, None, 1.5):
            self.assertRaises(ValueError, path_client.pool, self.address, KEY, size)

    def test_the_environment(self):
        with tempfile.NamedTemporaryFile("w", suffix=".key") as key:
            key.write(KEY.hex().upper() + "\n")
            key.flush()
            with unittest.mock.patch.dict(os.environ, PATH_SERVER_AT=self.address, PATH_SERVER_KEY_FILE=key.name):
                for it in (path_client.connect(), path_client.pool(), path_client.connect(key=KEY.hex())):
                    self.assertEqual(it.usage(), Usage(0, 0, 0))
                    it.close()
        with unittest.mock.patch.dict(os.environ, clear=True):
            self.assertRaisesRegex(ValueError, "PATH_SERVER_AT", path_client.connect)
            self.assertRaisesRegex(ValueError, "PATH_SERVER_KEY_FILE", path_client.connect, self.address)

    def test_no_server(self):
        for it in (lambda: path_client.connect("127.0.0.1:1", KEY), lambda: path_client.pool("127.0.0.1:1", KEY)):
            self.assertRaises(ConnectionRefusedError, it)
        self.assertRaises(ConnectionRefusedError, lambda: asyncio.run(opened(path_client.pool_async("127.0.0.1:1", KEY))))


async def opened(opening):
    async with opening as client:
        return await client.usage()


class Sentences(unittest.TestCase):
    def test_statuses(self):
        """Each refusal says what the shell's does."""
        rows = (TOP / "crates/protocol/src/statuses.rt").read_text()
        found = re.findall(r'^    \d+ "(\w+)" "([^"]*)";', rows, re.M)
        self.assertEqual(len(found), 24)
        for status, (name, sentence) in enumerate(found):
            if name not in ("Ok", "Retired"):
                kind = getattr(path_client, name)
                self.assertEqual((kind.status, kind.__name__, kind.sentence), (status, name, sentence.replace(" in ", "")))
        self.assertIs(path_client.TooCostly, path_client.Costly)


class KeyFiles(unittest.TestCase):
    def test_files(self):
        digits = "00112233445566778899aAbBcCdDeEfF"
        for text, wanted in (
            (digits, bytes.fromhex(digits)),
            (f"\n {digits}\r\n", bytes.fromhex(digits)),
            ("", "no keys"),
            (f"{digits}\n{digits}", "2 keys"),
            (f"{digits},{digits}", "2 keys"),
            (digits[1:], "32 hexadecimal digits"),
            ("é" * 16, "32 hexadecimal digits"),
        ):
            with tempfile.NamedTemporaryFile("w", encoding="utf-8") as file:
                file.write(text)
                file.flush()
                if isinstance(wanted, bytes):
                    self.assertEqual(path_client.read_key(file.name), wanted)
                else:
                    self.assertRaisesRegex(ValueError, wanted, path_client.read_key, file.name)
        self.assertRaises(OSError, path_client.read_key, "/nowhere/key")


if __name__ == "__main__":
    unittest.main()
