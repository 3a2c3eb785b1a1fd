#!/usr/bin/env python3
"""Tests of what threads, processes, tasks and pools share, and of lost connections: clients/python/tests/test_sharing.py.

Those of EachVersion run on every Python from 3.8 that is installed, by its name on the PATH or below pyenv. The program is the one that bin/build
makes, or the one that the environment's PATH_SERVER names.
"""
import asyncio
import gc
import glob
import itertools
import os
import resource
import shutil
import socket
import subprocess
import sys
import threading
import time
import unittest
from pathlib import Path

TOP = Path(__file__).resolve().parents[3]
sys.path[:0] = [str(TOP / "clients/python"), str(TOP / "tests"), str(TOP / "clients/python/tests")]

import path_client
from lib.running_server import Listening, reset
from path_client import BrokenConnection, LostConnection, Request, TimedOut, Usage
from peers import Peer, number, reply

KEY, OTHER = bytes([1] * 16), bytes([2] * 16)
USAGE = bytes(11) + b"\x01"
THREADS, GETS = 8, 10_000
CHILD_GETS = 10_000
LARGE = b'"' + b"x" * 4_000_000 + b'"'


class SharedByThreads(unittest.TestCase):
    def test_threads(self):
        """Each of 80,000 gets over one client by 8 threads is of its own document."""
        with Listening([KEY]) as server, path_client.connect(server.address, KEY) as client:
            client.pipeline(Request.put("c", str(place), str(place)) for place in range(100))
            wrong = []

            def run(thread):
                try:
                    for place in range(GETS):
                        name = str((thread * 13 + place) % 100)
                        if client.get("c", name) != name.encode():
                            wrong.append(name)
                except Exception as fault:
                    wrong.append(fault)
            run_all([threading.Thread(target=run, args=(it,)) for it in range(THREADS)])
            self.assertEqual(wrong, [])

    def test_close_while_calls_are_under_way(self):
        with Listening([KEY]) as server:
            client, ends = path_client.connect(server.address, KEY), []

            def run():
                try:
                    while True:
                        client.usage()
                except BrokenConnection as fault:
                    ends.append(str(fault))
            threads = [threading.Thread(target=run) for _ in range(4)]
            for it in threads:
                it.start()
            time.sleep(0.05)
            client.close()
            for it in threads:
                it.join()
            self.assertEqual(ends, ["the client is closed"] * 4)


class SharedByProcesses(unittest.TestCase):
    def fork(self, work):
        """A child that does some work, and whose status is 0 if it found it so."""
        child = os.fork()
        if child:
            return child
        status = 1
        try:
            status = 0 if work() else 2
        except BaseException as fault:
            os.write(2, repr(fault).encode() + b"\n")
        finally:
            os._exit(status)

    def check_children(self, server, client, gets, keys):
        def work(key):
            client.key = key
            return all(client.get("c", "d") == b'"%s"' % key.hex().encode() for _ in range(gets))

        children = [self.fork(lambda key=key: work(key)) for key in keys]
        self.assertEqual([os.waitpid(it, 0)[1] for it in children], [0] * len(children))

    def test_fork(self):
        """Two children with a key each make 10,000 gets over a client that was connected before the fork."""
        keys = [KEY, OTHER]
        with Listening(keys) as server, path_client.connect(server.address, KEY) as client:
            for key in keys:
                with path_client.connect(server.address, key) as other:
                    other.put("c", "d", '"{}"'.format(key.hex()))
            self.check_children(server, client, CHILD_GETS, keys)
            self.assertEqual(client.get("c", "d"), b'"%s"' % KEY.hex().encode())

    def test_fork_while_threads_call(self):
        """A lock that a thread of the parent holds does not stop the child, and the parent's calls go on."""
        with Listening([KEY]) as server, path_client.connect(server.address, KEY) as client, path_client.pool(server.address, KEY) as many:
            client.put("c", "d", '"{}"'.format(KEY.hex()))
            wrong, is_over = [], threading.Event()

            def run(calls):
                try:
                    while not is_over.is_set():
                        if calls.get("c", "d") != b'"%s"' % KEY.hex().encode():
                            wrong.append("another document")
                except Exception as fault:
                    wrong.append(fault)
            threads = [threading.Thread(target=run, args=(it,)) for it in (client, client, many, many)]
            for it in threads:
                it.start()
            for _ in range(10):
                child = self.fork(lambda: all(it.get("c", "d") == b'"%s"' % KEY.hex().encode() for it in [client, many] * 20))
                self.assertEqual(os.waitpid(child, 0)[1], 0)
            is_over.set()
            for it in threads:
                it.join()
            self.assertEqual(wrong, [])

    def test_fork_below_a_loop(self):
        """The child has the loop's epoll in common with the parent. What it lets go of may not take the parent's connection out of it."""
        with Listening([KEY]) as server:
            client = path_client.AsyncClient(server.address, KEY, 10.0)

            async def use():
                return await client.usage()

            def child():
                found = in_a_new_thread(lambda: asyncio.run(use()))
                gc.collect()
                return found == Usage(1, 1, 1)

            async def parent():
                await client.put("c", "d", "1")
                status = os.waitpid(self.fork(child), 0)[1]
                return status, await client.usage()
            self.assertEqual(asyncio.run(parent()), (0, Usage(1, 1, 1)))

    def test_numbers(self):
        """They begin at random in each process, and go on over all its connections."""
        def serve(connection, _):
            for request in peer.requests(connection):
                connection.sendall(reply(request, USAGE))

        with Peer(serve) as peer:
            for _ in range(3):
                with path_client.connect(peer.address, KEY) as client:
                    client.usage()
            child = self.fork(lambda: path_client.connect(peer.address, KEY).usage())
            self.assertEqual(os.waitpid(child, 0)[1], 0)
            first, second, third, others = map(number, peer.seen)
        self.assertEqual([(second - first) % 2**32, (third - first) % 2**32], [1, 2])
        self.assertNotIn((others - first) % 2**32, range(4))
        self.assertNotEqual(first, 1)


class Descriptors(unittest.TestCase):
    def test_1100_open_files(self):
        limits = resource.getrlimit(resource.RLIMIT_NOFILE)
        if limits[1] != resource.RLIM_INFINITY and limits[1] < 2_000:
            self.skipTest("not run: the system gives no 2,000 descriptors")
        with Listening([KEY]) as server:
            resource.setrlimit(resource.RLIMIT_NOFILE, (2_000, limits[1]))
            files = [open(os.devnull) for _ in range(1_100)]
            try:
                with path_client.connect(server.address, KEY) as client:
                    self.assertEqual(client.usage(), Usage(0, 0, 0))
            finally:
                for it in files:
                    it.close()
                resource.setrlimit(resource.RLIMIT_NOFILE, limits)


class LostConnections(unittest.TestCase):
    def test_what_is_sent_again(self):
        """What reads is sent again once, over a new connection. What writes is sent once."""
        payloads = {"usage": USAGE, "list": bytes(4), "query": bytes(4), "get": b"1"}
        calls = {"usage": [], "list": ["c"], "query": ["c", "$"], "get": ["c", "d"]}
        writes = {"put": ["c", "d", "1"], "put_new": ["c", "d", "1"], "remove": ["c", "d"], "drop": ["c"]}
        for name, words in {**calls, **writes}.items():
            def serve(connection, place, name=name):
                for request in peer.requests(connection):
                    if place == 0:
                        return
                    connection.sendall(reply(request, payloads.get(name, b"")))

            for client_of in (path_client.connect, path_client.pool):
                with Peer(serve) as peer, client_of(peer.address, KEY) as client:
                    if name in calls:
                        getattr(client, name)(*words)
                    else:
                        self.assertRaises(LostConnection, getattr(client, name), *words)
                    self.assertEqual(len(peer.seen), 2 if name in calls else 1)
                    self.assertEqual(len(set(map(number, peer.seen))), len(peer.seen))

            async def use(words=words, name=name):
                async with path_client.connect_async(peer.address, KEY) as client:
                    await getattr(client, name)(*words)

            with Peer(serve) as peer:
                if name in calls:
                    asyncio.run(use())
                else:
                    self.assertRaises(LostConnection, asyncio.run, use())
                self.assertEqual(len(peer.seen), 2 if name in calls else 1)

    def test_a_read_is_sent_twice_at_most(self):
        def serve(connection, _):
            next(peer.requests(connection))

        with Peer(serve) as peer, path_client.connect(peer.address, KEY) as client:
            self.assertRaises(LostConnection, client.usage)
            self.assertEqual(len(peer.seen), 2)

    def test_half_a_reply_and_nonsense(self):
        """Of half a reply the connection is lost, so a read is sent again; what is no reply is not asked for again."""
        def half(connection, place):
            for request in peer.requests(connection):
                connection.sendall(reply(request, USAGE)[:None if place else 7])
                if not place:
                    return

        def nonsense(connection, _):
            for request in peer.requests(connection):
                connection.sendall(reply(request, USAGE, 15))

        with Peer(half) as peer, path_client.connect(peer.address, KEY) as client:
            self.assertEqual(client.usage(), Usage(0, 0, 1))
        with Peer(nonsense) as peer, path_client.connect(peer.address, KEY) as client:
            self.assertRaisesRegex(BrokenConnection, "payload", client.usage)
            self.assertEqual(len(peer.seen), 1)

    def test_a_pipeline_keeps_its_results(self):
        def serve(connection, _):
            """Reads all requests before it closes: bytes that nobody read make of an end a reset."""
            for request in [*itertools.islice(peer.requests(connection), 5)][:3]:
                connection.sendall(reply(request, USAGE))

        async def use():
            async with path_client.connect_async(peer.address, KEY) as client:
                await client.pipeline([Request.usage()] * 5)
        for run in (lambda: path_client.connect(peer.address, KEY).pipeline([Request.usage()] * 5), lambda: asyncio.run(use())):
            with Peer(serve) as peer:
                with self.assertRaises(LostConnection) as fault:
                    run()
                self.assertEqual(fault.exception.results, [Usage(0, 0, 1)] * 3)

    def test_a_pipeline_that_is_reset_keeps_its_results(self):
        """A request that cannot be sent any more does not hide the replies that came before."""
        def serve(connection, _):
            for request in itertools.islice(peer.requests(connection), 3):
                connection.sendall(reply(request))
            reset(connection)
            is_reset.set()

        def requests():
            for _ in range(3):
                yield Request.put("c", "d", LARGE[-70_000:])
            self.assertTrue(is_reset.wait(30))
            yield Request.put("c", "d", "1")

        is_reset = threading.Event()
        with Peer(serve) as peer, path_client.connect(peer.address, KEY) as client:
            with self.assertRaises(LostConnection) as fault:
                client.pipeline(requests())
            self.assertEqual(fault.exception.results, [None] * 3)

    def test_a_server_that_closes_behind_each_reply(self):
        def serve(connection, _):
            request = next(peer.requests(connection))
            connection.sendall(reply(request, request[-1:]))

        with Peer(serve) as peer, path_client.pool(peer.address, KEY) as many:
            wrong = []

            def run(thread):
                for place in range(50):
                    name = str((thread + place) % 10)
                    try:
                        if many.get("c", name) != name.encode():
                            wrong.append(name)
                    except OSError as fault:
                        wrong.append(fault)
            run_all([threading.Thread(target=run, args=(it,)) for it in range(8)])
            self.assertEqual(wrong, [])

        async def use():
            async with path_client.pool_async(peer.address, KEY) as many:
                return await asyncio.gather(*(many.get("c", str(it % 10)) for it in range(200)))
        with Peer(serve) as peer:
            self.assertEqual(asyncio.run(use()), [b"%d" % (it % 10) for it in range(200)])


class Timeouts(unittest.TestCase):
    def test_a_timeout_is_its_own_call_alone(self):
        """Document 0 is never answered. Over a pool all others are."""
        def serve(connection, _):
            for request in peer.requests(connection):
                if request[-1:] != b"0":
                    time.sleep(0.01)
                    connection.sendall(reply(request, request[-1:]))

        with Peer(serve) as peer:
            with path_client.pool(peer.address, KEY, 4, 1.0) as many:
                ends = {}

                def run(name):
                    try:
                        ends[name] = many.get("c", name)
                    except OSError as fault:
                        ends[name] = type(fault)
                run_all([threading.Thread(target=run, args=(str(it),)) for it in range(10)])
                self.assertEqual(ends, {"0": TimedOut, **{str(it): b"%d" % it for it in range(1, 10)}})

            async def use():
                async with path_client.pool_async(peer.address, KEY, 4, 1.0) as many:
                    return await asyncio.gather(*(many.get("c", str(it)) for it in range(10)), return_exceptions=True)
            found = asyncio.run(use())
            self.assertEqual((type(found[0]), found[1:]), (TimedOut, [b"%d" % it for it in range(1, 10)]))

    def test_the_wait_for_a_connection_counts(self):
        """Over one connection that is never answered, three calls end in the time of one."""
        def serve(connection, _):
            for _ in peer.requests(connection):
                pass

        async def use():
            async with path_client.pool_async(peer.address, KEY, 1, 1.0) as many:
                return await asyncio.gather(*(many.usage() for _ in range(3)), return_exceptions=True)

        with Peer(serve) as peer:
            ends, began = [], time.monotonic()
            with path_client.pool(peer.address, KEY, 1, 1.0) as many:
                def run():
                    try:
                        many.usage()
                    except OSError as fault:
                        ends.append(type(fault))
                run_all([threading.Thread(target=run) for _ in range(3)])
            self.assertEqual((ends, time.monotonic() - began < 1.9), ([TimedOut] * 3, True))
            began = time.monotonic()
            self.assertEqual([type(it) for it in asyncio.run(use())], [TimedOut] * 3)
            self.assertLess(time.monotonic() - began, 1.9)

    def test_a_cancelled_call_of_a_pool(self):
        """The next call does not wait for the reply that nobody wants any more."""
        def serve(connection, _):
            for request in peer.requests(connection):
                if request[-1:] != b"0":
                    connection.sendall(reply(request, request[-1:]))

        async def use():
            async with path_client.pool_async(peer.address, KEY, 1, 10.0) as many:
                call = asyncio.ensure_future(many.get("c", "0"))
                await asyncio.sleep(0.05)
                call.cancel()
                return await many.get("c", "1"), await asyncio.gather(call, return_exceptions=True)
        with Peer(serve) as peer:
            found, ended = asyncio.run(use())
            self.assertEqual((found, type(ended[0])), (b"1", asyncio.CancelledError))

    def test_a_server_that_drips(self):
        """A byte now and then does not keep a call waiting beyond its timeout; a slow reply in time is taken."""
        def serve(connection, _):
            for request in peer.requests(connection):
                for byte in reply(request, USAGE):
                    connection.sendall(bytes([byte]))
                    time.sleep(pause)

        async def use():
            async with path_client.connect_async(peer.address, KEY, 1.0) as client:
                return await client.usage()

        for run in (lambda: path_client.connect(peer.address, KEY, 1.0).usage(), lambda: asyncio.run(use())):
            with Peer(serve) as peer:
                pause = 0.005
                self.assertEqual(run(), Usage(0, 0, 1))
                pause = 0.1
                began = time.monotonic()
                self.assertRaises(TimedOut, run)
                self.assertLess(time.monotonic() - began, 2)

    def test_a_pipeline_has_a_timeout_for_each_reply(self):
        """Ten replies at 0.15 s each are in time where each may take 1 s. If the fifth never comes, it has the four before."""
        def serve(connection, _):
            for place, request in enumerate(peer.requests(connection)):
                if place == stop:
                    time.sleep(5)
                    return
                time.sleep(0.15)
                connection.sendall(reply(request, USAGE))

        async def use():
            async with path_client.connect_async(peer.address, KEY, 1.0) as client:
                return await client.pipeline([Request.usage()] * 10)

        for run in (lambda: path_client.connect(peer.address, KEY, 1.0).pipeline([Request.usage()] * 10), lambda: asyncio.run(use())):
            with Peer(serve) as peer:
                stop = None
                self.assertEqual(run(), [Usage(0, 0, 1)] * 10)
                stop = 4
                with self.assertRaises(TimedOut) as fault:
                    run()
                self.assertEqual(fault.exception.results, [Usage(0, 0, 1)] * 4)


class EachVersion(unittest.TestCase):
    def test_commands(self):
        with Listening([KEY]) as server, path_client.pool(server.address, KEY) as client:
            client.put_json("c", "d", {"a": [1, 2]})
            self.assertEqual(client.get_json("c", "d"), {"a": [1, 2]})
            self.assertEqual(client.documents("c", "$.a[?@>1]"), ["d"])
            self.assertRaises(path_client.NotFound, client.get, "c", "e")

    def test_many_tasks_send_more_than_the_buffers_hold(self):
        """Six puts of 4 MB at once, to a server that is slow to read."""
        def serve(connection, _):
            connection.setsockopt(socket.SOL_SOCKET, socket.SO_RCVBUF, 65_536)
            time.sleep(0.3)
            for request in peer.requests(connection):
                connection.sendall(reply(request))

        async def use():
            async with path_client.connect_async(peer.address, KEY) as client:
                calls = (client.put("c", str(it), LARGE) for it in range(6))
                return await asyncio.gather(*calls, return_exceptions=True)
        with Peer(serve) as peer:
            self.assertEqual(asyncio.run(use()), [None] * 6)

    def test_no_connection_in_time(self):
        """A listener whose queue is full never answers a SYN: Linux drops it."""
        with socket.socket() as listener, socket.socket() as first, socket.socket() as second:
            listener.bind(("127.0.0.1", 0))
            listener.listen(0)
            address = listener.getsockname()
            for it in (first, second):
                it.setblocking(False)
                it.connect_ex(address)

            async def use():
                async with path_client.connect_async(address, KEY, 0.3):
                    pass
            self.assertRaises(TimeoutError, path_client.connect, address, KEY, 0.3)
            self.assertRaises(TimeoutError, asyncio.run, use())


class OtherVersions(unittest.TestCase):
    def test_versions(self):
        """The tests of EachVersion on each other Python from 3.8 that is installed."""
        for version, python in sorted(installed().items()):
            with self.subTest(version=version):
                ran = subprocess.run([python, __file__, "EachVersion"], stdout=subprocess.PIPE, stderr=subprocess.STDOUT, timeout=120)
                self.assertEqual(ran.returncode, 0, ran.stdout.decode())
        print("on Python 3.{} too".format(", 3.".join(map(str, sorted(installed())))) if installed() else "not run: no other Python is installed")


def installed():
    """The other Pythons from 3.8, by their minor version."""
    names = [shutil.which("python3.{}".format(it)) for it in range(8, 20)]
    names += glob.glob(os.path.join(os.environ.get("PYENV_ROOT") or os.path.expanduser("~/.pyenv"), "versions/3.*/bin/python3"))
    found = {}
    for name in filter(None, names):
        asked = subprocess.run([name, "-c", "import sys; print(*sys.version_info[:2])"], stdout=subprocess.PIPE, stderr=subprocess.DEVNULL)
        version = asked.stdout.decode().split()
        if asked.returncode == 0 and version[0] == "3" and int(version[1]) >= 8:
            found.setdefault(int(version[1]), name)
    found.pop(sys.version_info[1], None)
    return found


def run_all(threads):
    for it in threads:
        it.start()
    for it in threads:
        it.join()


def in_a_new_thread(work):
    """What some work gives in a thread of its own: behind a fork, the thread of the loop still counts as running it."""
    found = []
    thread = threading.Thread(target=lambda: found.append(work()))
    run_all([thread])
    return found[0]


if __name__ == "__main__":
    unittest.main()
