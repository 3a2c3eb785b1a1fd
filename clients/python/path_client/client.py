"""The client and the pool for threads."""
from __future__ import annotations

import collections
import queue
import ssl as tls
import threading
import time
from typing import Any, Deque, Iterable, Iterator, List, Optional, Tuple, TypeVar, Union

from .calls import Calls
from .connection import PIECE_BYTES, Connection
from .frames import Request, as_request, next_number
from .opening import Address, Key, OfProcess, check_context, check_key, check_timeout, parse_address
from .refusals import BrokenConnection, LostConnection, Refused, TimedOut

Result = TypeVar("Result")
Context = Optional[tls.SSLContext]


def connect(address: Optional[Address] = None, key: Optional[Key] = None, timeout: float = 30.0, ssl: Context = None) -> Client:
    """Opens a connection for the tenant of `key`: 16 bytes, or 32 hexadecimal digits. Without an address or a key, PATH_SERVER_AT and the file
    PATH_SERVER_KEY_FILE have them. `timeout` in seconds bounds the opening and, after it, each call. With an SSLContext it speaks TLS.

    Raises OSError if there is no server, ValueError if the address, the key or the timeout is invalid.
    """
    client = Client(address, key, timeout, ssl)
    client.open()
    return client


def pool(address: Optional[Address] = None, key: Optional[Key] = None, size: int = 4, timeout: float = 30.0, ssl: Context = None) -> Pool:
    """Opens a pool of so many connections at most, the first at once. Raises as `connect` does."""
    found = Pool(address, key, size, timeout, ssl)
    found.open()
    return found


class Client(Calls):
    """A tenant's connection, opened when it is first needed. Threads may share it: their calls go one after the other. After a fork the
    child has a connection of its own.
    """

    def __init__(self, address: Optional[Address] = None, key: Optional[Key] = None, timeout: float = 30.0, ssl: Context = None) -> None:
        self.address = parse_address(address)
        self.key = check_key(key)
        """The tenant's key of the calls that follow; may be set anew between calls."""
        self.timeout = check_timeout(timeout)
        """Seconds that each call takes at most."""
        self.ssl = check_context(ssl)
        self._links = OfProcess(_Link, _Link.drop)
        self._is_closed = False

    def __enter__(self) -> Client:
        return self

    def __exit__(self, *_: object) -> None:
        self.close()

    def open(self) -> None:
        """Opens the connection if it is not open. A call does so by itself. Raises OSError if there is no server."""
        deadline = time.monotonic() + self.timeout
        with _Held(self._links.get(), deadline) as link:
            self._open(link, deadline)

    def close(self) -> None:
        """Closes the client for good, behind the call that is under way; a second time does nothing."""
        self._is_closed = True
        link = self._links.get()
        if link.holder != threading.get_ident():
            with link.lock:
                link.drop()

    def pipeline(self, requests: Iterable[Request[Result]]) -> List[Union[Result, Refused]]:
        """Sends requests without waiting for one reply before the next, and gives a result for each, in their order: the value, or the
        Refused that the call would have raised. It takes in replies while it sends, and asks for further requests as those before them are
        sent. `timeout` bounds the wait for each reply.

        If the requests raise, those before are carried out, and it raises the same. What it raises has the results of the replies that came,
        as its attribute `results`.
        """
        return self._exchange(requests, time.monotonic() + self.timeout, True)

    def _call(self, request: Request[Result]) -> Result:
        return self._call_by(request, time.monotonic() + self.timeout)

    def _call_by(self, request: Request[Result], deadline: float) -> Result:
        try:
            results = self._exchange([request], deadline, False)
        except LostConnection:
            if not request.is_read:
                raise
            results = self._exchange([request], deadline, False)
        (result,) = results
        if isinstance(result, Refused):
            raise result
        return result

    def _exchange(self, requests: Iterable[Request[Result]], deadline: float, is_paced: bool) -> List[Union[Result, Refused]]:
        """The results of requests, by the deadline; where it is paced, each reply has so long anew. Once something was sent, it drops the
        connection on every way out but the good one: what came later over it would be taken for the reply to another request.
        """
        results: List[Union[Result, Refused]] = []
        with _Held(self._links.get(), deadline) as link:
            try:
                outgoing = _Outgoing(self.key, requests)
                if outgoing.waiting:
                    self._move_all(self._open_for_a_call(link, deadline), outgoing, results, deadline, is_paced)
            except BaseException as fault:
                link.drop()
                if isinstance(fault, (BrokenConnection, TimedOut)):
                    fault.results = results
                raise
            finally:
                if self._is_closed:
                    link.drop()
        if outgoing.fault is not None:
            setattr(outgoing.fault, "results", results)
            raise outgoing.fault
        return results

    def _move_all(self, connection: Connection, outgoing: _Outgoing, results: List[Any], deadline: float, is_paced: bool) -> None:
        while outgoing.waiting:
            count = connection.send(outgoing.rest[:PIECE_BYTES]) if outgoing.rest else 0
            piece, known = connection.receive(), len(results)
            if piece:
                results.extend(outgoing.arrived(connection))
            if count:
                deadline += outgoing.take(count)
            now = time.monotonic()
            if is_paced and len(results) > known:
                deadline = now + self.timeout
            elif now >= deadline and outgoing.waiting:
                raise TimedOut("no answer within {} seconds".format(self.timeout))
            if not count and not piece:
                connection.wait(bool(outgoing.rest), deadline - now)
        if outgoing.rest:
            raise BrokenConnection("a reply came before its request was sent")

    def _open(self, link: _Link, deadline: float) -> Connection:
        if self._is_closed:
            raise BrokenConnection("the client is closed")
        if link.connection is None:
            link.connection = Connection(self.address, self.ssl, deadline)
        return link.connection

    def _open_for_a_call(self, link: _Link, deadline: float) -> Connection:
        """Opens a connection where none is open, or where the server ended the one that is: nothing was sent over it yet."""
        if link.connection is not None and not link.connection.is_usable():
            link.drop()
        try:
            return self._open(link, deadline)
        except (BrokenConnection, TimedOut):
            raise
        except OSError as fault:
            raise BrokenConnection("no new connection to {}:{}: {}".format(*self.address, fault)) from fault


class Pool(Calls):
    """At most so many connections of a tenant. A call has one for itself, so that a timeout or a lost connection is that call's alone."""

    def __init__(self, address: Optional[Address] = None, key: Optional[Key] = None, size: int = 4, timeout: float = 30.0,
                 ssl: Context = None) -> None:
        if not isinstance(size, int) or size < 1:
            raise ValueError("a pool has at least 1 connection, not {!r}".format(size))
        self._clients = [Client(address, key, timeout, ssl) for _ in range(size)]
        self._idle = OfProcess(self._all_idle, lambda _: None)

    def __enter__(self) -> Pool:
        return self

    def __exit__(self, *_: object) -> None:
        self.close()

    def open(self) -> None:
        """Opens a connection if none is open. A call does so by itself. Raises OSError if there is no server."""
        with _Lent(self._idle.get(), self._deadline()) as client:
            client.open()

    def close(self) -> None:
        """Closes the pool for good, behind the calls that are under way; a second time does nothing."""
        for client in self._clients:
            client.close()

    def pipeline(self, requests: Iterable[Request[Result]]) -> List[Union[Result, Refused]]:
        """As `Client.pipeline`, over one of the connections."""
        with _Lent(self._idle.get(), self._deadline()) as client:
            return client.pipeline(requests)

    def _call(self, request: Request[Result]) -> Result:
        deadline = self._deadline()
        with _Lent(self._idle.get(), deadline) as client:
            return client._call_by(request, deadline)

    def _deadline(self) -> float:
        return time.monotonic() + self._clients[0].timeout

    def _all_idle(self) -> queue.LifoQueue[Client]:
        idle: queue.LifoQueue[Client] = queue.LifoQueue()
        for client in self._clients:
            idle.put(client)
        return idle


class _Link:
    """What a client has in one process: a connection, and the lock that guards it."""

    def __init__(self) -> None:
        self.lock = threading.Lock()
        self.holder = 0
        self.connection: Optional[Connection] = None

    def drop(self) -> None:
        if self.connection is not None:
            self.connection.close()
            self.connection = None


class _Held:
    """A link for one call, while other threads wait."""

    def __init__(self, link: _Link, deadline: float) -> None:
        self.link = link
        self.deadline = deadline

    def __enter__(self) -> _Link:
        own = threading.get_ident()
        if self.link.holder == own:
            raise RuntimeError("a call within the requests of a pipeline of the same client: take another client for it")
        if not self.link.lock.acquire(timeout=max(0.0, self.deadline - time.monotonic())):
            raise TimedOut("another call on the connection took too long")
        self.link.holder = own
        return self.link

    def __exit__(self, *_: object) -> None:
        self.link.holder = 0
        self.link.lock.release()


class _Lent:
    """A client of a pool for one call."""

    def __init__(self, idle: queue.LifoQueue[Client], deadline: float) -> None:
        self.idle = idle
        self.deadline = deadline

    def __enter__(self) -> Client:
        try:
            self.client = self.idle.get(timeout=max(0.0, self.deadline - time.monotonic()))
        except queue.Empty:
            raise TimedOut("no connection of the pool came free in time") from None
        return self.client

    def __exit__(self, *_: object) -> None:
        self.idle.put(self.client)


class _Outgoing:
    """Requests on their way: the bytes still to send of some, and those that wait for their reply."""

    def __init__(self, key: bytes, requests: Iterable[Request[Any]]) -> None:
        self.key = key
        self.requests = iter(requests)
        self.rest = memoryview(b"")
        self.waiting: Deque[Tuple[int, Request[Any]]] = collections.deque()
        self.fault: Optional[Exception] = None
        """What the requests raised."""
        self._fill()

    def _fill(self) -> None:
        """Takes the next requests, if there are any, up to about one piece."""
        frames = bytearray()
        try:
            for request in self.requests:
                number = next_number()
                frames += as_request(request).frame(self.key, number)
                self.waiting.append((number, request))
                if len(frames) >= PIECE_BYTES:
                    break
        except Exception as fault:
            self.fault = fault
            self.requests = iter(())
        self.rest = memoryview(frames)

    def take(self, count: int) -> float:
        """Notes that the next `count` bytes are sent. Gives the seconds for which it waited for further requests."""
        self.rest = self.rest[count:]
        if self.rest:
            return 0.0
        began = time.monotonic()
        self._fill()
        return time.monotonic() - began

    def arrived(self, connection: Connection) -> Iterator[Any]:
        """The results of the replies that have come in whole."""
        for reply in iter(connection.replies.next, None):
            if not self.waiting:
                raise BrokenConnection("a reply numbered {} answers no request".format(reply.number))
            number, request = self.waiting[0]
            yield request.outcome(number, reply)
            self.waiting.popleft()
