"""The client and the pool for the tasks of an event loop."""
from __future__ import annotations

import asyncio
import collections
import os
import socket
import ssl as tls
from typing import Any, AsyncIterable, AsyncIterator, Awaitable, Callable, Deque, Generator, Generic, Iterable, List, Optional, Tuple, TypeVar, Union

from .calls import AsyncCalls
from .connection import PIECE_BYTES
from .frames import Replies, Reply, Request, as_request, next_number
from .opening import Address, Key, check_context, check_key, check_timeout, parse_address
from .refusals import BrokenConnection, LostConnection, Refused, TimedOut

Result = TypeVar("Result")
Opened = TypeVar("Opened")
Context = Optional[tls.SSLContext]
Requests = Union[Iterable[Request[Result]], AsyncIterable[Request[Result]]]


def connect_async(address: Optional[Address] = None, key: Optional[Key] = None, timeout: float = 30.0,
                  ssl: Context = None) -> Opening[AsyncClient]:
    """Opens a connection for the tenant of `key`: to be awaited, or to stand behind `async with`. The arguments are those of `connect`.

    Raises OSError if there is no server, ValueError if the address, the key or the timeout is invalid.
    """
    client = AsyncClient(address, key, timeout, ssl)
    return Opening(client, client.open, client.close)


def pool_async(address: Optional[Address] = None, key: Optional[Key] = None, size: int = 4, timeout: float = 30.0,
               ssl: Context = None) -> Opening[AsyncPool]:
    """Opens a pool of so many connections at most, the first at once: to be awaited, or to stand behind `async with`."""
    found = AsyncPool(address, key, size, timeout, ssl)
    return Opening(found, found.open, found.close)


class Opening(Generic[Opened]):
    """A client or a pool that is opened where it is awaited."""

    def __init__(self, what: Opened, open: Callable[[], Awaitable[None]], close: Callable[[], Awaitable[None]]) -> None:
        self._what, self._opens, self._closes = what, open, close

    def __await__(self) -> Generator[Any, None, Opened]:
        return self._open().__await__()

    async def __aenter__(self) -> Opened:
        return await self._open()

    async def __aexit__(self, *_: object) -> None:
        await self._closes()

    async def _open(self) -> Opened:
        await self._opens()
        return self._what


class AsyncClient(AsyncCalls):
    """A tenant's connection for the tasks of an event loop. Calls that overlap are sent one behind the other over it, without waiting. In
    another loop, and in a child behind a fork, it opens another connection.
    """

    def __init__(self, address: Optional[Address] = None, key: Optional[Key] = None, timeout: float = 30.0, ssl: Context = None) -> None:
        self.address = parse_address(address)
        self.key = check_key(key)
        """The tenant's key of the calls that follow; may be set anew between calls."""
        self.timeout = check_timeout(timeout)
        """Seconds that each call takes at most."""
        self.ssl = check_context(ssl)
        self._home: Optional[_Home] = None
        self._is_closed = False

    async def __aenter__(self) -> AsyncClient:
        return self

    async def __aexit__(self, *_: object) -> None:
        await self.close()

    async def open(self) -> None:
        """Opens the connection if it is not open. A call does so by itself. Raises OSError if there is no server."""
        await self._open(self._deadline())

    async def close(self) -> None:
        """Closes the client for good; a second time does nothing. Calls under way raise BrokenConnection."""
        self._is_closed = True
        link = self._here().link
        if link is not None:
            link.end(BrokenConnection("the client is closed"))
            await link.ended()

    async def pipeline(self, requests: Requests[Result]) -> List[Union[Result, Refused]]:
        """Sends requests without waiting for one reply before the next, and gives a result for each, in their order: the value, or the
        Refused that the call would have raised. The requests may come from an async iterable. `timeout` bounds the wait for each reply.

        If the requests raise, those before are carried out, and it raises the same. What it raises has the results of the replies that came,
        as its attribute `results`. Where the connection is reset, asyncio gives up what it has not read: replies that came with the reset are missing.
        """
        link = await self._open_for_a_call(self._deadline())
        waiting: List[asyncio.Future[Any]] = []
        pace = _Pace(link, waiting, self.timeout)
        fault: Optional[Exception] = None
        try:
            source = _each(requests)
            while fault is None:
                try:
                    request = as_request(await source.__anext__())
                    waiting.append(link.send(self.key, request))
                except StopAsyncIteration:
                    break
                except Exception as found:
                    fault = found
                else:
                    await link.drain()
            results = [await it for it in waiting]
        except (BrokenConnection, TimedOut) as found:
            found.results = [it.result() for it in waiting if it.done() and not it.cancelled() and it.exception() is None]
            raise
        finally:
            pace.end()
        if fault is not None:
            setattr(fault, "results", results)
            raise fault
        return results

    async def _call(self, request: Request[Result]) -> Result:
        return await self._call_by(request, self._deadline())

    async def _call_by(self, request: Request[Result], deadline: float) -> Result:
        try:
            result = await self._ask(request, deadline)
        except LostConnection:
            if not request.is_read:
                raise
            result = await self._ask(request, deadline)
        if isinstance(result, Refused):
            raise result
        return result

    async def _ask(self, request: Request[Result], deadline: float) -> Union[Result, Refused]:
        link = await self._open_for_a_call(deadline)
        result = link.send(self.key, request)
        timer = link.loop.call_at(deadline, link.expire, [result], self.timeout)
        try:
            await link.drain()
            found: Union[Result, Refused] = await result
            return found
        finally:
            timer.cancel()

    def _deadline(self) -> float:
        return asyncio.get_running_loop().time() + self.timeout

    def _here(self) -> _Home:
        home = self._home
        if home is None or not home.is_here():
            home = self._home = _Home()
        return home

    def _drop(self, fault: BrokenConnection) -> None:
        link = self._here().link
        if link is not None:
            link.end(fault)

    async def _open(self, deadline: float) -> _Link:
        if self._is_closed:
            raise BrokenConnection("the client is closed")
        home = self._here()
        if home.link is not None and not home.link.has_ended():
            return home.link
        try:
            return await asyncio.wait_for(self._reopen(home), deadline - home.loop.time())
        except asyncio.TimeoutError:
            raise TimedOut("no connection to {}:{} within {} seconds".format(*self.address, self.timeout)) from None

    async def _reopen(self, home: _Home) -> _Link:
        async with home.opening:
            if home.link is None or home.link.has_ended():
                if home.link is not None:
                    home.link.end(LostConnection("the server ended the connection"))
                home.link = _Link(*await _open_streams(self.address, self.ssl))
            return home.link

    async def _open_for_a_call(self, deadline: float) -> _Link:
        try:
            return await self._open(deadline)
        except (BrokenConnection, TimedOut):
            raise
        except OSError as fault:
            raise BrokenConnection("no new connection to {}:{}: {}".format(*self.address, fault)) from fault


class AsyncPool(AsyncCalls):
    """At most so many connections of a tenant. A call has one for itself, so that a timeout or a lost connection is that call's alone."""

    def __init__(self, address: Optional[Address] = None, key: Optional[Key] = None, size: int = 4, timeout: float = 30.0,
                 ssl: Context = None) -> None:
        if not isinstance(size, int) or size < 1:
            raise ValueError("a pool has at least 1 connection, not {!r}".format(size))
        self._clients = [AsyncClient(address, key, timeout, ssl) for _ in range(size)]
        self._home: Optional[_Home] = None

    async def __aenter__(self) -> AsyncPool:
        return self

    async def __aexit__(self, *_: object) -> None:
        await self.close()

    async def open(self) -> None:
        """Opens a connection if none is open. A call does so by itself. Raises OSError if there is no server."""
        await self._lend(lambda client, _: client.open())

    async def close(self) -> None:
        """Closes the pool for good; a second time does nothing. Calls under way raise BrokenConnection."""
        await asyncio.gather(*(it.close() for it in self._clients))

    async def pipeline(self, requests: Requests[Result]) -> List[Union[Result, Refused]]:
        """As `AsyncClient.pipeline`, over one of the connections."""
        found: List[Union[Result, Refused]] = await self._lend(lambda client, _: client.pipeline(requests))
        return found

    async def _call(self, request: Request[Result]) -> Result:
        found: Result = await self._lend(lambda client, deadline: client._call_by(request, deadline))
        return found

    async def _lend(self, use: Any) -> Any:
        home = self._home
        if home is None or not home.is_here():
            home = self._home = _Home()
            for it in self._clients:
                home.idle.put_nowait(it)
        client: AsyncClient
        seconds = self._clients[0].timeout
        deadline = home.loop.time() + seconds
        try:
            client = home.idle.get_nowait()
        except asyncio.QueueEmpty:
            try:
                client = await asyncio.wait_for(home.idle.get(), seconds)
            except asyncio.TimeoutError:
                raise TimedOut("no connection of the pool came free in time") from None
        try:
            return await use(client, deadline)
        except asyncio.CancelledError:
            client._drop(BrokenConnection("a call on the connection was cancelled"))
            raise
        finally:
            home.idle.put_nowait(client)


class _Home:
    """What a client or a pool has in one event loop of one process."""

    def __init__(self) -> None:
        self.process = os.getpid()
        self.loop = asyncio.get_running_loop()
        self.opening = asyncio.Lock()
        self.link: Optional[_Link] = None
        self.idle: asyncio.LifoQueue[AsyncClient] = asyncio.LifoQueue()

    def is_here(self) -> bool:
        return self.process == os.getpid() and self.loop is asyncio.get_running_loop()


class _Pace:
    """Ends a connection over which a pipeline has waited too long for its next reply."""

    def __init__(self, link: _Link, waiting: List[asyncio.Future[Any]], seconds: float) -> None:
        self._link, self._waiting, self._seconds = link, waiting, seconds
        self._timer = link.loop.call_later(seconds, self._look)

    def _look(self) -> None:
        rest = self._seconds - self._link.silence()
        if rest > 0:
            self._timer = self._link.loop.call_later(rest, self._look)
        else:
            self._link.expire(self._waiting, self._seconds)

    def end(self) -> None:
        self._timer.cancel()


class _Writer(asyncio.StreamWriter):
    """A writer that a child of a fork does not close, not even where it lets go of it. On Linux a child has the parent's epoll in common with it. A
    connection that is taken out of it there is taken out for both, and the parent would wait for its replies until the timeout.
    """

    def __init__(self, transport: asyncio.Transport, protocol: asyncio.StreamReaderProtocol, reader: asyncio.StreamReader) -> None:
        super().__init__(transport, protocol, reader, asyncio.get_running_loop())
        self._process = os.getpid()

    def close(self) -> None:
        if self._process == os.getpid():
            super().close()

    def __del__(self, *_: object) -> None:
        """Since Python 3.11 a writer that is let go of closes itself. This one is closed by the task that reads."""


async def _open_streams(address: Tuple[str, int], context: Context) -> Tuple[asyncio.StreamReader, _Writer]:
    """As asyncio.open_connection, with such a writer."""
    loop = asyncio.get_running_loop()
    reader = asyncio.StreamReader(loop=loop)
    protocol = asyncio.StreamReaderProtocol(reader, loop=loop)
    transport, _ = await loop.create_connection(lambda: protocol, *address, ssl=context)
    return reader, _Writer(transport, protocol, reader)


class _Link:
    """One connection: what waits for a reply, in order, and the task that reads replies."""

    def __init__(self, reader: asyncio.StreamReader, writer: asyncio.StreamWriter) -> None:
        writer.get_extra_info("socket").setsockopt(socket.IPPROTO_TCP, socket.TCP_NODELAY, 1)
        self.loop = asyncio.get_running_loop()
        self._reader = reader
        self._writer = writer
        # before 3.10, only one task may wait for room at a time
        self._draining = asyncio.Lock()
        self._waiting: Deque[Tuple[int, Request[Any], asyncio.Future[Any]]] = collections.deque()
        self._moved = self.loop.time()
        self._fault: Optional[BrokenConnection] = None
        self._reading = asyncio.ensure_future(self._read())

    def has_ended(self) -> bool:
        return self._fault is not None or self._reader.at_eof()

    def silence(self) -> float:
        """The seconds since a request began to wait for its reply as the first."""
        return self.loop.time() - self._moved if self._waiting else 0.0

    def send(self, key: bytes, request: Request[Any]) -> asyncio.Future[Any]:
        """Writes the request's frame, and gives what its reply will be."""
        if self._fault is not None:
            raise _again(self._fault)
        number = next_number()
        frame = request.frame(key, number)
        result: asyncio.Future[Any] = self.loop.create_future()
        if not self._waiting:
            self._moved = self.loop.time()
        self._waiting.append((number, request, result))
        self._writer.write(frame)
        return result

    async def drain(self) -> None:
        """Waits until there is room for more. If the connection is lost, what waits for a reply says so."""
        try:
            async with self._draining:
                await self._writer.drain()
        except OSError as fault:
            self.end(LostConnection(str(fault)))

    def expire(self, late: Iterable[asyncio.Future[Any]], seconds: float) -> None:
        """Ends the connection, since the server may never answer over it."""
        for result in late:
            _fail(result, TimedOut("no answer within {} seconds".format(seconds)))
        self.end(BrokenConnection("another call on the connection had no answer in time"))

    def end(self, fault: BrokenConnection) -> None:
        """Closes the connection, and ends what waits: no reply will come."""
        if self._fault is None:
            self._fault = fault
            self._reading.cancel()
            self._writer.transport.abort()
        for _, _, result in self._waiting:
            _fail(result, _again(self._fault))
        self._waiting.clear()

    async def ended(self) -> None:
        """Waits until no task is at work on it."""
        await asyncio.gather(self._reading, return_exceptions=True)

    async def _read(self) -> None:
        replies = Replies()
        try:
            while True:
                piece = await self._reader.read(PIECE_BYTES)
                if not piece:
                    raise LostConnection("the server ended the connection")
                replies.feed(piece)
                for reply in iter(replies.next, None):
                    self._settle(reply)
        except BrokenConnection as fault:
            self.end(fault)
        except OSError as fault:
            self.end(LostConnection(str(fault)))
        finally:
            # also where the loop ends and cancels its tasks
            self._writer.close()

    def _settle(self, reply: Reply) -> None:
        if not self._waiting:
            raise BrokenConnection("a reply numbered {} answers no request".format(reply.number))
        number, request, result = self._waiting[0]
        outcome = request.outcome(number, reply)
        self._waiting.popleft()
        self._moved = self.loop.time()
        if not result.done():
            result.set_result(outcome)


def _again(fault: BrokenConnection) -> BrokenConnection:
    """The same fault for another call."""
    return type(fault)(str(fault))


def _fail(result: asyncio.Future[Any], fault: OSError) -> None:
    if not result.done():
        result.set_exception(fault)
        # nobody may await it any more
        result.exception()


async def _each(requests: Requests[Result]) -> AsyncIterator[Request[Result]]:
    if isinstance(requests, AsyncIterable):
        async for request in requests:
            yield request
    else:
        for request in requests:
            yield request
