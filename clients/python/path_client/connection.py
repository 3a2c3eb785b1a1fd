"""One connection that never waits but where it is told to, plain or with TLS."""
from __future__ import annotations

import selectors
import socket
import ssl
import time
from typing import Optional, Tuple

from .frames import Replies
from .refusals import LostConnection, TimedOut

PIECE_BYTES = 65_536
LONGEST_WAIT = 3_600.0
"""Seconds of one wait, at most: poll counts milliseconds in 31 bits."""
WANTS = (ssl.SSLWantReadError, ssl.SSLWantWriteError)
READ, WRITE = selectors.EVENT_READ, selectors.EVENT_WRITE
# poll takes descriptors of any number; select takes none above 1,023
Selector = getattr(selectors, "PollSelector", selectors.DefaultSelector)


class Connection:
    """A connection to a server, and what has come over it."""

    def __init__(self, address: Tuple[str, int], context: Optional[ssl.SSLContext], deadline: float) -> None:
        """Opens it. Raises OSError if there is no server, and TimedOut where that takes until after the deadline."""
        try:
            plain = socket.create_connection(address, max(0.001, deadline - time.monotonic()))
        except socket.timeout:
            raise TimedOut("no connection to {}:{} in time".format(*address)) from None
        self.replies = Replies()
        self._socket = plain
        self._lost: Optional[LostConnection] = None
        self._selector: selectors.BaseSelector = Selector()
        self._events = READ
        try:
            plain.setsockopt(socket.IPPROTO_TCP, socket.TCP_NODELAY, 1)
            plain.setblocking(False)
            if context is not None:
                self._socket = context.wrap_socket(plain, server_hostname=address[0], do_handshake_on_connect=False)
            self._selector.register(self._socket, READ)
            if context is not None:
                self._shake_hands(deadline)
        except BaseException:
            self.close()
            raise

    def _shake_hands(self, deadline: float) -> None:
        assert isinstance(self._socket, ssl.SSLSocket)
        while True:
            try:
                return self._socket.do_handshake()
            except WANTS as wanted:
                seconds = deadline - time.monotonic()
                if seconds <= 0:
                    raise TimedOut("no TLS handshake in time") from None
                self.wait(isinstance(wanted, ssl.SSLWantWriteError), seconds)

    def send(self, data: memoryview) -> int:
        """Sends what goes out at once, and says how many bytes that were. Of a lost connection `receive` tells, behind what has come."""
        try:
            return self._socket.send(data)
        except (BlockingIOError, *WANTS):
            return 0
        except OSError as fault:
            self._lost = LostConnection(str(fault))
            return 0

    def receive(self) -> bytes:
        """What has come, or nothing. Raises LostConnection behind its end."""
        try:
            piece = self._socket.recv(PIECE_BYTES)
        except (BlockingIOError, *WANTS):
            if self._lost is not None:
                raise self._lost
            return b""
        except OSError as fault:
            raise LostConnection(str(fault)) from fault
        if not piece:
            raise LostConnection("the server ended the connection")
        self.replies.feed(piece)
        return piece

    def wait(self, is_sending: bool, seconds: float) -> None:
        """Waits until something has come, or can be sent where it is sending; at most so many seconds."""
        events = READ | WRITE if is_sending else READ
        if events != self._events:
            self._selector.modify(self._socket, events)
            self._events = events
        self._selector.select(min(seconds, LONGEST_WAIT))

    def is_usable(self) -> bool:
        """Whether the next request may go over it: it has not ended, and nothing has come that no request asked for."""
        try:
            return not self.receive() and self.replies.is_empty()
        except LostConnection:
            return False

    def close(self) -> None:
        """Closes this process's descriptor. TLS says no farewell: after a fork another process may go on with the connection."""
        self._selector.close()
        self._socket.close()
