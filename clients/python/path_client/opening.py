"""What a client is opened with: an address, a key and a timeout, given or from the environment; and what belongs to one process."""
from __future__ import annotations

import contextlib
import math
import os
import ssl
from pathlib import Path
from typing import Callable, Dict, Generic, Optional, Tuple, TypeVar, Union

from .frames import KEY_BYTES

Address = Union[str, Tuple[str, int]]
Key = Union[bytes, str]
Kept = TypeVar("Kept")
LONGEST_TIMEOUT = 31_536_000.0
"""Seconds of a timeout, at most: a year."""


def parse_address(address: Optional[Address]) -> Tuple[str, int]:
    """The host and the port of `HOST:PORT`, as the server prints it; `[::1]:7000` for IPv6; of PATH_SERVER_AT in the place of None.

    Raises ValueError if it is not one.
    """
    if address is None:
        address = os.environ.get("PATH_SERVER_AT") or None
        if address is None:
            raise ValueError("give the server's address, or set PATH_SERVER_AT")
    host, port = _host_and_port(address) if isinstance(address, str) else _checked(address)
    if not 1 <= port <= 65_535:
        raise ValueError("a port is a number from 1 to 65535, not {}".format(port))
    return host, port


def _host_and_port(address: str) -> Tuple[str, int]:
    host, colon, port = address.rpartition(":")
    if "/" in address:
        raise ValueError("an address is HOST:PORT without a scheme or a path, not {!r}".format(address))
    is_bracketed = host.startswith("[") and host.endswith("]")
    if not colon or not host or (":" in host and not is_bracketed) or not (port.isascii() and port.isdigit()):
        raise ValueError("an address is HOST:PORT, not {!r}".format(address))
    return host[1:-1] if is_bracketed else host, int(port)


def _checked(address: Tuple[str, int]) -> Tuple[str, int]:
    if not isinstance(address, (tuple, list)) or len(address) < 2 or not isinstance(address[0], str) or not isinstance(address[1], int):
        raise ValueError("an address is HOST:PORT as a str, or a tuple of a str and an int, not {!r}".format(address))
    return address[0], address[1]


def check_context(context: Optional[ssl.SSLContext]) -> Optional[ssl.SSLContext]:
    """What TLS is spoken with, or None. Raises ValueError where it is neither."""
    if context is not None and not isinstance(context, ssl.SSLContext):
        raise ValueError("ssl is an ssl.SSLContext, such as ssl.create_default_context(), not {!r}".format(context))
    return context


def read_key(path: Union[str, Path]) -> bytes:
    """The key in a file that has one: 32 hexadecimal digits of either case.

    Raises OSError where the file cannot be read, ValueError where it has no key or several.
    """
    words = Path(path).read_text(encoding="ascii", errors="replace").replace(",", " ").split()
    if len(words) != 1:
        raise ValueError("{} has {} keys; a client wants a file with one".format(path, len(words) or "no"))
    try:
        return check_key(words[0])
    except ValueError:
        raise ValueError("{} has no key: 32 hexadecimal digits".format(path)) from None


def check_key(key: Optional[Key]) -> bytes:
    """The key as bytes; that of the file PATH_SERVER_KEY_FILE in the place of None. Raises ValueError where it is none."""
    if key is None:
        path = os.environ.get("PATH_SERVER_KEY_FILE")
        if not path:
            raise ValueError("give the tenant's key, or set PATH_SERVER_KEY_FILE")
        return read_key(path)
    if isinstance(key, (bytes, bytearray)) and len(key) == KEY_BYTES:
        return bytes(key)
    if isinstance(key, str) and len(key) == 2 * KEY_BYTES and all(it in "0123456789abcdefABCDEF" for it in key):
        return bytes.fromhex(key)
    what = "{} with a length of {}".format(type(key).__name__, len(key)) if isinstance(key, (bytes, bytearray, str)) else type(key).__name__
    raise ValueError("a key is {} bytes, or a str of {} hexadecimal digits, not {}: read_key(file) reads one".format(KEY_BYTES, 2 * KEY_BYTES, what))


def check_timeout(seconds: float) -> float:
    """The timeout. Raises ValueError where it is not above 0, or above LONGEST_TIMEOUT."""
    if not isinstance(seconds, (int, float)) or math.isnan(seconds) or not 0 < seconds <= LONGEST_TIMEOUT:
        raise ValueError("a timeout is a number of seconds above 0 and up to {:.0f}, not {!r}".format(LONGEST_TIMEOUT, seconds))
    return float(seconds)


class OfProcess(Generic[Kept]):
    """What each process has for itself. Behind a fork, the child makes its own and lets go of its copy of the parent's."""

    def __init__(self, make: Callable[[], Kept], let_go: Callable[[Kept], None]) -> None:
        self._make = make
        self._let_go = let_go
        self._kept: Dict[int, Kept] = {}

    def get(self) -> Kept:
        """This process's own. No lock guards it: a lock that a thread of the parent held would stay locked in the child."""
        process = os.getpid()
        found = self._kept.get(process)
        if found is None:
            found = self._kept.setdefault(process, self._make())
            for it in [*self._kept]:
                if it != process:
                    with contextlib.suppress(KeyError):  # another thread of the child was here
                        self._let_go(self._kept.pop(it))
        return found
