"""Requests and replies as bytes: the frames of docs/PROTOCOL.md, and nothing of connections."""
from __future__ import annotations

import itertools
import os
import re
from typing import Any, Callable, Dict, Generic, Iterator, List, NamedTuple, Optional, TypeVar, Union

from .json_texts import to_json
from .refusals import BrokenConnection, Refused, Status, refusal

Text = Union[str, bytes, bytearray, memoryview]
Result = TypeVar("Result", covariant=True)

REQUEST_LIMIT = 6_291_456
"""Bytes of a request's body, at most."""
REPLY_LIMIT = 8_388_608
"""Bytes of a reply's body, at most."""
KEY_BYTES = 16
"""Bytes of a tenant's key."""
COLLECTION_LIMIT = 64
"""Bytes of a collection's name, at most."""
DOCUMENT_LIMIT = 128
"""Bytes of a document's name, at most."""
TEXT_LIMIT = 4_194_304
"""Bytes of a document's text, at most."""
QUERY_LIMIT = 4_096
"""Bytes of a query, at most."""
NUMBERS = 2**32
"""Request numbers: after the last one comes 0 again."""
NAME = re.compile(rb"[A-Za-z0-9._-]+")
COMMANDS = {1: "PUT", 2: "GET", 3: "REMOVE", 4: "LIST", 5: "QUERY", 6: "DROP", 7: "USAGE", 8: "PUT_NEW"}
READS = (2, 4, 5, 7)
"""The commands that change nothing: GET, LIST, QUERY and USAGE."""
NAMES = {1: 2, 5: 1, 8: 2}
"""How many names stand before the text of PUT and PUT_NEW, and before the query of QUERY."""


class Hit(NamedTuple):
    """A hit of a query: the document's name, the normalized path, and the value's bytes as they stand in the text."""

    document: str
    path: str
    value: bytes


class Usage(NamedTuple):
    """What a tenant keeps: the numbers of its collections and documents, and the bytes of all its texts together."""

    collections: int
    documents: int
    bytes: int


class Reply(NamedTuple):
    """The body of a reply in its parts."""

    status: int
    number: int
    payload: bytes


class Request(Generic[Result]):
    """A command with its fields, for any tenant: what `pipeline` takes.

    Names, texts and queries are str or bytes; str is sent as UTF-8. Each maker raises ValueError where the server would refuse a name, or
    the length of a text or query, whatever it holds, and TypeError for what is neither str nor bytes. `Request(command, fields, read)` makes
    one that is not looked at.
    """

    def __init__(self, command: int, fields: bytes, read: Callable[[bytes], Result], collection: Text = "", document: Text = "") -> None:
        self.command = command
        self.fields = fields
        self.read = read
        """Reads the payload of an Ok; raises BrokenConnection if it is not one."""
        self.collection = _shown(collection)
        self.document = _shown(document)

    @property
    def is_read(self) -> bool:
        """Whether the command changes nothing, so that it may be sent again."""
        return self.command in READS

    @staticmethod
    def put(collection: Text, document: Text, text: Text) -> Request[None]:
        """Keeps a text under a collection and a document, in the place of one that is there."""
        return Request(1, _place(collection, document) + _bounded("text", text, TEXT_LIMIT), read_nothing, collection, document)

    @staticmethod
    def put_json(collection: Text, document: Text, value: Any) -> Request[None]:
        """Keeps the JSON text of a value. Raises TypeError or ValueError for what has no JSON."""
        return Request.put(collection, document, to_json(value))

    @staticmethod
    def get(collection: Text, document: Text) -> Request[bytes]:
        """The text of a document."""
        return Request(2, _place(collection, document), bytes, collection, document)

    @staticmethod
    def remove(collection: Text, document: Text) -> Request[None]:
        """Removes a document."""
        return Request(3, _place(collection, document), read_nothing, collection, document)

    @staticmethod
    def list(collection: Text) -> Request[List[str]]:
        """The names of a collection's documents."""
        return Request(4, _name("collection", collection, COLLECTION_LIMIT), read_names, collection)

    @staticmethod
    def query(collection: Text, query: Text) -> Request[List[Hit]]:
        """The hits of a query in each document of a collection."""
        return Request(5, _question(collection, query), read_hits, collection)

    @staticmethod
    def hits(collection: Text, query: Text) -> Request[Hits]:
        """The hits of a query, made one by one as they are asked for."""
        return Request(5, _question(collection, query), Hits, collection)

    @staticmethod
    def documents(collection: Text, query: Text) -> Request[List[str]]:
        """The names of the documents in which a query has a hit."""
        return Request(5, _question(collection, query), read_documents, collection)

    @staticmethod
    def drop(collection: Text) -> Request[None]:
        """Removes a collection with all its documents."""
        return Request(6, _name("collection", collection, COLLECTION_LIMIT), read_nothing, collection)

    @staticmethod
    def usage() -> Request[Usage]:
        """What the tenant keeps."""
        return Request(7, b"", read_usage)

    @staticmethod
    def put_new(collection: Text, document: Text, text: Text) -> Request[None]:
        """Keeps a text under a collection and a document where no document is there."""
        return Request(8, _place(collection, document) + _bounded("text", text, TEXT_LIMIT), read_nothing, collection, document)

    def frame(self, key: bytes, number: int) -> bytes:
        """The request's bytes on the wire. Raises ValueError where its body is longer than REQUEST_LIMIT."""
        length = 5 + len(key) + len(self.fields)
        if length > REQUEST_LIMIT:
            raise ValueError("a request's body has {} bytes; at most {} are taken".format(length, REQUEST_LIMIT))
        return b"".join((length.to_bytes(4, "big"), bytes([self.command]), number.to_bytes(4, "big"), key, self.fields))

    def outcome(self, number: int, reply: Reply) -> Union[Result, Refused]:
        """What a reply says of this request, sent under a number: the value, or a Refused. Raises BrokenConnection where it is another's."""
        if reply.status == Status.FrameFault:
            raise BrokenConnection("the server met a framing fault")
        if reply.number != number:
            raise BrokenConnection("a reply has the number {} in the place of {}".format(reply.number, number))
        if reply.status == Status.Ok:
            return self.read(reply.payload)
        if reply.payload:
            raise BrokenConnection("a refusal has a payload")
        refused = refusal(reply.status, COMMANDS.get(self.command, ""), self.collection, self.document)
        refused.text = self.text
        return refused

    @property
    def text(self) -> Optional[bytes]:
        """The text that is put or the query, if the command has one: what follows the names, each behind its length."""
        if self.command not in NAMES:
            return None
        at = 0
        for _ in range(NAMES[self.command]):
            at += 1 + (self.fields[at] if at < len(self.fields) else 0)
        return self.fields[at:]


def as_request(it: Request[Result]) -> Request[Result]:
    """A request of a pipeline. Raises TypeError for what is none."""
    if not isinstance(it, Request):
        raise TypeError("a pipeline takes requests, such as Request.get(..), not {}".format(type(it).__name__))
    return it


_counts: Dict[int, Iterator[int]] = {}


def next_number() -> int:
    """The number of the next request of this process, over all its connections. It begins at random, so that no two processes go alike."""
    process = os.getpid()
    count = _counts.get(process)
    if count is None:
        count = _counts.setdefault(process, itertools.count(int.from_bytes(os.urandom(4), "big")))
    return next(count) % NUMBERS


def as_bytes(what: str, text: Text) -> bytes:
    """The bytes of a text. Raises TypeError where it is none, and ValueError where it has a lone surrogate, which has no UTF-8."""
    if isinstance(text, str):
        return text.encode("utf-8")
    if isinstance(text, (bytes, bytearray, memoryview)):
        return bytes(text)
    hint = ": put_json serializes it, or json.dumps" if what == "text" else ""
    raise TypeError("a {} is str or bytes, not {}{}".format(what, type(text).__name__, hint))


def _shown(name: Text) -> str:
    return name if isinstance(name, str) else bytes(name).decode("utf-8", "replace")


def _name(what: str, name: Text, limit: int) -> bytes:
    data = as_bytes(what + "'s name", name)
    if len(data) > limit or not NAME.fullmatch(data):
        raise ValueError("the name of a {} has 1 to {} ASCII letters, digits, '.', '-' or '_', not {!r}".format(what, limit, name))
    return bytes([len(data)]) + data


def _place(collection: Text, document: Text) -> bytes:
    return _name("collection", collection, COLLECTION_LIMIT) + _name("document", document, DOCUMENT_LIMIT)


def _question(collection: Text, query: Text) -> bytes:
    return _name("collection", collection, COLLECTION_LIMIT) + _bounded("query", query, QUERY_LIMIT)


def _bounded(what: str, text: Text, limit: int) -> bytes:
    data = as_bytes(what, text)
    if len(data) > limit:
        raise ValueError("a {} has at most {} bytes, not {}".format(what, limit, len(data)))
    return data


def _number(payload: bytes, at: int) -> int:
    data = payload[at : at + 4]
    if len(data) < 4:
        raise BrokenConnection("a payload ends within a field")
    return int.from_bytes(data, "big")


def _behind_name(payload: bytes, at: int) -> int:
    if at >= len(payload) or at + 1 + payload[at] > len(payload):
        raise BrokenConnection("a payload ends within a field")
    return at + 1 + payload[at]


def _behind_field(payload: bytes, at: int) -> int:
    end = at + 4 + _number(payload, at)
    if end > len(payload):
        raise BrokenConnection("a payload ends within a field")
    return end


def _text(data: bytes) -> str:
    try:
        return data.decode("utf-8")
    except UnicodeDecodeError:
        raise BrokenConnection("a name or path is not UTF-8") from None


def _check_end(payload: bytes, at: int) -> None:
    if at != len(payload):
        raise BrokenConnection("a payload has bytes left over")


def read_nothing(payload: bytes) -> None:
    """The payload of a command that has none."""
    _check_end(payload, 0)


def read_names(payload: bytes) -> List[str]:
    """The payload of LIST."""
    names, at = [], 4
    for _ in range(_number(payload, 0)):
        end = _behind_name(payload, at)
        names.append(_text(payload[at + 1 : end]))
        at = end
    _check_end(payload, at)
    return names


class Hits:
    """The hits of a query in their order. Each is made of the reply when it is asked for, so that the whole is not copied."""

    def __init__(self, payload: bytes) -> None:
        self._payload = payload
        self._count = _number(payload, 0)

    def __len__(self) -> int:
        return self._count

    def __iter__(self) -> Iterator[Hit]:
        payload, at = self._payload, 4
        for _ in range(self._count):
            named = _behind_name(payload, at)
            led = _behind_field(payload, named)
            end = _behind_field(payload, led)
            yield Hit(_text(payload[at + 1 : named]), _text(payload[named + 4 : led]), payload[led + 4 : end])
            at = end
        _check_end(payload, at)


def read_hits(payload: bytes) -> List[Hit]:
    """The payload of QUERY."""
    return [*Hits(payload)]


def read_documents(payload: bytes) -> List[str]:
    """The documents of a payload of QUERY, each once: a document's hits stand behind one another."""
    names: List[bytes] = []
    at = 4
    for _ in range(_number(payload, 0)):
        named = _behind_name(payload, at)
        name = payload[at + 1 : named]
        if not names or names[-1] != name:
            names.append(name)
        at = _behind_field(payload, _behind_field(payload, named))
    _check_end(payload, at)
    return [_text(name) for name in names]


def read_usage(payload: bytes) -> Usage:
    """The payload of USAGE."""
    usage = Usage(_number(payload, 0), _number(payload, 4), _number(payload, 8))
    _check_end(payload, 12)
    return usage


class Replies:
    """Cuts the bytes that come from the server into replies, however the pieces fall."""

    def __init__(self) -> None:
        self._bytes = bytearray()

    def feed(self, piece: bytes) -> None:
        """Takes a piece that came."""
        self._bytes += piece

    def is_empty(self) -> bool:
        """Whether no byte of a further reply is there."""
        return not self._bytes

    def next(self) -> Optional[Reply]:
        """The next reply, or None until its last byte is there. Raises BrokenConnection for a length that no reply has."""
        if len(self._bytes) < 4:
            return None
        length = int.from_bytes(self._bytes[:4], "big")
        if not 5 <= length <= REPLY_LIMIT:
            raise BrokenConnection("a reply's body has {} bytes".format(length))
        if len(self._bytes) < 4 + length:
            return None
        number = int.from_bytes(self._bytes[5:9], "big")
        with memoryview(self._bytes) as view:
            reply = Reply(view[4], number, bytes(view[9 : 4 + length]))
        del self._bytes[: 4 + length]
        return reply
