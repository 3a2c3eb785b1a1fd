"""What goes wrong: the statuses of docs/PROTOCOL.md with a class for each, connections that break, and calls that take too long."""
from __future__ import annotations

import enum
from typing import Any, Dict, List, Optional, Tuple, Type

from .places import Place, find_place


class Status(enum.IntEnum):
    """What a reply says of its request."""

    Ok = 0
    Short = 1
    NoTenant = 2
    BadCommand = 3
    BadFields = 4
    TooLong = 5
    NotUtf8 = 6
    NotJson = 7
    TooDeep = 8
    NumberLimit = 9
    LoneSurrogate = 10
    DuplicateName = 11
    TooManyCollections = 12
    TooManyDocuments = 13
    TooManyBytes = 14
    NotFound = 15
    QueryTooLong = 16
    NotWellFormed = 17
    NotValid = 18
    ReplyTooLarge = 20
    NoMemory = 21
    Costly = 22
    Exists = 23
    FrameFault = 255


TOLD_BYTES = 65_536
"""Bytes of a text, at most, whose place stands in the message too: finding that of a text of megabytes takes seconds."""


class Refused(Exception):
    """The server answered with a status other than Ok. Each status has a class of its name below this one."""

    status: int = -1
    """The number of the status."""
    sentence: str = "the server is newer than this client"
    """What the status says, and what to do about it."""
    text: Optional[bytes] = None
    """The text that was put or the query, if the command has one."""
    _places: Tuple[Optional[Place], ...] = ()

    def __init__(self, command: str = "", collection: str = "", document: str = "") -> None:
        self.command = command
        """The command that was refused, such as GET."""
        self.collection = collection
        """The collection that it named, or nothing."""
        self.document = document
        """The document that it named, or nothing."""
        place = "/".join(it for it in (collection, document) if it)
        about = " ".join(it for it in (command, place) if it)
        super().__init__("{}: {}{}".format(self.name, self.sentence, about and " ({})".format(about)))

    @property
    def name(self) -> str:
        """The name of the status; `Status77` for one that this client does not know."""
        return status_name(self.status)

    @property
    def place(self) -> Optional[Place]:
        """Where the text or the query is refused, if it is refused for what stands in it. It is sought when it is first asked for."""
        if self.text is not None and not self._places:
            self._places = (find_place(self.text, self.name),)
        return self._places[0] if self._places else None

    @property
    def line(self) -> Optional[int]:
        """The line of the place, counted from 1."""
        place = self.place
        return place and place.line

    @property
    def column(self) -> Optional[int]:
        """The column of the place in characters, counted from 1."""
        place = self.place
        return place and place.column

    @property
    def expected(self) -> Optional[str]:
        """What may stand at the place."""
        place = self.place
        return place and place.expected

    def __str__(self) -> str:
        place = self.place if self.text is not None and len(self.text) <= TOLD_BYTES else None
        return super().__str__() + ("\n{}".format(place) if place else "")

    def __reduce__(self) -> Any:
        return refusal, (self.status, self.command, self.collection, self.document), {"text": self.text}


class Short(Refused):
    status, sentence = 1, "server and client disagree about the protocol: use the same version of both"


class NoTenant(Refused):
    status, sentence = 2, "the server has no tenant with the key"


class BadCommand(Refused):
    status, sentence = 3, "the server is older than this client"


class BadFields(Refused):
    status, sentence = 4, "server and client disagree about names: use the same version of both"


class TooLong(Refused):
    status, sentence = 5, "a text has at most 4194304 bytes"


class NotUtf8(Refused):
    status, sentence = 6, "the text is not UTF-8"


class NotJson(Refused):
    status, sentence = 7, "the text is not JSON (RFC 8259)"


class TooDeep(Refused):
    status, sentence = 8, "a text has at most 256 levels of arrays and objects"


class NumberLimit(Refused):
    status, sentence = 9, "a number has at most 256 bytes, and an exponent up to 999999999"


class LoneSurrogate(Refused):
    status, sentence = 10, "an escape has half of a surrogate pair alone"


class DuplicateName(Refused):
    status, sentence = 11, "an object has the same name twice"


class TooManyCollections(Refused):
    status, sentence = 12, "a tenant has at most 16 collections: drop one"


class TooManyDocuments(Refused):
    status, sentence = 13, "a tenant has at most 1000 documents: remove some"


class TooManyBytes(Refused):
    status, sentence = 14, "a tenant's texts have at most 16777216 bytes together: remove some"


class NotFound(Refused):
    status, sentence = 15, "there is no such document or collection"


class QueryTooLong(Refused):
    status, sentence = 16, "a query has at most 4096 bytes"


class NotWellFormed(Refused):
    status, sentence = 17, "the query is not well-formed (RFC 9535, section 2.1)"


class NotValid(Refused):
    status, sentence = 18, "the query is not valid (RFC 9535, section 2.1)"


class ReplyTooLarge(Refused):
    status, sentence = 20, "the reply would have more than 8388608 bytes: ask for fewer hits"


class NoMemory(Refused):
    status, sentence = 21, "the server ran out of memory and changed nothing: try again"


class Costly(Refused):
    status, sentence = 22, "the query costs more than 10000000 units: ask for less"


class Exists(Refused):
    status, sentence = 23, "the document exists: put replaces it"


TooCostly = Costly
"""Costly, by the name that reads well behind `except`."""
CLASSES: Dict[int, Type[Refused]] = {it.status: it for it in Refused.__subclasses__()}
"""The class of each status that a reply may have."""


class BrokenConnection(ConnectionError):
    """The connection ended, or what came over it is not a reply. A request that was on its way may have been carried out."""

    def __init__(self, why: str) -> None:
        super().__init__(why)
        self.results: List[Any] = []
        """Of a pipeline: the results of the replies that came before, in order."""


class LostConnection(BrokenConnection):
    """The connection ended before the reply came. A call that reads is sent again once; this is then its second end."""


class TimedOut(TimeoutError):
    """No reply came in time. The request may have been carried out."""

    def __init__(self, why: str) -> None:
        super().__init__(why)
        self.results: List[Any] = []
        """Of a pipeline: the results of the replies that came before, in order."""


def status_name(status: int) -> str:
    """The name of a status; `Status77` for a status that this client does not know."""
    try:
        return Status(status).name
    except ValueError:
        return "Status{}".format(status)


def refusal(status: int, command: str, collection: str, document: str) -> Refused:
    """The Refused of a status, of the status's class if this client knows it."""
    found = CLASSES.get(status, Refused)(command, collection, document)
    if found.status != status:
        found.status = status
        found.args = ("{}: {}".format(found.name, found.sentence),)
    return found
