"""A client of path_server with Python's standard library alone (3.8 or later).

    import path_client

    with path_client.connect("127.0.0.1:7000", path_client.read_key("acme.key")) as client:
        client.put("shop", "order-1", '{"items": [{"name": "tea", "price": 4}]}')
        for hit in client.query("shop", "$.items[?@.price<10].name"):
            print(hit.document, hit.path, hit.value)

`connect` gives a Client, which threads may share, and `pool` a Pool of connections. `connect_async` and `pool_async` give the same for the
tasks of an event loop. All have one method for each command, and `pipeline` for many requests at a time.

A call gives its value or raises:

- Refused: the server answered with a status other than Ok. Each status has a class below it, such as NotFound. The connection goes on.
- ValueError: the request is invalid (a name with another character, a text or a query above its limit). Nothing was sent.
- TypeError: a name, text or query is neither str nor bytes. Nothing was sent.
- BrokenConnection: the connection ended, or what came is not a reply. The request may have been carried out.
- TimeoutError: no reply came in time. The request may have been carried out.

After the last two, and where the server closed the connection while no request was under way, the next call opens a new connection. A call
that only reads (get, list, query, usage) is sent again once if its connection is lost. What writes is never sent again.
"""
from .aio import AsyncClient, AsyncPool, connect_async, pool_async
from .client import Client, Pool, connect, pool
from .frames import (
    COLLECTION_LIMIT,
    DOCUMENT_LIMIT,
    KEY_BYTES,
    QUERY_LIMIT,
    REPLY_LIMIT,
    REQUEST_LIMIT,
    TEXT_LIMIT,
    Hit,
    Hits,
    Reply,
    Request,
    Usage,
)
from .opening import parse_address, read_key
from .places import Place, find_place
from .refusals import (
    BadCommand,
    BadFields,
    BrokenConnection,
    Costly,
    DuplicateName,
    Exists,
    LoneSurrogate,
    LostConnection,
    NoMemory,
    NoTenant,
    NotFound,
    NotJson,
    NotUtf8,
    NotValid,
    NotWellFormed,
    NumberLimit,
    QueryTooLong,
    Refused,
    ReplyTooLarge,
    Short,
    Status,
    TimedOut,
    TooCostly,
    TooDeep,
    TooLong,
    TooManyBytes,
    TooManyCollections,
    TooManyDocuments,
)

__all__ = [
    "AsyncClient",
    "AsyncPool",
    "BadCommand",
    "BadFields",
    "BrokenConnection",
    "COLLECTION_LIMIT",
    "Client",
    "Costly",
    "DOCUMENT_LIMIT",
    "DuplicateName",
    "Exists",
    "Hit",
    "Hits",
    "KEY_BYTES",
    "LoneSurrogate",
    "LostConnection",
    "NoMemory",
    "NoTenant",
    "NotFound",
    "NotJson",
    "NotUtf8",
    "NotValid",
    "NotWellFormed",
    "NumberLimit",
    "Place",
    "Pool",
    "QUERY_LIMIT",
    "QueryTooLong",
    "REPLY_LIMIT",
    "REQUEST_LIMIT",
    "Refused",
    "Reply",
    "ReplyTooLarge",
    "Request",
    "Short",
    "Status",
    "TEXT_LIMIT",
    "TimedOut",
    "TooCostly",
    "TooDeep",
    "TooLong",
    "TooManyBytes",
    "TooManyCollections",
    "TooManyDocuments",
    "Usage",
    "connect",
    "connect_async",
    "parse_address",
    "pool",
    "pool_async",
    "read_key",
    "find_place",
]
