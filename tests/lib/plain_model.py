"""A plain model of the server: a dictionary of dictionaries for each tenant, and a buffer for each connection.

Queries are answered by the plain evaluator, but for a few that are refused. Texts are judged by Python's json.
"""
import re
import struct

from path_client import REPLY_LIMIT, REQUEST_LIMIT

from .json_verdict import verdict
from .plain_queries import asked

PAYLOAD_LIMIT = REPLY_LIMIT - 5
BUDGET = 10_000_000
QUOTAS = (("TooManyCollections", 16), ("TooManyDocuments", 1_000), ("TooManyBytes", 16_777_216))
STATUS = {name: number for number, name in enumerate(
    "Ok Short NoTenant BadCommand BadFields TooLong NotUtf8 NotJson TooDeep NumberLimit LoneSurrogate DuplicateName TooManyCollections "
    "TooManyDocuments TooManyBytes NotFound QueryTooLong NotWellFormed NotValid Status19 ReplyTooLarge NoMemory Costly Exists".split())}
STATUS["FrameFault"] = 255
NOT_WELL_FORMED = [b"", b"$ ", b"a", b"$[", b"$[01]", b"$[-0]", b"$..", b"$.a.", b"$['a]", b"$\xff", b"$[?true]"]
NOT_VALID = [b"$[9007199254740992]", b"$[?count(@.a)]", b"$[?match(@.a,'b')]", b"$[-9007199254740992]"]


class Refused(Exception):
    """Ends a request with the status of this name."""


# ---- queries

def judged(query):
    """A query's text, where it is none of those that are refused."""
    if len(query) > 4_096:
        raise Refused("QueryTooLong")
    if query in NOT_WELL_FORMED or not query.startswith(b"$"):
        raise Refused("NotWellFormed")
    if query in NOT_VALID:
        raise Refused("NotValid")
    return query.decode("utf-8")


# ---- requests

def number(value):
    return struct.pack(">I", value)


def field(data, longest):
    """A name and what stands behind it."""
    if not data or not 1 <= data[0] <= longest or len(data) <= data[0]:
        raise Refused("BadFields")
    name = data[1:data[0] + 1]
    if not re.fullmatch(rb"[A-Za-z0-9._-]+", name):
        raise Refused("BadFields")
    return name, data[data[0] + 1:]


def named(name):
    return bytes([len(name)]) + name


def done(data):
    if data:
        raise Refused("BadFields")


def counts(tenant):
    texts = [text for collection in tenant.values() for text in collection.values()]
    return len(tenant), len(texts), sum(map(len, texts))


def put(tenant, collection, document, text, only_new=False):
    refusal = verdict(text)
    if refusal:
        raise Refused(refusal)
    if only_new and document in tenant.get(collection, {}):
        raise Refused("Exists")
    old = tenant.get(collection, {})
    after = {**tenant, collection: {**old, document: text}}
    for count, (name, quota) in zip(counts(after), QUOTAS):
        if count > quota:
            raise Refused(name)
    tenant[collection] = after[collection]
    return b""


def remove(tenant, collection, document):
    if document not in tenant.get(collection, {}):
        raise Refused("NotFound")
    del tenant[collection][document]
    if not tenant[collection]:
        del tenant[collection]
    return b""


def get(tenant, collection, document):
    if document not in tenant.get(collection, {}):
        raise Refused("NotFound")
    return tenant[collection][document]


def drop(tenant, collection):
    if collection not in tenant:
        raise Refused("NotFound")
    del tenant[collection]
    return b""


def query(tenant, collection, text):
    text = judged(text)
    total, parts, size, spent = 0, [], 4, 0
    for name in sorted(tenant.get(collection, {})):
        charge, found = asked(tenant[collection][name], text)
        spent += charge
        if spent > BUDGET:
            raise Refused("Costly")
        for path, source in found:
            path = path.encode("utf-8")
            parts.append(named(name) + number(len(path)) + path + number(len(source)) + source)
            total, size = total + 1, size + len(parts[-1])
            if size > PAYLOAD_LIMIT:
                raise Refused("ReplyTooLarge")
    return number(total) + b"".join(parts)


def payload(tenant, command, data):
    if command == 7:
        done(data)
        return b"".join(map(number, counts(tenant)))
    collection, data = field(data, 64)
    if command in (1, 2, 3, 8):
        document, data = field(data, 128)
    if command in (2, 3, 4, 6):
        done(data)
    if command in (1, 8):
        return put(tenant, collection, document, data, only_new=command == 8)
    if command == 2:
        return get(tenant, collection, document)
    if command == 3:
        return remove(tenant, collection, document)
    if command == 4:
        names = sorted(tenant.get(collection, {}))
        return number(len(names)) + b"".join(map(named, names))
    if command == 5:
        return query(tenant, collection, data)
    return drop(tenant, collection)


def reply(status, request, data=b""):
    return number(5 + len(data)) + bytes([STATUS[status]]) + request + data


def answer(tenants, body):
    request = body[1:5] if len(body) >= 5 else number(0)
    try:
        if len(body) < 21:
            raise Refused("Short")
        if body[5:21] not in tenants:
            raise Refused("NoTenant")
        if not 1 <= body[0] <= 8:
            raise Refused("BadCommand")
        return reply("Ok", request, payload(tenants[body[5:21]], body[0], body[21:]))
    except Refused as refused:
        return reply(refused.args[0], request)


# ---- connections

class Server:
    """The tenants, and the bytes that wait on each open connection; None behind a framing fault."""

    def __init__(self, keys):
        self.tenants = {key: {} for key in keys}
        self.waiting = {}

    def open(self, conn):
        self.waiting.setdefault(conn, b"")

    def close(self, conn):
        self.waiting.pop(conn, None)

    def bytes(self, conn, piece):
        """The replies to what is whole with this piece."""
        if self.waiting.get(conn) is None:
            return []
        data, replies = self.waiting[conn] + piece, []
        while len(data) >= 4:
            length = struct.unpack(">I", data[:4])[0]
            if length > REQUEST_LIMIT:
                replies.append(reply("FrameFault", number(0)))
                data = None
                break
            if len(data) < 4 + length:
                break
            replies.append(answer(self.tenants, data[4:4 + length]))
            data = data[4 + length:]
        self.waiting[conn] = data
        return replies
