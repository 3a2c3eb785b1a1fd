"""Random requests of every command, and the events of a few connections that carry them, for the scripts of tests/."""
from path_client import REQUEST_LIMIT

from .json_verdict import DEPTH_LIMIT
from .plain_model import NOT_VALID, NOT_WELL_FORMED, named, number

KEYS = [bytes.fromhex("00112233445566778899aabbccddeeff"), bytes.fromhex("ffeeddccbbaa99887766554433221100")]
UNKNOWN = bytes(16)
COLLECTIONS = [b"a", b"b", b"B.1", b"-"]
DOCUMENTS = [b"x", b"y", b"X", b"x.1", b"_", b"x" * 128]
TEXTS = [b"1", b" [1,2] ", b'{"a":[10,20],"b":{"c":null}}', b'{"a":1,"b":2}', b'["x",[],{}]', b'{"\\u0061":"\xc3\xa9","it\'s":[[0]]}', b'{"a":"\\ud83d\\ude00"}',
         b"", b"{", b"[1,]", b"\xff", b'{"a":1,"\\u0061":2}', b'"\\ud83d"', b"1e1000000000", b"[" * (DEPTH_LIMIT + 1) + b"]" * (DEPTH_LIMIT + 1), b"9" * 257, b'"' + b"s" * 3000 + b'"']
QUERIES = [b"$", b"$.a", b"$.*", b"$[0]", b"$[-1]", b"$.a[1]", b"$['a'][*]", b"$.b.c", b"$[*][0]", b"$.a.*", b"$..*", b"$..a", b"$[::-1]",
           b"$..[1:]", b"$[?@>1]", b"$..[?@.c==null]", b"$[?count(@.*)>0,0]", b"$[?length(@)==1||@=='x']", b"$[?@==$[0]]",
           b"$." + b"a" * 4095, *NOT_WELL_FORMED, *NOT_VALID]


class Traffic:
    """Random requests and events."""

    def __init__(self, chance):
        self.chance = chance

    def fields(self, command):
        pick = self.chance.choice
        collection, document = named(pick(COLLECTIONS)), named(pick(DOCUMENTS))
        return {1: collection + document + pick(TEXTS), 2: collection + document, 3: collection + document, 4: collection,
                5: collection + pick(QUERIES), 6: collection, 7: b"", 8: collection + document + pick(TEXTS)}[command]

    def body(self):
        pick = self.chance.choice
        command = pick([1, 1, 1, 1, 2, 2, 3, 4, 5, 5, 5, 6, 7, 8, 8])
        body = bytes([command]) + number(self.chance.randrange(1 << 32)) + pick([*KEYS, KEYS[0], KEYS[1], UNKNOWN]) + self.fields(command)
        damage = self.chance.randrange(24)
        if damage == 0:
            return body[:self.chance.randrange(21)]
        if damage == 1:
            return bytes([pick([0, 9, 10, 255])]) + body[1:]
        if damage == 2:
            return body[:21] + pick([b"", b"\x00", b"\x01", b"\x01/", b"\x41" + b"a" * 65, b"\x01a\x81" + b"b" * 129, b"\x02ab\x03cd"])
        if damage == 3 and command in (2, 3, 4, 6, 7):
            return body + b"z"
        return body

    def stream(self):
        """The bytes of a connection: whole frames, sometimes with a framing fault among them or a part at the end."""
        frames = [number(len(body)) + body for body in (self.body() for _ in range(self.chance.randrange(12)))]
        if self.chance.randrange(8) == 0:
            frames.insert(self.chance.randint(0, len(frames)), self.chance.choice([number(REQUEST_LIMIT + 1), b"\xff\xff\xff\xff"]))
        if self.chance.randrange(6) == 0:
            frames.append(b"\x00\x00\x00\x30\x01")
        return b"".join(frames)

    def pieces(self, data):
        while data:
            size = self.chance.choice([1, 2, 3, 5, 20, 40, 100, 1000, len(data)])
            yield data[:size]
            data = data[size:]

    def events(self):
        """The events of some sessions, interleaved in any way; some are none that the server takes."""
        lanes = []
        for conn in self.chance.sample([0, 1, 2, 7, 4294967295], self.chance.randint(1, 4)):
            lane = []
            for _ in range(self.chance.randint(1, 2)):
                lane += [(conn, "open")] * self.chance.choice([1, 1, 1, 0, 2])
                lane += [(conn, piece) for piece in self.pieces(self.stream())]
                lane += [(conn, "close")] * self.chance.choice([1, 1, 0, 2])
            lanes.append(lane)
        while any(lanes):
            lane = self.chance.choice([lane for lane in lanes if lane])
            yield lane.pop(0)
