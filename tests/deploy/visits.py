"""Traffic of tenants through HAProxy, each of whose replies is compared, for the scripts of tests/deploy/.

Each reply is one that a single server could have given: no text from before an acknowledged put, none lost, no NotFound. A connection may end while its
tenant is paused, and then what was on its way is carried out or not.
"""
import random
import socket
import threading
import time

from deployment import GET, frame, wait_until
from lib.running_server import open_connection
from path_client import BrokenConnection, Client, Refused


class Visits(threading.Thread):
    """Puts, gets and removes of some tenants at an address, each document by this thread alone, with the texts that it may have by now."""

    def __init__(self, report, address, keys, collections, may_end):
        super().__init__(daemon=True)
        self.report, self.collections = report, collections
        self.clients = [Client(address, key) for key in keys]
        self.texts = {}
        self.may_end, self.goes, self.wrong, self.count, self.ended, self.random = may_end, True, [], 0, 0, random.Random(len(keys))
        self.start()

    def run(self):
        while self.goes:
            for client in self.clients:
                self.ask(client)
            time.sleep(0.001)

    def ask(self, client, place=None):
        place = place or (self.random.choice(self.collections), f"d-{self.random.randrange(9)}")
        known = self.texts.get((client.key, place), {None})
        verb = self.random.choice(["put", "get", "get", "remove"])
        text = b'{"count":%d,"rest":"%s"}' % (self.count, b"x" * self.random.randrange(2_000)) if verb == "put" else None
        try:
            got = self.told(client, verb, place, text)
        except (BrokenConnection, OSError):
            self.ended += 1
            if not self.may_end:
                self.wrong.append((verb, place, "ended"))
            if verb != "get":
                self.texts[client.key, place] = known | {text}
            time.sleep(0.01)
            return False
        self.count += 1
        if verb == "put":
            known = {text} if got == "Ok" else self.wrong.append((verb, place, got)) or known
        elif verb == "remove":
            if got not in (["Ok"] if None not in known else ["NotFound"] if known == {None} else ["Ok", "NotFound"]):
                self.wrong.append((verb, place, got))
            known = {None}
        else:
            if got not in known:
                self.wrong.append((verb, place, got, known))
            known = {got}
        self.texts[client.key, place] = known
        return True

    @staticmethod
    def told(client, verb, place, text):
        try:
            if verb == "get":
                return client.get(*place)
            getattr(client, verb)(*place, *[text] * (verb == "put"))
            return "Ok"
        except Refused as why:
            return None if verb == "get" and why.name == "NotFound" else why.name

    def finish(self, name):
        self.goes = False
        self.join()
        # now each document once more, by a reader that waits until its tenant is served
        for client in self.clients:
            for collection in self.collections:
                names = {}
                def listed():
                    try:
                        names["are"] = client.list(collection)
                        return True
                    except (BrokenConnection, OSError):
                        return False
                self.report.case(f"{name}: served in the end", "", True, wait_until(listed, 10))
                for document in sorted({place[1] for key, place in self.texts if key == client.key and place[0] == collection}):
                    known = self.texts[client.key, (collection, document)]
                    got = self.told(client, "get", (collection, document), None)
                    self.report.case(f"{name}: a document in the end", document, True, got in known or (got, known))
        for client in self.clients:
            client.close()
        self.report.case(f"{name}: replies", "", ([], True), (self.wrong[:3], self.count > 0))
        return self.count, self.ended


class Held(threading.Thread):
    """Gets one document again and again, on one connection, until that ends or the thread is told to. Each reply has to be whole."""

    def __init__(self, address, key, place, text):
        super().__init__(daemon=True)
        fields = b"".join(bytes([len(it)]) + it for it in map(str.encode, place))
        self.request = frame(GET, key, fields)
        self.wanted = (5 + len(text)).to_bytes(4, "big") + b"\0" + (1).to_bytes(4, "big") + text
        self.connection = open_connection(address)
        self.goes, self.count, self.left = True, 0, b""
        self.start()

    def run(self):
        with self.connection:
            while self.goes:
                came = self.reply()
                if came != self.wanted:
                    self.left = came
                    break
                self.count += 1

    def reply(self):
        """What comes of a reply until it is whole or the connection ends."""
        came = b""
        try:
            self.connection.sendall(self.request)
            while len(came) < len(self.wanted):
                piece = self.connection.recv(65_536)
                if not piece:
                    break
                came += piece
        except socket.timeout:
            came += b"silence"
        except ConnectionError:
            pass
        return came
