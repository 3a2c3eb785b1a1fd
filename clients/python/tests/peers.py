"""Servers that answer as a test has them, one thread for each connection."""
import socket
import threading


class Peer:
    """Gives each connection to `serve(connection, place)`, whose place is 0 for the first, and closes it behind that. Its address is of the form
    that a client takes; `seen` has the bodies of the requests that `requests` read, in their order.
    """

    def __init__(self, serve):
        self.serve, self.seen, self.count = serve, [], 0
        self.listener = socket.create_server(("127.0.0.1", 0))
        self.address = "127.0.0.1:{}".format(self.listener.getsockname()[1])
        threading.Thread(target=self.accept, daemon=True).start()

    def __enter__(self):
        return self

    def __exit__(self, *_):
        self.listener.close()

    def accept(self):
        while True:
            try:
                connection, _ = self.listener.accept()
            except OSError:
                return
            connection.setsockopt(socket.IPPROTO_TCP, socket.TCP_NODELAY, 1)
            threading.Thread(target=self.run, args=(connection, self.count), daemon=True).start()
            self.count += 1

    def run(self, connection, place):
        with connection:
            try:
                self.serve(connection, place)
            except OSError:
                pass  # the client is gone

    def requests(self, connection):
        """The bodies of the requests as they come."""
        data = bytearray()
        while True:
            while len(data) >= 4 and len(data) >= 4 + int.from_bytes(data[:4], "big"):
                end = 4 + int.from_bytes(data[:4], "big")
                self.seen.append(bytes(data[4:end]))
                yield self.seen[-1]
                del data[:end]
            piece = connection.recv(1 << 20)
            if not piece:
                return
            data += piece


def reply(request, payload=b"", status=0):
    """The frame of a reply to a request."""
    body = bytes([status]) + request[1:5] + payload
    return len(body).to_bytes(4, "big") + body


def number(request):
    return int.from_bytes(request[1:5], "big")
