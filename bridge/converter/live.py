"""The sockets between clients, the gateway and a server that was started elsewhere."""
import errno
import selectors
import socket

from .links import READ, Address, Stream
from .showing import Scopes

HOST = "127.0.0.1"
# So many bytes may wait for the server: more than the samples of the longest sound file take.
MOST_WAITING = 1 << 27
# So often it looks for a server that isn't there, in seconds.
LOOKS = 0.2


class Client(Stream):
    """A client with a connection, which ends if the client doesn't take what it is sent."""

    def send(self, data):
        super().send(data)
        if self.is_full:
            self.end("it takes nothing")


def both(port):
    """A socket for datagrams and one that listens at the same port: one that is free for both if it is 0."""
    while True:
        datagrams = socket.socket(socket.AF_INET, socket.SOCK_DGRAM)
        try:
            datagrams.bind((HOST, port))
            return datagrams, socket.create_server(datagrams.getsockname())
        except OSError as wrong:
            datagrams.close()
            if port or wrong.errno != errno.EADDRINUSE:
                raise


class Live:
    """The gateway and its sockets."""

    def __init__(self, port, server_port, gateway):
        self.gateway, self.server_port, self.server, self.is_over = gateway, server_port, None, False
        self.scopes = gateway.scopes = Scopes()
        self.ready = selectors.DefaultSelector()
        self.datagrams, self.listener = both(port)
        self.port = self.datagrams.getsockname()[1]
        self.ready.register(self.datagrams, READ, self.from_datagram)
        self.ready.register(self.listener, READ, self.from_listener)

    def run(self):
        """Passes packets on until the server has quit."""
        self.scopes.open(self.port)
        try:
            while not self.is_over and not self.gateway.is_over:
                if self.server is None:
                    self.look()
                for key, events in self.ready.select(LOOKS if self.server is None else self.scopes.wait()):
                    key.data(events)
                self.scopes.look(self.gateway)
        finally:
            self.scopes.close()

    def look(self):
        """Looks for the server."""
        try:
            link = socket.create_connection((HOST, self.server_port), timeout=LOOKS)
        except OSError:
            self.gateway.report(f"waiting for snova at port {self.server_port}")
            return
        self.server = Stream(self.ready, link, self.gateway.hear, self.server_closed)
        self.server.most = MOST_WAITING
        self.gateway.serve(self.server)

    def server_closed(self, _stream, reason):
        self.server = None
        self.is_over = self.gateway.ends()
        if not self.is_over:
            self.gateway.report(f"note: the server is gone, {reason}; another one is waited for, and has nothing yet")

    def from_datagram(self, _events):
        try:
            data, address = self.datagrams.recvfrom(1 << 16)
        except OSError:
            return
        self.gateway.take(Address(self.datagrams, address), data)

    def from_listener(self, _events):
        try:
            link, _ = self.listener.accept()
        except OSError:
            return
        stream = Client(self.ready, link, lambda data: self.gateway.take(stream, data), self.client_closed)

    def client_closed(self, stream, reason):
        self.gateway.clients.leave(stream)
        if reason != "it closed":
            self.gateway.report(f"note: {stream} was closed: {reason}")
