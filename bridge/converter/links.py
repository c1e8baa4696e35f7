"""The sockets of the gateway: datagrams, and connections that are never waited for."""
import selectors
import socket
import struct

from . import osc

# More than this isn't kept for one that takes nothing, and no packet of a stream is longer.
MOST_KEPT = 1 << 24
READ, WRITE = selectors.EVENT_READ, selectors.EVENT_WRITE


class Address:
    """A client that sends datagrams."""

    def __init__(self, datagrams, address):
        self.datagrams, self.address = datagrams, address

    def __eq__(self, other):
        return isinstance(other, Address) and self.address == other.address

    def __hash__(self):
        return hash(self.address)

    def __str__(self):
        return f"the client at port {self.address[1]}"

    def send(self, data):
        """Sends a packet; one that can't be sent, or that nobody takes, is lost, as datagrams are."""
        try:
            self.datagrams.sendto(data, self.address)
        except OSError:
            pass


class Stream:
    """A TCP connection: packets, each after its size. `take` is called with each that comes, and `close` at its end.

    It is full if more than `most` bytes wait to be sent.
    """

    most = MOST_KEPT

    def __init__(self, ready, link, take, close):
        link.setblocking(False)
        link.setsockopt(socket.IPPROTO_TCP, socket.TCP_NODELAY, 1)
        self.ready, self.link, self.take, self.close = ready, link, take, close
        self.came, self.waits, self.is_open = bytearray(), bytearray(), True
        ready.register(link, READ, self.act)

    def __str__(self):
        return "a client with a connection"

    @property
    def is_full(self):
        return len(self.waits) > self.most

    def act(self, events):
        """Reads and writes what may be."""
        if events & WRITE:
            self.write()
        if events & READ and self.is_open:
            self.read()

    def read(self):
        try:
            data = self.link.recv(1 << 16)
        except BlockingIOError:
            return
        except OSError:
            data = b""
        if not data:
            self.end("it closed")
            return
        self.came += data
        for packet in self.packets():
            self.take(packet)

    def packets(self):
        """The packets that are whole."""
        at = 0
        while self.is_open and len(self.came) - at >= 4:
            size, = struct.unpack_from(">i", self.came, at)
            if not 0 <= size <= MOST_KEPT:
                self.end(f"a packet of {size} bytes")
            elif len(self.came) - at < 4 + size:
                break
            else:
                yield bytes(self.came[at + 4:at + 4 + size])
                at += 4 + size
        del self.came[:at]

    def send(self, data):
        """Sends a packet, now or when the other end takes it."""
        if self.is_open:
            self.waits += osc.sized(data)
            self.write()

    def write(self):
        try:
            sent = self.link.send(self.waits) if self.waits else 0
            del self.waits[:sent]
        except BlockingIOError:
            pass
        except OSError:
            self.end("it closed")
        if self.is_open:
            self.ready.modify(self.link, READ | WRITE if self.waits else READ, self.act)

    def end(self, reason):
        """Ends the connection."""
        if self.is_open:
            self.is_open = False
            self.ready.unregister(self.link)
            self.link.close()
            self.close(self, reason)
