#!/usr/bin/env python3
"""Plays over a connection to `snova serve`, and prints each reply as it comes.

    python3 examples/live.py PORT NAME      a piece of this directory, in time, and `/quit` at its end
    python3 examples/live.py PORT           lines as they are typed: messages and definitions, as in a piece, which act at once

It waits up to ten seconds for the server, and exits with 1 if a command was refused.
"""
import contextlib
import socket
import struct
import sys
import threading
import time

import make
from replies import packets, shown

# Seconds by which a bundle is sent ahead, and from 1900, as time tags count, to 1970, as the clock does.
AHEAD = 0.2
SINCE_1900 = 2208988800
# The number of the `/sync` that is sent after the last line that was typed.
LAST = 2**31 - 1


def connect(port):
    until = time.monotonic() + 10
    while True:
        try:
            found = socket.create_connection(("127.0.0.1", port))
        except ConnectionRefusedError:
            if time.monotonic() > until:
                raise SystemExit(f"nobody listens on port {port}") from None
            time.sleep(0.05)
        else:
            found.setsockopt(socket.IPPROTO_TCP, socket.TCP_NODELAY, 1)
            return found


class Listener(threading.Thread):
    """Prints what comes over a connection until it is closed, and counts what was refused."""

    def __init__(self, connection):
        super().__init__(daemon=True)
        self.connection, self.refused, self.answered = connection, 0, threading.Event()

    def run(self):
        with contextlib.suppress(ConnectionError):
            self.listen()
        self.answered.set()

    def listen(self):
        kept = b""
        while piece := self.connection.recv(65536):
            found, kept = packets(kept + piece)
            for packet in found:
                line = shown(packet)
                if line == f"/synced {LAST}":
                    self.answered.set()
                    continue
                self.refused += line.startswith("/fail ")
                print(line, flush=True)


def play(connection, name):
    """Sends each bundle of a piece a little before its time, and `/quit` at the end."""
    piece = make.read(name)
    begin = time.time() + AHEAD
    for seconds, messages in piece:
        time.sleep(max(0, begin + float(seconds) - AHEAD - time.time()))
        tag = make.tag_at(seconds) + int((begin + SINCE_1900) * 2**32)
        if seconds == piece[-1][0]:
            messages = [*messages, make.message("/quit", [])]
        connection.sendall(make.sized(make.bundle(tag, messages)))


def type_lines(connection, listener):
    """Sends each line of the standard input as a message, and each definition by `/d_recv`.

    If the connection is closed at once, the server may end before it answers; so the answers are waited for.
    """
    reader, lines = make.Reader(), enumerate((line.rstrip("\n") for line in sys.stdin), 1)
    for place in lines:
        line = place[1]
        try:
            if line in make.TITLES or line.startswith("/"):
                connection.sendall(make.sized(reader.message_at(place, lines)))
            elif line and not line.startswith("#"):
                raise make.BadLine("it is no message")
        except make.BadLine as bad:
            print(f"not sent: {bad.shown(*place)}", file=sys.stderr)
    connection.sendall(make.sized(make.message("/sync", [LAST])))
    listener.answered.wait(10)
    connection.shutdown(socket.SHUT_WR)


def main():
    if len(sys.argv) not in (2, 3) or not sys.argv[1].isdecimal():
        raise SystemExit(__doc__.strip())
    connection = connect(int(sys.argv[1]))
    listener = Listener(connection)
    listener.start()
    if sys.argv[2:]:
        play(connection, sys.argv[2])
    else:
        with contextlib.suppress(OSError):
            type_lines(connection, listener)
    listener.join(10)
    return 1 if listener.refused else 0


if __name__ == "__main__":
    sys.exit(main())
