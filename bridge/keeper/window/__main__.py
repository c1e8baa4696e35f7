"""Serves the window of a keeper: python3 -m keeper.window FEED LISTENER, the numbers of two sockets that it has."""
import os
import signal
import socket
import sys

from .serving import Serving

# So much later than others it gets a processor.
NICE = 5


def main():
    signal.signal(signal.SIGINT, signal.SIG_IGN)
    os.nice(NICE)
    feed, listener = (socket.socket(fileno=int(word)) for word in sys.argv[1:])
    Serving(feed, listener).run()


if __name__ == "__main__":
    main()
