#!/usr/bin/env python3
"""Lets sclang, and other programs that send to scsynth, play `snova serve`.

    python3 bridge/live.py [--rate FRAMES] [--memory WORDS] [--clients N] [--strict] PORT SNOVA_PORT
    python3 bridge/live.py [KEY=VALUE ..]

With settings it starts a server and a player itself, and starts them again when they end (docs/INSTALLATION.md).
Otherwise it listens on PORT of this machine, over UDP and over TCP, and is the one client of the `snova serve` that listens on
SNOVA_PORT, for which it waits. Replies go to the client that asked, and notifications to those that are registered
(`/notify`); when N are, 8 by default, and one more comes, the one goes that was heard of longest ago. What is refused
is reported once on standard error, and to the client by `/fail` with the address and the reason; with `--strict` the
first refusal ends the run with status 1. While it runs, sclang finds in /dev/shm the waves that it shows (`s.scope`). It
ends with status 0 when `snova` has ended after `/quit`.
"""
import argparse
import signal
import sys

from converter.gateway import Gateway
from converter.live import Live
from converter.session import MEMORY
from keeper.keeping import keep
from keeper.settings import BadSetting, settings, usage


def options():
    parser = argparse.ArgumentParser(description="Lets sclang play snova serve.")
    parser.add_argument("--rate", type=int, default=48000, help="frames a second of the server, 48000")
    parser.add_argument("--memory", type=int, default=MEMORY, metavar="WORDS",
                        help=f"words that snova has for buffers, {MEMORY}")
    parser.add_argument("--clients", type=int, default=8, choices=range(1, 17), metavar="N",
                        help="how many may be registered for notifications, 1 to 16, 8")
    parser.add_argument("--strict", action="store_true", help="end at the first refusal")
    parser.add_argument("port", type=int, metavar="PORT", help="where sclang sends to")
    parser.add_argument("server", type=int, metavar="SNOVA_PORT", help="where snova serve listens")
    return parser.parse_args()


def main():
    words = sys.argv[1:]
    if not any(word.isdigit() or word.startswith("-") for word in words):
        try:
            return keep(settings(words))
        except BadSetting as bad:
            print(f"{bad}\n{usage()}", file=sys.stderr)
            return 2
    given = options()
    gateway = Gateway(given.rate, given.clients, given.strict, given.memory)
    signal.signal(signal.SIGTERM, signal.default_int_handler)
    try:
        Live(given.port, given.server, gateway).run()
    except OSError as wrong:
        print(f"port {given.port}: {wrong.strerror}", file=sys.stderr)
        return 2
    except KeyboardInterrupt:
        pass
    return 1 if gateway.is_over else 0


if __name__ == "__main__":
    sys.exit(main())
