#!/usr/bin/env python3
"""Keeps a session for hours, and says each minute what became of it.

    python3 bench/soak.py SNOVA HOURS [PICTURE.svg] [--window]

A client plays 10 notes a second, each 0.2 s ahead, and another client takes its place each minute. The player reads
3 % too slowly and 3 % too fast in turn, a minute each, and looks whether each frame follows the one before. The
table has, of each minute, the memory of the keeper and of the server in megabytes, the server's load, how many
milliseconds the worst block until then was late, and what is missing by its count: notes that didn't start, notes
that didn't end, replies, and frames. The picture shows memory and lateness. With `--window` a browser's place is taken
by what reads all that the window tells; the log says in both cases how many blocks were late.
"""
import array
import http.client
import os
import socket
import sys
import tempfile
import threading
import time
from pathlib import Path

TOP = Path(__file__).resolve().parent.parent
sys.path += [str(TOP / "bridge"), str(TOP / "bridge/tests")]

import lasting  # noqa: E402
import sounds  # noqa: E402
from converter import osc  # noqa: E402
from converter.osc import Message  # noqa: E402

# Seconds in which a client plays, between two of its notes, and in which the last answers must come.
MINUTE, EACH, MOST_WAIT = 60, 0.1, 20
SPEEDS = (0.97, 1.03)
COLUMNS = ("keeper MB", "server MB", "load %", "worst ms", "no start", "no end", "no reply", "gaps")


class Player:
    """Reads at speeds in turn, and keeps the count of frames and of gaps in a file."""

    def __init__(self, path):
        self.path, self.frames, self.gaps, self.last, self.rest = Path(path), 0, 0, None, b""

    def run(self):
        due, before = 0.0, time.monotonic()
        while True:
            time.sleep(0.004)
            now = time.monotonic()
            due += (now - before) * lasting.RATE * SPEEDS[int(now / MINUTE) % 2]
            before = now
            while due > self.frames + 64:
                data = os.read(0, min(4096, int(due - self.frames) * lasting.WIDE))
                if not data:
                    return
                self.take(data)

    def take(self, data):
        """Looks whether the saw goes on."""
        data = self.rest + data
        whole = len(data) // lasting.WIDE * lasting.WIDE
        self.rest = data[whole:]
        saw = array.array("h", data[:whole])[::2]
        for value in saw:
            if self.last and value - self.last not in lasting.RISES and not self.last > lasting.TOP:
                self.gaps += 1
            self.last = value
        self.frames += len(saw)
        if self.frames // 4800 > (self.frames - len(saw)) // 4800:
            new = self.path.with_suffix(".new")
            new.write_text(f"{self.frames} {self.gaps}")
            new.replace(self.path)


class Notes:
    """A client that plays notes for a minute, and counts what comes back."""

    def __init__(self, port, first):
        self.link, self.first = socket.socket(socket.AF_INET, socket.SOCK_DGRAM), first
        self.link.connect(("127.0.0.1", port))
        self.asked = self.started = self.ended = self.replies = 0
        self.status = []
        self.send(Message("/notify", [1]))

    def send(self, packet):
        self.link.send(osc.encoded(packet))

    def play(self):
        """Plays, and waits for the last answers."""
        begin = time.monotonic()
        for count in range(int(MINUTE / EACH)):
            self.note(self.first + count)
            self.hear(begin + (count + 1) * EACH)
        self.send(Message("/status", []))
        until = time.monotonic() + MOST_WAIT
        while not self.has_all() and time.monotonic() < until:
            self.hear(min(until, time.monotonic() + EACH))
        self.send(Message("/notify", [0]))
        self.link.close()

    def has_all(self):
        return self.status and self.asked == self.started == self.ended == self.replies

    def note(self, number):
        at = lasting.tag_of(time.time() + lasting.AHEAD)
        new = Message("/s_new", ["tone", number, 0, 0, "out", 1, "amp", 0.01])
        self.send(osc.Bundle(at, [new]))
        self.send(osc.Bundle(at + lasting.SECOND // 2, [Message("/n_free", [number])]))
        self.send(Message("/sync", [number]))
        self.asked += 1

    def hear(self, until):
        while (left := until - time.monotonic()) > 0:
            self.link.settimeout(left)
            try:
                found = osc.decoded(self.link.recv(65536))
            except TimeoutError:
                return
            self.started += found.address == "/n_go"
            self.ended += found.address == "/n_end"
            self.replies += found.address == "/synced"
            self.status = found.arguments if found.address == "/status.reply" else self.status

    def row(self, session, gaps):
        """What is said of the minute."""
        load, worst = (self.status[6], self.status[9]) if self.status else (0.0, 0.0)
        return [megabytes(session.program.pid), megabytes(session.child("serve")), load, worst,
                self.asked - self.started, self.asked - self.ended, self.asked - self.replies, gaps]


def megabytes(program):
    """The memory of a program."""
    return int(Path(f"/proc/{program}/statm").read_text().split()[1]) * os.sysconf("SC_PAGE_SIZE") / 1e6


def line(values, top, colour):
    """A line of a picture of 600 by 200, whose greatest value is at the top."""
    step = 600 / max(1, len(values) - 1)
    points = " ".join(f"{at * step + 50:.1f},{220 - 200 * value / top:.1f}" for at, value in enumerate(values))
    return f'<polyline points="{points}" fill="none" stroke="{colour}"/>'


def picture(rows, path):
    """Draws memory and lateness over the minutes."""
    parts = ['<svg xmlns="http://www.w3.org/2000/svg" width="700" height="260" font-family="sans-serif"',
             'font-size="11">', '<rect width="700" height="260" fill="white"/>', '<path d="M50 20V220H650" fill="none" stroke="black"/>']
    for place, (at, colour) in enumerate(((0, "navy"), (1, "green"), (3, "red"))):
        values = [row[at] for row in rows]
        top = max(max(values), 0.001)
        parts.append(line(values, top, colour))
        parts.append(f'<text x="{60 + 200 * place}" y="14" fill="{colour}">{COLUMNS[at]}, at most {top:.1f}</text>')
    parts.append(f'<text x="600" y="240">{len(rows)} minutes</text></svg>')
    Path(path).write_text("\n".join(parts) + "\n")


def watch(port):
    """Reads what the window tells, as an open page does, and comes back when it ends."""
    while True:
        link = http.client.HTTPConnection("127.0.0.1", port)
        try:
            link.request("GET", "/events")
            reply = link.getresponse()
            while reply.readline():
                pass
        except OSError:
            pass
        time.sleep(1)


def window():
    """The words for a session with a window, which is read from now on."""
    port = lasting.free_port()
    threading.Thread(target=watch, args=(port,), daemon=True).start()
    return [f"window={port}"]


def soak(snova, minutes, path, more):
    rows, command = [], f"{sys.executable} {Path(__file__).resolve()} --read"
    print("minute | " + " | ".join(COLUMNS), flush=True)
    with tempfile.TemporaryDirectory() as folder:
        counted = Path(folder) / "counted"
        with lasting.Session(snova, folder, 1, f"{command} {counted}", more) as session:
            session.ask("/d_recv", (sounds.DATA / "taken.scsyndef").read_bytes(), reply="/done")
            for minute in range(minutes):
                notes = Notes(session.port, 1000 + minute * int(MINUTE / EACH))
                notes.play()
                gaps = int(counted.read_text().split()[1]) if counted.exists() else 0
                rows.append(notes.row(session, gaps))
                print(f"{minute + 1} | " + " | ".join(f"{value:.1f}" if isinstance(value, float) else str(value)
                                                       for value in rows[-1]), flush=True)
                picture(rows, path)
            print(session.log.read_text())


def main():
    if sys.argv[1] == "--read":
        Player(sys.argv[2]).run()
        return
    snova, hours, *rest = [word for word in sys.argv[1:] if word != "--window"]
    more = window() if "--window" in sys.argv else []
    soak(snova, max(1, round(float(hours) * 60)), rest[0] if rest else "soak.svg", more)


if __name__ == "__main__":
    main()
