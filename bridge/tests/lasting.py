#!/usr/bin/env python3
"""Tries the keeper with the built program and players, prints what is other than it should be, and exits with 1 then.

    python3 bridge/tests/lasting.py SNOVA [--timed SECONDS]

Players and servers are killed and stopped, and the sound must go on without a gap in it; a node is freed from the
window. With `--timed` it says for readers 20 % slow and 20 % fast how far bundles that were 0.2 s ahead sounded from
their times, which is for a machine with nothing else at work on it.
"""
import http.client
import os
import re
import signal
import socket
import struct
import subprocess
import sys
import tempfile
import time
from pathlib import Path
from urllib.parse import urlencode

import sounds

from converter import osc
from converter.osc import Bundle, Message
from keeper.server import free_port
from keeper.timing import SECOND, tag_of

LIVE = Path(__file__).resolve().parent.parent / "live.py"
READER = Path(__file__).resolve().with_name("reader.py")
RATE, WIDE, AHEAD = 48000, 4, 0.2
# A saw whose samples rise by two or three from one frame to the next, in the first channel.
RAMP = b"snova 1\ndef ramp\na = LFSaw 1500 0\nOut.ar 0 a\nend\n"
RISES, TOP = (1, 2, 3), 32700
PATIENCE = 60.0


class Session:
    """A keeper, its log, and a client."""

    def __init__(self, snova, folder, speed, player="", more=()):
        self.folder, self.port = Path(folder), free_port()
        self.score, self.log = self.folder / "score.osc", self.folder / "log"
        messages = [Message("/d_recv", [RAMP]), Message("/s_new", ["ramp", 99, 0, 0])]
        self.score.write_bytes(osc.sized(osc.encoded(Bundle(1, messages))))
        player = player or f"{sys.executable} -S -E {READER} {speed} {self.folder / 'sound'}"
        words = [f"snova={snova}", f"port={self.port}", f"player={player}", f"score={self.score}", f"log={self.log}",
                 *more]
        self.program = subprocess.Popen([sys.executable, LIVE, *words])
        self.link = socket.socket(socket.AF_INET, socket.SOCK_DGRAM)
        self.link.settimeout(PATIENCE)
        self.logged("the server was started")
        self.logged("the player was started")
        self.link.connect(("127.0.0.1", self.port))

    def __enter__(self):
        return self

    def __exit__(self, *_):
        self.program.terminate()
        self.program.wait(timeout=PATIENCE)

    def send(self, address, *arguments):
        self.link.send(osc.encoded(Message(address, list(arguments))))

    def send_for(self, seconds, address, *arguments):
        """Sends a bundle for a time ahead, and answers that time by the monotonic clock."""
        tag, due = tag_of(time.time() + seconds), time.monotonic() + seconds
        self.link.send(osc.encoded(Bundle(tag, [Message(address, list(arguments))])))
        return due

    def answer(self, address):
        """The arguments of the next reply with an address."""
        while True:
            found = osc.decoded(self.link.recv(65536))
            if found.address == address:
                return found.arguments

    def ask(self, address, *arguments, reply):
        self.send(address, *arguments)
        return self.answer(reply)

    def logged(self, words, count=1):
        """Waits until the log has words so many times."""
        until = time.monotonic() + PATIENCE
        while time.monotonic() < until:
            text = self.log.read_text() if self.log.exists() else ""
            if text.count(words) >= count:
                return
            time.sleep(0.05)
        raise TimeoutError(f"the log has no further line: {words}")

    def child(self, word):
        """The number of a program that the keeper started, by a word of its command."""
        for each in Path("/proc").glob("[0-9]*"):
            try:
                parent = int((each / "stat").read_text().rpartition(")")[2].split()[1])
                if parent == self.program.pid and word in (each / "cmdline").read_text().split("\0"):
                    return int(each.name)
            except (OSError, ValueError):
                pass
        raise ProcessLookupError(word)

    def played(self, count):
        """Waits until so many players have kept half a second each."""
        until = time.monotonic() + PATIENCE
        while time.monotonic() < until:
            found = [path.stat().st_size > RATE // 2 * WIDE for path in self.sounds()]
            if len(found) >= count and all(found):
                return
            time.sleep(0.05)
        raise TimeoutError(f"the {count}. player keeps no sound")

    def sounds(self):
        """The files that players kept, the first one first."""
        return sorted(self.folder.glob("sound.*.pcm"), key=lambda path: path.stat().st_ctime)


def channels(path):
    """Both channels of a sound."""
    data = path.read_bytes()
    samples = struct.unpack(f"<{len(data) // WIDE * 2}h", data[:len(data) // WIDE * WIDE])
    return samples[::2], samples[1::2]


def gaps(path):
    """Where the saw in a sound doesn't go on, from its first frame on."""
    saw = channels(path)[0]
    begin = next((at for at, value in enumerate(saw) if value), len(saw))
    return [at for at in range(begin + 1, len(saw))
            if saw[at] - saw[at - 1] not in RISES and not (saw[at - 1] > TOP and saw[at] < -TOP)]


def compare(what, wanted, found):
    if wanted != found:
        yield f"{what}: wanted {wanted}, got {found}"


def whole(session):
    """What players kept has sound, and no gap in it."""
    for path in session.sounds():
        yield from compare(f"gaps of {path.name}", [], gaps(path)[:5])
    yield from compare("a sound", True, any(any(channels(path)[0]) for path in session.sounds()))


def readers(snova):
    """With a slow and with a fast reader no block is lost."""
    for speed in (0.8, 1.2):
        with tempfile.TemporaryDirectory() as folder, Session(snova, folder, speed) as session:
            session.played(1)
            time.sleep(2)
            yield from whole(session)


def players(snova):
    """A player that is killed, and one that stops reading, are started again, and the sound goes on."""
    with tempfile.TemporaryDirectory() as folder, Session(snova, folder, 1) as session:
        session.played(1)
        for count, number in ((2, signal.SIGKILL), (3, signal.SIGSTOP)):
            os.kill(session.child(str(READER)), number)
            session.played(count)
        yield from whole(session)


def set_up(session):
    """Gives the server what is to come back."""
    session.ask("/notify", 1, reply="/done")
    session.ask("/d_recv", (sounds.DATA / "taken.scsyndef").read_bytes(), reply="/done")
    session.send("/g_new", 1, 0, 0)
    session.send("/s_new", "tone", 1000, 0, 1, "freq", 330, "out", 1)
    session.send("/b_alloc", 3, 8, 1)
    session.send("/b_setn", 3, 2, 3, 0.5, 0.25, -0.5)
    session.send("/c_set", 5, 0.5)
    session.send_for(2 * PATIENCE, "/s_new", "tone", 1001, 1, 1)
    session.ask("/sync", 1, reply="/synced")


ASKED = [("/b_getn", [3, 1, 5], "/b_setn"), ("/c_get", [5], "/c_set"), ("/g_queryTree", [0, 1], "/g_queryTree.reply")]


def servers(snova):
    """A server that is killed while notes sound comes back with what it had."""
    with tempfile.TemporaryDirectory() as folder, Session(snova, folder, 1) as session:
        set_up(session)
        before = [session.ask(address, *given, reply=reply) for address, given, reply in ASKED]
        os.kill(session.child("serve"), signal.SIGKILL)
        yield from compare("what is lost", [0, 0], session.answer("/snova/restarted"))
        session.ask("/sync", 2, reply="/synced")
        after = [session.ask(address, *given, reply=reply) for address, given, reply in ASKED]
        yield from compare("what is there", before, after)
        session.logged("1 bundles that wait")


def formats(snova):
    """A server starts also where whole blocks don't fill its pipe."""
    for more in ["bits=24"], ["channels=3"], ["bits=24", "channels=8"]:
        with tempfile.TemporaryDirectory() as folder, Session(snova, folder, 1, more=more):
            yield from ()


def fetched(port, method, path, fields=None):
    """The status and the text of a page of the window; a form is sent as from the page itself."""
    link, place = http.client.HTTPConnection("127.0.0.1", port, timeout=PATIENCE), f"127.0.0.1:{port}"
    lines = {"Origin": f"http://{place}", "Content-Type": "application/x-www-form-urlencoded"} if fields else {}
    link.request(method, path, urlencode(fields) if fields else None, lines)
    reply = link.getresponse()
    return reply.status, reply.read().decode()


def window(snova):
    """The page shows what plays, and a node that is freed from it ends; a page that ended comes back."""
    port = free_port()
    with tempfile.TemporaryDirectory() as folder, Session(snova, folder, 1, more=[f"window={port}"]) as session:
        session.played(1)
        session.ask("/notify", 1, reply="/done")
        until, page = time.monotonic() + PATIENCE, ""
        while "99 ramp" not in page and time.monotonic() < until:
            time.sleep(0.1)
            page = fetched(port, "GET", "/list")[1]
        token = re.search(r'name=token value="([^"]+)"', page)[1]
        yield from compare("a stranger", 403, fetched(port, "POST", "/do", {"token": "a", "what": "free", "node": 99})[0])
        done = fetched(port, "POST", "/do", {"token": token, "what": "free", "node": 99})
        yield from compare("what is answered", (200, True), (done[0], "/n_end 99 0 -1 -1 0" in done[1]))
        yield from compare("what clients are told", [99, 0, -1, -1, 0], session.answer("/n_end"))
        os.kill(session.child("keeper.window"), signal.SIGKILL)
        session.logged("the window has ended")
        yield from compare("the page again", 200, fetched(port, "GET", "/")[0])


# By hand.

def taken_at(path, frame):
    """When a player took a frame."""
    before = None
    for line in path.with_suffix(".times").read_text().splitlines():
        now, count = float(line.split()[0]), int(line.split()[1])
        if before and count > frame:
            return before[0] + (now - before[0]) * (frame - before[1]) / (count - before[1])
        before = now, count
    raise ValueError("the player didn't take it")


def timed(snova, seconds):
    """How many blocks from their times bundles sounded, at the begin and at the end."""
    for speed in (0.8, 1.0, 1.2):
        with tempfile.TemporaryDirectory() as folder, Session(snova, folder, speed) as session:
            session.ask("/d_recv", (sounds.DATA / "taken.scsyndef").read_bytes(), reply="/done")
            due = []
            time.sleep(3)
            for number in range(int(seconds)):
                due.append(session.send_for(AHEAD, "/s_new", "tone", 2000 + number, 0, 0, "out", 1))
                time.sleep(0.5)
                session.send("/n_free", 2000 + number)
                time.sleep(0.5)
            time.sleep(1)
            path = session.sounds()[0]
            tone, found, frame = channels(path)[1], [], 0
            for wanted in due:
                while not tone[frame]:
                    frame += 1
                found.append((taken_at(path, frame) - wanted) * RATE / 64)
                frame += RATE // 4
                while any(tone[frame:frame + 480]):
                    frame += 64
            print(f"a reader at {speed} of the rate:", *(f"{each:.1f}" for each in found), "blocks;",
                  f"{len(gaps(path))} gaps")


CHECKS = [readers, players, servers, formats, window]


def main():
    if "--timed" in sys.argv:
        timed(sys.argv[1], float(sys.argv[3]))
        return 0
    wrong = [line for check in CHECKS for line in check(sys.argv[1])]
    for line in wrong:
        print(line)
    return 1 if wrong else 0


if __name__ == "__main__":
    sys.exit(main())
