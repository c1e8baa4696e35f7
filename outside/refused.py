"""Refuses memory and threads to a program, at each call that asks for one in turn: python3 refused.py SNOVA [-k WORD] [--workers 1,4] [--random N] [--seed N].

It needs a C compiler `cc` and the GNU C library, for `refuse.c`. A stream with a parallel group is rendered, and connections of each end and two
clients at once are served, by each number of workers; and N streams by chance are rendered. Once only the call of a number is refused, and once it
and all later ones. Each time the program must end as it does with all memory there, or with `no memory`, and the files and the replies must be
those, or a part from their begin. It prints each other end, and how many ends there were of each kind.
"""
import argparse
import collections
import functools
import os
import socket
import subprocess
import sys
import tempfile
import time
from pathlib import Path

import osc
import serving
from cases import recv
from random_cases import Chance, play

HERE = Path(__file__).resolve().parent
SYNC = osc.frame(osc.message("/sync", 7))
SYNCED = osc.frame(osc.message("/synced", 7))
# What comes over a connection, its replies, and how it ends with all memory there.
CONNECTIONS = [
    ("a message", SYNC, SYNCED, ("closed", 0)),
    ("the front of a packet", SYNC[:7], b"", ("cut after 7 bytes", 10)),
    ("a packet at fault", osc.frame(b"A\0\0\0"), osc.frame(osc.message("/fail", "packet", "bad packet")), ("closed", 0)),
    ("a size of 6", b"\0\0\0\x06", b"", ("bad frame size 6", 11)),
    ("a quit", osc.frame(osc.message("/quit")), osc.frame(osc.message("/done", "/quit")), ("quit", 0)),
]
TONES = [osc.message("/s_new", "tone", 10 + i, 1, 1, "out", 16 + i) for i in range(4)]
COMMANDS = [*map(lambda it: osc.message(*it), recv("tone", "mix")), osc.message("/p_new", 1, 0, 0), *TONES, osc.message("/s_new", "mix", 20, 1, 0)]
STREAM = osc.frame(osc.bundle(0, *COMMANDS)) + osc.frame(osc.bundle(1 << 32))
OVER, NO_MEMORY, WAITS = ("over", 0), ("no memory", 1), ("waits for good", None)
# With several workers the calls come in another order each time. So the last number is passed a few times.
PASSED = 5


class Refusing:
    """Runs a program to which one call is refused, or all from one on."""

    def __init__(self, snova, library, folder):
        self.snova, self.library, self.folder = snova, library, folder

    def started(self, words, at, goes_on):
        """The program, and where it tells that a call was refused."""
        told, tells = os.pipe()
        env = {**os.environ, "LD_PRELOAD": self.library, "REFUSE_AT": str(at), "REFUSE_TELL": str(tells)}
        if goes_on:
            env["REFUSE_ALL"] = ""
        for name in ("sound", "replies"):
            (self.folder / name).unlink(missing_ok=True)
        program = subprocess.Popen([self.snova, *words], cwd=self.folder, env=env, pass_fds=[tells], stdout=subprocess.PIPE, stderr=subprocess.DEVNULL)
        os.close(tells)
        return program, told

    def ended(self, program, told):
        """Whether a call was refused, the line and the status."""
        try:
            how = program.communicate(timeout=120)[0].decode().rstrip("\n"), program.returncode
        except subprocess.TimeoutExpired:
            program.kill()
            program.communicate()
            how = WAITS
        with open(told, "rb") as file:
            return file.read() != b"", how

    def written(self, name):
        path = self.folder / name
        return path.read_bytes() if path.exists() else b""

    def render(self, workers, at, goes_on, stream=STREAM):
        """Whether a call was refused, how the program ended, the sound and the replies."""
        (self.folder / "commands").write_bytes(stream)
        running = self.started(["render", "channels=1", f"workers={workers}", "commands", "sound", "replies"], at, goes_on)
        return *self.ended(*running), self.written("sound"), self.written("replies")

    def serve(self, data, replies, workers, at, goes_on):
        port = serving.free_port()
        program, told = self.started(["serve", "memory=65536", f"workers={workers}", str(port), "sound"], at, goes_on)
        got = served(program, port, 1, data, len(replies), 60)
        refused, how = self.ended(program, told)
        return refused, how, self.written("sound"), b"".join(got)

    def serve_two(self, workers, at, goes_on):
        """The same of two clients, with what each of them gets."""
        port = serving.free_port()
        program, told = self.started(["serve", "clients=2", "memory=65536", f"workers={workers}", str(port), "sound"], at, goes_on)
        got = served(program, port, 2, SYNC, len(SYNCED), 3)
        refused, how = self.ended(program, told)
        return refused, how, self.written("sound"), got


def connected(program, port, patience):
    """A connection, or None where the program ended before it listened."""
    while program.poll() is None:
        try:
            return socket.create_connection(("127.0.0.1", port), timeout=patience)
        except (ConnectionRefusedError, ConnectionResetError):
            time.sleep(0.002)
    return None


def answer(link, data, length):
    """What a client gets that sends some bytes, and waits for its replies, which have this length."""
    try:
        link.sendall(data)
        return serving.received(link, length)
    except OSError:
        return b""


def stop(link):
    """Nothing more is sent."""
    try:
        link.shutdown(socket.SHUT_WR)
    except OSError:
        pass


def served(program, port, count, data, length, patience):
    """What each of so many clients gets. None stops before each had its replies, or lost its patience, in seconds."""
    links = [link for link in [connected(program, port, patience) for _ in range(count)] if link]
    got = [answer(link, data, length) for link in links]
    for link in links:
        stop(link)
    got = [some + serving.received(link, 1 << 20) for some, link in zip(got, links)]
    for link in links:
        link.close()
    return got


def is_part(some, whole):
    return whole[:len(some)] == some


def is_wrong_render(whole, how, sound, replies):
    """Whether a rendering ended as it may not."""
    if how == whole[0]:
        return (how, sound, replies) != whole
    return how != NO_MEMORY or not is_part(sound, whole[1]) or not is_part(replies, whole[2])


def is_wrong_serve(wanted, end, whole, how, sound, replies):
    """The same of a connection, whose sound is as long as it stood. The end with all memory there must be the one that it should have."""
    if whole[0] != end or sound.strip(b"\0") or not is_part(replies, wanted):
        return True
    return how != NO_MEMORY and (how != end or replies != wanted)


def is_wrong_two(whole, how, sound, replies):
    """The same of two clients. One that is not read on for want of memory ends nothing."""
    if whole[0] != OVER or whole[2] != [SYNCED] * 2 or sound.strip(b"\0"):
        return True
    return how not in (OVER, NO_MEMORY) or not all(is_part(it, SYNCED) for it in replies)


def refuse_in_turn(what, run, is_wrong, workers, goes_on):
    """How often each end came, and how many were wrong."""
    ends, wrong, passed, at = collections.Counter(), 0, 0, 0
    whole = run(workers, -1, False)[1:]
    while passed < PASSED:
        refused, *came = run(workers, at, goes_on)
        if is_wrong(whole, *came):
            wrong += 1
            print(f"{what}, {workers} workers, call {at}{' and later ones' * goes_on}: {came[0]}, {len(came[1])} bytes of sound, replies {came[2]!r:.200}", flush=True)
        ends[came[0][0]] += refused
        passed += not refused
        at += 1
    told = ", ".join(f"{count} times `{line}`" for line, count in sorted(ends.items()))
    print(f"{what}, {workers} workers, {'all calls from one on' if goes_on else 'one call'} refused: {told}", flush=True)
    return wrong


def tries(refusing, seeds):
    """What is run, how, and which ends are wrong."""
    rows = [("render", refusing.render, is_wrong_render)]
    for name, data, replies, end in CONNECTIONS:
        rows.append((f"serve {name}", functools.partial(refusing.serve, data, replies), functools.partial(is_wrong_serve, replies, end)))
    rows.append(("serve two clients", refusing.serve_two, is_wrong_two))
    for seed in seeds:
        rows.append((f"random {seed}", functools.partial(refusing.render, stream=play(Chance(seed))), is_wrong_render))
    return rows


def library(folder):
    """The library that refuses."""
    made = os.path.join(folder, "refuse.so")
    subprocess.run(["cc", "-O1", "-shared", "-fPIC", "-o", made, HERE / "refuse.c"], check=True)
    return made


def main():
    parser = argparse.ArgumentParser()
    parser.add_argument("snova", help="the built program")
    parser.add_argument("-k", default="", help="only what has this word in its name")
    parser.add_argument("--workers", default="1,4", help="numbers of workers")
    parser.add_argument("--random", type=int, default=0, help="so many streams by chance besides")
    parser.add_argument("--seed", type=int, default=1, help="the first of them")
    given = parser.parse_args()
    with tempfile.TemporaryDirectory() as folder:
        refusing, wrong = Refusing(os.path.abspath(given.snova), library(folder), Path(folder)), 0
        rows = tries(refusing, range(given.seed, given.seed + given.random))
        for workers in given.workers.split(","):
            for goes_on in (False, True):
                for what, run, is_wrong in rows:
                    if given.k in what:
                        wrong += refuse_in_turn(what, run, is_wrong, workers, goes_on)
    print(f"{wrong} wrong ends")
    return 1 if wrong else 0


if __name__ == "__main__":
    sys.exit(main())
