"""Damaged streams and packets by the thousand, without the model:
python3 fuzz.py SNOVA [--streams N] [--packets N] [--seed N]

Each stream is rendered, dumped or planned. The packets go over connections, of which one, two or three make a
session. Each packet stands in a frame of its own, so that all that follow are read. After each thousand a number
is asked for, which must be answered.

A run gets as many seconds and as much memory as LIMITS gives by the bytes that are sent: it is killed where it
takes longer, and has no memory where it takes more. Each run that is killed, ends by a signal, runs out of memory,
or has another line or status than docs/STATUSES.md has for what was sent, is printed. At the end a table says how
often each answer came.
"""
import argparse
import collections
import os
import re
import selectors
import socket
import struct
import subprocess
import sys
import tempfile
import time

import osc
import random_cases
import serving
from damage import WAYS, damaged_case, damaged_packet

# What a run gets: without any byte, and more for each byte that is sent.
LIMITS = {"seconds": (20, 1e-4), "bytes of addresses": (32 << 20, 64)}
SESSION, ASKED = 5000, 1000  # packets of a session, and of those before a number is asked for
STREAM_LINES = re.compile(r"done \d+ (blocks|packets)|bad stream: packet \d+, byte \d+, fault P\d+|"
                          r"sound too long: \d+ blocks")
STATUSES = {"done": 0, "bad": 3, "sound": 5}


class Tally:
    """How often each answer came, the most seconds of a run, and the runs that are other than they should be."""

    def __init__(self):
        self.answers, self.seconds, self.wrong = collections.Counter(), 0, []

    def fault(self, name, text):
        self.wrong.append(name)
        print(f"{name}: {text}", flush=True)


def limit(what, size):
    """How much a run gets over which so many bytes are sent."""
    base, more = LIMITS[what]
    return base + more * size


def started(command, size, folder):
    """A program that gets the memory for so many bytes."""
    command = ["prlimit", f"--as={limit('bytes of addresses', size)}", *command]
    return subprocess.Popen(command, cwd=folder, stdout=subprocess.PIPE, stderr=subprocess.DEVNULL)


def ended(program, seconds):
    """The line and the status of a program, which is killed after so many seconds."""
    try:
        line, _ = program.communicate(timeout=seconds)
    except subprocess.TimeoutExpired:
        program.kill()
        line, _ = program.communicate()
    return line.decode().rstrip("\n"), program.returncode


# ---- streams

def run_stream(tally, snova, seed, folder):
    """A damaged stream that is rendered, dumped or planned."""
    name, words, data = damaged_case(seed)
    with open(os.path.join(folder, "commands"), "wb") as file:
        file.write(data)
    form = [["render", *words, "commands", "sound", "replies"], ["dump", "commands", "out"],
            ["plan", *words, "commands", "out"]][seed % 3]
    began = time.monotonic()
    program = started([snova, *form], len(data), folder)
    line, status = ended(program, limit("seconds", len(data)))
    tally.seconds = max(tally.seconds, time.monotonic() - began)
    if not STREAM_LINES.fullmatch(line) or status != STATUSES[line.split()[0]]:
        tally.fault(name, f"{form[0]} ended with {line!r} and {status}")
    tally.answers["file: " + re.sub(r" packet.*,| \d+", "", line)] += 1


# ---- packets

def wholes(chance):
    """Packets without damage: single messages, bundles, and the frames of a piece."""
    found = [osc.message(*random_cases.random_message(chance)) for _ in range(400)]
    for _ in range(100):
        inner = [osc.message(*random_cases.random_message(chance)) for _ in range(chance.randint(1, 4))]
        found.append(osc.bundle(chance.choice([0, 1, 1, 5]), *inner, osc.bundle(chance.choice([1, 5, 4]), *inner[:2])))
    found += [osc.message("/d_recv", random_cases.faulty_text(chance)) for _ in range(50)]
    return found


def number_asked(number):
    return osc.frame(osc.message("/sync", number))


def number_answered(number):
    return osc.frame(osc.message("/synced", number))


class Peer:
    """A client that sends pieces, each with a number behind it, and waits for each number."""

    def __init__(self, link, pieces):
        self.link, self.pieces, self.sending, self.number = link, pieces, b"", 1 << 30
        self.got, self.looked = bytearray(), 0
        link.setblocking(False)

    def next_piece(self):
        """Begins the next piece, or says that no more comes."""
        if not self.pieces:
            self.link.shutdown(socket.SHUT_WR)
            return
        self.number += 1
        self.sending = self.pieces.pop(0) + number_asked(self.number)

    def write(self):
        try:
            self.sending = self.sending[self.link.send(self.sending):]
        except BlockingIOError:
            pass

    def read(self):
        """Whether the connection is still open."""
        try:
            data = self.link.recv(1 << 18)
        except BlockingIOError:
            return True
        self.got += data
        if not self.sending and self.got.find(number_answered(self.number), self.looked) >= 0:
            self.looked = len(self.got)
            self.next_piece()
        else:
            self.looked = max(self.looked, len(self.got) - 64)
        return bool(data)


def converse(peers, seconds):
    """Lets clients send and hear until each connection is closed by the other end; whether that came in time."""
    end, open_links = time.monotonic() + seconds, len(peers)
    with selectors.DefaultSelector() as selector:
        for peer in peers:
            peer.next_piece()
            selector.register(peer.link, selectors.EVENT_READ | selectors.EVENT_WRITE, peer)
        while open_links and time.monotonic() < end:
            for key, events in selector.select(1):
                peer = key.data
                if events & selectors.EVENT_WRITE:
                    peer.write()
                if events & selectors.EVENT_READ and not peer.read():
                    selector.unregister(peer.link)
                    open_links -= 1
                    continue
                selector.modify(peer.link, selectors.EVENT_READ | (selectors.EVENT_WRITE if peer.sending else 0), peer)
    return open_links == 0


def named(packet):
    """What a reply counts as: a refusal by its reason, and another by its address."""
    if packet.address != b"/fail":
        return packet.address.decode()
    return "/fail, " + re.sub(r"\d+", "N", packet.body[-1][1].decode())


def count_replies(tally, got):
    """Counts each reply."""
    replies, place = collections.Counter(), 0
    while place + 4 <= len(got):
        behind = place + 4 + struct.unpack_from(">i", got, place)[0]
        replies[bytes(got[place + 4:behind])] += 1
        place = behind
    for reply, count in replies.items():
        packet = osc.decode(reply)
        tally.answers[f"packet: {named(packet)}"] += count


def pieces_of(chance, whole, packets):
    """A begin without fault, and damaged packets in pieces."""
    drawn = [osc.frame(damaged_packet(chance, chance.choice(whole))) for _ in range(packets)]
    return [random_cases.play(chance), *(b"".join(drawn[place:place + ASKED]) for place in range(0, packets, ASKED))]


def run_session(tally, snova, seed, packets):
    """A session in which clients send so many damaged packets together."""
    chance, port = random_cases.Chance(seed), serving.free_port()
    count, workers = chance.choice([1, 1, 2, 3]), chance.choice([1, 1, 1, 4])
    whole = wholes(chance)
    sent = [pieces_of(chance, whole, packets // count + (number < packets % count)) for number in range(count)]
    size = sum(len(piece) for pieces in sent for piece in pieces)
    name, words = f"session {seed}", [f"clients={count}", f"workers={workers}", "memory=65536", str(port), "/dev/null"]
    program = started([snova, "serve", *words], size, None)
    peers = [Peer(serving.connected(port), pieces) for pieces in sent]
    began = time.monotonic()
    try:
        in_time = converse(peers, limit("seconds", size))
    except OSError as error:
        in_time = tally.fault(name, f"a connection failed: {error}")
    line, status = ended(program, 20 if in_time else 0)
    tally.seconds = max(tally.seconds, time.monotonic() - began)
    if (line, status) != ("over" if count > 1 else "closed", 0):
        tally.fault(name, f"ended with {line!r} and {status}, {'all' if in_time else 'not all'} was answered")
    tally.answers[f"session: {line}"] += 1
    for peer in peers:
        count_replies(tally, peer.got)
        peer.link.close()


def main():
    parser = argparse.ArgumentParser()
    parser.add_argument("snova", help="the built program")
    parser.add_argument("--streams", type=int, default=300, help="so many damaged streams in files")
    parser.add_argument("--packets", type=int, default=30000, help="so many damaged packets over connections")
    parser.add_argument("--seed", type=int, default=1, help="the first stream and the first session")
    given = parser.parse_args()
    snova, tally = os.path.abspath(given.snova), Tally()
    with tempfile.TemporaryDirectory() as folder:
        for seed in range(given.seed, given.seed + given.streams):
            run_stream(tally, snova, seed, folder)
    for session, sent in enumerate(range(0, given.packets, SESSION)):
        run_session(tally, snova, given.seed + session, min(SESSION, given.packets - sent))
    for answer, count in sorted(tally.answers.items()):
        print(f"{count:10} {answer}")
    print(f"{given.streams} damaged streams and {given.packets} damaged packets, of which a run took at most "
          f"{tally.seconds:.1f} s: {len(tally.wrong)} runs other than they should be")
    return 1 if tally.wrong else 0


if __name__ == "__main__":
    sys.exit(main())
