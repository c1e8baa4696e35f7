"""Clients that behave badly, one after another, each served by a program of its own: python3 clients.py SNOVA [-k WORD] [--random N] [--seed N].

For each it prints how the program ended, after how many seconds, how many blocks of sound it wrote, the most memory that it took, and what is other
than it should be. The ends are those of docs/STATUSES.md. The program may take 512 MiB of addresses. It takes some minutes, since a peer that takes
nothing is waited for.

N more clients send streams that were damaged by chance, and close when they have the replies that the model says.
"""
import argparse
import itertools
import os
import random
import resource
import socket
import struct
import subprocess
import sys
import tempfile
import threading
import time

import connection
import osc
import server
import serving
from damage import WAYS
from random_cases import Chance

BLOCK = 256  # bytes of two channels of 16 bits
SECOND = 750  # blocks
MOST_MEMORY = 1 << 29  # bytes of addresses
GROUPS = 4000
CLOSED, LINK_FAULT, NO_MEMORY = ("closed", 0), ("link fault", 12), ("no memory", 1)


def framed(*words):
    return osc.frame(osc.message(*words))


def answers(data):
    """The replies, as far as they are whole, as texts; each with how often it came."""
    counts, place = {}, 0
    while len(data) - place >= 4 and len(data) - place - 4 >= (size := struct.unpack_from(">i", data, place)[0]):
        packet = osc.decode(data[place + 4:place + 4 + size])
        text = " ".join([packet.address.decode("latin-1"), *(str(value if tag == "i" else value.decode("latin-1")) for tag, value in packet.body)])
        counts[text] = counts.get(text, 0) + 1
        place += 4 + size
    return counts


def all_of(link):
    """All that comes until the program has nothing more to send."""
    return serving.received(link, 1 << 40)


def closes(link):
    link.shutdown(socket.SHUT_WR)
    return all_of(link)


def stops_in_a_packet(link):
    link.sendall(framed("/sync", 7)[:7])
    time.sleep(1)
    return closes(link)


def sends_single_bytes(link):
    link.setsockopt(socket.IPPROTO_TCP, socket.TCP_NODELAY, 1)
    for number in range(100):
        for byte in framed("/sync", number):
            link.sendall(bytes([byte]))
    got = serving.received(link, 100 * len(framed("/synced", 0)))
    return got + closes(link)


def many_groups():
    return b"".join(framed("/g_new", *[word for i in range(500) for word in (1 + begin + i, 1, 0)]) for begin in range(0, GROUPS, 500))


def never_reads(link):
    """Asks for all that stands in the tree again and again. The program can't send it, and then no more is taken."""
    link.sendall(many_groups())
    try:
        while True:
            link.sendall(framed("/g_queryTree", 0, 0) * 100)
    except OSError:
        return b""


def asks_for_too_much(link):
    """Asks for all that stands in the tree, so often in one message that its replies have 260,000,000 bytes, and in eight such messages of one time."""
    now = int(time.time()) + 2208988800 << 32
    asked = osc.frame(osc.bundle(now + (2 << 32), osc.message("/g_queryTree", *[0, 0] * 6500)))
    return sends(link, [many_groups(), *[asked] * 8])


def lets_too_much_wait(link):
    """Sends messages that are due in an hour, as many as are taken."""
    now = int(time.time()) + 2208988800 << 32
    return sends(link, itertools.repeat(osc.frame(osc.bundle(now + (3600 << 32), *[osc.message("/sync", 1)] * 3200))))


def sends(link, pieces):
    """All that comes until the program ends, which gets pieces as long as it takes them."""
    try:
        for piece in pieces:
            link.sendall(piece)
    except OSError:
        pass
    return all_of(link)


def floods(link):
    """A million messages as fast as they are taken. As many wait as may, and each other one is refused."""
    parts = []
    reader = threading.Thread(target=lambda: parts.append(all_of(link)))
    reader.start()
    piece = framed("/c_set", 3, 5) * 1000
    for _ in range(1000):
        link.sendall(piece)
    time.sleep(0.1)
    link.sendall(framed("/sync", 1))
    time.sleep(1)
    link.shutdown(socket.SHUT_WR)
    reader.join()
    return parts[0]


def sends_a_size_of_minus_one(link):
    link.sendall(framed("/sync", 1) + b"\xff\xff\xff\xff" + framed("/sync", 2))
    return all_of(link)


def resets(link):
    link.sendall(framed("/sync", 7)[:7])
    time.sleep(0.1)
    link.setsockopt(socket.SOL_SOCKET, socket.SO_LINGER, struct.pack("ii", 1, 0))
    return b""


def resets_while_it_is_sent_to(link):
    """It asks for much, reads a little, and is gone."""
    link.sendall(framed("/c_getn", 0, 1024) * 1000)
    link.recv(100)
    link.setsockopt(socket.SOL_SOCKET, socket.SO_LINGER, struct.pack("ii", 1, 0))
    return b""


def packets_by_chance():
    """Packets of bytes by chance behind a begin, and how many of them are at fault."""
    chance = random.Random(1)
    packets = [(chance.choice([b"/a", b"/a\0\0,i\0\0", b"#bundle\0", b"A"]) + chance.randbytes(200))[:4 * chance.randint(1, 50)] for _ in range(1000)]
    return packets, sum(is_at_fault(packet) for packet in packets)


def is_at_fault(packet):
    try:
        osc.decode(packet)
    except osc.Fault:
        return True
    return False


PACKETS, AT_FAULT = packets_by_chance()


def sends_packets_at_fault(link):
    """A number stands behind each packet."""
    link.sendall(b"".join(osc.frame(packet) + framed("/sync", number) for number, packet in enumerate(PACKETS)))
    got = serving.received(link, AT_FAULT * len(framed("/fail", "packet", "bad packet")) + len(PACKETS) * len(framed("/synced", 0)))
    return got + closes(link)


def numbers(count):
    return {f"/synced {number}": 1 for number in range(count)}


def is_flood_answered(got):
    """Each message was taken or refused, and the number behind them was told or refused."""
    return set(got) <= {"/fail /c_set queue full", "/fail /sync queue full", "/synced 1"}


# What a client does, and how it is ended; a test of the replies; and the least and the most seconds.
CLIENTS = [
    ("leaves at once", closes, CLOSED, lambda got: got == {}, 0, 5),
    ("stops in a packet", stops_in_a_packet, ("cut after 7 bytes", 10), lambda got: got == {}, 1, 6),
    ("sends single bytes", sends_single_bytes, CLOSED, lambda got: got == numbers(100), 0, 20),
    ("sends packets at fault", sends_packets_at_fault, CLOSED, lambda got: got.pop("/fail packet bad packet", 0) == AT_FAULT and numbers(1000).items() <= got.items(), 0, 20),
    ("sends a size of -1", sends_a_size_of_minus_one, ("bad frame size -1", 11), lambda got: got in ({}, {"/synced 1": 1}), 0, 5),
    ("resets in a packet", resets, LINK_FAULT, lambda got: got == {}, 0, 5),
    ("resets while it is sent to", resets_while_it_is_sent_to, LINK_FAULT, lambda got: got == {}, 0, 15),
    ("asks for too much", asks_for_too_much, NO_MEMORY, lambda got: got == {}, 0, 120),
    ("lets too much wait", lets_too_much_wait, NO_MEMORY, lambda got: got == {}, 0, 120),
    ("floods", floods, CLOSED, is_flood_answered, 1, 120),
    ("never reads", never_reads, LINK_FAULT, lambda got: got == {}, 10, 60),
]


def damaged(seed):
    """What a client sends: numbers, in messages, bundles and bundles inside others, and then some damage."""
    chance = Chance(seed)
    parts = []
    for number in range(chance.randint(1, 12)):
        sync = osc.message("/sync", number)
        parts.append(chance.choice([sync, osc.bundle(1, sync, sync), osc.bundle(5, sync, osc.bundle(chance.choice([1, 5, 4]), sync)), osc.message("/c_get", number)]))
    data = b"".join(map(osc.frame, parts))
    for _ in range(chance.choice([1, 1, 2])):
        data = chance.choice(WAYS)(chance, data) or data
    return data


def sends_damaged(data):
    """A client, and the test of its row."""
    base = int(time.time()) + 2208988800 << 32
    line, _, sent = connection.serve(server.settings_of([]), base, [data, 1])
    wanted = answers(sent)
    is_bad = line.startswith("bad frame")

    def client(link):
        link.sendall(data)
        if is_bad:
            return all_of(link)
        got = serving.received(link, len(sent))
        return got + closes(link)

    def is_wanted(got):
        """At a bad size the numbers before it may not have had their boundary."""
        return got == wanted or is_bad and all(wanted.get(text, 0) >= count for text, count in got.items())

    return client, (line, 11 if is_bad else 10 if line.startswith("cut") else 0), is_wanted, 0, 30


def takes_little():
    resource.setrlimit(resource.RLIMIT_AS, (MOST_MEMORY, MOST_MEMORY))


def ended(program):
    """The line and the status of a program, and the most memory that it took, in MiB."""
    ends = threading.Timer(300, program.kill)
    ends.start()
    line = program.stdout.read().decode().rstrip("\n")
    _, status, used = os.wait4(program.pid, 0)
    ends.cancel()
    program.returncode = os.waitstatus_to_exitcode(status)
    return (line, program.returncode), used.ru_maxrss // 1024


def served(snova, client, folder):
    """The replies, the line and the status, the seconds, the blocks, and the memory in MiB."""
    port, sound = serving.free_port(), os.path.join(folder, "sound")
    program = subprocess.Popen([snova, "serve", str(port), sound], stdout=subprocess.PIPE, preexec_fn=takes_little)
    link = serving.connected(port)
    link.settimeout(60)
    began = time.monotonic()
    with link:
        got = client(link)
    how, memory = ended(program)
    return got, how, time.monotonic() - began, os.path.getsize(sound) / BLOCK, memory


def wrong_end(how, seconds, blocks, end, least, most):
    """What is other than it should be at the end of a session."""
    found = []
    if how != end:
        found.append(f"its end should be {end}")
    if not least <= seconds <= most:
        found.append(f"it should take {least} to {most} seconds")
    if blocks % 1 or blocks > (seconds + 1) * SECOND:
        found.append("its sound has another length")
    return found


def wrong_of(got, how, seconds, blocks, end, is_wanted, least, most):
    """What is other than it should be."""
    found = [] if is_wanted(answers(got)) else [f"other replies: {sorted(answers(got).items())[:5]}"]
    return found + wrong_end(how, seconds, blocks, end, least, most)


def main():
    parser = argparse.ArgumentParser()
    parser.add_argument("snova", help="the built program")
    parser.add_argument("-k", default="", help="only clients whose name has this word")
    parser.add_argument("--random", type=int, default=0, help="so many clients that send damaged streams")
    parser.add_argument("--seed", type=int, default=1, help="the first of them")
    given = parser.parse_args()
    drawn = ((f"damaged {seed}", *sends_damaged(damaged(seed))) for seed in range(given.seed, given.seed + given.random))
    wrong = 0
    with tempfile.TemporaryDirectory() as folder:
        for name, client, *wanted in itertools.chain(CLIENTS, drawn):
            if given.k not in name:
                continue
            got, how, seconds, blocks, memory = served(given.snova, client, folder)
            found = wrong_of(got, how, seconds, blocks, *wanted)
            wrong += len(found)
            if found or not name.startswith("damaged"):
                print(f"{name}: {how[0]}, status {how[1]}, {seconds:.1f} s, {blocks:.0f} blocks, {memory} MiB", *found, sep="\n  ", flush=True)
    if given.random:
        print(f"{given.random} clients that send damaged streams, {wrong} differences")
    return 1 if wrong else 0


if __name__ == "__main__":
    sys.exit(main())
