"""Several clients of one `snova serve`: python3 several.py SNOVA [-k WORD]. Of each session it prints the end, the seconds, and what is other than it should be.

It takes half a minute, since a peer that takes nothing is waited for.
"""
import argparse
import os
import socket
import subprocess
import sys
import tempfile
import time

import serving
from clients import BLOCK, all_of, answers, framed, many_groups, takes_little, wrong_end
from texts import definition

QUIT, OVER = ("quit", 0), ("over", 0)


def asks(link, number):
    """The answer to a number, alone."""
    link.sendall(framed("/sync", number))
    return answers(serving.received(link, len(framed("/synced", number))))


def all_close(links):
    """None sends any more, and each is told nothing more. A connection stays open until the session ends."""
    for link in links:
        link.shutdown(socket.SHUT_WR)
    return [(answers(all_of(link)), {}) for link in links]


def play_in_turn(links):
    """Each is told its own number, and all that a note begins."""
    found = []
    for number, link in enumerate(links):
        found.append((asks(link, number), {f"/synced {number}": 1}))
    for link in links:
        link.sendall(framed("/notify", 1))
        serving.received(link, len(framed("/done", "/notify", 0)))
    links[0].sendall(framed("/g_new", 5, 0, 0))
    told = framed("/n_go", 5, 0, -1, -1, 1, -1, -1)
    for link in links:
        found.append((answers(serving.received(link, len(told))), answers(told)))
    return found + all_close(links)


def one_makes_a_clash(links):
    """Each is told of it, and the others of nothing else."""
    links[0].sendall(framed("/d_recv", definition("put", "ReplaceOut 16 0.5")) + framed("/p_new", 1, 0, 0) + framed("/s_new", "put", 10, 1, 1) + framed("/s_new", "put", 11, 1, 1))
    clash = framed("/p_clash", 1, 10, 11, "audio", 16)
    found = []
    for number, link in enumerate(links):
        told = (b"" if number else framed("/done", "/d_recv")) + clash
        found.append((answers(serving.received(link, len(told))), answers(told)))
    return found + all_close(links)


def one_is_killed(links):
    """It is gone in the midst of a packet, and the others play on."""
    first, *others = links
    first.sendall(framed("/sync", 1)[:7])
    time.sleep(0.2)
    first.close()
    time.sleep(0.2)
    found = [(asks(link, number), {f"/synced {number}": 1}) for number, link in enumerate(others)]
    return found + all_close(others)


def one_quits(links):
    """The others, which say nothing, are not waited for."""
    links[0].sendall(framed("/quit"))
    return [(answers(all_of(links[0])), {"/done /quit": 1})] + [(answers(all_of(link)), {}) for link in links[1:]]


def one_never_reads(links):
    """It asks for more than the system keeps for it, and takes nothing. Another is answered once it counts as failed."""
    deaf, link = links[0], links[1]
    deaf.sendall(many_groups() + framed("/g_queryTree", 0, 0) * 1000)
    time.sleep(2)
    found = [(asks(link, number), {f"/synced {number}": 1}) for number in (7, 8)]
    deaf.close()
    return found + all_close(links[1:])


# How many clients there are, what they do, how the session ends, and the least and the most seconds.
SESSIONS = [
    ("two play in turn", 2, play_in_turn, OVER, 0, 5),
    ("four play in turn", 4, play_in_turn, OVER, 0, 5),
    ("one of three makes a clash that each is told of in turn", 3, one_makes_a_clash, OVER, 0, 5),
    ("one of two is killed", 2, one_is_killed, OVER, 0, 5),
    ("one of three is killed", 3, one_is_killed, OVER, 0, 5),
    ("one of three quits", 3, one_quits, QUIT, 0, 5),
    ("one of two never reads", 2, one_never_reads, OVER, 10, 40),
]


def served(snova, count, clients, folder):
    """What came and what should, the line and the status, the seconds, and the blocks."""
    port, sound = serving.free_port(), os.path.join(folder, "sound")
    program = subprocess.Popen([snova, "serve", f"clients={count}", str(port), sound], stdout=subprocess.PIPE, preexec_fn=takes_little)
    links = []
    for _ in range(count):
        links.append(serving.connected(port))
        links[-1].settimeout(60)
    began = time.monotonic()
    found = clients(links)
    for link in links:
        link.close()
    line = program.communicate(timeout=60)[0].decode().rstrip("\n")
    return found, (line, program.returncode), time.monotonic() - began, os.path.getsize(sound) / BLOCK


def wrong_of(found, how, seconds, blocks, end, least, most):
    """What is other than it should be."""
    wrong = [f"came {came}, wanted {wanted}" for came, wanted in found if came != wanted]
    return wrong + wrong_end(how, seconds, blocks, end, least, most)


def main():
    parser = argparse.ArgumentParser()
    parser.add_argument("snova", help="the built program")
    parser.add_argument("-k", default="", help="only sessions whose name has this word")
    given = parser.parse_args()
    count = 0
    with tempfile.TemporaryDirectory() as folder:
        for name, clients, act, *wanted in SESSIONS:
            if given.k not in name:
                continue
            found, how, seconds, blocks = served(given.snova, clients, act, folder)
            wrong = wrong_of(found, how, seconds, blocks, *wanted)
            count += len(wrong)
            print(f"{name}: {how[0]}, status {how[1]}, {seconds:.1f} s, {blocks:.0f} blocks", *wrong, sep="\n  ", flush=True)
    return 1 if count else 0


if __name__ == "__main__":
    sys.exit(main())
