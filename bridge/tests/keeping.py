#!/usr/bin/env python3
"""Tries the keeper without the program, prints what is other than it should be, and exits with 1 then.

    python3 bridge/tests/keeping.py
"""
import contextlib
import io
import os
import signal
import socket
import sys
import tempfile
import threading

import sounds
from stand import Client, Stand, gateway

from converter import osc
from converter.gateway import Gateway
from converter.live import Live
from converter.osc import Bundle, Message
from keeper.keeping import Keeper, keep
from keeper.log import reason
from keeper.recall import Recall
from keeper.sinks import Player
from keeper.settings import BadSetting, settings
from keeper.timing import SECOND, Frames, ServerTime, seconds_between, tag_of

MINUTES, PERIOD, BLOCK = 60, 1920, 64
# Seconds until the speed of a player is known.
LEARNT = 10
COMINGS = 1000
# A time tag of 2026, and one 10 s after it.
NOW, THEN = tag_of(1.79e9), tag_of(1.79e9 + 10)


def compare(what, wanted, found):
    if wanted != found:
        yield f"{what}: wanted {wanted}, got {found}"


def clock():
    """For an hour a bundle for 0.2 s ahead is turned into the time of the frame that the player takes then."""
    for speed in (0.97, 1.03):
        frames, times = Frames(sounds.RATE, 0.0), ServerTime(sounds.RATE, NOW)
        true, worst = sounds.RATE * speed, 0.0
        for period in range(int(MINUTES * 60 * true / PERIOD)):
            now = period * PERIOD / true
            frames.note(now, period * PERIOD)
            if now > LEARNT and period % 100 == 0:
                found = times.turned(tag_of(1.79e9 + now + 0.2), tag_of(1.79e9 + now), now, frames)
                wanted = NOW + round((now + 0.2) * true / sounds.RATE * SECOND)
                worst = max(worst, abs(seconds_between(wanted, found)) * sounds.RATE)
        if worst > BLOCK:
            yield f"at {speed} of the speed a bundle comes {worst:.1f} frames from its place"


def first_seconds():
    """Before the speed of a player is known, times are those of the rate that it should have."""
    frames, times = Frames(sounds.RATE, 5.0), ServerTime(sounds.RATE, NOW)
    found = times.turned(tag_of(1.79e9 + 0.5), tag_of(1.79e9), 5.0, frames)
    yield from compare("the first time", 0.5, round(seconds_between(NOW, found), 6))
    yield from compare("at once", 1, times.turned(1, NOW, 5.0, frames))


def comings():
    """Of clients that come and go nothing is kept."""
    opened = Live(0, 9, Gateway(sounds.RATE, 8))
    opened.gateway.report = lambda line: None
    runs = threading.Thread(target=opened.run, daemon=True)
    runs.start()
    for number in range(COMINGS):
        with socket.create_connection(("127.0.0.1", opened.port)) as link:
            link.settimeout(5)
            link.sendall(osc.sized(osc.encoded(Message("/sync", [number]))))
            wanted = Message("/fail", ["/sync", "there is no server yet"])
            yield from compare("an answer", wanted, osc.decoded(osc.whole_packets(link.recv(4096))[0][0]))
    with socket.socket(socket.AF_INET, socket.SOCK_DGRAM) as last:
        last.settimeout(5)
        last.sendto(osc.encoded(Message("/sync", [0])), ("127.0.0.1", opened.port))
        last.recv(4096)
    opened.is_over = True
    runs.join(5)
    yield from compare("sockets", 2, len(opened.ready.get_map()))
    yield from compare("clients", {}, opened.gateway.clients.numbers)


def registrations():
    """Of clients that register and go without a word as many are kept as may be registered."""
    opened, _ = gateway()
    opened.report = lambda line: None
    for _ in range(COMINGS):
        opened.take(Client(), osc.encoded(Message("/notify", [1])))
    kept = [len(opened.clients.numbers), opened.questions, opened.held]
    yield from compare("registrations", [8, {}, []], kept)


TEXT = b"snova 1\ndef tone\ncontrol freq 440000\ncontrol gate 16777216\na = SinOsc freq 0\nOut.ar 0 a a\nend\n"
# What a server was sent, with the ids of nodes that it notified of behind.
SENT = [
    ("/d_recv", TEXT), ("/d_recv", TEXT.replace(b"tone", b"gone")), ("/d_free", "gone"),
    ("/b_alloc", 1, 4, 2), ("/b_setn", 1, 2, 2, 7, -8), ("/b_fill", 1, 6, 2, 9), ("/b_set", 1, 7, 1),
    ("/b_alloc", 2, 3), ("/b_free", 2), ("/b_alloc", 3, 1 << 30), ("/b_alloc", 4, 2),
    ("/c_set", 5, 50, 9999, 1), ("/c_setn", 6, 2, 60, 70), ("/c_fill", 7, 2, 80),
    ("/g_new", 1, 0, 0), ("/p_new", 2, 1, 0), ("/s_new", "tone", 1000, 0, 1, "freq", 220000),
    ("/s_new", "tone", 1001, 1, 1), ("/s_new", "tone", 1002, 1, 2, 0, 330000), ("/n_set", 1, "freq", 550000),
    ("/n_map", 1000, "freq", 5), ("/n_set", 1001, "gate", 0), ("/n_run", 1002, 0)]
NOTES = [("/n_go", 1, 0, -1, -1, 1, -1, -1), ("/n_go", 2, 0, 1, -1, 1, -1, -1), ("/n_go", 1000, 1, -1, -1, 0),
         ("/n_go", 1001, 1, 1000, -1, 0), ("/n_go", 1002, 2, -1, -1, 0), ("/n_off", 1002, 2, -1, -1, 0)]
# What another server is sent: by hand. The buffer 3 had no place, and 1001 has been released.
MEMORY = 1024
RESTORED = [
    ("/d_recv", TEXT), ("/b_alloc", 1, 4, 2), ("/b_setn", 1, 0, 8, 0, 0, 7, -8, 0, 0, 9, 1), ("/b_alloc", 4, 2, 1),
    ("/c_set", 5, 50, 6, 60, 7, 80, 8, 80),
    ("/g_new", 1, 1, 0), ("/s_new", "tone", 1000, 1, 1, "freq", 550000), ("/n_map", 1000, "freq", 5),
    ("/p_new", 2, 1, 0), ("/s_new", "tone", 1002, 1, 2, "freq", 330000), ("/n_run", 1002, 0)]


class Asked:
    """What stands for commands that were asked."""

    def __init__(self, *messages):
        self.messages = [Message(address, list(given)) for address, *given in messages]


def recalled():
    """A recall that has followed `SENT` and `NOTES`."""
    found = Recall(lambda: NOW, MEMORY)
    for at, message in enumerate(SENT):
        found.sent(1, None, [Asked(message)], False, [])
        if message[0] in ("/g_new", "/p_new", "/s_new"):
            address, *given = NOTES[[each[1] for each in NOTES].index(message[2 if message[0] == "/s_new" else 1])]
            found.hear(Message(address, given))
        if at == len(SENT) - 1:
            found.hear(Message(NOTES[-1][0], list(NOTES[-1][1:])))
    return found


def plain(messages):
    return [(each.address, *osc.messages_of(osc.decoded(osc.encoded(each)))[0].arguments) for each in messages]


def restored():
    """Another server is sent what still counts, and what is lost is known."""
    messages, lost = recalled().restored(True)
    yield from compare("what is restored", RESTORED, plain(messages))
    yield from compare("what is lost", [(1001, 1)], lost)
    messages, lost = recalled().restored(False)
    synths = [each for each in RESTORED if each[0] not in ("/s_new", "/n_map", "/n_run")]
    yield from compare("without synths", synths, plain(messages))
    yield from compare("synths that are lost", [(1000, 1), (1001, 1), (1002, 2)], lost)


def arrays():
    """Elements of an array are controls of their own."""
    found = Recall(lambda: NOW, MEMORY)
    text = b"snova 2\ndef bank\narray amp 1 2 3\ncontrol out 0\nOut.ar out amp\nend\n"
    for message in (("/d_recv", text), ("/s_new", "bank", 9, 0, 0, "amp.1", 5, 2, 6, 3, 7)):
        found.sent(1, None, [Asked(message)], False, [])
    yield from compare("elements", {"amp.1": 5, "amp.2": 6, "out": 7}, found.tree.asked[9].values)


def waiting():
    """Bundles that wait are kept in their order until their time, and those that were dropped aren't."""
    time = [NOW]
    found = Recall(lambda: time[0], MEMORY)
    for tag, bus in (THEN, 1), (NOW + 1, 2), (THEN + 1, 3):
        found.sent(tag, None, [Asked(("/c_set", bus, 4))], False, [])
    time[0] = NOW + 2
    yield from compare("how many passed", 1, found.pass_on())
    yield from compare("the bus that was set", {2: 4}, found.buses.values)
    yield from compare("what waits", [THEN, THEN + 1], [each.tag for each in found.take_waiting()])
    found.sent(THEN, None, [Asked(("/c_set", 1, 4))], False, [])
    found.sent(1, None, [Asked(("/clearSched",))], False, [])
    yield from compare("what was dropped", [], found.take_waiting())


def early():
    """A synth that starts before its bundle's time by the keeper's clock is known, and forgotten when it ends."""
    found = Recall(lambda: NOW, MEMORY)
    for at, message in enumerate([("/c_set", 1, 4), ("/s_new", "tone", 1000, 0, 0), ("/c_set", 1, 5)]):
        found.sent(THEN + at, None, [Asked(message)], False, [])
    found.hear(Message("/n_go", [1000, 0, -1, -1, 0]))
    yield from compare("the synth that started", "tone", found.tree.synths[1000].definition)
    yield from compare("the bus that was set before it", {1: 4}, found.buses.values)
    found.hear(Message("/n_end", [1000, 0, -1, -1, 0]))
    kept = found.tree.asked, found.tree.synths, found.tree.parents, found.makers
    yield from compare("what is kept of it", ({}, {}, {}, {}), kept)
    yield from compare("what still waits", [THEN + 2], [each.tag for each in found.take_waiting()])


def loss():
    """When the server is lost, who waits for nothing of it is answered, and a bundle that waits is asked again."""
    opened, _ = gateway()
    opened.report, opened.recall, client = lambda line: None, Recall(lambda: NOW, MEMORY), Client()
    silent = Stand(lambda message: None)
    silent.answers = lambda message: []
    opened.serve(silent)
    opened.take(client, osc.encoded(Message("/sync", [3])))
    opened.take(client, osc.encoded(Message("/g_new", [7, 0, 0])))
    opened.take(client, osc.encoded(Bundle(THEN, [Message("/g_new", [8, 0, 0]), Message("/sync", [4])])))
    opened.lose_server()
    yield from compare("answers", [3], [osc.decoded(each).arguments[0] for each in client.taken()])
    yield from compare("nodes", [0], sorted(opened.session.nodes.by_id))
    server = Stand(opened.hear_message)
    entries = opened.recall.take_waiting()
    opened.go_on(server, [])
    for entry in entries:
        opened.ask_again(entry)
    yield from compare("what is asked again", [Message("/g_new", [8, 0, 0])], server.came[1:])
    yield from compare("nodes again", [0, 8], sorted(opened.session.nodes.by_id))


def words():
    """Settings are read, and bad ones have a reason."""
    found = settings(["rate=44100", "bits=24", "latency=100"])
    yield from compare("settings", [44100, 24, 6, 4410 * 6 - 8192], [found.rate, found.bits, found.wide, found.store])
    for word in ("rate=5", "nothing=1", "latency=0", "/nowhere"):
        try:
            settings([word])
            yield f"{word} is taken"
        except BadSetting:
            pass


def cannot_start():
    """What can't be had is named: a port, the log or the player."""
    with socket.socket(socket.AF_INET, socket.SOCK_DGRAM) as taken:
        taken.bind(("127.0.0.1", 0))
        port, program = taken.getsockname()[1], f"snova={sys.executable}"
        for word, wanted in (("log=/nowhere/log", "/nowhere/log: No such file or directory"),
                             ("clients=8", f"port {port}: Address already in use")):
            with contextlib.redirect_stderr(io.StringIO()) as told:
                status = keep(settings([f"port={port}", program, word]))
            yield from compare(word, (2, wanted + "\n"), (status, told.getvalue()))
    for command, wanted in (("/nowhere/aplay -q", "/nowhere/aplay: No such file or directory"),
                            ('aplay "-q', 'aplay "-q: No closing quotation')):
        try:
            Player(command)
            yield f"{command} is started"
        except (OSError, ValueError) as wrong:
            yield from compare(command, wanted, reason(wrong, command))


def ended_twice():
    """A second signal doesn't break in while a keeper ends."""
    before = {number: signal.getsignal(number) for number in (signal.SIGINT, signal.SIGTERM)}
    with tempfile.TemporaryDirectory() as folder:
        log = os.path.join(folder, "log")
        given = settings([f"log={log}"])
        given.port = 0
        keeper = Keeper(given)
        for number in before:
            signal.signal(number, signal.default_int_handler)
        keeper.sound.stop = lambda: [os.kill(os.getpid(), number) for number in before]
        try:
            keeper.close()
        except KeyboardInterrupt:
            yield "a second signal broke in"
        finally:
            for number, handler in before.items():
                signal.signal(number, handler)
            keeper.datagrams.close()
            keeper.listener.close()
            keeper.log.file.close()
        with open(log, encoding="utf-8") as file:
            yield from compare("the log", ["the session has ended"], [line[20:].strip() for line in file])


CHECKS = [clock, first_seconds, comings, registrations, restored, arrays, waiting, early, loss,
          words, cannot_start, ended_twice]


def main():
    wrong = [line for check in CHECKS for line in check()]
    for line in wrong:
        print(line)
    return 1 if wrong else 0


if __name__ == "__main__":
    sys.exit(main())
