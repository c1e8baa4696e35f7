"""The keeper: the gateway, a server that it starts, and the way of its sound; it comes back when one of them ends."""
import os
import signal
import socket
import sys
import time
from pathlib import Path

from converter import osc
from converter.commands import Asked
from converter.gateway import AT_ONCE, Gateway
from converter.links import Stream
from converter.live import HOST, MOST_WAITING, Live
from converter.osc import Message

from .hearing import Hearing
from .load import Load
from .log import Log, reason
from .recall import Recall
from .server import NoServer, Server
from .sinks import BLOCK
from .sound import Sound
from .timing import SECOND, Frames, ServerTime, tag_of
from .window.feed import Feed
from .window.watch import Watched

# Seconds before a server is started again that ran less than `STEADY`, or that couldn't be started.
STEADY, SHORT_PAUSE, LONG_PAUSE = 5.0, 1.0, 10.0
# So often what happens between packets is looked at, and what is measured, in seconds.
TICK, SPELL = 0.05, 1.0
# A server that sends no sound for so many seconds is ended.
MOST_SILENT = 20.0


def words_of(settings):
    """The program and the words of a server."""
    keys = ("rate", "channels", "bits", "workers", "memory")
    given = [f"{key}={getattr(settings, key)}" for key in keys]
    return [settings.snova, "serve", "pace=sound", *given, "PORT", "SOUND"]


class Keeper(Live):
    """What clients of a session meet, whatever becomes of its server and its player."""

    def __init__(self, settings, listener=None):
        """`listener` is where the window is served, if there is to be one."""
        self.settings, self.log = settings, Log(settings.log)
        gateway = Gateway(settings.rate, settings.clients, memory=settings.memory)
        super().__init__(settings.port, None, gateway)
        self.sound = Sound(settings, Frames(settings.rate, time.monotonic()), self.log.report)
        self.load = Load(self.sound, self.log.report)
        gateway.report, gateway.times, gateway.use = self.log.count, self.server_time, self.load.use
        gateway.recall = (Watched if listener else Recall)(lambda: tag_of(time.time()), settings.memory)
        gateway.ears = Hearing(settings, self.sound, gateway, self.log.report)
        self.process, self.times, self.restarts, self.missed = None, None, 0, 0
        self.since, self.last_restart = time.time(), None
        self.next_start = self.next_spell = 0.0
        self.known = set()
        self.window = Feed(self, listener) if listener else None

    def run(self):
        """Keeps the session until it is quit."""
        gateway = self.gateway
        signal.signal(signal.SIGTERM, signal.default_int_handler)
        try:
            self.scopes.open(self.port)
            while not self.is_over:
                if self.server is None and time.monotonic() >= self.next_start:
                    self.start_server()
                for key, events in self.ready.select(self.scopes.wait() or TICK):
                    key.data(events)
                passed = gateway.recall.pass_on()
                self.missed += passed if self.server is None else 0
                if time.monotonic() >= self.next_spell:
                    self.next_spell = time.monotonic() + SPELL
                    self.look_around()
                gateway.ears.look()
                self.scopes.look(gateway)
                if self.window:
                    self.window.look()
        finally:
            self.close()

    # Time.

    def server_time(self, tag):
        """The time of the server that a client's time tag is."""
        if self.times is None or tag <= 1:
            return tag
        with self.sound.lock:
            return self.times.turned(tag, tag_of(time.time()), time.monotonic(), self.sound.frames)

    # The server.

    def start_server(self):
        """Starts the server, and gives it what the one before had."""
        try:
            self.process = Server(words_of(self.settings), self.settings.wide)
        except NoServer as wrong:
            self.put_off(wrong)
            return
        try:
            start, lost = self.process.find_start(self.settings.rate)
        except (NoServer, OSError) as wrong:
            self.process.stop(0)
            self.put_off(wrong)
            return
        self.log.report(f"the server was started; its block 0 is at {start / SECOND:.3f} s, and {lost} blocks of "
                        "silence are left out")
        self.started = time.monotonic()
        self.server = Stream(self.ready, self.process.link, self.gateway.hear, self.server_closed)
        self.server.most = MOST_WAITING
        self.gateway.ears.start()
        if self.window:
            self.window.sound_starts()
        self.sound.start(self.process.pipe)
        first = start + (lost * BLOCK - self.sound.taken) * SECOND // self.settings.rate
        self.times = ServerTime(self.settings.rate, first)
        self.load.start(self.process)
        self.hurry()
        self.give()

    def put_off(self, wrong):
        """The server can't be started now."""
        self.next_start = time.monotonic() + LONG_PAUSE
        self.log.report(f"the server can't be started, and is tried again in {LONG_PAUSE:.0f} s: {wrong}")

    def hurry(self):
        """Gives the server and the way of the sound a priority before other programs, if one is set."""
        if not self.settings.priority:
            return
        try:
            for thread in [*self.process.threads(), self.sound.thread.native_id]:
                os.sched_setscheduler(thread, os.SCHED_FIFO, os.sched_param(self.settings.priority))
        except OSError as wrong:
            self.log.report(f"priority={self.settings.priority} can't be had: {wrong.strerror}")

    def give(self):
        """Gives a server what it is to have: the first one the score, another one what the one before had."""
        if self.restarts:
            self.give_back()
        else:
            self.gateway.serve(self.server)
            self.play_score()

    def give_back(self):
        """Gives another server what still counts, and reports what is lost."""
        gateway = self.gateway
        messages, lost = gateway.recall.restored(self.settings.synths == "keep")
        waiting = gateway.recall.take_waiting()
        gateway.go_on(self.server, messages)
        for number, parent in lost:
            gateway.hear_message(Message("/n_end", [number, parent, -1, -1, 0]))
        for entry in waiting:
            gateway.ask_again(entry)
        self.log.report(f"the server was given back {len(messages)} commands and {len(waiting)} bundles that wait; "
                        f"lost are {len(lost)} nodes, {self.missed} bundles, and what units wrote")
        gateway.notify(Message("/snova/restarted", [len(lost), self.missed]))
        self.missed = 0

    def play_score(self):
        """Sends a command file, whose times count from now."""
        if not self.settings.score:
            return
        now, (packets, rest) = tag_of(time.time()), osc.whole_packets(Path(self.settings.score).read_bytes())
        try:
            found_all = [osc.decoded(packet) for packet in packets]
        except osc.BadPacket:
            rest = True
        if rest or not packets:
            self.log.report(f"{self.settings.score} is no command file, and isn't played")
            return
        self.log.report(f"{self.settings.score} is played: {len(packets)} packets")
        for found in found_all:
            tag = AT_ONCE if isinstance(found, Message) or found.tag <= 1 else now + found.tag
            self.gateway.ask(tag, None, [Asked(osc.messages_of(found), None)])

    def server_closed(self, _stream, reason):
        """The server has ended: after /quit that is the end, else it is started again."""
        self.server = None
        self.sound.pause()
        self.process.stop()
        self.is_over = self.gateway.quits
        if self.is_over:
            return
        self.restarts, self.last_restart = self.restarts + 1, time.time()
        self.gateway.lose_server()
        steady = time.monotonic() - self.started > STEADY
        self.next_start = time.monotonic() + (0 if steady else SHORT_PAUSE)
        self.log.report(f"the server is gone ({reason}, status {self.process.program.returncode}); it is started again")

    # What is looked at each second.

    def look_around(self):
        """Looks after the server, measures, and reports who came and went."""
        if self.server:
            self.load.measure()
            if self.sound.silent() > MOST_SILENT or not self.sound.thread.is_alive():
                self.log.report("the server sends no sound, and is ended")
                self.process.program.kill()
        there = set(self.gateway.clients)
        for client in there - self.known:
            self.log.report(f"{client} is registered as {self.gateway.clients.number(client)}")
        for client in self.known - there:
            self.log.report(f"{client} is no longer registered")
        self.known = there

    def close(self):
        """Ends what was started; a second signal doesn't break in."""
        for number in (signal.SIGINT, signal.SIGTERM):
            signal.signal(number, signal.SIG_IGN)
        if self.server:
            self.sound.pause()
            self.process.stop()
        self.sound.stop()
        self.scopes.close()
        self.gateway.ears.close()
        if self.window:
            self.window.close()
        self.log.report("the session has ended")


def keep(settings):
    """Keeps a session, and returns the status with which the program ends."""
    for path, wanted in (settings.snova, os.X_OK), (settings.score, os.R_OK):
        if path and not os.access(path, wanted):
            print(f"{path}: it isn't there, or may not be used", file=sys.stderr)
            return 2
    port = settings.window
    try:
        listener = socket.create_server((HOST, port)) if port else None
        port = settings.port
        Keeper(settings, listener).run()
    except OSError as wrong:
        print(reason(wrong, f"port {port}"), file=sys.stderr)
        return 2
    except KeyboardInterrupt:
        pass
    return 0
