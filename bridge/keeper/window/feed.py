"""The keeper's end of the window: it starts the program that serves the page, tells it what changed, and does what is
asked there. What the window doesn't take is left out, so that nothing waits for it."""
import secrets
import socket
import subprocess
import sys
import time
from pathlib import Path

from converter.links import READ

from .acts import Acts
from .frames import SOUND, Frames, framed, told
from .snapshot import shape, state, synth
from .watch import Lines, Tap

FOLDER = Path(__file__).resolve().parent.parent.parent
# Seconds between two frames, between two states, before the program is started again, and in which it takes something.
PERIOD, STATE, PAUSE, STUCK = 0.1, 1.0, 3.0, 20.0
# In a second the shape of a tree is told once for so many nodes; so many synths and texts are told at once.
NODES_A_SECOND, SYNTHS, TEXTS = 4000, 100, 10
SIZE = 1 << 16
# The settings that are told.
TOLD = ("port", "window", "rate", "channels", "bits", "latency", "workers", "clients", "memory", "player")


class Feed:
    """What goes from a keeper to its window, and back."""

    def __init__(self, keeper, listener):
        """`listener` is the socket at which the page is served."""
        settings = keeper.settings
        self.keeper, self.listener, self.acts = keeper, listener, Acts(keeper.gateway)
        self.tap, self.lines, self.texts = Tap(settings.wide), Lines(), {}
        self.program = self.link = None
        self.token = secrets.token_urlsafe(24)
        self.next = self.next_state = self.next_shape = self.next_start = 0.0
        keeper.sound.hears.append(self.tap)
        keeper.log.hears = self.lines

    @property
    def recall(self):
        return self.keeper.gateway.recall

    # The program.

    def start(self):
        """Starts the program, which has seen nothing yet."""
        ours, theirs = socket.socketpair()
        numbers = [theirs.fileno(), self.listener.fileno()]
        try:
            self.program = subprocess.Popen([sys.executable, "-m", "keeper.window", *map(str, numbers)], cwd=FOLDER,
                                            pass_fds=numbers, stdin=subprocess.DEVNULL)
        except OSError as wrong:
            ours.close()
            self.put_off(f"can't be started: {wrong.strerror}")
            return
        finally:
            theirs.close()
        ours.setblocking(False)
        self.link, self.waits, self.came, self.moved = ours, bytearray(), Frames(), time.monotonic()
        self.keeper.ready.register(ours, READ, self.hear)
        self.texts, self.sent_late = {}, None
        self.recall.forget()
        self.send({"settings": {"token": self.token, **{key: getattr(self.keeper.settings, key) for key in TOLD}}})

    def put_off(self, why):
        self.next_start = time.monotonic() + PAUSE
        self.keeper.log.report(f"the window {why}; it is started again in {PAUSE:.0f} s")

    def lose(self, why):
        """The program has ended, or is ended."""
        self.close()
        self.put_off(why)

    def close(self):
        """Ends the program."""
        if self.link:
            self.keeper.ready.unregister(self.link)
            self.link.close()
            self.program.kill()
            self.program.wait()
        self.link = None

    # What is told.

    def look(self):
        """Tells what changed, if it is time. Whatever goes wrong here, the session goes on."""
        now = time.monotonic()
        if now < self.next:
            return
        self.next = now + PERIOD
        try:
            if self.link is None and now >= self.next_start:
                self.start()
            if self.link:
                self.tell(now)
        except Exception as fault:  # pylint: disable=broad-except
            self.lose(f"failed: {type(fault).__name__}: {fault}")

    def tell(self, now):
        sound, notices = self.tap.take(), list(self.recall.notices)
        self.recall.notices.clear()
        self.acts.hear(notices)
        self.write()
        if self.waits and now - self.moved > STUCK:
            self.lose("takes nothing")
        if self.waits or not self.link:
            return
        if sound:
            self.waits += framed(SOUND, sound)
        found = self.changes(now)
        if now >= self.next_state:
            self.next_state = now + STATE
            found.update(self.slow())
        answers = self.acts.answers()
        if answers:
            found["answers"] = answers
        if notices:
            found["notices"] = notices
        self.send(found)

    def changes(self, now):
        """What changed of the nodes and the definitions, as much as is told at once."""
        found, recall = {}, self.recall
        if recall.is_defined:
            texts = recall.definitions.texts
            new = [name for name, text in texts.items() if self.texts.get(name) is not text][:TEXTS]
            self.texts.update((name, texts[name]) for name in new)
            found["texts"] = {name: texts[name].decode("latin-1") for name in new}
            recall.is_defined = len(new) == TEXTS
            self.texts = {name: text for name, text in self.texts.items() if name in texts}
        if recall.is_moved and now >= self.next_shape:
            recall.is_moved, found["shape"] = False, shape(recall.tree)
            self.next_shape = now + len(found["shape"]) / 3 / NODES_A_SECOND
        touched = recall.take_touched(SYNTHS)
        if touched:
            found["synths"] = {number: synth(self.keeper.gateway, number) for number in touched}
        return found

    def slow(self):
        """What is told once a second."""
        found = {"state": state(self.keeper, self.program.pid)}
        if self.lines.sort() or self.sent_late is None:
            found["events"], found["refused"] = self.lines.lists()
        history = self.keeper.load.history
        if self.sent_late != len(history) or history and history[-1] is not self.last_late:
            self.sent_late, self.last_late = len(history), history[-1] if history else None
            found["late"] = list(history)
        return found

    def send(self, what):
        self.waits += told(what)
        self.write()

    def write(self):
        """Writes as much as the program takes now."""
        try:
            while self.link and self.waits:
                del self.waits[:self.link.send(self.waits[:SIZE])]
                self.moved = time.monotonic()
        except BlockingIOError:
            pass
        except OSError:
            self.lose("has ended")

    # What is asked.

    def hear(self, _events):
        """Does what is asked in the window."""
        try:
            data = self.link.recv(SIZE)
            if not data:
                self.lose("has ended")
            for _, asked in self.came.take(data):
                self.acts.ask(asked)
        except BlockingIOError:
            pass
        except OSError:
            self.lose("has ended")
        except Exception as fault:  # pylint: disable=broad-except
            self.lose(f"failed: {type(fault).__name__}: {fault}")

    def sound_starts(self):
        """Another server starts its sound."""
        self.tap.start()

