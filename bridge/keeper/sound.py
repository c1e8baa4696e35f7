"""Hands the sound over from the server's pipe to what takes it, which is the clock of a session."""
import math
import os
import select
import threading
import time

from .log import reason
from .sinks import BLOCK, PIPE, Nothing, Player

# Seconds after which a player that takes nothing counts as stuck: one that plays, and one that was just started.
STUCK, SLOW = 2.0, 10.0
# Seconds before a player is started again: twice as many each time that it ran no longer than `SHORT`.
PAUSE, SHORT, LONGEST_PAUSE = 1.5, 5.0, 60.0


class Sound:
    """Takes the sound out of the server's pipe, hands it over, counts the frames that were taken, and starts the
    player again when it ends.

    While there is no player, the sound is lost as the clock says that it is due, so that time goes on.
    """

    def __init__(self, settings, frames, report):
        """`settings` has `rate`, `wide`, `player`, `file` and `store`, bytes that may stand here; `report` takes a line
        of the log. `hears` is what looks at the sound."""
        self.settings, self.frames, self.report, self.hears = settings, frames, report, []
        self.lock, self.is_over = threading.Lock(), threading.Event()
        self.store, self.passed, self.restarts = bytearray(), 0, 0
        self.source = self.sink = self.thread = None
        self.next_try = self.last_taken = self.started = time.monotonic()
        self.wait = PAUSE / 2
        self.empty_since, self.late_blocks, self.worst = None, 0, 0.0

    # What others ask.

    @property
    def taken(self):
        """How many frames were handed over."""
        return self.passed // self.settings.wide

    def start(self, source):
        """Hands over what comes through a pipe, in a thread of its own."""
        now = time.monotonic()
        self.source, self.empty_since = source, None
        self.store.clear()
        self.is_over.clear()
        os.set_blocking(source, False)
        if isinstance(self.sink, Nothing):
            self.sink.start(now)
        with self.lock:
            self.frames.start(now, self.taken)
        self.thread = threading.Thread(target=self.run, name="sound", daemon=True)
        self.thread.start()

    def pause(self):
        """Ends the thread; the player stays, and has nothing to play."""
        self.is_over.set()
        if self.thread:
            self.thread.join()

    def stop(self):
        """Ends the thread and the player."""
        self.pause()
        if self.sink:
            self.sink.close()
        self.sink = None

    def silent(self):
        """For how many seconds the server has sent nothing that is due."""
        since = self.empty_since
        return time.monotonic() - since if since else 0.0

    def take_late(self):
        """How many blocks were late since it was asked last, and by how many seconds the worst one."""
        found, self.late_blocks, self.worst = (self.late_blocks, self.worst), 0, 0.0
        return found

    # The thread.

    def run(self):
        """Hands sound over until the server closes its pipe or the session ends."""
        try:
            while not self.is_over.is_set() and self.pass_on():
                pass
        except Exception as fault:  # pylint: disable=broad-except
            self.report(f"the sound stopped: {type(fault).__name__}: {fault}")

    def pass_on(self):
        """Hands over what the sink takes now, or waits for it or for the server. It answers False at the end."""
        sink = self.open_sink()
        room = sink.room()
        if room and len(self.store) >= self.settings.wide:
            self.hand_over(sink, room)
            return True
        self.note()
        wanted = max(self.settings.store - len(self.store), 0) + room
        came = select.select([self.source] if wanted else [], [] if room else sink.ends, [], sink.wait)[0]
        if came:
            return self.take_in(wanted)
        if room:
            self.empty_since = self.empty_since or time.monotonic()
        elif isinstance(sink, Player):
            self.wait_for(sink)
        return True

    def take_in(self, wanted):
        """Takes what the server's pipe has; it answers False at the end of the sound."""
        data = os.read(self.source, wanted)
        for hear in self.hears:
            hear(data)
        self.store += data
        self.count_late()
        return bool(data)

    def count_late(self):
        """Counts the blocks that were due before they came, but for those by which a player fills what it keeps."""
        late, self.empty_since = self.silent(), None
        blocks = math.floor(late * self.settings.rate / BLOCK)
        if blocks and (isinstance(self.sink, Nothing) or self.sink.plays):
            self.late_blocks += blocks
            self.worst = max(self.worst, late)

    def hand_over(self, sink, room):
        """Hands over whole frames, so that another player can go on behind any of them."""
        whole = min(room, PIPE, len(self.store)) // self.settings.wide * self.settings.wide
        try:
            count = sink.put(bytes(self.store[:whole]))
        except BrokenPipeError:
            self.lose_player("takes no more")
            return
        except OSError as wrong:
            self.report(f"{self.settings.file}: {wrong.strerror}; the sound is lost")
            self.settings.file = ""
            self.change_sink(self.nothing(time.monotonic()))
            return
        del self.store[:count]
        self.passed += count
        self.last_taken = time.monotonic()
        if isinstance(sink, Player) and sink.was_full and not sink.plays:
            # What was taken before filled what it keeps: from now on it takes as much as it plays.
            sink.plays = True
            self.restart_line()
        self.note()

    def note(self):
        """Notes what was taken by now."""
        taken = self.taken + self.sink.ahead() / self.settings.wide
        with self.lock:
            self.frames.note(time.monotonic(), taken)

    def restart_line(self):
        taken = self.taken + self.sink.ahead() / self.settings.wide
        with self.lock:
            self.frames.start(time.monotonic(), taken)

    # What takes the sound.

    def wait_for(self, player):
        """A player takes nothing now."""
        player.was_full = True
        if time.monotonic() - self.last_taken > (STUCK if player.plays else SLOW):
            self.lose_player("takes nothing")

    def open_sink(self):
        """What takes the sound now: the player, which is started again a while after it ended, or else nothing."""
        now, sink = time.monotonic(), self.sink
        if isinstance(sink, Player) and sink.program.poll() is not None:
            self.lose_player(f"ended with status {sink.program.returncode}")
        elif self.settings.player and not isinstance(sink, Player) and now >= self.next_try:
            self.start_player(now)
        if self.sink is None:
            self.change_sink(self.nothing(now))
        return self.sink

    def start_player(self, now):
        self.started = now
        try:
            self.change_sink(Player(self.settings.player))
            self.report(f"the player was started: {self.settings.player}")
        except (OSError, ValueError) as wrong:
            self.put_off(now, f"can't be started: {reason(wrong, self.settings.player)}")

    def put_off(self, now, why):
        """The player is started after a while."""
        self.wait = PAUSE if now - self.started > SHORT else min(2 * self.wait, LONGEST_PAUSE)
        self.next_try = now + self.wait
        self.report(f"the player {why}; it is started again in {self.wait:.1f} s")

    def nothing(self, since):
        """What takes sound in the player's place: a file only if there is to be no player."""
        path = "" if self.settings.player else self.settings.file
        try:
            return Nothing(self.settings.wide, self.settings.rate, since, path)
        except OSError as wrong:
            self.report(f"{path}: {wrong.strerror}; the sound is lost")
            return Nothing(self.settings.wide, self.settings.rate, since)

    def change_sink(self, sink):
        if self.sink:
            threading.Thread(target=self.sink.close, daemon=True).start()
        self.sink, self.last_taken, self.empty_since = sink, time.monotonic(), None
        self.restart_line()

    def lose_player(self, why):
        """The player takes no more; its time is silence until it is started again, and goes on from where it was."""
        self.restarts += 1
        self.put_off(time.monotonic(), why)
        left = -self.sink.ahead() / self.settings.wide / self.settings.rate
        self.change_sink(self.nothing(self.last_taken + left))
