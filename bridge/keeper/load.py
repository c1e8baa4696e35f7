"""How much the server has to do, how late its blocks are, and how fast the player is."""
import time
from collections import deque

from converter.osc import Double

# Seconds between two lines of the log: on late blocks, if there are any, and on all.
LATE, REPORT = 10.0, 600.0
# So many measures are kept: those of an hour.
MOST_KEPT = 360


class Load:
    """Measures once a second; `use` gives the last values of `/status.reply`."""

    def __init__(self, sound, report):
        self.sound, self.report, self.process = sound, report, None
        self.lately, self.late, self.worst = deque([0.0], maxlen=60), 0, 0.0
        self.last, self.used = time.monotonic(), 0.0
        self.next_late, self.next_report = self.last, self.last + REPORT
        # Of each ten seconds: when they ended, how many blocks were late, by how many milliseconds the worst one, and
        # the load.
        self.history = deque(maxlen=MOST_KEPT)

    def start(self, process):
        """A server was started."""
        self.process, self.last, self.used = process, time.monotonic(), process.used()

    def measure(self):
        now, used = time.monotonic(), self.process.used()
        if now > self.last:
            self.lately.append(100 * (used - self.used) / (now - self.last))
        self.last, self.used = now, used
        if now > self.next_late:
            self.next_late = now + LATE
            self.report_late(*self.sound.take_late())
        if now > self.next_report:
            self.next_report = now + REPORT
            self.report(f"the load is {self.lately[-1]:.0f} %, at most {max(self.lately):.0f} % in the last minute; "
                      f"{self.late} blocks were late, and the player was started again {self.sound.restarts} times")

    def report_late(self, count, worst):
        self.late, self.worst = self.late + count, max(self.worst, worst)
        self.history.append((time.time(), count, 1000 * worst, self.lately[-1]))
        if count:
            self.report(f"{count} blocks were late, the worst one by {1000 * worst:.1f} ms")

    def use(self):
        """Percent of a processor in the last second and at most in the last minute, the rate as it should be and as
        the player has it, and the worst lateness in milliseconds."""
        rate, speed = self.sound.settings.rate, self.sound.frames.speed
        return [self.lately[-1], max(self.lately), Double(rate), Double(speed), 1000 * self.worst]
