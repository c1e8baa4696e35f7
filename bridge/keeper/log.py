"""The log of a session: lines of what happens, each with its time."""
import os
import sys
import threading
import time

# A line that comes again within so many seconds is counted, as far as there are so many lines.
WHILE, MOST_LINES = 60.0, 1000


def reason(wrong, what):
    """What an error is about, which is its file or else `what`, and why, without Python's own words."""
    why = os.strerror(wrong.errno) if getattr(wrong, "errno", None) else wrong
    return f"{getattr(wrong, 'filename', None) or what}: {why}"


class Log:
    """Writes lines into a file, or on the standard error; a log that can't be written keeps nobody from playing."""

    def __init__(self, path=""):
        self.file = open(path, "a", encoding="utf-8", buffering=1) if path else sys.stderr
        self.lock, self.since, self.counts = threading.Lock(), time.monotonic(), {}
        # What is told of each line and its time, if anything is; it must return at once.
        self.hears = None

    def report(self, line):
        """Writes a line."""
        self.tell(line)
        with self.lock:
            self.write(line)

    def count(self, line):
        """Writes a line that may come often: how often it comes again is written once in a while."""
        self.tell(line)
        with self.lock:
            self.sum_up()
            if line in self.counts or len(self.counts) < MOST_LINES:
                self.counts[line] = self.counts.get(line, 0) + 1
            if self.counts.get(line) == 1:
                self.write(line)

    def tell(self, line):
        if self.hears:
            self.hears(time.time(), line)

    def sum_up(self):
        """Once in a while, writes how often lines came again."""
        if time.monotonic() - self.since < WHILE:
            return
        counts, self.counts, self.since = self.counts, {}, time.monotonic()
        for line, count in counts.items():
            if count > 1:
                self.write(f"{line} ({count - 1} times more)")

    def write(self, line):
        try:
            print(time.strftime("%Y-%m-%d %H:%M:%S"), line, file=self.file, flush=True)
        except (OSError, ValueError):
            pass
