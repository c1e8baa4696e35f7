"""What takes the sound: a player, a file, or nothing."""
import array
import fcntl
import os
import select
import shlex
import signal
import subprocess
import termios
import time

# The least size that a pipe can have. So many bytes are written as a whole or not at all.
PIPE = 4096
# Frames of a block.
BLOCK = 64
# Seconds of sound after which what nobody took isn't made up for.
MOST_BEHIND = 5.0
# Seconds that a player has to end by itself, and then after it was asked to.
GRACE = 0.5


def small_pipe():
    """Both ends of a pipe of the least size, and how many bytes it holds."""
    reading, writing = os.pipe()
    return reading, writing, fcntl.fcntl(writing, fcntl.F_SETPIPE_SZ, PIPE)


def standing(pipe):
    """How many bytes stand in a pipe."""
    count = array.array("i", [0])
    fcntl.ioctl(pipe, termios.FIONREAD, count)
    return count[0]


class Nothing:
    """Takes sound as the system's clock says that it is due, and loses it or puts it into a file."""

    # What can be waited for, and how many seconds at most.
    ends, wait = [], 0.005

    def __init__(self, wide, rate, since, path=""):
        """`wide` is how many bytes a frame has, and `since` the time from which sound is due."""
        self.wide, self.rate = wide, rate
        self.file = open(path, "ab", buffering=0) if path else None
        self.start(since)

    def start(self, since):
        """From a time on sound is due."""
        self.since, self.taken = since, 0

    def ahead(self):
        """How many bytes more than were put are due."""
        return int((time.monotonic() - self.since) * self.rate) * self.wide - self.taken

    def room(self):
        """How many bytes it takes now, a block's at least."""
        due = self.ahead()
        if due > MOST_BEHIND * self.rate * self.wide:
            self.start(time.monotonic())
        return due if due >= BLOCK * self.wide else 0

    def put(self, data):
        """Takes bytes, and answers how many."""
        self.taken += len(data)
        if self.file:
            self.file.write(data)
        return len(data)

    def close(self):
        if self.file:
            self.file.close()


class Player:
    """A program that plays what comes in at its standard input.

    It was full once it had taken all that it keeps, and `plays` since it took something after that.
    """

    wait = 0.02

    def __init__(self, command):
        reading, self.pipe, _ = small_pipe()
        self.was_full = self.plays = False
        self.ends = [self.pipe]
        os.set_blocking(self.pipe, False)
        try:
            self.program = subprocess.Popen(shlex.split(command), stdin=reading, stdout=subprocess.DEVNULL,
                                            start_new_session=True)
        except (OSError, ValueError):
            os.close(self.pipe)
            raise
        finally:
            os.close(reading)

    def room(self):
        """How many bytes it takes now; none if its pipe is full."""
        return PIPE if select.select([], self.ends, [], 0)[1] else 0

    def ahead(self):
        """How many bytes more than were put it has taken: fewer, as some stand in its pipe."""
        return -standing(self.pipe)

    def put(self, data):
        """Hands bytes over, as many as the pipe holds at most, and answers how many went into it."""
        try:
            return os.write(self.pipe, data)
        except BlockingIOError:
            return 0

    def close(self):
        """Ends it, at once if it doesn't end by itself."""
        os.close(self.pipe)
        for number in (signal.SIGTERM, signal.SIGKILL):
            try:
                self.program.wait(timeout=GRACE)
                return
            except subprocess.TimeoutExpired:
                os.killpg(self.program.pid, number)
        self.program.wait()
