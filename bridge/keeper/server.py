"""The server of a session: `snova serve`, its one connection and its pipe."""
import os
import select
import socket
import subprocess
import time

from converter import osc
from converter.osc import Bundle, Message

from .log import reason
from .sinks import BLOCK, small_pipe, standing
from .timing import SECOND, tag_of

HOST = "127.0.0.1"
# Seconds in which a server must listen, and must answer.
PATIENCE = 10.0
# Seconds by which the first bundle is ahead, so that its block is still to come.
AHEAD = 0.1
# So many bundles are sent, more than the blocks that a pipe holds, and one more asks whether all was answered.
TRIED, LAST = 64, -1
# Seconds after which a server that stands still has sent all.
MOMENT = 0.01


class NoServer(Exception):
    """The server can't be started, with the reason."""


def free_port():
    """A port at which nobody listens."""
    with socket.socket() as listener:
        listener.bind((HOST, 0))
        return listener.getsockname()[1]


def connected(port, program):
    """A connection to a server that was started."""
    until = time.monotonic() + PATIENCE
    while time.monotonic() < until:
        try:
            link = socket.create_connection((HOST, port))
            link.setsockopt(socket.IPPROTO_TCP, socket.TCP_NODELAY, 1)
            return link
        except ConnectionRefusedError:
            if program.poll() is not None:
                raise NoServer(f"it ended with status {program.returncode}") from None
            time.sleep(0.02)
    raise NoServer("it doesn't listen")


class Server:
    """A running server: `link` is its connection, and `pipe` the end of its pipe that is read."""

    def __init__(self, words, wide):
        """`words` are the program and its words, with `PORT` and `SOUND` for those that are chosen here; a frame has
        `wide` bytes."""
        port, self.link, self.program = free_port(), None, None
        self.pipe, writing, size = small_pipe()
        self.block = BLOCK * wide
        # A block goes into the pipe as a whole, so it is full when no further one fits.
        self.held = size // self.block * self.block
        names = {"PORT": str(port), "SOUND": f"/dev/fd/{writing}"}
        try:
            self.program = subprocess.Popen([names.get(word, word) for word in words], pass_fds=[writing],
                                            stdout=subprocess.DEVNULL)
            self.link = connected(port, self.program)
        except (OSError, NoServer) as wrong:
            self.stop(0)
            raise NoServer(str(wrong) if isinstance(wrong, NoServer) else reason(wrong, words[0])) from None
        finally:
            os.close(writing)

    def find_start(self, rate):
        """Finds the time of block 0 as a time tag, to one block; it answers it, and how many blocks were read and are
        lost.

        The server stands still while its pipe is full, so it is known before which block it stands. Of bundles whose
        times are a block apart it answered those that are due by then.
        """
        first, step = tag_of(time.time() + AHEAD), BLOCK * SECOND // rate
        for number in range(TRIED):
            self.ask(Bundle(first + number * step, [Message("/sync", [LAST - 1 - number])]))
        read, answers = self.read_until(lambda answers: answers)
        start = first + (len(answers) - 1) * step - (read + self.held) // self.block * step
        for message in (Message("/clearSched", []), Message("/sync", [LAST])):
            self.ask(message)
        more, _ = self.read_until(lambda answers: Message("/synced", [LAST]) in answers)
        return start, (read + more) // self.block

    def ask(self, packet):
        self.link.sendall(osc.sized(osc.encoded(packet)))

    def read_until(self, is_enough):
        """Reads whole blocks, while the server stands still in between, until its answers are enough.

        It answers how many bytes it read, and the answers.
        """
        read, came, until = 0, b"", time.monotonic() + PATIENCE
        while True:
            self.settle(until)
            came += self.answers()
            found = [osc.decoded(data) for data in osc.whole_packets(came)[0]]
            if is_enough(found):
                return read, found
            if time.monotonic() > until or self.program.poll() is not None:
                raise NoServer("it doesn't answer")
            if standing(self.pipe) >= self.block:
                read += len(os.read(self.pipe, self.held))

    def settle(self, until):
        """Waits until the pipe is full."""
        while standing(self.pipe) < self.held and time.monotonic() < until and self.program.poll() is None:
            time.sleep(0.0005)

    def answers(self):
        """What it has sent, and sends within a moment."""
        found = b""
        while select.select([self.link], [], [], MOMENT)[0]:
            data = self.link.recv(65536)
            found += data
            if not data:
                break
        return found

    def threads(self):
        """The numbers of its threads."""
        try:
            return [int(each) for each in os.listdir(f"/proc/{self.program.pid}/task")]
        except OSError:
            return []

    def used(self):
        """The seconds of processors that it used."""
        try:
            with open(f"/proc/{self.program.pid}/stat", encoding="ascii", errors="replace") as file:
                fields = file.read().rpartition(")")[2].split()
        except OSError:
            return 0.0
        return (int(fields[11]) + int(fields[12])) / os.sysconf("SC_CLK_TCK")

    def stop(self, patience=1.0):
        """Ends it, at once if it doesn't end by itself, and what it holds here."""
        if self.link:
            self.link.close()
        os.close(self.pipe)
        if self.program is None:
            return
        try:
            self.program.wait(timeout=patience)
        except subprocess.TimeoutExpired:
            self.program.kill()
            self.program.wait()
