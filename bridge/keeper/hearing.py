"""What hears the sound for clients: levels that are reported many times a second, and files that are recorded."""
import math
import os
from collections import deque

from converter import soundfiles
from converter.osc import Message
from converter.soundfiles import Coding
from converter.taps import DISK

from .sinks import standing
from .window.watch import Tap

# The head of a file counts its bytes in 32 bits.
MOST_BYTES = 2**32 - 2**16
# So many reports of levels there are in a second at most.
MOST_REPORTS = 750


class Switch:
    """The frames from which on something is on or off."""

    def __init__(self):
        self.changes, self.is_on = deque(), False

    def turn(self, at, is_on):
        self.changes.append((at, is_on))

    def spans(self, begin, end):
        """The spans from one frame to another in which it is on."""
        while self.changes and self.changes[0][0] < end:
            at, is_on = self.changes.popleft()
            at = max(at, begin)
            if self.is_on and begin < at:
                yield begin, at
            begin, self.is_on = at, is_on
        if self.is_on and begin < end:
            yield begin, end


class Levels:
    """Of some channels the peak, which falls by 60 dB in a time, and the root of the mean square since the last
    report, as SendPeakRMS has them. A bus that isn't heard is silent."""

    def __init__(self, rate, wanted, lag, buses, channels):
        """`wanted` is how many reports come in a second, and `lag` the time in seconds."""
        self.period = round(rate / min(max(wanted, 1 / rate), MOST_REPORTS)) if wanted > 0 else math.inf
        self.falls = 0.001 ** (self.period / (lag * rate)) if lag > 0 else 0.0
        self.buses, self.channels, self.peaks = buses, channels, [0.0] * len(buses)
        self.clear()

    def clear(self):
        """A time starts of which the next report is."""
        self.count, self.sums, self.tops = 0, [0.0] * len(self.buses), [0.0] * len(self.buses)

    def take(self, samples, full):
        """Hears samples, frame by frame, of which `full` is 1.0; it answers the reports that are due."""
        at, end = 0, len(samples) // self.channels
        while at < end:
            step = min(self.period - self.count, end - at)
            self.hear(samples[at * self.channels:(at + step) * self.channels], full)
            at, self.count = at + step, self.count + step
            if self.count == self.period:
                yield self.report()

    def hear(self, samples, full):
        for place, bus in enumerate(self.buses):
            own = samples[bus::self.channels] if 0 <= bus < self.channels else ()
            if own:
                self.tops[place] = max(self.tops[place], max(own) / full, -min(own) / full)
            self.sums[place] += sum(each * each for each in own) / full**2

    def report(self):
        means = [math.sqrt(each / self.count) for each in self.sums]
        self.peaks = [max(top, before * self.falls) for top, before in zip(self.tops, self.peaks)]
        self.clear()
        return [each for pair in zip(self.peaks, means) for each in pair]


class SoundFile:
    """A WAV or AIFF file that is recorded."""

    def __init__(self, path, words, channels, rate):
        self.head, self.coding = soundfiles.form_of(words)
        self.path, self.channels, self.rate, self.frames = path, channels, rate, 0
        # The frame at which it is closed, and who is answered then.
        self.last, self.client = math.inf, None
        self.file = open(path, "wb", opener=lambda name, flags: os.open(name, flags | os.O_NONBLOCK, 0o666))
        self.file.write(self.head(channels, rate, self.coding, 0))

    @property
    def frame(self):
        return self.channels * self.coding.bits // 8

    def put(self, samples, bits):
        """Adds samples, whole numbers of so many bits; it answers False if the file is full."""
        if (self.frames + len(samples) // self.channels) * self.frame > MOST_BYTES:
            return False
        self.file.write(soundfiles.spelled_again(samples, bits, self.coding))
        self.frames += len(samples) // self.channels
        return True

    def close(self):
        """Writes how long it is."""
        with self.file:
            self.file.write(bytes(self.frames * self.frame % 2))
            self.file.seek(0)
            self.file.write(self.head(self.channels, self.rate, self.coding, self.frames))


class Listener:
    """A synth that hears the sound while it runs."""

    def __init__(self, number, node, rate, channels):
        self.number, self.switch, self.last = number, Switch(), math.inf
        self.levels, self.records = [], []
        for tap in node.taps:
            buses = tap.buses(node)
            if tap.kind == DISK and all(0 <= bus < channels for bus in buses):
                self.records.append((round(tap.values(node)[0]), buses))
            elif tap.kind != DISK:
                wanted, lag, given = tap.values(node)
                self.levels.append((tap.address, given, Levels(rate, wanted, lag, buses, channels)))


class Hearing:
    """Hears the sound as the server sends it, for the taps of synths. `files` are recorded, by their buffers."""

    def __init__(self, settings, sound, gateway, report):
        self.sound, self.gateway, self.report = sound, gateway, report
        self.channels, self.rate = settings.channels, settings.rate
        self.coding, self.tap = Coding(False, settings.bits, "little"), Tap(settings.wide)
        self.listeners, self.ending, self.files, self.at = {}, [], {}, 0
        sound.hears.append(self.tap)

    def start(self):
        """Another server sends sound; its synths are notified of."""
        self.tap.start()
        self.listeners, self.ending, self.at = {}, [], 0
        for number in [number for number, file in self.files.items() if file.last < math.inf]:
            self.finish(number)

    def came(self):
        """How many frames have come. What the server notifies of began behind them: those of a pipe come as one."""
        return self.tap.count // self.tap.wide

    def sent(self):
        """How many frames the server has sent, with those that stand in its pipe. What it notifies of ended by then."""
        waiting = standing(self.sound.source) if self.sound.source is not None else 0
        return (self.tap.count + waiting) // self.tap.wide

    # What the gateway tells.

    def hear(self, message, node):
        """The server has notified of a node."""
        number = message.arguments[0]
        if message.address == "/n_go" and node and node.taps:
            self.listeners[number] = Listener(number, node, self.rate, self.channels)
            self.listeners[number].switch.turn(self.came(), True)
        elif number in self.listeners and message.address == "/n_on":
            self.listeners[number].switch.turn(self.came(), True)
        elif number in self.listeners and message.address == "/n_off":
            self.listeners[number].switch.turn(self.sent(), False)
        elif number in self.listeners and message.address == "/n_end":
            ended = self.listeners.pop(number)
            ended.last = self.sent()
            ended.switch.turn(ended.last, False)
            self.ending.append(ended)

    def open(self, number, path, words, channels):
        """Opens a file that is recorded by a buffer."""
        made = SoundFile(path, words, channels, self.rate)
        if number in self.files:
            self.finish(number)
        self.files[number] = made

    def close_file(self, number, client):
        """A file ends with what the server has sent by now; then the client is answered."""
        self.files[number].last, self.files[number].client = self.sent(), client

    # What is done now and then.

    def look(self):
        """Takes what was heard since the last time."""
        data = self.tap.take()
        begin, self.at = self.at, self.at + len(data) // self.tap.wide
        if data and (self.listeners or self.ending):
            samples, full = soundfiles.decoded(data, self.coding)
            for listener in [*self.listeners.values(), *self.ending]:
                for first, last in listener.switch.spans(begin, self.at):
                    own = slice((first - begin) * self.channels, (last - begin) * self.channels)
                    self.pass_on(listener, samples[own], full)
        self.ending = [each for each in self.ending if each.last > self.at]
        for number in [number for number, file in self.files.items() if file.last <= self.at]:
            self.finish(number)

    def pass_on(self, listener, samples, full):
        for address, given, levels in listener.levels:
            for report in levels.take(samples, full):
                number = self.gateway.session.nodes.ids.of_client(listener.number)
                self.gateway.notify(Message(address, [number, round(given), *report]))
        for number, buses in listener.records:
            if number in self.files and self.files[number].channels == len(buses):
                self.record(number, soundfiles.picked_samples(samples, self.channels, buses))

    def record(self, number, samples):
        file = self.files[number]
        try:
            if file.put(samples, 8 * samples.itemsize):
                return
            self.report(f"{file.path.decode('latin-1')}: a file has 4 GiB at most, and is closed")
        except OSError as wrong:
            self.report(f"{file.path.decode('latin-1')}: {wrong.strerror}; nothing more is recorded")
        self.finish(number)

    def finish(self, number):
        """Closes a file, and answers who asked for that."""
        file = self.files.pop(number)
        try:
            file.close()
        except OSError as wrong:
            self.report(f"{file.path.decode('latin-1')}: {wrong.strerror}")
        if file.client is not None:
            self.gateway.answer(file.client, Message("/done", ["/b_close", number]))

    def close(self):
        """Closes all files with what was heard."""
        self.look()
        for number in list(self.files):
            self.finish(number)
