"""The definitions, buffers and control buses that a server was sent, as its commands left them."""
import re
from array import array

from converter.limits import BUFFERS, CONTROL_BUSES
from converter.osc import Message

# So many samples or buses stand in one message, which is well below what a packet holds.
RUN = 8192
# So many definitions are kept; of more the oldest go.
MOST_DEFINITIONS = 4096
NAME, CONTROL = re.compile(r"^def (\S+)", re.M), re.compile(r"^(control|array) (\S+) (.*)", re.M)


def flat(arguments):
    """The arguments, each by itself: an `array` stands for as many."""
    if not any(isinstance(each, array) for each in arguments):
        return arguments
    found = []
    for each in arguments:
        found += each if isinstance(each, array) else [each]
    return found


def in_runs(arguments):
    """The runs of a command: where each begins, and its values."""
    at = 0
    while at + 1 < len(arguments):
        begin, count = arguments[at:at + 2]
        yield begin, arguments[at + 2:at + 2 + max(0, count)]
        at += 2 + max(0, count)


def controls_of(text):
    """The names of the controls of a definition; those of an array are NAME, NAME.1, NAME.2 and so on."""
    for kind, name, values in CONTROL.findall(text):
        if kind == "control" or text.startswith("snova 2"):
            yield name
            yield from (f"{name}.{at}" for at in range(1, len(values.split()) if kind == "array" else 1))


class Definitions:
    """The texts of definitions by name, and the names of their controls."""

    def __init__(self):
        self.texts, self.controls = {}, {}

    def receive(self, data, *_):
        text = data.decode("latin-1")
        found = NAME.search(text)
        if found:
            self.texts.pop(found[1], None)
            self.texts[found[1]], self.controls[found[1]] = data, list(controls_of(text))
        if len(self.texts) > MOST_DEFINITIONS:
            self.free(next(iter(self.texts)))

    def free(self, *names):
        for name in names:
            self.texts.pop(name, None)
            self.controls.pop(name, None)

    def messages(self):
        return [Message("/d_recv", [data]) for data in self.texts.values()]


class Buffer:
    """The samples of a buffer, as far as they were sent."""

    def __init__(self, frames, channels):
        self.frames, self.channels = frames, channels
        self.zero()

    def zero(self):
        self.samples = array("i", bytes(4 * self.frames * self.channels))

    def put(self, begin, values):
        """Sets samples; what lies outside was refused by the server."""
        if 0 <= begin and begin + len(values) <= len(self.samples):
            self.samples[begin:begin + len(values)] = array("i", values)

    def runs(self):
        """Runs of samples that aren't all 0: where each begins, and its values."""
        for at in range(0, len(self.samples), RUN):
            piece = self.samples[at:at + RUN]
            if any(piece):
                yield at, piece


class Buffers:
    """The buffers by number, which have `memory` words at most."""

    def __init__(self, memory):
        self.memory, self.by_number = memory, {}

    def alloc(self, number, frames=0, channels=1, *_):
        """Makes a buffer; one that the server has no room for is left out."""
        self.free(number)
        words = sum(len(each.samples) for each in self.by_number.values()) + frames * channels
        if 0 <= number < BUFFERS and frames > 0 and channels > 0 and words <= self.memory:
            self.by_number[number] = Buffer(frames, channels)

    def free(self, number, *_):
        self.by_number.pop(number, None)

    def zero(self, number, *_):
        if number in self.by_number:
            self.by_number[number].zero()

    def set(self, number, *pairs):
        for begin, value in zip(pairs[::2], pairs[1::2]):
            self.put(number, begin, [value])

    def set_runs(self, number, *arguments):
        for begin, values in in_runs(arguments):
            self.put(number, begin, values)

    def fill(self, number, *triples):
        for begin, count, value in zip(triples[::3], triples[1::3], triples[2::3]):
            self.put(number, begin, [value] * max(0, min(count, self.memory)))

    def put(self, number, begin, values):
        if number in self.by_number:
            self.by_number[number].put(begin, values)

    def messages(self):
        found = []
        for number, buffer in self.by_number.items():
            found.append(Message("/b_alloc", [number, buffer.frames, buffer.channels]))
            found += [Message("/b_setn", [number, begin, len(values), values]) for begin, values in buffer.runs()]
        return found


class Buses:
    """The values of control buses."""

    def __init__(self):
        self.values = {}

    def put(self, begin, values):
        self.values.update((bus, value) for bus, value in enumerate(values, begin) if 0 <= bus < CONTROL_BUSES)

    def set(self, *pairs):
        for bus, value in zip(pairs[::2], pairs[1::2]):
            self.put(bus, [value])

    def set_runs(self, *arguments):
        for begin, values in in_runs(arguments):
            self.put(begin, values)

    def fill(self, *triples):
        for begin, count, value in zip(triples[::3], triples[1::3], triples[2::3]):
            self.put(begin, [value] * max(0, min(count, CONTROL_BUSES)))

    def messages(self):
        return [Message("/c_set", [each for pair in self.values.items() for each in pair])] if self.values else []
