"""The table of commands on buffers, and what is remembered of a buffer."""
from dataclasses import dataclass
from typing import Optional

from .commands import same, turned
from .measures import Refused, raw
from .osc import Message

# So many samples one message sets, and so many are asked for by one. No buffer has more than MOST_FILLED.
MOST_SAMPLES, MOST_ASKED, MOST_FILLED = 13000, 8192, 2**24


@dataclass
class Buffer:
    """A buffer: its sizes, and the sample rate of what is in it.

    `samples` are those from the first one on that may be other than 0; None if they aren't known.
    """

    frames: int
    channels: int
    rate: float
    samples: Optional[list]

    @property
    def size(self):
        return self.frames * self.channels

    def all_samples(self):
        """All samples, if they are known."""
        return self.samples + [0.0] * (self.size - len(self.samples))

    def put(self, begin, values):
        """Samples are set. What lies outside of the buffer the server refuses."""
        if self.samples is not None and 0 <= begin and begin + len(values) <= self.size:
            self.samples += [0.0] * (begin - len(self.samples))
            self.samples[begin:begin + len(values)] = values


def buffer_of(session, number):
    """What is remembered of a buffer."""
    if number not in session.buffers:
        raise Refused(f"no buffer {number} was made")
    return session.buffers[number]


def runs(buffer, begin, values):
    """The commands that set samples from one on."""
    parts = [(begin + at, values[at:at + MOST_SAMPLES]) for at in range(0, len(values), MOST_SAMPLES)]
    return [Message("/b_setn", [buffer, at, len(part), part]) for at, part in parts]


def questions(buffer, begin, end):
    """The commands that ask for samples from one on, up to another one."""
    return [Message("/b_getn", [buffer, at, min(MOST_ASKED, end - at)]) for at in range(begin, end, MOST_ASKED)]


def answered(replies):
    """The samples that were asked for."""
    return [each for reply in replies if reply.address == "/b_setn" for each in reply.arguments[3:]]


# Samples one by one.

def measure_of(session, buffer):
    """The measure of the samples of a buffer."""
    slot = session.slot("buffer", buffer)
    if not session.learns:
        slot.settle()
    return slot.guess()


def sample_values(session, buffer, values):
    """What samples of a buffer are set to here."""
    for value in values:
        session.slot("buffer", buffer).note(value)
    measure = measure_of(session, buffer)
    return [raw(value, measure) for value in values]


def remember(session, buffer, begin, values):
    """Keeps what samples are set to; a live session doesn't, since it can ask for them."""
    if buffer in session.buffers and session.live:
        session.buffers[buffer].samples = None
    elif buffer in session.buffers:
        session.buffers[buffer].put(begin, values)


def b_set(session, buffer, pairs):
    values = sample_values(session, buffer, [value for _, value in pairs])
    for at, value in pairs:
        remember(session, buffer, at, [value])
    return [Message("/b_set", [buffer, *(each for (at, _), value in zip(pairs, values) for each in (at, value))])]


def b_setn(session, buffer, given):
    found = []
    for begin, values in given:
        found += [begin, len(values), *sample_values(session, buffer, values)]
        remember(session, buffer, begin, values)
    return [Message("/b_setn", [buffer, *found])]


def b_fill(session, buffer, triples):
    values = sample_values(session, buffer, [value for *_, value in triples])
    for begin, count, value in triples:
        remember(session, buffer, begin, [value] * max(0, min(count, MOST_FILLED)))
    found = [each for (begin, count, _), value in zip(triples, values) for each in (begin, count, value)]
    return [Message("/b_fill", [buffer, *found])]


# What is remembered.

def check_own(session, number):
    """Refuses a buffer in which a synth keeps the waves that it shows."""
    if session.scopes and number in session.scopes.shown:
        raise Refused(f"a scope has the buffer {number}; take one of a lower number")


def allocated(session, buffer, frames, channels):
    check_own(session, buffer)
    session.let_go("buffer", buffer)
    session.buffers[buffer] = Buffer(frames, channels, float(session.rate), [])


def given_back(session, buffer):
    check_own(session, buffer)
    session.let_go("buffer", buffer)
    session.buffers.pop(buffer, None)


def emptied(session, buffer):
    if buffer in session.buffers:
        session.buffers[buffer].samples = []


NO_STREAMS = "nothing is played from a disk here, and no file stays open to be read"

BUFFERS = [
    same("/b_alloc", 28, "buffer frames:int channels:int=1", allocated, carries=True),
    same("/b_free", 32, "buffer", given_back, carries=True),
    same("/b_zero", 34, "buffer", emptied, carries=True),
    turned("/b_set", 35, "buffer (int value)..", b_set),
    turned("/b_setn", 36, "buffer (int run)..", b_setn),
    turned("/b_fill", 37, "buffer (int int value)..", b_fill),
    same("/b_get", 42, "buffer (int).."),
    same("/b_getn", 43, "buffer (int count).."),
    same("/b_query", 47, "(buffer).."),
]
