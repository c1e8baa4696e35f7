"""Units that read a buffer as a table: oscillators, shapers and indices."""
import math

from .buses import FRAMES, LONGEST, buffer_slot
from .functions import remainder
from .further import has
from .generators import ramp
from .graph import Wire
from .measures import NUMBER, SAMPLE, Slot, fraction_of
from .ratios import below
from .rows import DIFFERENCE, Row
from .templates import index, template

CLIP = template("Clip x:M low:M high:M -> M")
# What is a little below the last place.
SHORT = 0.001
FRACTIONS = fraction_of(LONGEST)


class Table:
    """A buffer of one channel, and the measure of what is in it."""

    def __init__(self, graph, buf):
        self.graph, self.buf, self.slot = graph, index(buf), buffer_slot(graph, buf)
        self.frames, = FRAMES(graph, buf=buf)
        self.frames.slot.note(LONGEST)

    def size(self, part):
        """A part of its frames, in parts of a frame."""
        found = self.graph.product(self.frames, part)
        found.slot.set(FRACTIONS)
        return found

    def read(self, at):
        return self.graph.line("BufRd", [(self.buf, Slot(NUMBER)), (at, Slot(NUMBER))], [self.slot])[0]

    def split(self, at):
        """The whole frames of a place, and the part after them."""
        whole = self.graph.product(at, 1.0)
        whole.slot.set(NUMBER)
        whole.slot.note(LONGEST)
        back = self.graph.product(whole, 1.0)
        back.slot.set(FRACTIONS)
        part = self.graph.product(DIFFERENCE(self.graph, a=at, b=back)[0], 1.0)
        part.slot.set(SAMPLE)
        part.size = 1.0
        return whole, part

    def pair(self, at):
        """What stands at a place of a wavetable, each of whose places has 2 a - b and b - a of two values."""
        whole, part = self.split(at)
        twice = self.graph.product(whole, 2.0)
        low, high = self.read(twice), self.read(self.graph.sum(twice, 1.0))
        return self.graph.product(high, self.graph.sum(part, 1.0), low)

    def between(self, at):
        """What lies between two frames of a plain table."""
        whole, part = self.split(at)
        low, high = self.read(whole), self.read(self.graph.sum(whole, 1.0))
        return self.graph.product(DIFFERENCE(self.graph, a=high, b=low)[0], part, low)

    def inside(self, at):
        """A place that is kept inside a plain table."""
        at = self.graph.product(at, 1.0)
        if isinstance(at, Wire):
            at.slot.set(FRACTIONS)
        return CLIP(self.graph, x=at, low=0.0, high=self.graph.sum(self.size(1.0), -1.0))[0]


def turn(graph, freq, phase):
    """What goes from 0 to 1 in each turn, from a phase in radians on."""
    part = graph.product(phase, 1 / math.tau)
    if isinstance(part, Wire):
        whole = below if has("Mod") else lambda *given: remainder(*given)[0]
        part = graph.sum(whole(graph, graph.sum(part, 0.5), 1.0), -0.5)
    return graph.product(ramp(graph, freq, part), 0.5, 0.5)


def wavetable(graph, buf, freq, phase):
    table = Table(graph, buf)
    return [table.pair(graph.product(turn(graph, freq, phase), table.size(0.5)))]


def plain_table(graph, buf, freq, phase):
    table = Table(graph, buf)
    at = graph.product(turn(graph, freq, phase), table.size(1.0))
    return [table.read(table.split(at)[0])]


def chorus(graph, buf, freq, beats):
    """Two oscillators, whose frequencies lie apart by the beats."""
    both = [wavetable(graph, buf, graph.sum(freq, graph.product(beats, side)), 0.0)[0] for side in (0.5, -0.5)]
    return [graph.sum(*both)]


def shaped(graph, buf, x):
    """What stands in a wavetable, of which -1 and 1 are the ends."""
    table = Table(graph, buf)
    x = CLIP(graph, x=x, low=-1.0, high=1.0)[0] if isinstance(x, Wire) else x
    quarter = table.size(0.25)
    at = graph.product(graph.sum(x, 1.0), quarter)
    last = graph.sum(graph.product(quarter, 2.0), -SHORT)
    return [table.pair(CLIP(graph, x=at, low=0.0, high=last)[0])]


def at_index(graph, buf, x):
    table = Table(graph, buf)
    return [table.read(table.split(table.inside(x))[0])]


def between_indices(graph, buf, x):
    table = Table(graph, buf)
    return [table.between(table.inside(x))]


UNITS = {
    "Osc": Row("buf freq phase", wavetable),
    "OscN": Row("buf freq phase", plain_table),
    "COsc": Row("buf freq beats", chorus),
    "Shaper": Row("buf x", shaped),
    "Index": Row("buf x", at_index),
    "IndexL": Row("buf x", between_indices),
}
