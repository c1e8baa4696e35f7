"""How a segment of an envelope bends: what goes from 0 to 1 while a ramp goes from one end to the other.

A curve puts its part of the ramp through an exponential: a power of 2, or a short series and squarings.
"""
import math
from typing import NamedTuple, Optional, Union

from .further import has, preferred
from .graph import Wire
from .measures import SAMPLE, Refused
from .templates import template

STEP, LINEAR, EXPONENTIAL, SINE, WELCH, CURVE, SQUARED, CUBED, HOLD = range(9)
# A curve that is flatter is a line.
FLAT = 0.001

EXP_2 = template("Exp2 x:sample -> sample")
STILL = preferred("Sine", template("Sine 0:hertz phase:radians -> sample"),
                  template("SinOsc 0:hertz phase:radians -> sample"))
ABOVE = template("Gt x:sample limit:sample -> sample")


class Segment(NamedTuple):
    """A part of an envelope: the level that it goes to, its time, and how it bends."""

    level: Union[float, Wire]
    time: Union[float, Wire]
    shape: int
    curve: float

    def is_linear(self):
        return self.shape == LINEAR or self.shape == CURVE and abs(self.curve) < FLAT


class Part(NamedTuple):
    """A part of a ramp: the wire `x` goes from `low` to `high`, and stays where it comes from or has come to.

    With no wire it is over from the start."""

    x: Optional[Wire]
    low: float
    high: float

    def line(self, graph, start, end):
        """What goes from `start` to `end`."""
        slope = (end - start) / (self.high - self.low)
        return graph.product(self.x, slope, start - slope * self.low)


def exponent(depth):
    """The end of the wire that `exponential` takes for e^z with z from `depth` to 0."""
    return depth * math.log2(math.e) if has("Exp2") else depth / 2 ** steps(depth)


def exponential(graph, z, depth):
    """e^z for a wire from `exponent(depth)`, below 0, to 0."""
    z.slot.set(SAMPLE)
    if has("Exp2"):
        return EXP_2(graph, x=z)[0]
    a = graph.product(z, 1 / 3, 1.0)
    b = graph.product(z, graph.product(a, 0.5), 1.0)
    found = graph.product(z, b, 1.0)
    found.slot.set(SAMPLE)
    for _ in range(steps(depth)):
        found = graph.product(found, found)
    return found


def steps(depth):
    """How often the series must be squared to be right to 10^-5."""
    return max(0, math.ceil(math.log(abs(depth) ** 4 / 24 / 1e-5, 8)))


def over(graph, x, limit):
    """A switch that is on once a wire has come to a limit."""
    return ABOVE(graph, x=x, limit=limit - 1e-6)[0]


def curved(graph, part, curve):
    """By e to a line; from the larger end the other one is reached by what falls."""
    depth = -abs(curve)
    end = exponent(depth)
    z = part.line(graph, 0.0, end) if curve < 0 else part.line(graph, end, 0.0)
    found, foot = exponential(graph, z, depth), math.exp(depth)
    if curve < 0:
        return graph.product(found, -1 / (1 - foot), 1 / (1 - foot))
    return graph.product(found, 1 / (1 - foot), -foot / (1 - foot))


def along_sine(graph, part, start, end):
    """The sine of what goes from an angle to another one, without ever being more than half a turn."""
    return STILL(graph, phase=graph.product(part.line(graph, 0.0, 1.0), end - start, start))[0]


def welch(graph, part, before, after):
    if after >= before:
        return along_sine(graph, part, 0.0, math.pi / 2)
    return graph.product(along_sine(graph, part, math.pi / 2, math.pi), -1.0, 1.0)


def squared(graph, part, before, after):
    """(s + d x)² goes from the one level to the other one: of it x (1 - k + k x) is the part that is done."""
    s, e = (math.sqrt(abs(level)) for level in (before, after))
    x, k = part.line(graph, 0.0, 1.0), (e - s) / (e + s)
    return graph.product(x, graph.product(x, k, 1 - k))


def cubed(graph, part, before, after):
    """(s + d x)³ goes from the one level to the other one."""
    s, e = (math.copysign(abs(level) ** (1 / 3), level) for level in (before, after))
    x, d = part.line(graph, 0.0, 1.0), e - s
    whole = 3 * s * s + 3 * s * d + d * d
    inner = graph.product(x, d * d / whole, 3 * s * d / whole)
    return graph.product(x, graph.product(x, inner, 3 * s * s / whole))


def exponential_ratio(graph, part, before, after):
    if before * after <= 0:
        raise Refused("an exponential segment goes from a level to one of the same sign, neither of them 0")
    return curved(graph, part, math.log(after / before))


# Shapes that depend on the levels of a segment.
OF_LEVELS = {EXPONENTIAL: exponential_ratio, WELCH: welch, SQUARED: squared, CUBED: cubed}
LEVELS = "a segment of the shape {} has levels that aren't constants, and neither is 0"


def ends(segment, before):
    """The levels of a segment; if one of them is 0, the other one is 1, which is no other shape."""
    after = segment.level
    if not isinstance(before, Wire) and not isinstance(after, Wire):
        return before, after
    if segment.shape == EXPONENTIAL or before != 0 and after != 0:
        raise Refused(LEVELS.format(segment.shape))
    return (0.0, 1.0) if before == 0 else (1.0, 0.0)


def done_of(graph, part, segment, before):
    """What goes from 0 to 1 in a segment that comes from a level: how much of its way is done."""
    levels = ends(segment, before) if segment.shape in OF_LEVELS else ()
    key = (part, segment.shape, segment.curve, levels)
    if key not in graph.bends:
        graph.bends[key] = bend(graph, part, segment, levels)
    return graph.bends[key]


def bend(graph, part, segment, levels):
    if part.x is None:
        return 1.0
    if segment.shape == STEP or part.high == 0:
        return ABOVE(graph, x=part.x, limit=part.low)[0]
    if segment.shape == HOLD or part.low == part.high:
        return over(graph, part.x, part.high)
    if segment.is_linear():
        return part.line(graph, 0.0, 1.0)
    if segment.shape == SINE:
        return graph.product(along_sine(graph, part, -math.pi / 2, math.pi / 2), 0.5, 0.5)
    if segment.shape == CURVE:
        return curved(graph, part, segment.curve)
    if segment.shape in OF_LEVELS:
        return OF_LEVELS[segment.shape](graph, part, *levels)
    raise Refused(f"a segment has the shape {segment.shape}; there are 0 to 8")
