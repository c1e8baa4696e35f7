"""Panning and crossfades."""
import math

from .functions import LIMIT, SINE_0
from .graph import Wire
from .ratios import divided
from .rows import DIFFERENCE, GREATER, LESSER, SIZE, Row
from .templates import constant, template

# The gain of what is heard from all sides.
ALL_SIDES = math.sqrt(0.5)


def limited(graph, pos):
    """A place from -1 to 1."""
    if not isinstance(pos, Wire):
        return min(1.0, max(-1.0, pos))
    return LIMIT(graph, x=pos)[0] if pos.most > 1 else pos


def sine_of(graph, phase):
    return SINE_0(graph, phase=phase)[0] if isinstance(phase, Wire) else math.sin(phase)


def gains(graph, pos):
    """Equal power: a quarter of a turn of a cosine and of a sine."""
    pos, quarter = limited(graph, pos), math.pi / 4
    phases = [graph.product(pos, turn, quarter) for turn in (-quarter, quarter)]
    return [sine_of(graph, phase) for phase in phases]


def pan(graph, x, pos, level):
    x = graph.product(x, level)
    return [graph.product(x, each) for each in gains(graph, pos)]


def balance(graph, left, right, pos, level):
    return [graph.product(graph.product(x, level), gain) for x, gain in zip((left, right), gains(graph, pos))]


def crossfade(graph, a, b, pos, level):
    to_a, to_b = gains(graph, pos)
    return [graph.product(graph.product(b, to_b, graph.product(a, to_a)), level)]


def straight_crossfade(graph, a, b, pos):
    part = graph.product(limited(graph, pos), 0.5, 0.5)
    return [graph.product(graph.sum(b, graph.product(a, -1.0)), part, a)]


def pan_4(graph, x, side, depth, level):
    """Left and right in front, and then at the back."""
    back, front = pan(graph, x, depth, level)
    return [*pan(graph, front, side, 1.0), *pan(graph, back, side, 1.0)]


def turned(graph, pos):
    """The cosine and the sine of a place, of which 1 is half a turn; the cosine by the sine of half the angle."""
    half = sine_of(graph, graph.product(pos, math.pi / 2))
    return graph.product(graph.product(half, -2.0), half, 1.0), sine_of(graph, graph.product(pos, math.pi))


def rotate(graph, x, y, pos):
    cosine, sine = turned(graph, pos)
    back = graph.product(graph.product(x, sine), -1.0)
    return [graph.product(x, cosine, graph.product(y, sine)), graph.product(y, cosine, back)]


def pan_around(graph, x, pos, level):
    """A sound at a place, in the two dimensions of Ambisonics."""
    x, (cosine, sine) = graph.product(x, level), turned(graph, pos)
    return [graph.product(x, ALL_SIDES), graph.product(x, cosine), graph.product(graph.product(x, sine), -1.0)]


def pan_two_around(graph, a, b, pos, level):
    """Two sounds on opposite sides."""
    a, b = (graph.product(each, level) for each in (a, b))
    way, (cosine, sine) = DIFFERENCE(graph, a=a, b=b)[0], turned(graph, pos)
    return [graph.product(graph.sum(a, b), ALL_SIDES), graph.product(way, cosine),
            graph.product(graph.product(way, sine), -1.0)]


def decode(graph, all_sides, x, y, orientation):
    """The channels of a circle of loudspeakers."""
    count, found = graph.unit.outputs, []
    for channel in range(count):
        angle = (constant(orientation, "its orientation") - channel) * math.tau / count
        ahead = graph.product(x, math.cos(angle) / 2, graph.product(all_sides, ALL_SIDES))
        found.append(graph.product(y, math.sin(angle) / 2, ahead))
    return found


def far_apart(graph, pos, place):
    """How far a position lies from a place, both on a circle from -1 to 1."""
    off = graph.sum(pos, (1 - place) % 2 - 1)
    if not isinstance(off, Wire):
        return abs((off + 1) % 2 - 1)
    size, = SIZE(graph, x=off)
    return LESSER(graph, a=size, b=graph.product(size, -1.0, 2.0))[0]


def pan_circle(graph, x, pos, level, width, orientation):
    """A circle of channels, of which those near the position are heard."""
    count, found = graph.unit.outputs, []
    x = graph.product(x, level)
    slope = divided(graph, -math.pi * count / 2, width) if isinstance(width, Wire) else -math.pi * count / 2 / width
    for channel in range(count):
        off = far_apart(graph, pos, 2 * (channel - constant(orientation, "its orientation")) / count)
        turn = graph.product(off, slope, math.pi / 2)
        near = GREATER(graph, a=turn, b=0.0)[0] if isinstance(turn, Wire) else max(0.0, turn)
        found.append(graph.product(x, sine_of(graph, near)))
    return found


UNITS = {
    "Pan2": Row("x pos level", pan),
    "LinPan2": Row("x pos level", template("Pan2 x:sample pos:sample level:sample -> sample sample")),
    "Balance2": Row("left right pos level", balance),
    "XFade2": Row("a b pos level", crossfade),
    "LinXFade2": Row("a b pos", straight_crossfade),
    "Pan4": Row("x side depth level", pan_4),
    "PanAz": Row("x pos level width orientation", pan_circle),
    "Rotate2": Row("x y pos", rotate),
    "PanB2": Row("x pos level", pan_around),
    "BiPanB2": Row("a b pos level", pan_two_around),
    "DecodeB2": Row("all_sides x y orientation", decode),
}
