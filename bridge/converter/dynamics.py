"""What makes the loud softer and the soft louder."""
import math

from .delays import delay
from .followers import AT_ONCE, FOLLOW, amplitude
from .graph import Wire
from .logarithms import exp_2, log_2
from .ratios import divided
from .rows import DELAY_1, DIFFERENCE, GREATER, LATCH, LESS, LESSER, SIZE, Row, start
from .templates import constant, template

# The frames of a window, from 0 on.
FRAMES = template("Phasor 0:any 1:number 0:number count:number 0:number -> number")
# What is softer isn't made louder.
SOFTEST = 1e-5


def bent(graph, way, slope, side):
    """How much the gain is for what is above or below the threshold, as a power of 2."""
    if slope == 1:
        return 0.0
    return graph.product(side(graph, a=way, b=0.0)[0], graph.sum(slope, -1.0))


def compander(graph, x, control, threshold, below, above, clamp, relax):
    """By how many octaves the level lies above its threshold, so many times the slope less one."""
    level, = amplitude(graph, control, clamp, relax)
    way = graph.sum(log_2(graph, level), graph.product(log_2(graph, threshold), -1.0))
    if not isinstance(way, Wire):
        return [graph.product(x, 2.0 ** (way * ((above if way > 0 else below) - 1)))]
    gain = graph.sum(bent(graph, way, above, GREATER), bent(graph, way, below, LESSER))
    return [graph.product(x, exp_2(graph, gain))]


class Windows:
    """Windows of some frames: `begins` is 1 at the first frame of each, and `part` is how much of it is over."""

    def __init__(self, graph, count):
        frames, = FRAMES(graph, count=float(count))
        self.graph, self.part = graph, graph.product(frames, 1 / count)
        self.begins, = LESS(graph, a=frames, b=1.0)

    def last(self, x, at_first):
        """What a wire was at the end of the window before; in the first window `at_first`."""
        before, = DELAY_1(self.graph, x=x)
        if at_first:
            before = self.graph.product(start(self.graph), at_first, before)
        return LATCH(self.graph, x=before, trig=self.begins)[0]

    def loudest(self, x):
        """The greatest size of x in a window up to now."""
        size, = SIZE(self.graph, x=x)
        keeps = self.graph.product(self.begins, -1.0, 1.0)
        return FOLLOW(self.graph, x=size, up=AT_ONCE, down=keeps)[0]


def limited(gain_of):
    """A sound that comes two windows later, with a gain that goes on to that of the loudest of two windows."""
    def build(graph, x, level, dur):
        if not isinstance(x, Wire):
            return [0.0]
        count = max(1, math.ceil(constant(dur, "its time") * graph.rate - 1e-6))
        windows = Windows(graph, count)
        last = windows.last(windows.loudest(x), 0.0)
        most, = GREATER(graph, a=last, b=windows.last(last, 0.0))
        goal = gain_of(graph, level, most)
        gain = windows.last(goal, 1.0)
        way, = DIFFERENCE(graph, a=goal, b=gain)
        late, = delay(graph, x, 2 * count / graph.rate, 2 * count / graph.rate)
        return [graph.product(late, graph.product(windows.part, way, gain))]
    return build


def softer(graph, level, most):
    """The gain that keeps what is louder at a level."""
    return divided(graph, level, GREATER(graph, a=most, b=level)[0])


def even(graph, level, most):
    """The gain that brings all to a level."""
    return divided(graph, level, GREATER(graph, a=most, b=SOFTEST)[0])


UNITS = {
    "Compander": Row("x control threshold below above clamp relax", compander, needs="Div Exp2 LagUD Log2"),
    "Limiter": Row("x level dur", limited(softer), needs="Div LagUD"),
    "Normalizer": Row("x level dur", limited(even), needs="Div LagUD", note="it amplifies by up to 42 dB"),
}
