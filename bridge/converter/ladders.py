"""MoogFF: four poles in a row, and what comes back of them, by two state-variable filters."""
import math

from .graph import Wire
from .logarithms import exp_2, log_2
from .ratios import divided, in_hertz, in_samples
from .rows import Row
from .swept import CLIP as CLIP_FREQ
from .swept import HIGHEST, LOW, LOWEST, SVF
from .templates import template

CLIP = template("Clip x:sample 0:sample 4:sample -> sample")
MOST = 4.0


def root_of(graph, x, part):
    """The square root (`part` 1 / 2) or the fourth root of what is above 0."""
    return exp_2(graph, graph.product(log_2(graph, x), part)) if isinstance(x, Wire) else x ** part


def tuned(graph, freq, factor):
    """A frequency times a factor: of constants it is the one at which the filter here turns as much."""
    if isinstance(freq, Wire) or isinstance(factor, Wire):
        freq = in_hertz(graph, graph.product(freq, factor))
        return CLIP_FREQ(graph, x=freq, low=LOWEST, high=HIGHEST * graph.rate)[0]
    half = min(max(freq, LOWEST), HIGHEST * graph.rate) * math.pi / graph.rate
    return math.atan(factor * math.tan(half)) * graph.rate / math.pi


def pair(graph, x, freq, g, side):
    """Two of the four poles of 1 / ((1 + s)^4 + g^4): those of s² + (2 + side √2 g) s + 1 + side √2 g + g²."""
    square = graph.sum(graph.product(g, g), graph.product(g, side * math.sqrt(2), 1.0))
    height = root_of(graph, square, 0.5)
    rq = divided(graph, graph.product(g, side * math.sqrt(2), 2.0), height)
    rq = in_samples(graph, rq) if isinstance(rq, Wire) else rq
    return SVF(graph, x=x, freq=tuned(graph, freq, height), rq=rq)[LOW]


def ladder(graph, x, freq, gain, reset):
    """A low pass of four poles. `reset` isn't heard."""
    gain = CLIP(graph, x=gain)[0] if isinstance(gain, Wire) else min(max(gain, 0.0), MOST)
    g = root_of(graph, gain, 0.25)
    quiet = divided(graph, x, graph.sum(gain, 1.0))
    return [pair(graph, pair(graph, quiet, freq, g, 1), freq, g, -1)]


UNITS = {"MoogFF": Row("x freq gain reset", ladder, needs="Div Exp2 Log2 SVF")}
