"""Arithmetic that has a unit of its own; what BinaryOpUGen and UnaryOpUGen say is in operators.py."""
import math

from .functions import LIMIT, between_ends, folded, wrapped
from .graph import Wire
from .measures import SAMPLE
from .operators import mul_add
from .random_numbers import between_by_ratios
from .rows import Row, same
from .templates import constant, template

CLIP = template("Clip x:M low:M high:M -> M")
UNDER = template("Lt which:M number:M -> sample")


def select(graph, which, inputs):
    """The last one, or of each number that isn't reached the one before."""
    found = inputs[-1]
    for number in range(len(inputs) - 1, 0, -1):
        under, = UNDER(graph, which=which, number=float(number))
        before = inputs[number - 1]
        if isinstance(before, Wire) or isinstance(inputs[number], Wire):
            found = graph.product(graph.sum(before, graph.product(found, -1.0)), under, found)
        else:
            found = graph.product(under, before - inputs[number], found)
    return [found]


def selected(graph, which, inputs):
    if isinstance(which, Wire):
        return select(graph, which, inputs)
    return [inputs[max(0, min(len(inputs) - 1, math.floor(which)))]]


def by_ratios(graph, x, low, high, start, end):
    """What goes from `start` to `end` by ratios as x goes from `low` to `high`."""
    low, high = constant(low, "its low end"), constant(high, "its high end")
    way = graph.product(x, 2 / (high - low), -1 - 2 * low / (high - low))
    if isinstance(way, Wire):
        way.slot.set(SAMPLE)
        way, = LIMIT(graph, x=way)
    return [between_by_ratios(graph, way, start, end)]

UNITS = {
    "MulAdd": Row("x factor addend", lambda graph, x, factor, addend: [mul_add(graph, x, factor, addend)]),
    "Sum3": Row("a b c", template("d = Add a:M b:M -> M", "Add d:M c:M -> M")),
    "Sum4": Row("a b c d", template("e = Add a:M b:M -> M", "f = Add c:M d:M -> M", "Add e:M f:M -> M")),
    "Clip": Row("x low high", CLIP),
    "Select": Row("which inputs*", selected),
    "LinExp": Row("x low high start end", by_ratios),
    "Wrap": Row("x low high", between_ends(wrapped)),
    "Fold": Row("x low high", between_ends(folded)),
    "K2A": Row("x", same),
    "A2K": Row("x", same),
    "T2K": Row("x", same),
    "T2A": Row("x offset?", same),
}
