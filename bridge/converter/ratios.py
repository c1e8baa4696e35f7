"""Quotients and remainders of signals, and what is made of them."""
from .graph import Wire
from .measures import HERTZ, LOUDEST, NUMBER, SAMPLE
from .rows import DIFFERENCE, GREATER, LESS, LESSER, MORE, SIZE, Row
from .templates import template

QUOTIENT = template("Div a:M b:sample -> M")
RATIO = template("Div a:M b:M -> sample")
REMAINDER = template("Mod a:M b:M -> M")


def likely(x):
    """The measure of a wire, or one that suits how great it is."""
    if x.slot.measure:
        return x.slot.measure
    size = max(x.slot.bound, x.size)
    return SAMPLE if size < LOUDEST else HERTZ if size < 2e6 else NUMBER


def measured(graph, x, measure):
    """A wire, or the same value in another measure."""
    if not isinstance(x, Wire) or x.slot.measure and x.slot.measure.scale == measure.scale:
        return x
    if x.slot.measure is None and max(x.slot.bound, x.size) * measure.scale < 2**31:
        x.slot.set(measure)
        return x
    found = graph.product(x, 1.0)
    found.slot.set(measure)
    return found


def in_samples(graph, x):
    return measured(graph, x, SAMPLE)


def in_hertz(graph, x):
    return measured(graph, x, HERTZ)


def divided(graph, a, b):
    """a / b: of one measure it is a sample, and by a sample it keeps its measure."""
    if not isinstance(b, Wire):
        return graph.product(a, 1 / b) if b else 0.0
    if likely(b).scale == SAMPLE.scale:
        return QUOTIENT(graph, a=a, b=in_samples(graph, b))[0]
    b = measured(graph, b, likely(b))
    if isinstance(a, Wire) and a.slot.measure is not None and a.slot.measure.scale != b.slot.measure.scale:
        return by_larger(graph, a, b)
    return RATIO(graph, a=a, b=b)[0]


def by_larger(graph, a, b):
    """What is measured otherwise is brought to the measure of what it is divided by, or times one part of that."""
    if b.slot.measure.holds(max(a.slot.bound, 1.0)):
        return RATIO(graph, a=measured(graph, a, b.slot.measure), b=b)[0]
    return graph.product(a, RATIO(graph, a=1.0, b=b)[0])


def quotient(graph, a, b):
    return [divided(graph, a, b)]


def reciprocal(graph, a):
    return [divided(graph, 1.0, a)]


def below(graph, a, b):
    """How much a is above a whole number of b."""
    if isinstance(a, Wire) and a.slot.measure is None:
        a = measured(graph, a, likely(a))
    return REMAINDER(graph, a=a, b=b)[0]


def remainder(graph, a, b):
    return [below(graph, a, b)]


def truncated(graph, a, b):
    return DIFFERENCE(graph, a=a, b=below(graph, a, b))


def rounded(graph, a, b):
    return truncated(graph, graph.sum(a, graph.product(b, 0.5)), b)


def rounded_up(graph, a, b):
    return [graph.sum(a, below(graph, graph.product(a, -1.0), b))]


def wrapped(graph, x, low, high):
    way = graph.sum(high, graph.product(low, -1.0))
    return [graph.sum(below(graph, graph.sum(x, graph.product(low, -1.0)), way), low)]


def folded(graph, x, low, high):
    """What goes back where it meets an end: a remainder of twice the way, or what is left of it."""
    turn = graph.product(graph.sum(high, graph.product(low, -1.0)), 2.0)
    at = below(graph, graph.sum(x, graph.product(low, -1.0)), turn)
    return [graph.sum(LESSER(graph, a=at, b=graph.sum(turn, graph.product(at, -1.0)))[0], low)]


def to_both_sides(build):
    """An operator whose ends lie on both sides of 0."""
    return lambda graph, a, b: build(graph, a, graph.product(b, -1.0), b)


def by_one(build):
    """An operator whose step is 1."""
    return lambda graph, a: build(graph, a, 1.0)


def side(graph, a):
    """-1, 0 or 1."""
    return DIFFERENCE(graph, a=MORE(graph, a=a, b=0.0)[0], b=LESS(graph, a=a, b=0.0)[0])[0]


def distort(graph, a):
    """a / (1 + |a|)."""
    a = in_samples(graph, a)
    return QUOTIENT(graph, a=a, b=graph.sum(SIZE(graph, x=a)[0], 1.0))


def softclip(graph, a):
    """What is up to a half stays, and the rest bends to 1: 1 - 1 / (4 |a|)."""
    a = in_samples(graph, a)
    size, = SIZE(graph, x=a)
    far, = QUOTIENT(graph, a=0.25, b=GREATER(graph, a=size, b=0.5)[0])
    bent = graph.sum(LESSER(graph, a=size, b=0.5)[0], graph.product(far, -1.0, 0.5))
    return [graph.product(side(graph, a), bent)]


def difference_around(graph, x, y, turn):
    """How far two places on a circle lie apart."""
    off, = SIZE(graph, x=DIFFERENCE(graph, a=x, b=y)[0])
    at = below(graph, off, turn)
    return LESSER(graph, a=at, b=graph.sum(turn, graph.product(at, -1.0)))


UNITS = {
    "Wrap": Row("x low high", wrapped, needs="Mod"),
    "Fold": Row("x low high", folded, needs="Mod"),
    "ModDif": Row("x y turn", difference_around, needs="Mod"),
}
