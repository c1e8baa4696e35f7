"""Division by a signal, by Newton's iteration: there is no unit for it here."""
from .measures import SAMPLE
from .templates import template

CLIP = template("Clip x:sample low:sample high:sample -> sample")
# How near a quotient is, in parts of itself.
NEAR = 1e-5


def reciprocal(graph, x, low, high):
    """1 / x of a wire, which is kept from `low`, above 0, to `high`.

    It begins with the line that is nowhere farther off than at both ends; r (2 - x r) is then nearer than r.
    """
    bound, = CLIP(graph, x=x, low=low, high=high)
    slope = 2 / (low * high + (low + high) ** 2 / 4)
    found, off = graph.product(bound, -slope, slope * (low + high)), 1 - slope * low * high
    minus = graph.product(bound, -1.0)
    for each in (minus, found):
        each.slot.set(SAMPLE)
    while off > NEAR:
        found, off = graph.product(found, graph.product(minus, found, 2.0)), off * off
    return found
