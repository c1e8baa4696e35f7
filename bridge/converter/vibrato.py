"""Vibrato: a frequency that goes up and down by parabolas."""
from .generators import IMPULSE, parabolas
from .graph import Wire
from .lines import LINE
from .random_numbers import NUMBERS, drawn_at
from .rows import Row
from .templates import constant, template

CLIP = template("Clip x:sample 0:sample 1:sample -> sample")
# What begins at once does so in so many seconds.
SOON = 1e-3


def spread(graph, x, part, turn):
    """A value that is another one in each turn, by a part of it."""
    if part == 0:
        return x
    graph.note(NUMBERS)
    return graph.product(x, graph.product(drawn_at(graph, turn)[0], part, 1.0))


def begun(graph, delay, onset):
    """0 for a time, and then in another one to 1."""
    delay, onset = constant(delay, "its delay"), max(constant(onset, "its onset"), SOON)
    if delay == 0 and onset == SOON:
        return 1.0
    way, = LINE(graph, start=-delay / onset, end=1.0, dur=delay + onset, done=0.0)
    return CLIP(graph, x=way)[0]


def vibrato(graph, freq, rate, depth, delay, onset, rate_spread, depth_spread, phase, trig):
    if isinstance(trig, Wire):
        graph.note("no trigger begins it again")
    turn, = IMPULSE(graph, freq=rate)
    rate, depth = spread(graph, rate, rate_spread, turn), spread(graph, depth, depth_spread, turn)
    wave, = parabolas(graph, rate, graph.product(phase, 4.0))
    return [graph.product(freq, graph.product(wave, graph.product(depth, begun(graph, delay, onset)), 1.0))]


UNITS = {"Vibrato": Row("freq rate depth delay onset rate_spread depth_spread phase trig", vibrato)}
