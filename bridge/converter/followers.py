"""What follows a signal up and down at two paces, by LagUD."""
import math

from .filters import lag as smooth
from .further import has
from .graph import Wire
from .logarithms import exp_2
from .ratios import divided, in_samples
from .rows import BLOCK, SIZE, Row
from .scgf import AUDIO, Source
from .templates import template
from .triggers import RISE

FOLLOW = template("LagUD x:M up:sample down:sample -> M")
TO_A_THOUSANDTH, TO_A_TENTH = 0.001, 0.1
STILL, AT_ONCE = 1.0, 0.0


def pace(graph, seconds, left):
    """The factor that leaves so much of the way after some seconds."""
    if not isinstance(seconds, Wire):
        return left ** (1 / (seconds * graph.rate)) if seconds > 0 else AT_ONCE
    return exp_2(graph, divided(graph, math.log2(left) / graph.rate, in_samples(graph, seconds)))


def lag(graph, x, up, down):
    """From the first input on to each further one."""
    if not isinstance(x, Wire):
        return [x]
    if up is down and isinstance(up, Wire) and not has("Div", "Exp2"):
        return smooth(graph, x, up)
    factors = {time: pace(graph, time, TO_A_THOUSANDTH) for time in (up, down)}
    if all(each == AT_ONCE for each in factors.values()):
        return [x]
    return FOLLOW(graph, x=x, up=factors[up], down=factors[down])


def in_a_row(count):
    """Lags in a row, of one time."""
    def build(graph, x, time):
        for _ in range(count):
            x, = lag(graph, x, time, time)
        return [x]
    return build


def both_in_a_row(count):
    def build(graph, x, up, down):
        for _ in range(count):
            x, = lag(graph, x, up, down)
        return [x]
    return build


def size_of(graph, x):
    return SIZE(graph, x=x)[0] if isinstance(x, Wire) else abs(x)


def hears_sound(graph):
    """Whether a unit at control rate hears one at audio rate."""
    source = graph.unit.inputs[0]
    return graph.unit.rate != AUDIO and isinstance(source, Source) and graph.units[source.unit].rate == AUDIO


def amplitude(graph, x, attack, release):
    """At control rate a sound is followed faster, as by scsynth, which takes each frame for a block there."""
    if not isinstance(x, Wire):
        return [abs(x)]
    if hears_sound(graph):
        attack, release = (graph.product(each, 1 / BLOCK) for each in (attack, release))
    return FOLLOW(graph, x=size_of(graph, x), up=pace(graph, attack, TO_A_TENTH), down=pace(graph, release, TO_A_TENTH))


def peak_follower(graph, x, decay):
    return FOLLOW(graph, x=size_of(graph, x), up=AT_ONCE, down=decay)


def kept(graph, trig):
    """The factor that keeps what was, but at a trigger."""
    return graph.product(RISE(graph, trig=trig)[0], -1.0, 1.0) if isinstance(trig, Wire) else STILL


def greatest(graph, x, trig):
    return FOLLOW(graph, x=x, up=AT_ONCE, down=kept(graph, trig))


def least(graph, x, trig):
    return FOLLOW(graph, x=x, up=kept(graph, trig), down=AT_ONCE)


def loudest(graph, x, trig):
    return greatest(graph, size_of(graph, x), trig)


NEEDS = "LagUD"
UNITS = {
    "Lag": Row("x time", in_a_row(1), needs=NEEDS),
    "Lag2": Row("x time", in_a_row(2), needs=NEEDS),
    "Lag3": Row("x time", in_a_row(3), needs=NEEDS),
    "LagUD": Row("x up down", both_in_a_row(1), needs=NEEDS),
    "Lag2UD": Row("x up down", both_in_a_row(2), needs=NEEDS),
    "Lag3UD": Row("x up down", both_in_a_row(3), needs=NEEDS),
    "Amplitude": Row("x attack release", amplitude, needs=NEEDS),
    "PeakFollower": Row("x decay", peak_follower, needs=NEEDS),
    "Peak": Row("x trig", loudest, needs=NEEDS),
    "RunningMax": Row("x trig", greatest, needs=NEEDS),
    "RunningMin": Row("x trig", least, needs=NEEDS),
}
