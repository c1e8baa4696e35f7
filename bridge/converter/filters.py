"""Filters of one pole or zero, and what follows a signal. Those with a frequency are in sections.py."""
import math

from .further import has
from .generators import IMPULSE, ramp
from .graph import Wire
from .held import before
from .logarithms import exp_2
from .measures import HERTZ
from .ratios import divided, in_samples
from .rows import BLOCK, DELAY_1, DIFFERENCE, GREATER, LATCH, LESSER, Row, first, start
from .scgf import AUDIO
from .templates import constant, template

ONE_POLE = template("OnePole x:M c:sample -> M")
SLOW = template("Lag x:M time:lag -> M")
INTEGRATOR = template("Integrator x:M c:sample -> M")
SECTION = template("SOS x:M a0:sample a1:sample a2:sample b1:sample b2:sample -> M")


def pole(graph, seconds):
    """The factor that falls to a thousandth in some seconds."""
    return math.exp(math.log(0.001) / (seconds * graph.rate)) if seconds > 0 else 0.0


def fall(graph, time):
    """The same for a time that may move."""
    if isinstance(time, Wire) and has("Div", "Exp2"):
        return exp_2(graph, divided(graph, math.log2(0.001) / graph.rate, in_samples(graph, time)))
    return pole(graph, constant(time, "its time"))


def finer(measure):
    """What keeps the rounding of a slow filter small: hertz and seconds have room for it."""
    return 64.0 if measure.scale == HERTZ.scale else 1.0


def coarser(measure):
    return 1 / finer(measure)


def refined(graph, x, factor):
    """A wire times a factor that its measure decides."""
    found = graph.product(x, factor)
    found.slot.join(x.slot)
    return found


def lag(graph, x, time):
    """Goes from the first input to each further one; with a constant time by the pole that is used there."""
    if not isinstance(x, Wire) or time == 0:
        return [x]
    slot = x.slot
    if isinstance(time, Wire):
        smooth, = SLOW(graph, x=refined(graph, x, finer), time=time)
        return [refined(graph, smooth, coarser)]
    begin = first(graph, x)
    away, = graph.line("Sub", [(x, slot), (begin, slot)], [slot])
    smooth, = ONE_POLE(graph, x=refined(graph, away, finer), c=pole(graph, time))
    return graph.line("Add", [(begin, slot), (refined(graph, smooth, coarser), slot)], [slot])


def cascade(count):
    """Lags in a row."""
    def build(graph, x, time):
        for _ in range(count):
            x, = lag(graph, x, time)
        return [x]
    return build


def decay(graph, x, time):
    """A decay, in which the first input counts twice: there it is worked out before the first block too."""
    twice = graph.product(x, start(graph), x)
    return INTEGRATOR(graph, x=twice, c=fall(graph, time))


def decay_2(graph, x, attack, time):
    """A decay less one that is over sooner."""
    return DIFFERENCE(graph, a=decay(graph, x, time)[0], b=decay(graph, x, attack)[0])


def with_last(gain, last):
    """A filter with one zero."""
    def build(graph, x):
        found = graph.product(before(graph, x), last, graph.product(x, gain))
        found.held = graph.unit.rate != AUDIO
        return [found]
    return build


def slope(graph, x):
    """How much more it is after a second."""
    rate = graph.rate if graph.unit.rate == AUDIO else graph.rate / BLOCK
    return [graph.product(DIFFERENCE(graph, a=x, b=before(graph, x))[0], rate)]


def two_zeros(*zeros):
    return lambda graph, x: SECTION(graph, x=x, **dict(zip(("a0", "a1", "a2"), zeros)), b1=0.0, b2=0.0)


def lines_to(graph, x, time):
    """Reads its input once in a time, and goes there in the next one."""
    time = constant(time, "its time")
    if time <= 0 or not isinstance(x, Wire):
        return [x]
    turn, = IMPULSE(graph, freq=1 / time)
    new, = LATCH(graph, x=x, trig=turn)
    old, = LATCH(graph, x=graph.product(x, start(graph), DELAY_1(graph, x=new)[0]), trig=turn)
    way, = DIFFERENCE(graph, a=new, b=old)
    return [graph.product(graph.product(ramp(graph, 1 / time), 0.5, 0.5), way, old)]


def median(graph, x):
    """The middle one of the last three."""
    a, b = DELAY_1(graph, x=x)[0], DELAY_1(graph, x=DELAY_1(graph, x=x)[0])[0]
    low, high = (choice(graph, a=a, b=b)[0] for choice in (LESSER, GREATER))
    return GREATER(graph, a=low, b=LESSER(graph, a=high, b=x)[0])


UNITS = {
    "OnePole": Row("x c", ONE_POLE, frames=True),
    "OneZero": Row("x c", template("r = Abs c:sample -> sample", "d = Sub 1:sample r:sample -> sample",
                                   "SOS x:M d:sample c:sample 0:sample 0:sample 0:sample -> M"), frames=True),
    "FOS": Row("x a0 a1 b1", template("SOS x:M a0:sample a1:sample 0:sample b1:sample 0:sample -> M"), frames=True),
    "SOS": Row("x a0 a1 a2 b1 b2", SECTION, frames=True),
    "LeakDC": Row("x c", template("SOS x:M 1:sample -1:sample 0:sample c:sample 0:sample -> M"), frames=True),
    "Integrator": Row("x c", INTEGRATOR, frames=True),
    "LPZ1": Row("x", with_last(0.5, 0.5)),
    "HPZ1": Row("x", with_last(0.5, -0.5)),
    "LPZ2": Row("x", two_zeros(0.25, 0.5, 0.25), frames=True),
    "HPZ2": Row("x", two_zeros(0.25, -0.5, 0.25), frames=True),
    "BPZ2": Row("x", two_zeros(0.5, 0.0, -0.5), frames=True),
    "BRZ2": Row("x", two_zeros(0.5, 0.0, 0.5), frames=True),
    "Slope": Row("x", slope),
    "Median": Row("count=3 x", median, frames=True),
    "Decay": Row("x time", decay),
    "Decay2": Row("x attack time", decay_2),
    "Lag": Row("x time", lag),
    "Lag2": Row("x time", cascade(2)),
    "Lag3": Row("x time", cascade(3)),
    "Ramp": Row("x time", lines_to),
    "VarLag": Row("x time begin?", lag, note="it is a lag", stand_in=True),
}
