"""Delays and combs."""
import math

from .functions import power_of_e
from .further import has
from .graph import Wire
from .held import before
from .logarithms import exp_2
from .measures import SAMPLE, SECONDS
from .ratios import divided, in_samples, side
from .rows import DELAY_1, DIFFERENCE, SIZE, Row
from .templates import constant, template

DELAY = template("DelayN x:M max:longest time:seconds -> M")
BETWEEN_FRAMES = template("DelayL x:M max:longest time:time -> M")
COMB = template("CombN x:M max:longest time:seconds c:sample -> M")
SUM = template("Integrator x:M 1:sample -> M")
NOT_BETWEEN = "nothing is read between two frames here"
WHOLE = "a time that moves is in whole milliseconds"


def frames_of(milliseconds, rate):
    return milliseconds * rate // 1000


def frames_in(graph, max, time):
    """The whole frames of a constant time."""
    return math.floor(sorted([0.0, time, constant(max, "the longest time")])[1] * graph.rate + 1e-3)


def milliseconds_in(frames, rate):
    """The most milliseconds that are no more than some frames."""
    return next(ms for ms in range(frames * 1000 // rate + 1, -1, -1) if frames_of(ms, rate) <= frames)


def delay(graph, x, max, time):
    """A delay. A constant time of whole frames that aren't whole milliseconds is that of DelayL, or if that isn't here
    of whole milliseconds, with Delay1 for each frame that is left."""
    if isinstance(time, Wire):
        graph.note(WHOLE)
        return DELAY(graph, x=x, max=max, time=time)
    frames = frames_in(graph, max, time)
    whole = milliseconds_in(frames, graph.rate)
    left = frames - frames_of(whole, graph.rate)
    if left > 1 and has("DelayL"):
        return BETWEEN_FRAMES(graph, x=x, max=frames / graph.rate, time=frames / graph.rate)
    outputs = DELAY(graph, x=x, max=whole / 1000, time=whole / 1000) if whole else [x]
    for _ in range(left):
        outputs = DELAY_1(graph, x=outputs[0])
    return outputs


def fallen(graph, time, decay):
    """What is left after a time of what falls to a thousandth in the decay time, below 0 for one that is."""
    time, fall = in_samples(graph, time), -math.log2(1000)
    if not isinstance(decay, Wire):
        return graph.product(exp_2(graph, graph.product(time, fall / abs(decay))), math.copysign(1.0, decay))
    way = divided(graph, graph.product(time, fall), SIZE(graph, x=in_samples(graph, decay))[0])
    return graph.product(exp_2(graph, way), side(graph, decay))


def factor_of(graph, longest, time, decay):
    """What comes back of a comb: it falls to a thousandth in the decay time."""
    if (isinstance(decay, Wire) or isinstance(time, Wire) and decay) and has("Div", "Exp2"):
        return fallen(graph, time, decay)
    decay = constant(decay, "the decay time")
    if not decay:
        return 0.0
    rate, sign = math.log(0.001) / abs(decay), math.copysign(1.0, decay)
    if not isinstance(time, Wire):
        return sign * math.exp(rate * max(0.0, time))
    time.slot.set(SAMPLE)
    return power_of_e(graph, time, rate, sign, 1 / graph.rate, max(1e-3, constant(longest, "the longest time")))


def time_of(graph, time):
    """The time of a unit, if its factor takes parts of a millisecond."""
    if not isinstance(time, Wire):
        return time
    graph.note(WHOLE)
    whole = graph.product(time, 1.0)
    whole.slot.set(SECONDS)
    return whole


def comb(graph, x, max, time, decay):
    factor = factor_of(graph, max, time, decay)
    return COMB(graph, x=x, max=max, time=time_of(graph, time), c=factor)


def allpass(graph, x, max, time, decay):
    """A comb, of which so much is left and so much of the input taken away that it is as loud at each frequency."""
    factor = factor_of(graph, max, time, decay)
    echo, = COMB(graph, x=x, max=max, time=time_of(graph, time), c=factor)
    left = graph.product(graph.product(factor, factor), -1.0, 1.0)
    return [graph.product(echo, left, graph.product(graph.product(x, factor), -1.0))]


def last_sum(graph, x, count):
    """The sum of the last inputs, so many."""
    time = constant(count, "its number of inputs") / graph.rate
    return SUM(graph, x=DIFFERENCE(graph, a=x, b=delay(graph, x, time, time)[0])[0])


def of_buffer(build):
    """A delay whose samples stand in a buffer there."""
    def outputs(graph, buf, x, time, **decay):
        longest = 1.0 if isinstance(time, Wire) else time
        return build(graph, x=x, max=longest, time=time, **decay)
    return outputs


BETWEEN = {"N": None, "L": NOT_BETWEEN, "C": NOT_BETWEEN}
OWN = "its samples don't stand in the buffer"

UNITS = {
    "Delay1": Row("x", lambda graph, x: [before(graph, x)]),
    "RunningSum": Row("x count", last_sum, frames=True),
    "Delay2": Row("x", lambda graph, x: DELAY_1(graph, x=DELAY_1(graph, x=x)[0]), frames=True),
    **{f"Delay{kind}": Row("x max time", delay, note=note) for kind, note in BETWEEN.items()},
    **{f"Comb{kind}": Row("x max time decay", comb, note=note) for kind, note in BETWEEN.items()},
    **{f"Allpass{kind}": Row("x max time decay", allpass, note=note) for kind, note in BETWEEN.items()},
    **{f"BufDelay{kind}": Row("buf x time", of_buffer(delay), note=OWN) for kind in BETWEEN},
    **{f"BufComb{kind}": Row("buf x time decay", of_buffer(comb), note=OWN) for kind in BETWEEN},
    **{f"BufAllpass{kind}": Row("buf x time decay", of_buffer(allpass), note=OWN) for kind in BETWEEN},
}
