"""Random numbers that are drawn once or at triggers.

The noises of one synth begin nearly alike, so none of them is a random number at the first frame. `number` makes a
chain of them from the first one.
"""
import math

from .further import has
from .graph import Wire
from .logarithms import between as between_ends
from .measures import NUMBER, SAMPLE, Refused
from .ratios import below, in_samples
from .rows import GREATER, LATCH, LESS, LESSER, MORE, Row, counted, first, same, start
from .shapes import exponent, exponential
from .templates import constant, template

NOISE = template("WhiteNoise -> sample")
# What a trigger lets in, wrapped to -1 to 1, from then on.
WRAPPED = template("Phasor trig:any 0:sample -1:sample 1:sample x:sample -> sample")
FAR, ASIDE = 127.0, 0.3
# From FAR down so many factors are far.
MOST_FAR = 64
NUMBERS = "its random numbers are others"
SEED = "it is left out: a seed is that of the node"


def far(graph, x):
    """One of some products of a wire that go far, each another way: wrapped they are random numbers of their own."""
    graph.draws += 1
    return graph.product(x, FAR - graph.draws % MOST_FAR, ASIDE)


def number(graph):
    """A number from -1 to 1 that is drawn at the first frame: the square of the last one goes far, and is wrapped.
    Where units are spared all others are drawn from the first one."""
    if graph.sparing and graph.random:
        found, = WRAPPED(graph, trig=start(graph), x=far(graph, graph.random))
    else:
        last = graph.random or NOISE(graph)[0]
        square = graph.product(last, last)
        found, = WRAPPED(graph, trig=start(graph), x=graph.product(square, FAR, ASIDE))
        graph.random = found
    found.most, found.still = 1.0, True
    return found


def drawn_at(graph, trig):
    """A number from -1 to 1 that is drawn at each trigger, and the number by which it is moved. Where units are spared
    one noise is drawn from for all, and nothing is moved."""
    if graph.sparing:
        graph.noise = graph.noise or NOISE(graph)[0]
        found, = WRAPPED(graph, trig=trig, x=far(graph, graph.noise))
        found.most = 1.0
        return found, 0.0
    moved = number(graph)
    found, = WRAPPED(graph, trig=trig, x=graph.sum(NOISE(graph)[0], moved))
    found.most = 1.0
    return found, moved


def between(graph, r, low, high):
    """What goes from `low` to `high` as r goes from -1 to 1."""
    if isinstance(low, Wire) or isinstance(high, Wire):
        return graph.product(graph.product(r, 0.5, 0.5), graph.sum(high, graph.product(low, -1.0)), low)
    return graph.product(r, (high - low) / 2, (high + low) / 2)


def between_by_ratios(graph, r, low, high):
    """The same, by e to a line of r."""
    if has("Div", "Exp2", "Log2"):
        return between_ends(graph, graph.product(r, 0.5, 0.5), low, high)
    low, high = constant(low, "its start"), constant(high, "its end")
    if low * high <= 0:
        raise Refused("its start and its end must have one sign, and none may be 0")
    if low == high:
        return low
    depth, most = -abs(math.log(high / low)), max(low, high, key=abs)
    half = exponent(depth) / 2
    z = graph.product(r, half if most == low else -half, half)
    if isinstance(z, Wire):
        z.slot.set(SAMPLE)
    return graph.product(exponential(graph, z, depth), most)


def between_whole(graph, r, low, high):
    """The same in whole numbers, each as likely: a measure of whole numbers rounds down."""
    count = graph.sum(graph.sum(high, graph.product(low, -1.0)), 1.0)
    found = graph.product(graph.product(r, 0.5, 0.5), count, low)
    found.slot.set(NUMBER)
    return found


def once(way):
    return lambda graph, low, high: [way(graph, number(graph), low, high)]


def at_triggers(way):
    """A random number that is drawn at the first frame and at each trigger."""
    def build(graph, low, high, trig):
        return [way(graph, drawn_at(graph, graph.sum(trig, start(graph)))[0], low, high)]
    return build


def outer_of_two(graph, low, high, side):
    """The lesser or the greater one of two numbers; by a signal, as its side says."""
    if isinstance(side, Wire):
        a, b = number(graph), number(graph)
        less, more = LESSER(graph, a=a, b=b)[0], GREATER(graph, a=a, b=b)[0]
        upper, = MORE(graph, a=first(graph, side), b=0.0)
        return [between(graph, graph.product(graph.sum(more, graph.product(less, -1.0)), upper, less), low, high)]
    choice = GREATER if side > 0 else LESSER
    return [between(graph, choice(graph, a=number(graph), b=number(graph))[0], low, high)]


def mean(graph, low, high, count):
    count, total = max(1, round(constant(count, "its count"))), 0.0
    for _ in range(count):
        total = graph.sum(number(graph), total)
    return [between(graph, graph.product(total, 1 / count), low, high)]


def coin_gate(graph, chance, trig):
    """A trigger that passes as a coin says."""
    coin, = LATCH(graph, x=NOISE(graph)[0], trig=trig)
    return [graph.product(LESS(graph, a=coin, b=graph.product(chance, 2.0, -1.0))[0], trig)]


# Random numbers of each frame.

def of_frames(graph):
    """A number from 0 to 1 at each frame."""
    return graph.product(NOISE(graph)[0], 0.5, 0.5)


def noted(build):
    """An operator that draws at each frame."""
    def outputs(graph, **operands):
        graph.note(NUMBERS)
        return [build(graph, **operands)]
    return outputs


def middle_of_three(graph, a):
    total = graph.sum(graph.sum(NOISE(graph)[0], NOISE(graph)[0]), NOISE(graph)[0])
    return graph.product(graph.product(total, 1 / 3), a)


def lesser_of_two(graph, a):
    return graph.product(LESSER(graph, a=of_frames(graph), b=of_frames(graph))[0], a)


def apart(graph, a):
    way = graph.sum(of_frames(graph), graph.product(of_frames(graph), -1.0))
    return graph.product(way, a)


# The operators that draw numbers, by their names.
OPERATORS = {
    "rand": noted(lambda graph, a: graph.product(of_frames(graph), a)),
    "rand2": noted(lambda graph, a: graph.product(NOISE(graph)[0], a)),
    "linrand": noted(lesser_of_two),
    "bilinrand": noted(apart),
    "sum3rand": noted(middle_of_three),
    "coin": noted(lambda graph, a: LESS(graph, a=of_frames(graph), b=a)[0]),
    "rrand": noted(lambda graph, a, b: between(graph, NOISE(graph)[0], a, b)),
    "exprand": noted(lambda graph, a, b: between_by_ratios(graph, NOISE(graph)[0], a, b)),
}


def by_weights(graph, trig, normalizes, weights):
    """At each trigger a number, each as likely as its weight: how many sums of weights lie below a random number."""
    sums = [0.0]
    for weight in weights:
        sums.append(graph.sum(sums[-1], weight))
    r, _ = drawn_at(graph, graph.sum(trig, start(graph)))
    r, total = graph.product(r, 0.5, 0.5), 0.0
    if constant(normalizes, "whether it normalizes") > 0:
        r = graph.product(r, sums[-1])
    for each in sums[1:-1]:
        total = graph.sum(total, MORE(graph, a=r, b=each)[0])
    return counted(same, float(len(weights)))(graph, x=total)


def hashed(graph, x):
    """A number from -1 to 1 that is the same for the same input: squares go far, and are wrapped."""
    if not isinstance(x, Wire):
        x = graph.product(start(graph), 0.5, x)
    x = below(graph, in_samples(graph, x), 2.0)
    for _ in range(3):
        square = graph.product(x, x)
        square.slot.set(SAMPLE)
        wide = graph.product(square, 31.0, ASIDE)
        wide.slot.set(SAMPLE)
        x = below(graph, wide, 2.0)
    return [graph.sum(x, -1.0)]


def left_out(graph, rest):
    return [0.0]


UNITS = {
    "Rand": Row("low high", once(between), note=NUMBERS),
    "IRand": Row("low high", counted(once(between_whole), "high"), note=NUMBERS),
    "ExpRand": Row("low high", once(between_by_ratios), note=NUMBERS),
    "LinRand": Row("low high side", outer_of_two, note=NUMBERS),
    "NRand": Row("low high count", mean, note=NUMBERS),
    "TRand": Row("low high trig", at_triggers(between), note=NUMBERS),
    "TIRand": Row("low high trig", counted(at_triggers(between_whole), "high"), note=NUMBERS),
    "TExpRand": Row("low high trig", at_triggers(between_by_ratios), note=NUMBERS),
    "CoinGate": Row("chance trig", coin_gate, note=NUMBERS),
    "Hasher": Row("x", hashed, needs="Mod", note=NUMBERS),
    "TWindex": Row("trig normalizes weights*", by_weights, note=NUMBERS),
    "RandSeed": Row("rest*", left_out, note=SEED, stand_in=True),
    "RandID": Row("rest*", left_out, note=SEED, stand_in=True),
}
