"""Functions of a signal for which there is no unit here: whole parts, exponentials, and what bends a sound."""
import math

from .division import reciprocal
from .graph import Wire
from .measures import HERTZ, LOUDEST, NUMBER, SAMPLE, Refused
from .rows import DIFFERENCE, GREATER, LESSER, MORE, SIZE
from .shapes import STILL, exponent, exponential
from .templates import constant, template

CLIP = template("Clip x:M low:M high:M -> M")
LIMIT = template("Clip x:sample -1:sample 1:sample -> sample")
SINE_0 = STILL
# What is greater isn't a number of steps that a sample could be.
MOST_STEPS = 100.0
# How loud a sound may be that is bent: louder ones are bent as if they were so loud.
MOST_BENT = 64.0
DEEPEST = 30.0


def steps_below(graph, x, step):
    """How many whole steps a wire is above 0, rounded down: so a measure of whole numbers rounds."""
    step = constant(step, "its step")
    if step <= 0:
        raise Refused(f"its step is {step:g}, and must be above 0")
    if x.slot.bound >= LOUDEST:
        x.slot.set(HERTZ)
    if x.slot.bound / step < MOST_STEPS:
        x, step = graph.product(x, 1 / step), 1.0
        x.slot.set(SAMPLE)
    found = graph.product(x, 1 / step)
    found.slot.set(NUMBER)
    found.slot.note(MOST_STEPS)
    return found


def down_to(graph, a, b):
    """The next step below."""
    return graph.product(steps_below(graph, a, b), b)


def truncated(graph, a, b):
    return [down_to(graph, a, b)]


def rounded(graph, a, b):
    return [down_to(graph, graph.sum(a, constant(b, "its step") / 2), b)]


def rounded_up(graph, a, b):
    return [graph.product(down_to(graph, graph.product(a, -1.0), b), -1.0)]


def remainder(graph, a, b):
    return DIFFERENCE(graph, a=a, b=down_to(graph, a, b))


def wrapped(graph, x, low, high):
    return [graph.sum(remainder(graph, graph.sum(x, -low), high - low)[0], low)]


def folded(graph, x, low, high):
    """What goes back where it meets an end: a remainder of twice the way, or what is left of it."""
    at, = remainder(graph, graph.sum(x, -low), 2 * (high - low))
    return [graph.sum(LESSER(graph, a=at, b=graph.product(at, -1.0, 2 * (high - low)))[0], low)]


def between_ends(build):
    """A unit with two ends, which must be constants."""
    def outputs(graph, x, low, high):
        low, high = constant(low, "its low end"), constant(high, "its high end")
        if low >= high:
            raise Refused(f"its ends are {low:g} and {high:g}, and the second must be greater")
        return build(graph, x, low, high)
    return outputs


def to_both_sides(build):
    """An operator whose ends lie on both sides of 0."""
    return lambda graph, a, b: between_ends(build)(graph, a, -constant(b, "its end"), b)


def power_of_e(graph, x, scale, gain, least, most):
    """`gain` times e to the power of `scale * x`, for x from `least` to `most`."""
    top = most if scale > 0 else least
    depth = max(-abs(scale) * (most - least), -DEEPEST)
    bound, = CLIP(graph, x=x, low=least, high=most)
    part = scale * exponent(depth) / depth
    z = graph.product(bound, part, -top * part)
    z.slot.set(SAMPLE)
    return graph.product(exponential(graph, z, depth), gain * math.exp(scale * top))


def exponential_of(scale, gain, least, most):
    """An operator that is an exponential, from a least operand to a greatest one."""
    return lambda graph, a: [power_of_e(graph, a, scale, gain, least, most)]


def power(graph, a, b):
    """Of a constant, or by a small whole number: what is below 0 stays so."""
    if not isinstance(a, Wire):
        if a <= 0:
            raise Refused(f"the power of {a:g}, which isn't above 0, isn't there")
        scale = math.log(a)
        far = math.log(64) / abs(scale) if scale else 1.0
        return [power_of_e(graph, b, scale, 1.0, -far, far)]
    if isinstance(b, Wire) or b not in range(1, 9):
        raise Refused("a power of a signal that isn't a whole number from 1 to 8 isn't there")
    found, size = a, SIZE(graph, x=a)[0] if b % 2 == 0 else a
    for count in range(1, round(b)):
        found = graph.product(found, size if count == 1 else a)
    return [found]


def side(graph, a):
    """-1 or 1."""
    return graph.product(MORE(graph, a=a, b=0.0)[0], 2.0, -1.0)


def distort(graph, a):
    """a / (1 + |a|)."""
    size = graph.sum(SIZE(graph, x=a)[0], 1.0)
    size.slot.set(SAMPLE)
    return [graph.product(a, reciprocal(graph, size, 1.0, MOST_BENT))]


def softclip(graph, a):
    """What is up to a half stays, and the rest bends to 1: 1 - 1 / (4 |a|)."""
    size, = SIZE(graph, x=a)
    size.slot.set(SAMPLE)
    bent = graph.product(reciprocal(graph, GREATER(graph, a=size, b=0.5)[0], 0.5, MOST_BENT), -0.25, 0.5)
    return [graph.product(side(graph, a), graph.sum(LESSER(graph, a=size, b=0.5)[0], bent))]


def tanh(graph, a):
    """(1 - e^-2|a|) / (1 + e^-2|a|)."""
    size, = SIZE(graph, x=a)
    size.slot.set(SAMPLE)
    part = power_of_e(graph, size, -2.0, 1.0, 0.0, 8.0)
    whole = reciprocal(graph, graph.sum(part, 1.0), 1.0, 2.0)
    return [graph.product(graph.product(graph.product(part, -1.0, 1.0), whole), side(graph, a))]


def limited(graph, a):
    """From 0 to 1."""
    return CLIP(graph, x=a, low=0.0, high=1.0)


def inside(graph, a):
    """Whether it is from 0 to 1."""
    near, = limited(graph, a)
    off, = SIZE(graph, x=DIFFERENCE(graph, a=a, b=near)[0])
    return [graph.product(MORE(graph, a=off, b=0.0)[0], -1.0, 1.0)]


def raised_cosine(graph, a):
    half, = half_sine(graph, a)
    return [graph.product(half, half)]


def half_sine(graph, a):
    phase = graph.product(limited(graph, a)[0], math.pi)
    return SINE_0(graph, phase=phase)


def roof(graph, a):
    off, = SIZE(graph, x=graph.product(limited(graph, a)[0], 2.0, -1.0))
    return [graph.product(off, -1.0, 1.0)]


def s_curve(graph, a):
    x, = limited(graph, a)
    return [graph.product(graph.product(x, x), graph.product(x, -2.0, 3.0))]
