"""Powers and logarithms of signals, and what goes by ratios."""
import math

from .graph import Wire
from .lines import LINE
from .measures import HERTZ, SAMPLE, Refused
from .ratios import RATIO, below, divided, in_hertz, in_samples, likely, side
from .rows import GREATER, LESSER, SIZE, Row, first, start
from .templates import constant, template

EXP_2, LOG_2 = template("Exp2 x:sample -> sample"), template("Log2 x:sample -> sample")
OF_HERTZ = template("part = Div x:hertz 1024:hertz -> sample", "Log2 part:sample -> sample")
CLIP = template("Clip x:sample 0:sample 1:sample -> sample")
# Two to the power of this are 1024 hertz.
OCTAVES = 10.0
LOWEST = "of 0 it is what 2^-128 has"


def exp_2(graph, x):
    """2 to the power of x, up to 128."""
    if not isinstance(x, Wire):
        return 2.0 ** x
    x.most = math.inf
    return EXP_2(graph, x=in_samples(graph, x))[0]


def log_2(graph, x):
    """The binary logarithm; of a frequency it is that of its hertz."""
    if not isinstance(x, Wire):
        if x == 0:
            raise Refused("there is no logarithm of 0")
        return math.log2(abs(x))
    if likely(x) == HERTZ:
        return graph.sum(OF_HERTZ(graph, x=in_hertz(graph, x))[0], OCTAVES)
    return LOG_2(graph, x=in_samples(graph, x))[0]


def in_parts(graph, x, factor, addend=None):
    """`x * factor + addend` as a sample."""
    found = graph.product(x, factor, addend)
    if isinstance(found, Wire):
        found.slot.set(SAMPLE)
    return found


def power(graph, a, b):
    """What is below 0 stays so; by a small whole number it is a product."""
    if not isinstance(b, Wire) and b in range(1, 9) and isinstance(a, Wire):
        return products(graph, a, round(b))
    if not isinstance(a, Wire):
        if a == 0:
            return [0.0]
        found = exp_2(graph, in_parts(graph, b, math.log2(abs(a))))
        return [found if a > 0 else graph.product(found, -1.0)]
    size, = SIZE(graph, x=a)
    found = exp_2(graph, in_parts(graph, log_2(graph, size), b))
    return [graph.product(found, side(graph, a))]


def products(graph, a, count):
    found, size = a, SIZE(graph, x=a)[0] if count % 2 == 0 else a
    for number in range(1, count):
        found = graph.product(found, size if number == 1 else a)
    return [found]


def root(graph, a):
    return power(graph, a, 0.5)


def distance(graph, a, b):
    """The length of what has two parts at a right angle: the longer one times the root of 1 + (shorter / longer)²."""
    one, other = (SIZE(graph, x=each)[0] if isinstance(each, Wire) else abs(each) for each in (a, b))
    longer, shorter = GREATER(graph, a=one, b=other)[0], LESSER(graph, a=one, b=other)[0]
    part, = RATIO(graph, a=shorter, b=longer)
    part.size = 1.0
    whole = exp_2(graph, in_parts(graph, log_2(graph, graph.product(part, part, 1.0)), 0.5))
    return [graph.product(longer, whole)]


def exponential_of(scale, gain=1.0, offset=0.0):
    """An operator that is `gain` times 2 to the power of `scale * a + offset`."""
    return lambda graph, a: [graph.product(exp_2(graph, in_parts(graph, a, scale, offset or None)), gain)]


def logarithm_of(scale, offset=0.0):
    """An operator that is `scale * log2(a) + offset`."""
    return lambda graph, a: [in_parts(graph, log_2(graph, a), scale, offset or None)]


def tanh(graph, a):
    """(1 - e^-2|a|) / (1 + e^-2|a|)."""
    a = in_samples(graph, a)
    part = exp_2(graph, in_parts(graph, SIZE(graph, x=a)[0], -2 * math.log2(math.e)))
    return [graph.product(divided(graph, graph.product(part, -1.0, 1.0), graph.sum(part, 1.0)), side(graph, a))]


# What goes by ratios.

def between(graph, r, start, end):
    """What goes from `start` to `end` by ratios as r goes from 0 to 1; ends that are signals are above 0."""
    if not isinstance(start, Wire) and not isinstance(end, Wire):
        if start * end <= 0:
            raise Refused("its ends must have one sign, and none may be 0")
        top, way = max(start, end, key=abs), math.log2(end / start)
        return graph.product(exp_2(graph, graph.product(r, way, None if way < 0 else -way)), top)
    low, high = log_2(graph, start), log_2(graph, end)
    way = graph.product(graph.sum(r, -1.0), graph.sum(high, graph.product(low, -1.0)))
    return graph.product(exp_2(graph, way), end)


def line(graph, start, end, dur, done):
    """From the one end to the other by ratios in a time."""
    if start == end:
        return LINE(graph, start=start, end=end, dur=dur, done=done)
    r, = LINE(graph, start=0.0, end=1.0, dur=dur, done=done)
    r.slot.set(SAMPLE)
    return [between(graph, r, first(graph, start), first(graph, end))]


def part_of(graph, x, low, high):
    """How far x has gone from `low` to `high`, from 0 to 1."""
    way = graph.sum(high, graph.product(low, -1.0))
    if isinstance(way, Wire):
        found = divided(graph, graph.sum(x, graph.product(low, -1.0)), way)
    else:
        found = graph.product(x, 1 / way, -low / way) if way else 0.0
    if not isinstance(found, Wire):
        return min(1.0, max(0.0, found))
    within = isinstance(x, Wire) and not isinstance(way, Wire) and low <= -x.most and x.most <= high
    return in_samples(graph, found) if within else CLIP(graph, x=in_samples(graph, found))[0]


def by_ratios(graph, x, low, high, start, end):
    return [between(graph, part_of(graph, x, low, high), start, end)]


def compensated(graph, freq, root, exponent):
    """How much louder a frequency is to be than the root: (root / freq)^exponent."""
    way = graph.sum(log_2(graph, root), graph.product(log_2(graph, freq), -1.0))
    return [exp_2(graph, graph.product(way, exponent))]


# The A curve, by the squares of its corners in hertz, as scsynth has it.
CORNERS, HEIGHT = (424.31867740601, 11589.093052022, 544440.67046057, 148698928.24309), 3.5041384e16
LOUDEST = 2512.0
UNIT_SQUARED = 4096.0


def quietness(freq):
    """What the curve leaves of a frequency, from 0 to 1."""
    r = freq * freq
    a, b, c, d = CORNERS
    return 1 - math.sqrt(HEIGHT * r ** 4 / ((a + r) ** 2 * (b + r) * (c + r) * (d + r) ** 2))


def compensated_by_ear(graph, freq, root, least, root_level):
    root, least, root_level = (constant(each, f"its {name}") for each, name in (
        (root, "root"), (least, "least level"), (root_level, "level of the root")))
    scale = (root_level - least) / (quietness(root) - quietness(LOUDEST))
    offset = least - scale * quietness(LOUDEST)
    if not isinstance(freq, Wire):
        return [quietness(freq) * scale + offset]
    a, b, c, d = (corner / UNIT_SQUARED ** 2 for corner in CORNERS)
    unit = in_samples(graph, graph.product(in_hertz(graph, freq), 1 / UNIT_SQUARED))
    r = graph.product(unit, unit)
    parts = [divided(graph, r, graph.sum(r, corner)) for corner in (a, b, c)]
    both = exp_2(graph, graph.product(log_2(graph, graph.product(parts[1], parts[2])), 0.5))
    far = divided(graph, d, graph.sum(r, d))
    gain = math.sqrt(HEIGHT) / CORNERS[3]
    whole = graph.product(graph.product(parts[0], both), graph.product(far, gain))
    return [in_parts(graph, whole, -scale, scale + offset)]


def masked(graph, x, bits):
    """x without what is finer than so many bits after its first one."""
    if not isinstance(x, Wire):
        x = graph.product(start(graph), 0.0, x)
    size, = SIZE(graph, x=in_samples(graph, x))
    height = log_2(graph, size)
    step = exp_2(graph, graph.sum(graph.sum(height, graph.product(below(graph, height, 1.0), -1.0)),
                                  graph.product(bits, -1.0)))
    whole = graph.sum(size, graph.product(below(graph, size, step), -1.0))
    return [graph.product(whole, side(graph, x))]


UNITS = {
    "MantissaMask": Row("x bits", masked, needs="Exp2 Log2 Mod"),
    "XLine": Row("start end dur done", line, needs="Exp2 Log2 Div"),
    "LinExp": Row("x low high start end", by_ratios, needs="Exp2 Log2 Div"),
    "AmpComp": Row("freq root exponent", compensated, needs="Exp2 Log2 Div"),
    "AmpCompA": Row("freq root least root_level", compensated_by_ear, needs="Exp2 Log2 Div"),
}
