"""Filters with a frequency, which must be a constant: a section of second order each.

A section rounds down at each frame, which a low frequency makes heard. So it runs louder than it is heard, and what
rounding takes away on average is put back.
"""
import cmath
import math

from .filters import SECTION
from .measures import SAMPLE
from .rows import DIFFERENCE, Row, start
from .templates import constant

# So much louder a section runs, if it doesn't amplify.
LOUDER = 16.0


def response(angle, a0, a1, a2, b1, b2):
    """How much a section amplifies at an angle of a frame."""
    z = cmath.exp(-1j * angle)
    return abs((a0 + a1 * z + a2 * z * z) / (1 - b1 * z - b2 * z * z))


def loudest(coefficients):
    """How much a section amplifies at most: at the angle of its poles, or where it isn't resonant."""
    b1, b2 = coefficients[3:]
    peak = math.acos(max(-1.0, min(1.0, b1 / (2 * math.sqrt(-b2))))) if b2 < 0 else 0.0
    return max(response(angle, *coefficients) for angle in (1e-3, peak, math.pi / 2, math.pi))


def section(graph, x, *coefficients):
    """A section of constant coefficients."""
    a0, a1, a2, b1, b2 = coefficients
    louder = LOUDER / 2 ** max(0, math.ceil(math.log2(max(1.0, loudest(coefficients)))))
    found, = SECTION(graph, x=x, a0=a0 * louder, a1=a1 * louder, a2=a2 * louder, b1=b1, b2=b2)
    found.slot.set(SAMPLE)
    lost = 0.5 / SAMPLE.scale / max(1 - b1 - b2, 1e-9)
    return graph.product(found, 1 / louder, min(lost / louder, 1.0))


def filtered(coefficients_of):
    """A unit whose coefficients are found from the angle of its frequency in a frame, and its further inputs."""
    def build(graph, x, freq, **more):
        freq, *given = (constant(each, f"its {name}") for name, each in {"frequency": freq, **more}.items())
        angle = min(max(freq, 0.1), 0.49 * graph.rate) * math.tau / graph.rate
        return [section(graph, x, *coefficients_of(angle, *given))]
    return build


def low_pass(angle):
    c = 1 / math.tan(angle / 2)
    a0 = 1 / (1 + math.sqrt(2) * c + c * c)
    return a0, 2 * a0, a0, -2 * (1 - c * c) * a0, -(1 - math.sqrt(2) * c + c * c) * a0


def high_pass(angle):
    c = math.tan(angle / 2)
    a0 = 1 / (1 + math.sqrt(2) * c + c * c)
    return a0, -2 * a0, a0, 2 * (1 - c * c) * a0, -(1 - math.sqrt(2) * c + c * c) * a0


def half_band(angle, rq):
    """Half the width of a band, short of a quarter turn."""
    return min(max(angle * rq / 2, 1e-5), 1.5)


def band_pass(angle, rq):
    c, d = 1 / math.tan(half_band(angle, rq)), 2 * math.cos(angle)
    a0 = 1 / (1 + c)
    return a0, 0.0, -a0, c * d * a0, (1 - c) * a0


def band_reject(angle, rq):
    c, d = math.tan(half_band(angle, rq)), 2 * math.cos(angle)
    a0 = 1 / (1 + c)
    return a0, -d * a0, a0, d * a0, -(1 - c) * a0


def middle(angle, rq, level):
    """What comes in, and its band louder by a level in decibels."""
    a0, _, _, b1, b2 = band_pass(angle, rq)
    a0 *= 10 ** (level / 20) - 1
    return 1 + a0, -b1, -b2 - a0, b1, b2


def resonant(side):
    """A low pass or a high pass that resonates."""
    def coefficients(angle, rq):
        d = math.tan(half_band(angle, max(rq, 0.001)))
        c = (1 - d) / (1 + d)
        b1 = (1 + c) * math.cos(angle)
        a0 = (1 + c - side * b1) / 4
        return a0, 2 * side * a0, a0, b1, -c
    return coefficients


def resonator(angle, radius):
    """The poles of a radius at an angle, where they are loudest."""
    return 4 * radius * radius / (1 + radius * radius) * math.cos(angle), -radius * radius


def resonance(angle, rq):
    radius = 1 - angle * rq / 2
    a0 = (1 - radius * radius) / 2
    return a0, 0.0, -a0, *resonator(angle, radius)


def two_poles(angle, radius):
    return 1.0, 0.0, 0.0, 2 * radius * math.cos(angle), -radius * radius


def two_zeros(angle, radius):
    return 1.0, -2 * radius * math.cos(angle), radius * radius, 0.0, 0.0


def ringing(graph, x, freq, time):
    """A resonator that rings for a time."""
    freq, time = constant(freq, "its frequency"), constant(time, "its decay time")
    radius = math.exp(math.log(0.001) / (time * graph.rate)) if time else 0.0
    return section(graph, x, 0.5, 0.0, -0.5, *resonator(freq * math.tau / graph.rate, radius))


def twice_at_first(graph, x):
    """What comes in, of which the first counts twice: there it is worked out before the first block too."""
    return graph.product(x, start(graph), x)


def ringz(graph, x, freq, time):
    return [ringing(graph, twice_at_first(graph, x), freq, time)]


def formlet(graph, x, freq, attack, time):
    x = twice_at_first(graph, x)
    way, = DIFFERENCE(graph, a=ringing(graph, x, freq, time), b=ringing(graph, x, freq, attack))
    return [graph.product(way, 0.5)]


def klank(graph, x, scale, offset, stretch, shape):
    """The sum of resonators: a frequency, a level and a time of each."""
    total = 0.0
    for at in range(0, len(shape), 3):
        freq, level, time = shape[at:at + 3]
        freq = graph.sum(graph.product(freq, scale), offset)
        total = graph.product(ringing(graph, x, freq, graph.product(time, stretch)), graph.product(level, 0.5), total)
    return [total]


def of_width(angle, rq):
    return math.sin(angle) * rq / 2


def of_octaves(angle, octaves):
    return math.sin(angle) * math.sinh(math.log(2) / 2 * octaves * angle / math.sin(angle))


def passing(side):
    def coefficients(angle, rq):
        alpha, part = of_width(angle, rq), 1 - side * math.cos(angle)
        return [each / (1 + alpha) for each in (part / 2, side * part, part / 2, 2 * math.cos(angle), alpha - 1)]
    return coefficients


def octave_pass(angle, octaves):
    alpha = of_octaves(angle, octaves)
    return [each / (1 + alpha) for each in (alpha, 0.0, -alpha, 2 * math.cos(angle), alpha - 1)]


def octave_stop(angle, octaves):
    alpha, both = of_octaves(angle, octaves), 2 * math.cos(angle)
    return [each / (1 + alpha) for each in (1.0, -both, 1.0, both, alpha - 1)]


def all_pass(angle, rq):
    alpha, both = of_width(angle, rq), 2 * math.cos(angle)
    return [each / (1 + alpha) for each in (1 - alpha, -both, 1 + alpha, both, alpha - 1)]


def peak(angle, rq, level):
    alpha, both, a = of_width(angle, rq), 2 * math.cos(angle), 10 ** (level / 40)
    up, down = alpha * a, alpha / a
    return [each / (1 + down) for each in (1 + up, -both, 1 - up, both, down - 1)]


def shelf(side):
    """A low shelf, or on the other side a high one."""
    def coefficients(angle, rs, level):
        a = 10 ** (level / 40)
        alpha = math.sin(angle) / 2 * math.sqrt(max(0.0, (a + 1 / a) * (rs - 1) + 2))
        i, j, k = (a + 1) * side * math.cos(angle), (a - 1) * side * math.cos(angle), 2 * math.sqrt(a) * alpha
        given = (a * (a + 1 - j + k), side * 2 * a * (a - 1 - i), a * (a + 1 - j - k), side * 2 * (a - 1 + i),
                 k - j - a - 1)
        return [each / (a + 1 + j + k) for each in given]
    return coefficients


UNITS = {
    "LPF": Row("x freq", filtered(low_pass)),
    "HPF": Row("x freq", filtered(high_pass)),
    "BPF": Row("x freq rq", filtered(band_pass)),
    "BRF": Row("x freq rq", filtered(band_reject)),
    "RLPF": Row("x freq rq", filtered(resonant(1))),
    "RHPF": Row("x freq rq", filtered(resonant(-1))),
    "Resonz": Row("x freq rq", filtered(resonance)),
    "MidEQ": Row("x freq rq level", filtered(middle)),
    "TwoPole": Row("x freq radius", filtered(two_poles), frames=True),
    "TwoZero": Row("x freq radius", filtered(two_zeros), frames=True),
    "BLowPass": Row("x freq rq", filtered(passing(1))),
    "BHiPass": Row("x freq rq", filtered(passing(-1))),
    "BBandPass": Row("x freq octaves", filtered(octave_pass)),
    "BBandStop": Row("x freq octaves", filtered(octave_stop)),
    "BAllPass": Row("x freq rq", filtered(all_pass)),
    "BPeakEQ": Row("x freq rq level", filtered(peak)),
    "BLowShelf": Row("x freq rs level", filtered(shelf(1))),
    "BHiShelf": Row("x freq rs level", filtered(shelf(-1))),
    "Ringz": Row("x freq time", ringz),
    "Formlet": Row("x freq attack time", formlet),
    "Klank": Row("x scale offset stretch shape*", klank),
}
