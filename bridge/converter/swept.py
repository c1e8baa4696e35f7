"""Filters whose frequency moves: by the state-variable filter, or else by sections whose coefficients are worked out.

Those of constants alone are in sections.py.
"""
import math

from .filters import SECTION
from .further import has
from .graph import Wire
from .logarithms import exp_2, in_parts
from .ratios import divided, in_hertz, in_samples
from .rows import DIFFERENCE, GREATER, Row
from .sections import UNITS as OF_CONSTANTS
from .sections import twice_at_first
from .shapes import STILL
from .templates import template

SVF = template("SVF x:M freq:hertz rq:sample -> M M M")
CLIP = template("Clip x:hertz low:hertz high:hertz -> hertz")
LOW, BAND, HIGH = range(3)
# A frequency is kept from so many hertz to such a part of the rate.
LOWEST, HIGHEST = 0.1, 0.49
# The reciprocal of Q of a filter without a bump.
FLAT = math.sqrt(2)
# A resonance isn't sharper.
LEAST_RQ = 0.001
LOG_1000 = math.log(1000)


def wide(graph, freq, rq):
    """The reciprocal of Q at which a filter here is as wide as one there: w / sin w times it, of a frame's angle w.

    For a signal w / sin w is 1 + w² / 6.
    """
    if not isinstance(freq, Wire):
        angle = min(max(freq, LOWEST), HIGHEST * graph.rate) * math.tau / graph.rate
        return graph.product(rq, angle / math.sin(angle))
    part = math.tau / graph.rate / math.sqrt(6)
    if isinstance(rq, Wire):
        angle = in_parts(graph, freq, part)
        return graph.product(rq, graph.product(angle, angle, 1.0))
    angle = in_parts(graph, freq, part * math.sqrt(abs(rq)))
    return graph.product(angle, angle, rq)


def svf(graph, x, freq, rq):
    """The low, the band and the high of a sound."""
    freq, rq = in_hertz(graph, freq), in_samples(graph, rq)
    return SVF(graph, x=x, freq=freq, rq=rq) if has("SVF") else by_sections(graph, x, freq, rq)


def sine_of(graph, angle):
    return STILL(graph, phase=angle)[0] if isinstance(angle, Wire) else math.sin(min(angle, math.pi))


def by_sections(graph, x, freq, rq):
    """The same by a section each, of the sine s of the angle of a frame and the square h of that of its half:
    1 - 2 h is its cosine. Those that nobody hears are left out."""
    angle = math.tau / graph.rate
    if isinstance(freq, Wire):
        freq, = CLIP(graph, x=freq, low=LOWEST, high=HIGHEST * graph.rate)
    s, half = (sine_of(graph, graph.product(freq, part)) for part in (angle, angle / 2))
    h, alpha = graph.product(half, half), graph.product(s, graph.product(rq, 0.5))
    r = divided(graph, 1.0, graph.sum(alpha, 1.0))
    b1 = graph.product(graph.product(h, -4.0, 2.0), r)
    b2 = graph.product(graph.sum(alpha, -1.0), r)
    low, high = graph.product(h, r), graph.product(graph.product(h, -1.0, 1.0), r)
    band = graph.product(graph.product(s, 0.5), r)
    shapes = ((low, graph.product(low, 2.0), low), (band, 0.0, graph.product(band, -1.0)),
              (high, graph.product(high, -2.0), high))
    return [SECTION(graph, x=x, a0=a0, a1=a1, a2=a2, b1=b1, b2=b2)[0] for a0, a1, a2 in shapes]


def flat(output):
    return lambda graph, x, freq: [svf(graph, x, freq, FLAT)[output]]


def resonant(output):
    def build(graph, x, freq, rq):
        if not isinstance(rq, Wire):
            rq = max(rq, LEAST_RQ)
        return [svf(graph, x, freq, wide(graph, freq, rq))[output]]
    return build


def plain(output):
    """A filter that is just the one here."""
    return lambda graph, x, freq, rq: [svf(graph, x, freq, rq)[output]]


def band(graph, x, freq, k):
    return svf(graph, graph.product(x, k), freq, k)[BAND]


def band_pass(graph, x, freq, rq):
    return [band(graph, x, freq, wide(graph, freq, rq))]


def resonance(graph, x, freq, rq):
    """A band whose poles lie a little higher than its frequency: by the root of 1 + rq² / 2."""
    if isinstance(rq, Wire):
        half = graph.product(rq, 0.5)
        higher = graph.product(half, half, 1.0)
    else:
        higher = math.sqrt(1 + rq * rq / 2)
        rq = rq / higher
    freq = graph.product(in_hertz(graph, freq), higher)
    return band_pass(graph, x, freq, rq)


def without_band(graph, x, freq, k):
    outputs = svf(graph, x, freq, k)
    return [graph.sum(outputs[LOW], outputs[HIGH])]


def band_reject(graph, x, freq, rq):
    return without_band(graph, x, freq, wide(graph, freq, rq))


def rq_of(graph, octaves):
    """The reciprocal of Q of a width in octaves: 2 sinh(ln 2 / 2 octaves)."""
    if not isinstance(octaves, Wire):
        return 2 * math.sinh(math.log(2) / 2 * octaves)
    half = exp_2(graph, graph.product(octaves, 0.5))
    return DIFFERENCE(graph, a=half, b=divided(graph, 1.0, half))[0]


def octave_pass(graph, x, freq, octaves):
    return [band(graph, x, freq, wide(graph, freq, rq_of(graph, octaves)))]


def octave_stop(graph, x, freq, octaves):
    return without_band(graph, x, freq, wide(graph, freq, rq_of(graph, octaves)))


def all_pass(graph, x, freq, rq):
    return [graph.product(svf(graph, graph.product(x, rq), freq, rq)[BAND], -2.0, x)]


def gain_of(graph, level, part):
    """What a level in decibels, divided by `part`, amplifies."""
    return exp_2(graph, in_parts(graph, level, math.log2(10) / part))


def middle(graph, x, freq, rq, level):
    more = graph.sum(gain_of(graph, level, 20), -1.0)
    return [graph.product(band(graph, x, freq, wide(graph, freq, rq)), more, x)]


def peak(graph, x, freq, rq, level):
    a = gain_of(graph, level, 40)
    k = divided(graph, rq, a)
    more = graph.product(graph.product(a, a, -1.0), k)
    return [graph.product(svf(graph, x, freq, k)[BAND], more, x)]


def shelf_rq(graph, rs, a):
    """The reciprocal of Q of the slope of a shelf: the root of (a + 1 / a) (rs - 1) + 2."""
    if rs == 1:
        return FLAT
    inner = graph.product(graph.sum(a, divided(graph, 1.0, a)), graph.sum(rs, -1.0), 2.0)
    if not isinstance(inner, Wire):
        return math.sqrt(max(0.0, inner))
    return graph.product(inner, 0.5, 0.5)


def low_shelf(graph, x, freq, rs, level):
    a = gain_of(graph, level, 40)
    k = shelf_rq(graph, rs, a)
    outputs = svf(graph, x, divided(graph, freq, gain_of(graph, level, 80)), k)
    sides = graph.product(outputs[BAND], graph.product(k, graph.sum(a, -1.0)), x)
    return [graph.product(outputs[LOW], graph.product(a, a, -1.0), sides)]


def high_shelf(graph, x, freq, rs, level):
    a = gain_of(graph, level, 40)
    k, both = shelf_rq(graph, rs, a), graph.product(a, a)
    outputs = svf(graph, x, graph.product(freq, gain_of(graph, level, 80)), k)
    inner = graph.product(graph.product(k, a), graph.product(a, -1.0, 1.0))
    sides = graph.product(outputs[BAND], inner, graph.product(x, both))
    return [graph.product(outputs[LOW], graph.product(both, -1.0, 1.0), sides)]


# What rings.

def kept_above(graph, freq, time):
    """A frequency and a time that may be 0 unless they are set, as a resonator there has them: it rings for some
    frames, and no slower than it falls."""
    if isinstance(time, Wire) and time.unset:
        time, = GREATER(graph, a=time, b=LOG_1000 / graph.rate)
    if isinstance(freq, Wire) and freq.unset:
        slowest = divided(graph, LOG_1000 * FLAT / math.tau, in_samples(graph, time))
        freq, = GREATER(graph, a=in_hertz(graph, freq), b=slowest)
    return freq, time


def ringing(graph, x, freq, time):
    """A resonator that rings for a time: the band, as loud as an impulse is."""
    freq, time = kept_above(graph, freq, time if isinstance(time, Wire) else max(time, 1 / graph.rate))
    angle = graph.product(freq, math.tau / graph.rate)
    sine = sine_of(graph, angle)
    fall = 2 * LOG_1000 / graph.rate
    k = divided(graph, divided(graph, fall, in_samples(graph, time)), sine)
    return divided(graph, svf(graph, x, freq, k)[BAND], sine)


def ringz(graph, x, freq, time):
    return [ringing(graph, twice_at_first(graph, x), freq, time)]


def formlet(graph, x, freq, attack, time):
    x = twice_at_first(graph, x)
    way, = DIFFERENCE(graph, a=ringing(graph, x, freq, time), b=ringing(graph, x, freq, attack))
    return [graph.product(way, 0.5)]


def klank(graph, x, scale, offset, stretch, shape):
    """The sum of resonators: a frequency, a level and a time of each."""
    total = 0.0
    for at in range(0, len(shape), 3):
        freq, level, time = shape[at:at + 3]
        freq = graph.sum(graph.product(freq, scale), offset)
        total = graph.product(ringing(graph, x, freq, graph.product(time, stretch)), level, total)
    return [total]


# What has poles or zeros at an angle and a radius.

def twice_cosine(graph, freq, radius):
    """2 r cos w, of the angle w of a frame."""
    angle = graph.product(in_hertz(graph, freq), math.tau / graph.rate, math.pi / 2)
    return graph.product(graph.product(sine_of(graph, angle), 2.0), radius)


def two_poles(graph, x, freq, radius):
    square = graph.product(graph.product(radius, radius), -1.0)
    return SECTION(graph, x=x, a0=1.0, a1=0.0, a2=0.0, b1=twice_cosine(graph, freq, radius), b2=square)


def two_zeros(graph, x, freq, radius):
    back = graph.product(twice_cosine(graph, freq, radius), -1.0)
    return SECTION(graph, x=x, a0=1.0, a1=back, a2=graph.product(radius, radius), b1=0.0, b2=0.0)


def of_signals(name, build):
    """A filter of signals; of constants it is a section."""
    section = OF_CONSTANTS[name].build

    def outputs(graph, x, **given):
        values = [each for one in given.values() for each in (one if isinstance(one, list) else [one])]
        moves = any(isinstance(each, Wire) for each in values)
        return (build if moves else section)(graph, x=x, **given)
    return outputs


PARTS = {
    "LPF": ("x freq", flat(LOW)), "HPF": ("x freq", flat(HIGH)), "RLPF": ("x freq rq", resonant(LOW)),
    "RHPF": ("x freq rq", resonant(HIGH)), "BPF": ("x freq rq", band_pass), "BRF": ("x freq rq", band_reject),
    "Resonz": ("x freq rq", resonance), "MidEQ": ("x freq rq level", middle),
    "BLowPass": ("x freq rq", plain(LOW)), "BHiPass": ("x freq rq", plain(HIGH)),
    "BBandPass": ("x freq octaves", octave_pass), "BBandStop": ("x freq octaves", octave_stop),
    "BAllPass": ("x freq rq", all_pass), "BPeakEQ": ("x freq rq level", peak),
    "BLowShelf": ("x freq rs level", low_shelf), "BHiShelf": ("x freq rs level", high_shelf),
}
RINGING = {
    "Ringz": ("x freq time", ringz), "Formlet": ("x freq attack time", formlet),
    "Klank": ("x scale offset stretch shape*", klank),
}
AT_A_RADIUS = {"TwoPole": ("x freq radius", two_poles), "TwoZero": ("x freq radius", two_zeros)}
NEEDED = (("SVF", PARTS), ("Div SVF Sine", RINGING), ("Sine", AT_A_RADIUS))
UNITS = {name: Row(parameters, of_signals(name, build), needs=needs)
         for needs, rows in NEEDED for name, (parameters, build) in rows.items()}
BY_SECTIONS = {name: Row(parameters, of_signals(name, build), needs="Div Sine")
               for name, (parameters, build) in {**PARTS, **RINGING}.items()}
