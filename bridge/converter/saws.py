"""Oscillators that the further units make: saws and pulses without aliases, and what is shaped along a turn."""
import math

from . import generators as of_squares
from .generators import LEAK, begun, oscillator, ramp
from .graph import Wire
from .lines import LINE
from .logarithms import exp_2
from .ratios import below, divided, in_hertz, in_samples
from .rows import DIFFERENCE, GREATER, LESS, LESSER, MORE, SIZE, Row, first
from .templates import constant, template

STILL = template("Sine 0:hertz phase:radians -> sample")
CLIP = template("Clip x:sample low:sample high:sample -> sample")
TREBLE = "its harmonics are up to 2 dB lower at 10 kHz"
LEAST_WIDTH = 1e-3
# The frequency above which a fundamental is kept that is 0 unless it is set.
SLOWEST = 20.0


def rising(graph, freq, phase):
    """A rising saw without aliases. The phase is in turns."""
    return oscillator(graph, "Saw", freq, phase, 1)


def as_loud(graph, x, freq):
    """As loud as there, where the harmonics below half of the rate are as loud as all."""
    graph.note(TREBLE)
    return graph.product(x, graph.product(freq, -0.5 / graph.rate, -0.5))


def half_a_step_on(graph, freq, width=-0.5):
    """The phase of a saw there that is a width ahead; what is worked out in turns wraps as it is added up."""
    if isinstance(width, Wire):
        return graph.product(in_samples(graph, width), 1.0, half_a_step_on(graph, freq))
    return graph.product(freq, 0.5 / graph.rate, width)


def saw(graph, freq):
    """A falling saw; that of a constant is nearer by squares."""
    if not isinstance(freq, Wire):
        return of_squares.saw(graph, freq)
    return LEAK(graph, x=as_loud(graph, rising(graph, freq, half_a_step_on(graph, freq)), freq))


def pulse(graph, freq, width):
    """The difference of two saws, of which one is the width ahead."""
    if not isinstance(freq, Wire):
        return of_squares.pulse(graph, freq, width)
    ahead = half_a_step_on(graph, freq, width if isinstance(width, Wire) else width - 0.5)
    one, other = rising(graph, freq, half_a_step_on(graph, freq)), rising(graph, freq, ahead)
    return LEAK(graph, x=as_loud(graph, DIFFERENCE(graph, a=one, b=other)[0], freq))


def at_least(graph, x, bound):
    return GREATER(graph, a=in_samples(graph, x), b=bound)[0] if isinstance(x, Wire) else max(x, bound)


def triangle(graph, freq, phase, width):
    """The lesser one of a rising and a falling line."""
    at = graph.product(ramp(graph, freq, first(graph, phase)), 0.5, 0.5)
    up = divided(graph, at, at_least(graph, width, LEAST_WIDTH))
    rest = at_least(graph, graph.product(width, -1.0, 1.0), LEAST_WIDTH)
    down = divided(graph, graph.product(at, -1.0, 1.0), rest)
    return [graph.product(LESSER(graph, a=up, b=down)[0], 2.0, -1.0)]


def bell(graph, dur, width, phase, loop, done):
    """A bell for each time, e to the power of -(z / width)² / 2 with z from -1 to 1."""
    if constant(loop, "whether it loops") <= 0 or done:
        graph.note("it goes on after its first bell", stand_in=True)
    z = ramp(graph, divided(graph, 1.0, dur), graph.sum(phase, -0.5) if phase else 0.0)
    x = in_samples(graph, divided(graph, z, at_least(graph, width, 1 / 64)))
    return [exp_2(graph, graph.product(graph.product(x, x), -0.5 * math.log2(math.e)))]


def wider(graph, a, b):
    """The greater one of two frequencies."""
    if not isinstance(a, Wire) and not isinstance(b, Wire):
        return max(a, b)
    return GREATER(graph, a=in_hertz(graph, a), b=in_hertz(graph, b))[0]


def set_or_once(graph, x, fundamental):
    """A sound whose frequency is kept above 0, as long as that is set, or else its first turn alone."""
    falling, = LINE(graph, start=1.0, end=0.0, dur=1 / SLOWEST, done=0.0)
    turns, = GREATER(graph, a=MORE(graph, a=fundamental, b=0.0)[0], b=MORE(graph, a=falling, b=0.0)[0])
    return graph.product(x, turns)


def formant(graph, fundamental, form, width):
    """In each turn a sine of the formant, under a bell that is over the sooner the wider it is, at last at its end."""
    if isinstance(fundamental, Wire) and fundamental.unset:
        kept, = GREATER(graph, a=in_hertz(graph, fundamental), b=SLOWEST)
        return [set_or_once(graph, formant(graph, kept, form, width)[0], fundamental)]
    width = wider(graph, width, fundamental)
    p = graph.product(ramp(graph, fundamental), 0.5, 0.5)
    wave = at_turns(graph, graph.product(p, divided(graph, form, fundamental)))
    way = graph.product(p, divided(graph, width, fundamental))
    near = LESSER(graph, a=in_samples(graph, way), b=1.0)[0]
    half, = STILL(graph, phase=graph.product(near, math.pi))
    return [graph.product(graph.product(wave, 2.0), graph.product(half, half))]


def at_turns(graph, turns):
    """The sine of a number of turns, which is wrapped first."""
    part = below(graph, graph.sum(in_samples(graph, turns), 0.5), 1.0)
    return STILL(graph, phase=graph.product(part, math.tau, -math.pi))[0]


def harmonics(graph, freq, count):
    """How many harmonics there are below half of the rate, of so many."""
    if not isinstance(freq, Wire):
        most = max(1.0, math.floor(graph.rate / 2 / max(abs(freq), 1e-3)))
        if not isinstance(count, Wire):
            return max(1.0, min(math.floor(count), most))
    else:
        most = divided(graph, graph.rate / 2, SIZE(graph, x=freq)[0])
    count = in_samples(graph, count)
    lesser = LESSER(graph, a=in_samples(graph, most), b=count)[0]
    whole = DIFFERENCE(graph, a=lesser, b=below(graph, lesser, 1.0))[0]
    return GREATER(graph, a=whole, b=1.0)[0]


# Where all harmonics are at their height, so near in half turns, the quotient isn't worked out.
HEIGHT = 2.0**-16
# A quarter of what goes along a turn is a sample, times twice the harmonics; signals may say fewer.
PART, MOST_HARMONICS, MOST_OF_SIGNALS = 0.25, 200.0, 100.0


def fewer(graph, freq, most, count):
    """How loud `most` harmonics are in place of more of them, as far as those are below half of the rate."""
    below_half = graph.product(freq, 2 * most / graph.rate)
    if not isinstance(below_half, Wire):
        return min(1.0, max(most / count, abs(below_half)))
    return CLIP(graph, x=SIZE(graph, x=in_samples(graph, below_half))[0], low=most / count, high=1.0)[0]


def blip(graph, freq, count):
    """The sum of cosines, over their number n: (sin (2 n + 1) x / sin x - 1) / 2 n, with x half of the angle."""
    most, gain = MOST_OF_SIGNALS if isinstance(freq, Wire) else MOST_HARMONICS, 1.0
    if isinstance(count, Wire):
        count = LESSER(graph, a=in_samples(graph, count), b=MOST_OF_SIGNALS)[0]
    elif count > most:
        count, gain = most, fewer(graph, freq, most, count)
    count = harmonics(graph, freq, count)
    half = graph.product(oscillator(graph, "LFSaw", freq, 0.0, 1), PART)
    turns = below(graph, graph.sum(graph.product(half, graph.product(count, 2.0, 1.0)), 0.5), 1.0)
    above, = STILL(graph, phase=graph.product(turns, math.tau, -math.pi))
    under, = STILL(graph, phase=graph.product(half, math.tau))
    part = graph.sum(divided(graph, graph.product(above, PART), under), -PART)
    near, = LESS(graph, a=SIZE(graph, x=half)[0], b=HEIGHT)
    found = divided(graph, part, graph.product(count, 2 * PART))
    return [graph.product(graph.product(graph.product(found, -1.0, 1.0), near, found), gain)]


def synchronized(graph, sync, freq):
    """A rising saw that starts again with each turn of another one, which begins in its middle."""
    part = oscillator(graph, "LFSaw", sync, begun(graph, sync, 0.0, 1), 1)
    turns = graph.product(graph.product(part, 0.5, 0.5), divided(graph, freq, sync))
    return [graph.product(below(graph, in_samples(graph, turns), 1.0), 2.0, -1.0)]


UNITS = {
    "Saw": Row("freq", saw, needs="Saw"),
    "Pulse": Row("freq width", pulse, needs="Saw"),
    "VarSaw": Row("freq phase width", triangle, needs="Div"),
    "LFGauss": Row("dur width phase loop done", bell, needs="Div Exp2"),
    "Formant": Row("fundamental form width", formant, needs="Div Mod Sine"),
    "Blip": Row("freq count", blip, needs="Div Mod Sine"),
    "SyncSaw": Row("sync freq", synchronized, needs="Div Mod"),
}
