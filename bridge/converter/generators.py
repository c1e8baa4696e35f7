"""Oscillators and ramps."""
import math

from . import ratios
from .division import reciprocal
from .functions import remainder
from .further import has
from .graph import Control, Wire
from .held import hold
from .measures import HERTZ, SAMPLE, Slot, phase_of
from .rows import BLOCK, DELAY_1, DIFFERENCE, GREATER, LESS, LESSER, SUMMING, SIZE, Row, first, same, start
from .scgf import AUDIO
from .templates import template

# A little more, for what is rounded.
HALF_TURN = math.pi * 1.001
# What the integrators of band-limited oscillators there keep from frame to frame.
LEAK = template("SOS x:sample 1:sample -1:sample 0:sample 0.999:sample 0:sample -> sample")
IMPULSE = template("Impulse freq:hertz -> sample")
STRAIGHT = 1e-3
# So many samples are worked out for what feeds back.
DEPTH = 16
HEARS = f"it hears its last {DEPTH - 1} samples, and a feedback up to half a turn"


def oscillator(graph, unit, freq, phase, turn, *more):
    """A unit with a frequency and a phase, of which `turn` is a turn."""
    rest = [(each, Slot(SAMPLE)) for each in more]
    found, = graph.line(unit, [(freq, Slot(HERTZ)), (phase, Slot(phase_of(turn))), *rest], [Slot(SAMPLE)])
    found.most = 1.0
    return found


def sine(graph, freq, phase):
    """A sine. A phase that is worked out is kept within a turn, unless it stays there."""
    if isinstance(phase, Wire) and not isinstance(phase, Control) and phase.most > HALF_TURN:
        whole = ratios.remainder if has("Mod") else remainder
        turns, = whole(graph, graph.sum(phase, math.pi), math.tau)
        phase = graph.product(turns, 1.0, -math.pi)
    return [oscillator(graph, "Sine" if has("Sine") else "SinOsc", freq, phase, math.tau)]


def steady_sine(graph, freq, phase):
    """A sine whose phase is read once."""
    if isinstance(freq, Wire):
        graph.note("a frequency that moves changes no level")
    return sine(graph, freq, first(graph, phase))


def fed_back(graph, freq, feedback):
    """A sine whose phase is moved by its last sample, which is worked out from those before it."""
    found, step = 0.0, math.tau / graph.rate
    for number in reversed(range(DEPTH)):
        back = graph.product(freq, -number * step) if number else 0.0
        found = oscillator(graph, "Sine", freq, graph.sum(graph.product(found, feedback), back), math.tau)
    return [found]


def begun(graph, freq, phase, turn):
    """The phase of a generator that at audio rate begins there a frame after its phase."""
    phase = first(graph, phase)
    if graph.unit.rate != AUDIO:
        return phase
    return graph.sum(phase, graph.product(first(graph, freq), turn / graph.rate))


def ahead(unit, turn):
    """A generator with the same unit here."""
    def build(graph, freq, phase):
        return [oscillator(graph, unit, freq, begun(graph, freq, phase, turn), turn)]
    return build


def pulse_train(graph, freq, phase, width):
    """Pulses of a width, which at audio rate are a frame long at least."""
    if isinstance(width, Wire) and graph.unit.rate == AUDIO:
        frame = graph.product(ratios.in_hertz(graph, freq), 1 / graph.rate)
        width, = GREATER(graph, a=ratios.in_samples(graph, width), b=frame)
    return [oscillator(graph, "LFPulse", freq, begun(graph, freq, phase, 1), 1, width)]


def parabolas(graph, freq, phase):
    """A sine of parabolas: t (2 - |t|) of a triangle t a quarter of a turn on."""
    t = oscillator(graph, "LFTri", freq, graph.sum(begun(graph, freq, phase, 4), 1.0), 4)
    return [graph.product(t, graph.product(SIZE(graph, x=t)[0], -1.0, 2.0))]


def cubics(graph, freq, phase):
    """A sine of cubics: z² (6 - 4 z) - 1 of a triangle z from 0 to 1."""
    t = oscillator(graph, "LFTri", freq, begun(graph, freq, graph.product(phase, 2.0), 4), 4)
    z = graph.product(t, 0.5, 0.5)
    return [graph.product(graph.product(z, z), graph.product(z, -4.0, 6.0), -1.0)]


def ramp(graph, freq, phase=0.0):
    """What goes from -1 to 1 in each turn. The phase is in turns."""
    return oscillator(graph, "LFSaw", freq, graph.sum(phase, 0.5), 1)


def averaged(graph, freq, phase, gain):
    """LFSaw averaged over each frame, so that it hardly aliases: a difference of squares, or if its frequency moves the
    mean of four within a frame. It is as loud as there, by what is left of half the rate after whole harmonics."""
    if isinstance(freq, Wire):
        graph.note("it is band-limited by the mean of four samples a frame")
        phases = [graph.product(freq, part / 4 / graph.rate, phase) for part in range(4)]
        parts = [oscillator(graph, "LFSaw", freq, each, 1) for each in phases]
        total = graph.sum(graph.sum(*parts[:2]), graph.sum(*parts[2:]))
        return graph.product(total, graph.product(freq, gain / 4 / graph.rate, gain / 4))
    graph.note("it is band-limited by the mean of each frame")
    step = freq / graph.rate
    after, now = (oscillator(graph, "LFSaw", freq, graph.sum(phase, frames * step), 1) for frames in (1, 0))
    way, = DIFFERENCE(graph, a=graph.product(after, after), b=graph.product(now, now))
    return graph.product(way, gain / (8 * step * step * max(1, math.floor(1 / 2 / abs(step)))))


def saw(graph, freq):
    """A falling saw."""
    return LEAK(graph, x=averaged(graph, freq, 0.5, -0.5)) if freq else [0.0]


def pulse(graph, freq, width):
    """The difference of two saws, of which one is the width ahead."""
    if not freq:
        return [0.0]
    if isinstance(width, Wire):
        width.slot.set(SAMPLE)
    one = averaged(graph, freq, 0.5, 0.5)
    other = averaged(graph, freq, graph.product(width, 1.0, -0.5), 0.5)
    return LEAK(graph, x=DIFFERENCE(graph, a=other, b=one)[0])


def triangle(graph, freq, phase, width):
    """The lesser one of a rising and a falling line."""
    at = graph.product(ramp(graph, freq, first(graph, phase)), 0.5, 0.5)
    if isinstance(width, Wire):
        graph.note("its width is kept from 0.01 to 0.99")
    sides = []
    for side, part in ((at, width), (graph.product(at, -1.0, 1.0), graph.product(width, -1.0, 1.0))):
        slope = reciprocal(graph, part, 0.01, 1.0) if isinstance(part, Wire) else 1 / max(part, STRAIGHT)
        sides.append(graph.product(side, slope))
    return [graph.product(LESSER(graph, a=sides[0], b=sides[1])[0], 2.0, -1.0)]


def impulse(graph, freq, phase):
    """An impulse of a frame, or at control rate of a block if nothing sums it up."""
    if graph.unit.rate != AUDIO and not graph.listeners & SUMMING:
        if freq == 0:
            return [hold(graph, start(graph))] if phase in (0, 1) else [0.0]
        found = oscillator(graph, "LFPulse", freq, phase, 1, graph.product(freq, BLOCK / graph.rate))
        found.held = True
        return [found]
    if phase in (0, 1):
        return IMPULSE(graph, freq=freq)
    at = graph.sum(ramp(graph, freq, phase), 1.0)
    return LESS(graph, a=at, b=DELAY_1(graph, x=at)[0])


def sines(graph, scale, offset, shape):
    """The sum of sines: a frequency, a level and a phase of each."""
    total = 0.0
    for at in range(0, len(shape), 3):
        freq, level, phase = shape[at:at + 3]
        freq = graph.sum(graph.product(freq, scale), offset)
        total = graph.product(sine(graph, freq, phase)[0], level, total)
    return [total]


UNITS = {
    "SinOsc": Row("freq phase", sine),
    "SinOscFB": Row("freq feedback", fed_back, needs="Sine", note=HEARS),
    "FSinOsc": Row("freq phase", steady_sine),
    "Klang": Row("scale offset shape*", sines),
    "LFSaw": Row("freq phase", ahead("LFSaw", 2)),
    "LFPulse": Row("freq phase width", pulse_train),
    "LFTri": Row("freq phase", ahead("LFTri", 4)),
    "LFPar": Row("freq phase", parabolas),
    "LFCub": Row("freq phase", cubics),
    "VarSaw": Row("freq phase width", triangle),
    "Saw": Row("freq", saw),
    "Pulse": Row("freq width", pulse),
    "Impulse": Row("freq phase", impulse),
    "Phasor": Row("trig step start end reset",
                  template("Phasor trig:any step:M start:M end:M reset:M -> M"), frames=True),
    "DC": Row("x", same),
}
