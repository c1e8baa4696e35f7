"""Oscillators by Blip, whose sum of harmonics is that of scsynth: Blip, Saw and Pulse; and PinkNoise."""
from .graph import Wire
from .held import hold
from .lines import LINE
from .measures import HERTZ, NUMBER, SAMPLE, Slot, phase_of
from .ratios import below, in_samples
from .rows import BLOCK, DIFFERENCE, LESSER, Row, start
from .scgf import AUDIO
from .templates import template

TURNS = phase_of(1.0)
# As many harmonics as there are below half of the rate.
ALL = 2.0**31 - 1
# What scsynth keeps of a sum from frame to frame, and where that of a saw begins.
LEAK, BEGIN = 0.999, -0.46
# Seconds that are longer than a block.
A_WHILE = 0.002
SUM = template("Integrator x:sample 0.999:sample -> sample")
PINK = template("PinkNoise -> sample")


def blips(graph, freq, count, phase=0.0):
    """The sum of so many harmonics. The phase is in turns."""
    inputs = [(freq, Slot(HERTZ)), (count, Slot(NUMBER)), (phase, Slot(TURNS))]
    found, = graph.line("Blip", inputs, [Slot(SAMPLE)])
    found.most = 1.0
    return found


def blip(graph, freq, count):
    """A number of harmonics that is worked out is cut to a whole one."""
    if not isinstance(count, Wire):
        return [blips(graph, freq, float(count // 1))]
    whole = graph.product(count, 1.0)
    whole.slot.set(NUMBER)
    return [blips(graph, freq, whole)]


def saw(graph, freq):
    """The sum of a blip from frame to frame, of which a little is lost."""
    return SUM(graph, x=graph.product(start(graph), BEGIN * LEAK, blips(graph, freq, ALL)))


def opened(graph, width):
    """A width as scsynth has it: in the first block it goes there from 0."""
    way, = LINE(graph, start=0.0, end=A_WHILE * graph.rate / BLOCK, dur=A_WHILE, done=0.0)
    return graph.product(LESSER(graph, a=in_samples(graph, way), b=1.0)[0], width)


def pulse(graph, freq, width):
    """The same of a blip, less one that is a width ahead."""
    turns = opened(graph, width)
    if isinstance(width, Wire) or not 0 <= width < 0.5:
        turns = graph.sum(below(graph, graph.sum(in_samples(graph, turns), 0.5), 1.0), -0.5)
    ahead = graph.product(turns, 1.0)
    if isinstance(ahead, Wire):
        ahead.slot.set(TURNS)
    return SUM(graph, x=DIFFERENCE(graph, a=blips(graph, freq, ALL), b=blips(graph, freq, ALL, ahead))[0])


def pink(graph):
    found, = PINK(graph)
    return [found if graph.unit.rate == AUDIO else hold(graph, found)]


UNITS = {
    "Blip": Row("freq count", blip, needs="Blip"),
    "Saw": Row("freq", saw, needs="Blip"),
    "Pulse": Row("freq width", pulse, needs="Blip Mod"),
    "PinkNoise": Row("", pink, needs="PinkNoise", note="its noise is another one"),
}
