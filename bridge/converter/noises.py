"""Noises."""
import math

from .generators import IMPULSE, oscillator, ramp
from .graph import Wire
from .held import hold
from .logarithms import in_parts
from .random_numbers import NOISE, drawn_at, number
from .ratios import in_hertz
from .rows import BLOCK, DELAY_1, DIFFERENCE, LATCH, LESS, MORE, SUMMING, Row, start
from .scgf import AUDIO
from .templates import template

INTEGRATOR = template("Integrator x:sample c:sample -> sample")
OTHER = "its noise is another one"
# What goes from 0 to 1 by a step each frame; and the frequency from which on such steps are fine enough.
PARTS = template("Phasor 0:any step:sample 0:sample 1:sample 0:sample -> sample")
FAST = 5.0
CUBIC_LEVEL, EIGHTH = 0.8, math.sqrt(1 / 8)
# Each bit of a GrayNoise flips as one of 31 is chosen: so fast it forgets.
GRAY = 1 - 2 / 31
# Kellet's filter, with one more pole for what is slower than 10 Hz: the gain and the pole of each.
PINK = [(0.0225, 0.99981), (0.0345, 0.99886), (0.0750759, 0.99332), (0.1538520, 0.96900), (0.3104856, 0.86650),
        (0.5329522, 0.55000), (-0.0168980, -0.7616)]
PINK_WHITE, PINK_LEVEL = 0.5362, 0.07


def white(graph):
    """A noise; at control rate one value a block."""
    noise, = NOISE(graph)
    return noise if graph.unit.rate == AUDIO else hold(graph, noise)


def either(graph, x):
    """-1 or 1."""
    return graph.product(MORE(graph, a=x, b=0.0)[0], 2.0, -1.0)


def pink(graph):
    noise, total = NOISE(graph)[0], 0.0
    for gain, pole in PINK:
        total = graph.sum(INTEGRATOR(graph, x=graph.product(noise, gain * PINK_LEVEL), c=pole)[0], total)
    found = graph.product(noise, PINK_WHITE * PINK_LEVEL, total)
    return [found if graph.unit.rate == AUDIO else hold(graph, found)]


def brown(graph):
    """A walk between -1 and 1: a triangle whose frequency is a noise goes back where it ends."""
    step = graph.product(white(graph), graph.rate / (32 if graph.unit.rate == AUDIO else 32 * BLOCK))
    return [oscillator(graph, "LFTri", step, graph.product(number(graph), 1.0), 4)]


def gray(graph):
    return INTEGRATOR(graph, x=graph.product(white(graph), math.sqrt(1 - GRAY * GRAY)), c=GRAY)


def dust(both):
    """Impulses at random, above 0 or on both sides."""
    def build(graph, density):
        frames = 1 if graph.unit.rate == AUDIO else BLOCK
        limit = graph.product(in_hertz(graph, density), -2 * frames / graph.rate, 1.0)
        on, size = MORE(graph, a=white(graph), b=limit)[0], white(graph)
        if frames == BLOCK and graph.listeners & SUMMING:
            on = graph.product(on, graph.block_start)
            return [graph.product(on, size if both else graph.product(size, 0.5, 0.5))]
        found = graph.product(on, size if both else graph.product(size, 0.5, 0.5))
        found.held = frames == BLOCK
        return [found]
    return build


def in_turns(graph, freq):
    """What goes from 0 to 1 in each turn, and what rises as a turn begins, of as few units as there may be."""
    if freq not in graph.turns:
        if isinstance(freq, Wire) or freq >= FAST:
            step = in_parts(graph, in_hertz(graph, freq), 1 / graph.rate)
            part, = PARTS(graph, step=step)
        else:
            part = graph.product(ramp(graph, freq), 0.5, 0.5)
        graph.turns[freq] = part, LESS(graph, a=part, b=0.5)[0]
    return graph.turns[freq]


def drawn_sparingly(graph, freq):
    """The last two random numbers: the first one comes after 0."""
    if isinstance(freq, Wire):
        graph.note("a frequency that moves acts at once")
    graph.note("it begins in the middle")
    part, turn = in_turns(graph, freq)
    new, _ = drawn_at(graph, turn)
    old, = LATCH(graph, x=DELAY_1(graph, x=new)[0], trig=turn)
    return part, turn, new, old


def drawn(graph, freq, count):
    """The last `count` random numbers, the newest first, of which a new one is drawn at each turn."""
    if isinstance(freq, Wire):
        graph.note("a frequency that moves acts at once")
    turn, = IMPULSE(graph, freq=freq)
    newest, moved = drawn_at(graph, turn)
    found = [newest]
    while len(found) < count:
        before = graph.product(moved, start(graph), DELAY_1(graph, x=found[-1])[0])
        found += LATCH(graph, x=before, trig=turn)
    return found


def steps_of(graph, freq):
    return drawn(graph, freq, 1)


def signs_of(graph, freq):
    return [either(graph, each) for each in drawn(graph, freq, 1)]


def within_one(found):
    """What lies between -1 and 1, whatever its parts do."""
    found.most = 1.0
    return [found]


def lines_of(graph, freq):
    """From a random number to the next one."""
    if graph.sparing:
        part, _, new, old = drawn_sparingly(graph, freq)
        return within_one(graph.product(DIFFERENCE(graph, a=new, b=old)[0], part, old))
    new, old = drawn(graph, freq, 2)
    way, = DIFFERENCE(graph, a=new, b=old)
    return within_one(graph.product(graph.product(ramp(graph, freq), 0.5, 0.5), way, old))


def parabolas_of(graph, freq):
    """From the middle of two random numbers to that of the next two: of a, b and c, with s from -1 to 1,
    b + (c - b) (1 + s)² / 8 - (b - a) (1 - s)² / 8. With r from 0 to 1 these are r² / 2 and 1 / 2 - r (1 - r / 2)."""
    if graph.sparing:
        r, turn, new, old = drawn_sparingly(graph, freq)
        way, = DIFFERENCE(graph, a=new, b=old)
        before, = LATCH(graph, x=DELAY_1(graph, x=way)[0], trig=turn)
        rise = graph.product(r, graph.product(r, 0.5))
        fall = graph.product(r, graph.product(r, -0.5, 1.0), -0.5)
        return within_one(graph.product(way, rise, graph.product(before, fall, old)))
    new, old = drawn(graph, freq, 2)
    way, = DIFFERENCE(graph, a=new, b=old)
    before, = LATCH(graph, x=DELAY_1(graph, x=way)[0], trig=IMPULSE(graph, freq=freq)[0])
    up, down = (graph.product(ramp(graph, freq), side * EIGHTH, EIGHTH) for side in (1, -1))
    rise, fall = graph.product(up, up), graph.product(down, graph.product(down, -1.0))
    return within_one(graph.product(way, rise, graph.product(before, fall, old)))


def cubics_of(graph, freq):
    """A cubic from b to c of four random numbers a, b, c and d, with r from 0 to 1:
    b + r / 2 (c - a + r (2 a - 5 b + 4 c - d + r (3 (b - c) + d - a)))."""
    d, c, b, a = drawn(graph, freq, 4)
    r = graph.product(ramp(graph, freq), 0.5, 0.5)
    first_part, = DIFFERENCE(graph, a=c, b=a)
    second = graph.product(a, 2.0, graph.product(b, -5.0, graph.product(c, 4.0, graph.product(d, -1.0))))
    third = graph.product(DIFFERENCE(graph, a=b, b=c)[0], 3.0, DIFFERENCE(graph, a=d, b=a)[0])
    rise = graph.product(r, graph.product(r, graph.product(r, third, second), first_part))
    return [graph.product(graph.product(rise, 0.5, b), CUBIC_LEVEL)]


UNITS = {
    "WhiteNoise": Row("", lambda graph: [white(graph)], note=OTHER),
    "ClipNoise": Row("", lambda graph: [either(graph, white(graph))], note=OTHER),
    "PinkNoise": Row("", pink, note=OTHER),
    "BrownNoise": Row("", brown, note=OTHER),
    "GrayNoise": Row("", gray, note=OTHER),
    "Dust": Row("density", dust(False), note=OTHER),
    "Dust2": Row("density", dust(True), note=OTHER),
    "LFNoise0": Row("freq", steps_of, note=OTHER),
    "LFNoise1": Row("freq", lines_of, note=OTHER),
    "LFNoise2": Row("freq", parabolas_of, note=OTHER),
    "LFClipNoise": Row("freq", signs_of, note=OTHER),
    "LFDNoise0": Row("freq", steps_of, note=OTHER),
    "LFDNoise1": Row("freq", lines_of, note=OTHER),
    "LFDNoise3": Row("freq", cubics_of, note=OTHER),
    "LFDClipNoise": Row("freq", signs_of, note=OTHER),
}
