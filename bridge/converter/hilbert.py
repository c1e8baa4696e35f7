"""What shifts all phases by a quarter turn, or all frequencies: two rows of allpasses, as scsynth has them."""
import math

from .filters import SECTION
from .generators import sine
from .rows import Row

# Of each row where its allpasses turn, in parts of 7.5 Hz.
ROWS = ((0.3609, 2.7412, 11.1573, 44.7581, 179.6242, 798.4578),
        (1.2524, 5.5671, 22.3423, 89.6271, 364.7914, 2770.1114))
UNIT = 15 * math.pi


def apart(graph, x):
    """A sound twice, a quarter of a turn apart."""
    found = []
    for row in ROWS:
        y = x
        for corner in row:
            gamma = UNIT * corner / graph.rate
            c = (gamma - 1) / (gamma + 1)
            y, = SECTION(graph, x=y, a0=c, a1=1.0, a2=0.0, b1=-c, b2=0.0)
        found.append(y)
    return found


def shifted(graph, x, freq, phase):
    """Each frequency and another one are added."""
    one, other = apart(graph, x)
    cosine, wave = sine(graph, freq, graph.sum(phase, math.pi / 2))[0], sine(graph, freq, phase)[0]
    return [graph.product(one, cosine, graph.product(other, wave))]


UNITS = {
    "Hilbert": Row("x", apart, frames=True),
    "FreqShift": Row("x freq phase", shifted, frames=True),
}
