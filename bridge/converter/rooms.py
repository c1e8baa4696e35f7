"""Reverbs: FreeVerb and FreeVerb2, by combs, and GVerb, whose four delays feed each other over buses of its own."""
import math

from .between import ALL, COMB, ECHO, SMOOTH
from .delays import BETWEEN_FRAMES
from .graph import Control, Wire
from .local import END, Local
from .logarithms import exp_2
from .measures import NUMBER, SAMPLE, Slot
from .ratios import divided, in_hertz, in_samples
from .rows import BLOCK, DIFFERENCE, Row
from .templates import constant


def difference(graph, a, b):
    return DIFFERENCE(graph, a=a, b=b)[0]


# FreeVerb: the frames of its combs and of what makes their echoes denser, and how many more those of the second
# channel have.
COMBS, DENSER, SECOND = (1116, 1188, 1277, 1356, 1422, 1491, 1557, 1617), (556, 441, 341, 225), 23
QUIET = 0.015


def echo(graph, x, frames, c, damp):
    seconds = frames / graph.rate
    return COMB(graph, x=x, max=seconds, time=seconds, c=c, damp=damp)[ECHO]


def tail(graph, x, room, damp, more):
    """What comes back of a room. The further echoes of a comb there come a frame later than its first one, so that all
    echoes of combs are a frame late here."""
    room, damp = graph.product(room, 0.28, 0.7), graph.product(damp, 0.4)
    total = 0.0
    for frames in COMBS:
        total = graph.sum(total, echo(graph, x, frames + more + 1, room, damp))
    for frames in DENSER:
        total = difference(graph, echo(graph, total, frames + more, 0.5, 0.0), total)
    return total


def mixed(graph, x, wet, mix):
    return graph.product(difference(graph, wet, x), mix, x)


def free_verb(graph, x, mix, room, damp):
    if not isinstance(x, Wire):
        return [x]
    return [mixed(graph, x, tail(graph, graph.product(x, QUIET), room, damp, 0), mix)]


def free_verb_2(graph, x, y, mix, room, damp):
    both = graph.product(graph.sum(x, y), QUIET)
    if not isinstance(both, Wire):
        return [x, y]
    return [mixed(graph, each, tail(graph, both, room, damp, more), mix) for each, more in ((x, 0), (y, SECOND))]


# GVerb: seconds of a meter, the parts of the longest delay that its delays and its first echoes have, and the frames
# by which the echoes come later.
METER, LONGEST_ROOM = 0.00294, 300.0
DELAYS, ECHOES, LATER = (1.0, 0.81649, 0.7071, 0.63245), (0.41, 0.3, 0.155, 0.0), 5
# What makes the echoes denser, in parts of the shortest delay: where its parts end, how far the spread moves two of
# these ends in each channel, and their factors.
ENDS, WHOLE, FACTORS = (210, 369, 931), 1341, (0.75, 0.75, 0.625, 0.625)
MOVES = ((0.125541, 3 * 0.854046), (-0.568366, 3 * -0.126815))
# How the delays feed each other, each with a half.
MATRIX = ((1, 1, -1, -1), (1, -1, -1, 1), (-1, 1, -1, 1), (1, 1, 1, 1))


class Hall:
    """The room of a GVerb: its longest delay in seconds, and how fast it falls."""

    def __init__(self, graph, room, revtime, most):
        self.graph = graph
        self.seconds = graph.product(in_hertz(graph, room), METER)
        self.most = METER * (LONGEST_ROOM if isinstance(most, Wire) else most)
        self.revtime = in_samples(graph, revtime)

    def time(self, part, frames=0):
        """A part of the longest delay, and some frames; that of a constant has whole frames."""
        rate = self.graph.rate
        if isinstance(self.seconds, Wire):
            return in_samples(self.graph, self.graph.product(self.seconds, part, frames / rate or None))
        return max(0, round(self.seconds * part * rate) + frames) / rate

    def left(self, part, frames=0):
        """What is left of a sound after such a time."""
        way = self.graph.product(self.time(part, frames), -math.log2(1000))
        return exp_2(self.graph, divided(self.graph, way, self.revtime))

    def delayed(self, x, part, frames=0):
        time = self.time(part, frames)
        longest = self.most * part + max(frames, 0) / self.graph.rate if isinstance(time, Wire) else time
        return BETWEEN_FRAMES(self.graph, x=x, max=longest, time=time)[0]

    def denser(self, x, part, factor):
        """An allpass of a part of the shortest delay."""
        time = self.graph.product(self.time(DELAYS[-1]), self.graph.product(part, 1 / WHOLE))
        if isinstance(time, Wire):
            time = in_samples(self.graph, time)
        else:
            time = math.floor(time * self.graph.rate + 1e-6) / self.graph.rate
        longest = self.most * DELAYS[-1] if isinstance(time, Wire) else time
        return COMB(self.graph, x=x, max=longest, time=time, c=-factor, damp=0.0)[ALL]

    def parts(self, spread, moves):
        """The parts of a channel that make its echoes denser, after the first one."""
        graph, (first, second, third) = self.graph, ENDS
        second, third = (graph.product(spread, move, float(end)) for move, end in zip(moves, (second, third)))
        between = graph.sum(third, graph.product(second, -1.0))
        return [graph.sum(second, -float(first)), between, graph.product(third, -1.0, float(WHOLE))]


def weighted(graph, parts, signs):
    total = 0.0
    for part, sign in zip(parts, signs):
        total = graph.product(part, float(sign), total)
    return total


def circulating(graph, hall, echoes, damp):
    """The four delays. What each is fed comes over a bus, a block late, so it is a block shorter."""
    slots = [Slot(SAMPLE) for _ in DELAYS]
    own = graph.local.setdefault(("room", len(graph.local)), Local(Control("room_bus", END - len(DELAYS)), slots))
    fed = graph.line("InFeedback", [(own.control, Slot(NUMBER))], slots)
    heard = []
    for x, part in zip(fed, DELAYS):
        late = graph.product(hall.delayed(x, part, -BLOCK), graph.product(hall.left(part), -1.0))
        heard += SMOOTH(graph, x=late, c=damp)
    back = [graph.product(weighted(graph, heard, signs), 0.5) for signs in MATRIX]
    sums = [graph.sum(early, each) for early, each in zip(echoes, back)]
    graph.line("Out.ar", [(own.control, Slot(NUMBER)), *zip(sums, slots)])
    return heard


def g_verb(graph, x, room, revtime, damp, bandwidth, spread, dry, early, tail, most):
    if not isinstance(x, Wire):
        return [0.0, 0.0]
    hall = Hall(graph, room, revtime, most)
    soft, = SMOOTH(graph, x=x, c=graph.product(bandwidth, -1.0, 1.0))
    soft = hall.denser(soft, float(ENDS[0]), FACTORS[0])
    echoes = [graph.product(hall.delayed(soft, part, LATER), hall.left(part, LATER)) for part in ECHOES]
    late = weighted(graph, circulating(graph, hall, echoes, damp), (1, -1, 1, -1))
    both = graph.product(late, tail, graph.product(weighted(graph, echoes, (1, -1, 1, -1)), early))
    both, found = graph.product(x, early, both), []
    for moves in MOVES:
        side = both
        for part, factor in zip(hall.parts(spread, moves), FACTORS[1:]):
            side = hall.denser(side, part, factor)
        found.append(graph.product(x, dry, side))
    return found


APART = "its echoes are up to some frames apart"
UNITS = {
    "FreeVerb": Row("x mix room damp", free_verb, needs="CombL", note=APART),
    "FreeVerb2": Row("x y mix room damp", free_verb_2, needs="CombL", note=APART),
    "GVerb": Row("x room revtime damp bandwidth spread dry early tail most", g_verb, needs="CombL DelayL Div Exp2",
                 note=APART),
}
