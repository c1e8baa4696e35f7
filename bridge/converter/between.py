"""Delays that read between two frames, by DelayL and CombL: combs, allpasses, a plucked string, and PitchShift."""
import math

from .delays import BETWEEN_FRAMES, OWN, delay, factor_of, frames_in, frames_of, milliseconds_in, of_buffer
from .delays import COMB as OF_FRAMES
from .generators import oscillator, ramp
from .graph import Control, Wire, most_of
from .random_numbers import NUMBERS, drawn_at
from .ratios import in_samples
from .rows import GREATER, LATCH, MORE, SIZE, Row, start
from .templates import constant, template
from .triggers import TRIG, begun

COMB = template("CombL x:M max:longest time:time c:sample damp:sample -> M M")
SMOOTH = template("OnePole x:M c:sample -> M")
CLIP = template("Clip x:sample low:sample high:sample -> sample")
ECHO, ALL = range(2)
STRAIGHT = "it goes straight from frame to frame"
# The longest time of a delay if it isn't a constant, unless more is known of it; and the longest one here.
LIKELY, LONGEST = 1.0, 60.0


def longest_of(graph, longest):
    """The longest time; that of a signal is a second, or what is known of it."""
    if not isinstance(longest, Wire):
        return min(max(longest, 0.0), LONGEST)
    most = 2 * abs(longest.default) if isinstance(longest, Control) else most_of(longest)
    found = min(max(most, LIKELY), LONGEST) if math.isfinite(most) else LIKELY
    graph.note(f"its longest time is {found:g} s")
    return found


def times(graph, longest, time, cuts):
    """The longest time and the time of a unit. A constant is cut to whole frames where nothing is read between two."""
    longest = longest_of(graph, longest)
    if isinstance(time, Wire):
        return longest, in_samples(graph, time)
    time = frames_in(graph, longest, time) / graph.rate if cuts else min(max(time, 0.0), longest)
    return time, time


def in_milliseconds(graph, time):
    """Whether a time is a constant of whole milliseconds, and of whole frames."""
    if isinstance(time, Wire):
        return False
    frames = round(time * graph.rate)
    whole = frames_of(milliseconds_in(frames, graph.rate), graph.rate)
    return abs(time * graph.rate - frames) < 1e-3 and whole == frames


def delayed(cuts):
    """A delay; a constant of whole milliseconds needs no unit that reads between frames."""
    def build(graph, x, max, time):
        longest, time = times(graph, max, time, cuts)
        if in_milliseconds(graph, time):
            return delay(graph, x, time, time)
        return BETWEEN_FRAMES(graph, x=x, max=longest, time=time)
    return build


def comb(cuts):
    """A comb; the same of a constant."""
    def build(graph, x, max, time, decay):
        longest, at = times(graph, max, time, cuts)
        factor = factor_of(graph, longest, time, decay)
        if in_milliseconds(graph, at) and at > 0:
            return OF_FRAMES(graph, x=x, max=at, time=at, c=factor)
        return [COMB(graph, x=x, max=longest, time=at, c=factor, damp=0.0)[ECHO]]
    return build


def allpass(cuts):
    def build(graph, x, max, time, decay):
        longest, at = times(graph, max, time, cuts)
        factor = factor_of(graph, longest, time, decay)
        return [COMB(graph, x=x, max=longest, time=at, c=factor, damp=0.0)[ALL]]
    return build


def pluck(graph, x, trig, max, time, decay, coef):
    """A string: a comb whose echoes are smoothed, into which a sound comes for one of its times from a trigger on."""
    trig = begun(graph, trig)
    if not isinstance(trig, Wire):
        return [0.0]
    longest, at = times(graph, max, time, False)
    factor = factor_of(graph, longest, time, decay)
    on, = MORE(graph, a=TRIG(graph, trig=trig, time=at)[0], b=0.0)
    echo = COMB(graph, x=graph.product(x, on), max=longest, time=at, c=factor, damp=coef)[ECHO]
    return SMOOTH(graph, x=echo, c=coef)


# PitchShift has four grains, each a quarter of its window after the one before; the greatest ratio; and how many
# frames each grain lies back at least.
GRAINS, HIGHEST, BACK = 4, 4.0, 1


class Grain:
    """One of the grains of a window of some seconds: it begins again with each turn of a saw."""

    def __init__(self, graph, window, number):
        self.graph, self.window = graph, window
        turn = -number / GRAINS % 1
        self.at = ramp(graph, 1 / window, turn)
        self.begins = graph.sum(oscillator(graph, "LFPulse", 1 / window, turn, 1, 0.5), start(graph))

    def ratio(self, ratio, spread):
        """Its ratio, as it begins, and some chance."""
        if isinstance(ratio, Wire):
            ratio, = LATCH(self.graph, x=in_samples(self.graph, ratio), trig=self.begins)
        if spread == 0:
            return ratio if isinstance(ratio, Wire) else min(max(ratio, 0.0), HIGHEST)
        self.graph.note(NUMBERS)
        chance = self.graph.product(drawn_at(self.graph, self.begins)[0], spread)
        return CLIP(self.graph, x=self.graph.sum(ratio, chance), low=0.0, high=HIGHEST)[0]

    def time(self, ratio, spread):
        """How far back it reads: what is slower falls back, and what is faster begins farther back."""
        graph, half = self.graph, self.window / 2
        back = graph.product(ratio, -half, half)
        far = GREATER(graph, a=back, b=graph.product(back, -1.0))[0] if isinstance(back, Wire) else abs(back)
        found = graph.sum(graph.product(self.at, back, far), BACK / graph.rate)
        if spread != 0:
            graph.note(NUMBERS)
            chance = graph.product(drawn_at(graph, self.begins)[0], 0.5, 0.5)
            found = graph.product(chance, spread, found)
        return in_samples(graph, found)

    def heard(self, x, longest, time):
        """It is heard under a triangle."""
        near = self.graph.product(SIZE(self.graph, x=self.at)[0], -0.5, 0.5)
        return self.graph.product(BETWEEN_FRAMES(self.graph, x=x, max=longest, time=time)[0], near)


def pitch_shift(graph, x, window, ratio, pitch_spread, time_spread):
    frames = int(constant(window, "its window") * graph.rate + 2) // GRAINS * GRAINS
    window, total = frames / graph.rate, 0.0
    if not isinstance(x, Wire):
        return [0.0]
    for number in range(1, GRAINS + 1):
        grain = Grain(graph, window, number)
        time = grain.time(grain.ratio(ratio, pitch_spread), time_spread)
        total = graph.sum(total, grain.heard(x, min(HIGHEST * window + BACK / graph.rate, LONGEST), time))
    return [total]


def of_kinds(name, parameters, build, needs, wrap=lambda build: build, note=None):
    """The rows of a unit whose kind says what it reads between two frames: nothing, a line or a cubic."""
    notes = {"N": note, "L": note, "C": note or STRAIGHT}
    return {name + kind: Row(parameters, wrap(build(kind == "N")), note=notes[kind], needs=needs) for kind in notes}


DELAYS, COMBS = "DelayL", "CombL"
UNITS = {
    **of_kinds("Delay", "x max time", delayed, DELAYS),
    **of_kinds("Comb", "x max time decay", comb, COMBS),
    **of_kinds("Allpass", "x max time decay", allpass, COMBS),
    **of_kinds("BufDelay", "buf x time", delayed, DELAYS, of_buffer, OWN),
    **of_kinds("BufComb", "buf x time decay", comb, COMBS, of_buffer, OWN),
    **of_kinds("BufAllpass", "buf x time decay", allpass, COMBS, of_buffer, OWN),
    "Pluck": Row("x trig max time decay coef", pluck, needs="CombL Trig", note=STRAIGHT),
    "PitchShift": Row("x window ratio pitch_spread time_spread", pitch_shift, needs=DELAYS),
}
