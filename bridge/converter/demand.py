"""What asks demand units for values: Demand at triggers, Duty and TDuty after times."""
import math

from .graph import Wire
from .held import block_part, hold
from .measures import NUMBER, Refused, Slot, fraction_of
from .rows import BLOCK, DELAY_1, DIFFERENCE, LATCH, LESS, MORE, SUMMING, Row, start
from .scgf import AUDIO, RATES
from .streams import Cell, Clock, Laid, Stream, Worked, choice, fixed, signal, stream_of, worked
from .streams import UNITS as STREAMS
from .templates import action, template
from .triggers import TRIG, begun

# What counts frames from the first one or a reset on.
FRAMES = template("Phasor trig:any 1:M 0:M turn:M to:M -> M")
LONG = float(2**31 - 1)
MOVES = "its times are whole frames, and one that moves acts at once"
DRAWN = "its times are rounded up to whole blocks"
# What is so near to a whole number of frames is it.
NEAR = 1e-3
# What becomes of the synth by the done action.
ACTIONS = {1: "PauseSelf", 2: "FreeSelf"}


def at_rate(graph, on):
    """What is on for a frame, at control rate for a block."""
    return on if graph.unit.rate == AUDIO else hold(graph, on)


def value_at(clock, stream):
    """The value that was asked for last; before the first one it is 0."""
    found, = LATCH(clock.graph, x=stream.build(clock), trig=clock.trig)
    found.held = clock.graph.unit.rate != AUDIO
    return found


def resetting(reset):
    """What resets, or 0."""
    return reset if isinstance(signal(reset, "what resets it"), Wire) else 0.0


def at_triggers(graph, trig, reset, streams):
    trig, streams = begun(graph, trig), [stream_of(each) for each in streams]
    if not isinstance(trig, Wire):
        return [0.0 for _ in streams]
    clock = Clock(graph, trig, resetting(reset))
    return [value_at(clock, each) for each in streams]


# Times.

def sums_of(numbers):
    return [sum(numbers[:count + 1]) for count in range(len(numbers))]


def whole_of(frames):
    """The first whole frame from a place on."""
    return float(math.ceil(frames - NEAR))


class Times:
    """Constant times, one after the other: where each is over, in frames, first of some and then of some in turns."""

    def __init__(self, graph, stream, reset):
        if not isinstance(stream, Laid):
            stream = Laid([], stream.values(), stream.length)
        head, turn = (stream.head, stream.turn) if stream.length == math.inf else (stream.values(), [])
        if any(isinstance(each, (Wire, Cell)) for each in head + turn):
            raise Refused("its times must be constants")
        self.graph, self.reset, self.step = graph, reset, 1.0 if graph.unit.rate == AUDIO else float(BLOCK)
        frames = [max(each * graph.rate, self.step) for each in head + turn]
        self.shortest = min(frames) / self.step
        self.head, self.turn = sums_of(frames[:len(head)]), sums_of(frames[len(head):])

    def now(self, at, ends):
        """Whether a place is where one of some times ends, or begins the first one."""
        began = choice(self.graph, at, ends, [0.0, *ends])
        return LESS(self.graph, a=DIFFERENCE(self.graph, a=at, b=began)[0] if ends else at, b=self.step)[0]

    def in_turns(self, trig, begin):
        """Whether one of the times in turns is over, which begin a part of a frame late."""
        whole = not begin and all(abs(each - round(each)) < NEAR for each in self.turn)
        at, = FRAMES(self.graph, trig=trig, turn=whole_of(self.turn[-1]) if whole else self.turn[-1], to=begin)
        at.slot.set(NUMBER if whole else fraction_of(self.turn[-1]))
        return self.now(at, [whole_of(each) if whole else each for each in self.turn[:-1]])

    def events(self):
        """What is on where a time is over, and at first, and what is on once all are over, or None."""
        graph = self.graph
        if not self.head:
            return at_rate(graph, self.in_turns(self.reset, 0.0)), None
        ends = list(map(whole_of, self.head))
        at, = FRAMES(graph, trig=self.reset, turn=LONG, to=0.0)
        at.slot.set(NUMBER)
        over, = MORE(graph, a=at, b=ends[-1] - 1.0)
        if not self.turn:
            return at_rate(graph, self.now(at, ends)), over
        late = max(0.0, ends[-1] - self.head[-1])
        early = self.now(at, ends[:-1])
        way, = DIFFERENCE(graph, a=self.in_turns(over, late), b=early)
        return at_rate(graph, graph.product(way, over, early)), None


def moving(graph, time, reset):
    """What is on where a time is over that is a signal, and at first."""
    graph.note(MOVES)
    frames = graph.product(time, graph.rate)
    frames.slot.set(NUMBER)
    at, = FRAMES(graph, trig=reset, turn=frames, to=0.0)
    fell, = LESS(graph, a=at, b=DELAY_1(graph, x=at)[0])
    return graph.sum(fell, graph.sum(start(graph), reset))


def of_chance(graph, stream):
    """What is on where a time is over that is drawn: the block begins it that comes after the last one."""
    if graph.unit.rate == AUDIO:
        raise Refused("times that are drawn are there at control rate alone")
    graph.note(DRAWN)
    block_part(graph)
    time = graph.sum(stream.build(Clock(graph, graph.block_start)), -1 / graph.rate)
    return MORE(graph, a=TRIG(graph, trig=graph.block_start, time=time)[0], b=0.0)[0]


def events_of(graph, times, levels, reset):
    """What is on where the next value is asked for, and what is on once all times are over, or None."""
    only = times.turn[0] if isinstance(times, Laid) and times.free else None
    if isinstance(only, Wire):
        return moving(graph, only, reset), None
    if isinstance(only, Cell):
        return of_chance(graph, times), None
    found = Times(graph, times, reset)
    if found.shortest < 2 and not levels.free:
        raise Refused(f"its times must be two {'frames' if graph.unit.rate == AUDIO else 'blocks'} at least")
    return found.events()


class Duty:
    """Values after times: a clock, and the values that it asks for."""

    def __init__(self, graph, times, reset, done, levels, waits=False):
        done, reset, self.graph = action(fixed(done, "the done action")), resetting(reset), graph
        self.levels = stream_of(levels)
        trig, over = events_of(graph, stream_of(times), self.levels, reset)
        if waits:
            trig = graph.product(trig, graph.product(at_rate(graph, start(graph)), -1.0, 1.0))
        self.clock, self.goes_on = Clock(graph, trig, reset), None
        self.value = value_at(self.clock, self.levels)
        ends = [over] if over else []
        if self.levels.length < math.inf:
            self.goes_on, = LESS(graph, a=self.clock.index(), b=float(self.levels.length))
            ends.append(graph.product(graph.product(self.goes_on, -1.0, 1.0), trig))
        for each in ends if done else []:
            graph.line(ACTIONS[done], [(each, Slot())])

    def impulses(self):
        """Each value where it comes, and else 0."""
        graph, on = self.graph, self.clock.trig
        if self.goes_on:
            on = graph.product(on, at_rate(graph, self.goes_on))
        if graph.unit.rate != AUDIO and graph.listeners & SUMMING:
            on = graph.product(on, graph.block_start)
        found = graph.product(on, self.value)
        found.held = graph.unit.rate != AUDIO
        return found


def duty(graph, times, reset, done, levels):
    return [Duty(graph, times, reset, done, levels).value]


def impulses(graph, times, reset, done, levels, gap):
    return [Duty(graph, times, reset, done, levels, fixed(gap, "whether it begins with a gap") > 0).impulses()]


ASKING = {
    "Demand": Row("trig reset streams*", at_triggers, needs="Mod"),
    "Duty": Row("times reset done levels", duty, needs="Mod Trig"),
    "TDuty": Row("times reset done levels gap", impulses, needs="Mod Trig"),
}
UNITS = {**STREAMS, **ASKING}


def asked(unit, inputs, graph, build):
    """The outputs of a unit. What works at demand rate waits until it is asked, and no other unit takes streams."""
    if unit.name in UNITS or not any(isinstance(each, Stream) for each in inputs):
        return build(graph, inputs)
    if RATES.get(unit.rate) != "dr":
        raise Refused("it takes no demand units here")
    if unit.name in ("BinaryOpUGen", "UnaryOpUGen"):
        return worked(build, inputs)
    return [Worked(build, [each.take() if isinstance(each, Stream) else each for each in inputs])]
