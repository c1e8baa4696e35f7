"""Demand units: what gives its next value each time it is asked.

A stream becomes units once a clock asks for its values. Most are laid out: some values, and then others in turns. A
value is a number, a wire, or a cell, which is drawn or worked out each time.
"""
import math
import random

from .graph import Wire
from .logarithms import exp_2
from .measures import NUMBER, Refused, SAMPLE
from .random_numbers import NUMBERS, between, between_whole, drawn_at, number
from .ratios import REMAINDER, in_samples
from .rows import DELAY_1, DIFFERENCE, LATCH, LESS, LESSER, SIZE, Row, start
from .templates import constant, template
from .triggers import COUNT, MOST_COUNT, RISE, STEPPER, poll

# What is asked for so often goes on for ever; and so many values may be laid out.
FOREVER, MOST_VALUES = 1e6, 512
UNDER = template("Lt at:N bound:N -> sample")
# A walk on a circle, from a place on it.
WALK = template("Phasor trig:any step:M 0:M turn:M to:M -> M")
TWICE = "a stream that comes twice in a row begins again at once"
SHUFFLED = "its order is drawn once, as it is converted"
# A geometric series is at most so many octaves above its start, and is worked out so many below that.
OCTAVES, ROOM = 13.9, 7.0


def signal(given, what):
    """What is no stream."""
    if isinstance(given, Stream):
        raise Refused(f"{what} must be a signal or a constant")
    return given


def fixed(given, what):
    return constant(signal(given, what), what)


def length_of(given):
    given = fixed(given, "how long it is")
    return math.inf if given >= FOREVER else max(0, math.floor(given + 0.5))


class Clock:
    """What asks for values: a trigger, and one with which streams begin again, or 0."""

    def __init__(self, graph, trig, reset=0.0):
        self.graph, self.trig, self.reset, self.counted = graph, trig, reset, None

    def index(self):
        """How many values were asked for before; a value that is asked for counts a frame later."""
        if self.counted is None:
            self.counted, = COUNT(self.graph, trig=DELAY_1(self.graph, x=self.trig)[0], reset=self.reset)
            self.counted.slot.note(MOST_COUNT)
        return self.counted

    def drawn(self):
        """A random number from -1 to 1 for each value."""
        return drawn_at(self.graph, self.trig)[0]

    def at(self, on):
        """A clock that asks only where something is on."""
        return Clock(self.graph, self.graph.product(self.trig, on), self.reset)


def same(a, b):
    return a is b or not isinstance(a, Wire) and not isinstance(b, Wire) and a == b


def choice(graph, place, bounds, values):
    """The first one of several values below whose bound the place lies, else the last one."""
    found = after = values[-1]
    for bound, value in reversed(list(zip(bounds, values))):
        if same(value, after):
            continue
        under, = UNDER(graph, at=place, bound=bound)
        if isinstance(value, Wire) or isinstance(after, Wire):
            found = graph.product(graph.sum(value, graph.product(found, -1.0)), under, found)
        else:
            found = graph.product(under, value - after, found)
            found.slot.note(max(abs(value), abs(after)))
        after = value
    return found


# Values.

class Cell:
    """A value that is drawn or worked out each time it is asked for."""

    def __init__(self, build):
        self.build = build


def all_built(values, clock):
    """Values while they are asked for; one that stands there several times is drawn once."""
    found = {id(each): each.build(clock) for each in {id(cell): cell for cell in values
                                                      if isinstance(cell, Cell)}.values()}
    return [found.get(id(each), each) for each in values]


class OneOf(Cell):
    """One of several values, each as likely as its weight."""

    def __init__(self, values, weights):
        self.values, self.weights = values, weights

    def build(self, clock):
        total = sum(self.weights)
        bounds = [2 * sum(self.weights[:count]) / total - 1 for count in range(1, len(self.values))]
        return choice(clock.graph, clock.drawn(), bounds, all_built(self.values, clock))

    def mapped(self, way):
        return OneOf([way(each) for each in self.values], self.weights)


class Part(Cell):
    """The value at a place of one of several runs, of which one is drawn where the first value is asked for."""

    def __init__(self, runs, place):
        self.runs, self.place = runs, place

    def build(self, clock):
        raise Refused("runs of values of which one is drawn stand alone")

    def mapped(self, way):
        return Part([[way(each) for each in run] for run in self.runs], self.place)


# Streams.

class Stream:
    """What gives so many values. It is heard by one unit, since two would take turns with it."""

    length, heard, free = math.inf, False, False

    def take(self):
        if self.heard and not self.free:
            raise Refused("two units take turns with it")
        self.heard = True
        return self

    def values(self):
        """The values of what ends."""
        raise Refused("it can't be laid out")

    def ends_in(self, clock):
        """The number of the value that is asked for, no further than the last one."""
        index = clock.index()
        return index if self.length == math.inf else LESSER(clock.graph, a=index, b=float(self.length - 1))[0]


class Laid(Stream):
    """Some values, and then others in turns; so many of them."""

    def __init__(self, head, turn, length=math.inf):
        if len(head) + len(turn) > MOST_VALUES:
            raise Refused(f"it has {len(head) + len(turn)} values, and there may be {MOST_VALUES}")
        if length == 0 or not turn:
            raise Refused("it has no values")
        self.head, self.turn, self.length = head, turn, length
        self.free = not head and len(turn) == 1 and length == math.inf

    def values(self):
        if self.length == math.inf:
            return super().values()
        if self.length > MOST_VALUES:
            raise Refused(f"it has {self.length} values, and there may be {MOST_VALUES}")
        found = self.head + self.turn * math.ceil(max(0, self.length - len(self.head)) / len(self.turn))
        return found[:self.length]

    def mapped(self, way):
        return Laid([way(each) for each in self.head], [way(each) for each in self.turn], self.length)

    def build(self, clock):
        graph, turn = clock.graph, len(self.turn)
        parts = [each for each in self.turn if isinstance(each, Part)]
        if not self.head and turn == 1:
            return all_built(self.turn, clock)[0]
        if parts and [each.place for each in parts] != list(range(turn)):
            raise Refused("runs of values of which one is drawn stand alone")
        at = self.ends_in(clock)
        inner = graph.sum(at, -float(len(self.head)))
        if self.length > len(self.head) + turn:
            inner, = REMAINDER(graph, a=inner, b=float(turn))
        found = drawn_run(clock, inner, parts[0].runs) if parts else at_place(clock, inner, self.turn)
        return at_place(clock, at, [*self.head, found]) if self.head else found


def at_place(clock, at, values):
    """The value whose number is asked for, or the last one."""
    return choice(clock.graph, at, [float(count) for count in range(1, len(values))], all_built(values, clock))


def drawn_run(clock, at, runs):
    """The value at a place of the run that was drawn where the place was 0."""
    r = clock.at(LESS(clock.graph, a=at, b=1.0)[0]).drawn()
    bounds = [2 * count / len(runs) - 1 for count in range(1, len(runs))]
    return choice(clock.graph, r, bounds, [at_place(clock, at, run) for run in runs])


class Worked(Stream):
    """What an operator makes of streams, numbers and wires."""

    def __init__(self, operate, operands):
        self.operate, self.operands = operate, operands
        streams = [each for each in operands if isinstance(each, Stream)]
        self.length, self.free = min(each.length for each in streams), all(each.free for each in streams)

    def build(self, clock):
        found = [each.build(clock) if isinstance(each, Stream) else each for each in self.operands]
        return self.operate(clock.graph, found)[0]


def of_constants(operate, operands):
    try:
        return float(operate(None, operands)[0])
    except (ArithmeticError, TypeError, ValueError):
        raise Refused(f"it can't be worked out of {', '.join(f'{each:g}' for each in operands)}") from None


def worked(operate, operands):
    """An operator of streams; where only one value comes in at a time, it is worked out of each one."""
    streams = [each.take() for each in operands if isinstance(each, Stream)]

    def way(value):
        if isinstance(value, (OneOf, Part)):
            return value.mapped(way)
        given = [value if isinstance(each, Stream) else each for each in operands]
        if not any(isinstance(each, (Wire, Cell)) for each in given):
            return of_constants(operate, given)
        return Cell(lambda clock: operate(clock.graph, all_built(given, clock))[0])

    if len(streams) == 1 and isinstance(streams[0], Laid):
        return [streams[0].mapped(way)]
    return [Worked(operate, operands)]


class Series(Stream):
    """Numbers that are a step apart."""

    def __init__(self, first, step, length):
        self.first, self.step, self.length = fixed(first, "its start"), fixed(step, "its step"), length
        if length == 0:
            raise Refused("it has no values")

    def values(self):
        if self.length > MOST_VALUES:
            return super().values()
        return [self.first + self.step * count for count in range(self.length)]

    def build(self, clock):
        found = clock.graph.product(self.ends_in(clock), self.step, self.first)
        if isinstance(found, Wire):
            found.slot.note(abs(self.first) + abs(self.step) * min(self.length, MOST_COUNT / max(1, abs(self.step))))
        return found


class Powers(Stream):
    """Numbers that grow by a factor without end."""

    def __init__(self, first, grow):
        self.first, self.grow = first, fixed(grow, "by how much it grows")
        if self.grow <= 0:
            raise Refused(f"it grows by {self.grow:g}, which isn't above 0")

    def build(self, clock):
        graph, octaves = clock.graph, math.log2(self.grow)
        room = ROOM if octaves > 0 else 0.0
        if room:
            graph.note(f"it grows to {2 ** OCTAVES:.0f} times its start")
        most = math.ceil((OCTAVES if room else 24.0) / max(abs(octaves), 1e-3))
        at, = LESSER(graph, a=clock.index(), b=float(most))
        x = graph.product(at, octaves, -room)
        x.slot.set(SAMPLE)
        return graph.product(exp_2(graph, x), self.first * 2 ** room)


class Walk(Stream):
    """A walk between two ends, at which it goes back: on a circle whose halves are the way there and back."""

    def __init__(self, low, high, step, is_whole):
        self.low, self.high, self.step = (fixed(each, "where it walks") for each in (low, high, step))
        self.is_whole = is_whole
        if self.low >= self.high:
            raise Refused(f"its ends are {self.low:g} and {self.high:g}, and the second must be greater")

    def build(self, clock):
        graph, way = clock.graph, self.high - self.low
        pick = between_whole if self.is_whole else between
        rise, = RISE(graph, trig=clock.trig)
        step = graph.product(pick(graph, clock.drawn(), -self.step, self.step), rise)
        at, = WALK(graph, trig=start(graph), step=step, turn=2 * way, to=pick(graph, number(graph), 0.0, way))
        off, = SIZE(graph, x=graph.sum(at, -way))
        found = graph.product(off, -1.0, self.high)
        found.slot.note(max(abs(self.low), abs(self.high)))
        return found


class Others(Stream):
    """Numbers below a count, of which none is the one before."""

    def __init__(self, values, length):
        self.choices, self.length = values, length

    def build(self, clock):
        graph, count = clock.graph, len(self.choices)
        step = between_whole(graph, clock.drawn(), 1.0, count - 1.0)
        at, = STEPPER(graph, trig=clock.trig, reset=clock.reset, min=0.0, max=count - 1.0, step=step,
                      to=between_whole(graph, number(graph), 0.0, count - 1.0))
        return at_place(clock, at, self.choices)


class Switched(Stream):
    """Of several streams the one whose number is asked for."""

    def __init__(self, which, streams):
        self.which, self.streams = which, streams
        if any(isinstance(each, Stream) and each.length < math.inf for each in [which, *streams]):
            raise Refused("what it chooses from must go on for ever")

    def build(self, clock):
        graph, which = clock.graph, self.which
        which = which.build(clock) if isinstance(which, Stream) else which
        if isinstance(which, Wire):
            whole = graph.product(graph.sum(in_samples(graph, which), 0.5), 1.0)
            whole.slot.set(NUMBER)
            which, = REMAINDER(graph, a=whole, b=float(len(self.streams)))
        values = [self.value(clock, which, *each) for each in enumerate(self.streams)]
        return at_place(clock, which, values)

    def value(self, clock, which, place, stream):
        """What is taken from a stream: it is asked only where it is chosen."""
        if not isinstance(stream, Stream):
            return stream
        if stream.free:
            return stream.build(clock)
        off, = SIZE(clock.graph, x=DIFFERENCE(clock.graph, a=which, b=float(place))[0])
        own = clock.at(LESS(clock.graph, a=off, b=1.0)[0])
        return LATCH(clock.graph, x=stream.build(own), trig=own.trig)[0]


class Again(Stream):
    """A stream that begins again after a value with which another one, or a signal, rose above 0."""

    def __init__(self, stream, reset):
        self.stream, self.reset, self.length = stream, reset, stream.length

    def build(self, clock):
        reset = self.reset.build(clock) if isinstance(self.reset, Stream) else self.reset
        reset, = LATCH(clock.graph, x=reset, trig=clock.trig)
        return self.stream.build(Clock(clock.graph, clock.trig, DELAY_1(clock.graph, x=reset)[0]))


class Polled(Stream):
    """A stream whose values are reported while a signal is on."""

    def __init__(self, stream, number, run):
        self.stream, self.number, self.run = stream, number, run
        self.length, self.free = stream.length, stream.free

    def build(self, clock):
        value = self.stream.build(clock)
        poll(clock.graph, clock.at(self.run).trig, value, self.number, ())
        return value


# The rows.

def stream_of(given):
    """A stream, or what gives one value for ever."""
    return given.take() if isinstance(given, Stream) else Laid([], [given])


def items_of(items):
    """The values of each item of a list, the last of which may go on for ever."""
    return [each.take() if isinstance(each, Stream) else Laid([], [each], 1) for each in items]


def sequence(streams, repeats):
    """Streams one after the other, as often as they are repeated; after one without an end nothing comes."""
    values = []
    for each in streams:
        if each.length == math.inf:
            if not isinstance(each, Laid):
                if values:
                    raise Refused("a stream without an end that isn't laid out stands alone")
                return each
            return Laid(values + each.head, each.turn)
        values += each.values()
    return Laid([], values, len(values) * repeats)


def in_turns(graph, repeats, items):
    return [sequence(items_of(items), length_of(repeats))]


def so_many(graph, count, items):
    """So many of the items, in turns."""
    streams, count = items_of(items), length_of(count)
    if all(each.length == 1 for each in streams):
        return [Laid([], sequence(streams, 1).turn, count)]
    if count == math.inf:
        return [sequence(streams, count)]
    if count > MOST_VALUES:
        raise Refused(f"it has {count} items, and there may be {MOST_VALUES}")
    return [sequence([streams[each % len(streams)] for each in range(count)], 1)]


def drawn_from(streams, weights, repeats):
    """One of several streams each time; those of several values all have as many."""
    if len({each.length for each in streams}) > 1 or streams[0].length == math.inf:
        raise Refused("what it draws from must be as long")
    runs = [each.values() for each in streams]
    if len(runs[0]) == 1:
        return Laid([], [OneOf([run[0] for run in runs], weights)], repeats)
    if len(set(weights)) > 1 or any(isinstance(each, Part) for run in runs for each in run):
        raise Refused("what it draws from is too deep")
    return Laid([], [Part(runs, place) for place in range(len(runs[0]))], len(runs[0]) * repeats)


def at_random(graph, repeats, items):
    streams = items_of(items)
    return [drawn_from(streams, [1.0] * len(streams), length_of(repeats))]


def by_weights(graph, repeats, count, items):
    count = round(fixed(count, "its count"))
    weights = [fixed(each, "its weight") for each in items[:count]]
    return [drawn_from(items_of(items[count:]), weights, length_of(repeats))]


def never_twice(graph, repeats, items):
    streams, repeats = items_of(items), length_of(repeats)
    if any(each.length != 1 for each in streams):
        raise Refused("what it draws from are values")
    values = [each.values()[0] for each in streams]
    return [Others(values, repeats) if len(values) > 1 else Laid([], values, repeats)]


def shuffled(graph, repeats, items):
    streams = items_of(items)
    random.Random(len(streams)).shuffle(streams)
    return [sequence(streams, length_of(repeats))]


def series(graph, length, first, step):
    return [Series(first, step, length_of(length))]


def powers(graph, length, first, grow):
    length = length_of(length)
    if length == math.inf or isinstance(signal(first, "its start"), Wire):
        return [Powers(first, grow)]
    values = [first * fixed(grow, "by how much it grows") ** count for count in range(min(length, MOST_VALUES + 1))]
    return [Laid([], values, length)]


def drawn(pick):
    def build(graph, length, low, high):
        low, high = signal(low, "its low end"), signal(high, "its high end")
        cell = Cell(lambda clock: pick(clock.graph, clock.drawn(), low, high))
        return [Laid([], [cell], length_of(length))]
    return build


def walk(is_whole):
    def build(graph, length, low, high, step):
        if length_of(length) < math.inf:
            raise Refused("it goes on for ever here")
        return [Walk(low, high, step, is_whole)]
    return build


def switched(graph, which, items):
    taken = [each.take() if isinstance(each, Stream) else each for each in (which, *items)]
    return [Switched(taken[0], taken[1:])]


def switched_at_ends(graph, which, items):
    """Of streams that end the ones whose numbers another stream gives, one after the other."""
    which, streams = stream_of(which), [stream_of(each) for each in items]
    if not isinstance(which, Laid) or which.head or any(isinstance(each, (Wire, Cell)) for each in which.turn):
        raise Refused("which streams it takes must be a list of constants")
    numbers = [math.floor(each + 0.5) % len(streams) for each in which.turn]
    if any(one == other for one, other in zip(numbers, numbers[1:] + numbers[:1])):
        graph.note(TWICE)
    if which.length < math.inf:
        numbers = numbers * math.ceil(which.length / len(numbers))
        return [sequence([streams[each] for each in numbers[:int(which.length)]], 1)]
    return [sequence([streams[each] for each in numbers], math.inf)]


def several_times(graph, count, stream):
    count = round(fixed(count, "how often it gives a value"))
    stream = items_of([stream])[0]
    if not isinstance(stream, Laid) or any(isinstance(each, Cell) for each in stream.head + stream.turn):
        raise Refused("what it gives several times must be a list of constants")
    head, turn = ([each for each in part for _ in range(count)] for part in (stream.head, stream.turn))
    return [Laid(head, turn, stream.length * count)]


def again(graph, stream, reset):
    return [Again(stream_of(stream), reset.take() if isinstance(reset, Stream) else reset)]


def reported(graph, stream, number, run, label):
    return [Polled(stream_of(stream), number, signal(run, "whether it runs"))]


POSTS = "it posts nothing, and is reported by /tr"
UNITS = {
    "Dseq": Row("repeats items*", in_turns),
    "Dser": Row("count items*", so_many),
    "Dshuf": Row("repeats items*", shuffled, note=SHUFFLED),
    "Drand": Row("repeats items*", at_random, note=NUMBERS),
    "Dxrand": Row("repeats items*", never_twice, note=NUMBERS),
    "Dwrand": Row("repeats count items*", by_weights, note=NUMBERS),
    "Dseries": Row("length first step", series),
    "Dgeom": Row("length first grow", powers, needs="Exp2"),
    "Dwhite": Row("length low high", drawn(between), note=NUMBERS),
    "Diwhite": Row("length low high", drawn(between_whole), note=NUMBERS),
    "Dbrown": Row("length low high step", walk(False), note=NUMBERS),
    "Dibrown": Row("length low high step", walk(True), note=NUMBERS),
    "Dswitch1": Row("which items*", switched),
    "Dswitch": Row("which items*", switched_at_ends),
    "Dstutter": Row("count stream", several_times),
    "Ddup": Row("count stream", several_times),
    "Dreset": Row("stream reset", again),
    "Dpoll": Row("stream number run label*", reported, note=POSTS),
}
