"""Units on buses and buffers. What stands on a control bus or in a buffer has a measure too, which `Place` keeps."""
from typing import NamedTuple, Union

from .controls import fired
from .graph import Control, Wire
from .measures import NUMBER, SAMPLE, Refused, Slot
from .rows import Row, first
from .scgf import AUDIO, SCALAR
from .templates import action, index, template

# So many channels a unit has here.
WIDEST = 8


class Place(NamedTuple):
    """A control bus (`kind` is "bus") or a buffer that a unit reads or writes: `index`, and `offset` after it.

    A buffer may be one whose samples the unit `changes`.
    """

    kind: str
    index: Union[float, Control]
    offset: int
    slot: Slot
    changes: bool = False

    def number(self, value_of):
        """Its number, with the values of controls."""
        start = value_of(self.index) if isinstance(self.index, Control) else self.index
        return round(start) + self.offset


def runs(graph, bus, count):
    """The parts of at most eight channels: their first bus and their channels."""
    if count > WIDEST and isinstance(bus, Wire):
        raise Refused(f"it has {count} channels, and {WIDEST} fit on buses that a control chooses")
    for start in range(0, count, WIDEST):
        yield bus + start if start else bus, range(start, min(count, start + WIDEST))


def slots(graph, bus, count):
    """The measures of the channels of a unit on buses."""
    if graph.unit.rate == AUDIO:
        return [Slot(SAMPLE) for _ in range(count)]
    found = [Slot() for _ in range(count)]
    graph.places += [Place("bus", bus, offset, slot) for offset, slot in enumerate(found)]
    return found


def read(graph, unit, bus, count):
    """What stands on some buses."""
    measures, found = slots(graph, bus, count), []
    for start, channels in runs(graph, bus, count):
        found += graph.line(unit, [(start, Slot(NUMBER))], [measures[at] for at in channels])
    return found


def split(bus):
    """The bus of a unit at audio rate, and how many behind it are skipped: those of a control and a small number."""
    control, number = getattr(bus, "parts", None) or (bus, 0)
    return (control, int(number)) if number in range(WIDEST) else (index(bus), 0)


def reading(unit=None):
    """A unit that reads buses; one at scalar rate does so once."""
    def build(graph, bus):
        rate = graph.unit.rate
        bus, skipped = split(bus)
        found = read(graph, unit or ("In.ar" if rate == AUDIO else "In.kr"), index(bus), graph.unit.outputs + skipped)
        found = found[skipped:]
        return [first(graph, each) for each in found] if rate == SCALAR else found
    return build


def struck(graph, bus):
    """What is set on control buses, in the block in which it comes."""
    return [fired(graph, each) for each in read(graph, "In.kr", index(bus), graph.unit.outputs)]


def write(graph, unit, bus, signals):
    """Puts signals on buses."""
    measures = slots(graph, bus, len(signals))
    for start, channels in runs(graph, bus, len(signals)):
        graph.line(unit, [(start, Slot(NUMBER)), *((signals[at], measures[at]) for at in channels)])
    return []


def add_out(graph, bus, signals):
    """Adds signals to buses; at audio rate nothing is added to those that are skipped."""
    if graph.unit.rate != AUDIO:
        return write(graph, "Out.kr", index(bus), signals)
    bus, skipped = split(bus)
    return write(graph, "Out.ar", index(bus), [0.0] * skipped + signals)


def replace_out(graph, bus, signals):
    if graph.unit.rate == AUDIO:
        return write(graph, "ReplaceOut", index(bus), signals)
    graph.note("at control rate it adds to what another unit has written in the same block")
    return write(graph, "Out.kr", index(bus), signals)


def cross_out(graph, bus, part, signals):
    """From what is on a bus to a signal, by a part from 0 to 1."""
    if graph.unit.rate != AUDIO:
        raise Refused("it is there at audio rate alone")
    there = read(graph, "In.ar", index(bus), len(signals))
    ways = [graph.sum(new, graph.product(old, -1.0)) for old, new in zip(there, signals)]
    return write(graph, "ReplaceOut", index(bus), [graph.product(way, part, old) for way, old in zip(ways, there)])


def buffer_slot(graph, buf, changes=False):
    """The measure of what stands in a buffer."""
    slot = Slot()
    graph.places.append(Place("buffer", index(buf), 0, slot, changes))
    return slot


def check_width(count):
    if count > WIDEST:
        raise Refused(f"it has {count} channels, and a buffer has at most {WIDEST} here")
    return count


# The frames of a buffer through which a unit goes by parts of a frame: with fewer, the parts would be greater.
LONGEST = 2**19 - 1
RAMP = template("Phasor trig:any step:F start:F end:F start:F -> F")
FRAMES = template("BufFrames buf:index -> number")


def play_loop(graph, buf, rate, trig, start):
    """A rate that isn't whole goes round by parts of a frame, and plays the one below."""
    graph.note("nothing is read between two frames here")
    slot, frames = buffer_slot(graph, buf), graph.product(FRAMES(graph, buf=buf)[0], 1.0)
    frames.slot.note(LONGEST)
    ramp, = RAMP(graph, trig=trig, step=rate, start=start, end=frames)
    outputs = [slot] * check_width(graph.unit.outputs)
    return graph.line("BufRd", [(index(buf), Slot(NUMBER)), frame_at(graph, ramp)], outputs)


def frame_at(graph, at):
    """The input for a frame: what is worked out by parts of a frame is rounded down."""
    return graph.product(at, 1.0), Slot(NUMBER)


def record_buf(graph, buf, level, run, loop, done, signals):
    slot = buffer_slot(graph, buf, True)
    check_width(len(signals))
    given = [(graph.product(signal, level), slot) for signal in signals]
    inputs = [(index(buf), Slot(NUMBER)), (run, Slot()), (loop, Slot()), (action(done), Slot(NUMBER))]
    graph.line("RecordBuf", [*inputs, *given])
    return [signals[0]]


def buf_rd(graph, buf, at, between):
    if between != 1:
        graph.note("nothing is read between two frames here, and outside of the buffer there is 0")
    slot, count = buffer_slot(graph, buf), check_width(graph.unit.outputs)
    return graph.line("BufRd", [(index(buf), Slot(NUMBER)), frame_at(graph, at)], [slot] * count)


def buf_wr(graph, buf, at, signals):
    slot = buffer_slot(graph, buf, True)
    check_width(len(signals))
    graph.line("BufWr", [(index(buf), Slot(NUMBER)), frame_at(graph, at), *((each, slot) for each in signals)])
    return [signals[0]]


UNITS = {
    "In": Row("bus", reading()),
    "InFeedback": Row("bus", reading("InFeedback")),
    "InTrig": Row("bus", struck, note="the same value again is no trigger"),
    "Out": Row("bus signals*", add_out),
    "OffsetOut": Row("bus signals*", add_out, note="it starts at a block"),
    "ReplaceOut": Row("bus signals*", replace_out),
    "XOut": Row("bus part signals*", cross_out),
    "RecordBuf": Row("buf offset=0 level old=0 run loop trig=1 done signals*", record_buf, frames=True),
    "BufRd": Row("buf at loop? between", buf_rd),
    "BufWr": Row("buf at loop? signals*", buf_wr, frames=True),
}
