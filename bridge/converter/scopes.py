"""ScopeOut2, which shows waves in sclang: its synth writes them into a ring of frames in a buffer that it gets for
itself, from which `showing.py` takes them."""
from typing import NamedTuple, Optional, Union

from .buses import check_width
from .graph import Control, Wire
from .measures import HERTZ, NUMBER, SAMPLE, Refused, Slot
from .rows import Row
from .scgf import CONTROL, Source
from .shared import MOST_SAMPLES
from .taps import Chosen, named, number_of
from .templates import template

THERE, UNSHARED = "ScopeOut2", "no memory is shared with sclang"
# What it is where waves are shown, and the In.kr that it hears: the bus keeps its measure, whatever that is.
SHOWN, HEARD = "ScopeOut2 that is shown", "In that is shown"
# A ring has so many times the frames of a wave at least, and after so many frames the count starts again.
ROOM, MOST_COUNT = 4, 1 << 30
COUNT = template("Phasor 0:any 1:number 0:number end:number 0:number -> number")


class Bus(NamedTuple):
    """The control bus that is shown, some places after a number, if what chooses is 1."""

    chooses: Union[float, Chosen]
    first: Union[float, Chosen]
    offset: int


class Scope(NamedTuple):
    """A unit that shows waves: the number of its scope, the frames of a wave, at most so many of them, and for each
    channel the control bus that it may show."""

    number: Union[float, Chosen]
    frames: Union[float, Chosen]
    most: int
    buses: list[Optional[Bus]]

    @property
    def channels(self):
        return len(self.buses)

    @property
    def ring(self):
        return ring_of(self.most)


def ring_of(most):
    """The frames of a ring: a power of two, so that the count goes on in it when it starts again."""
    return 1 << (ROOM * most - 1).bit_length()


# Finding them in a definition.

def source_of(units, given, name):
    """The unit of a name whose output is given, or None."""
    unit = units[given.unit] if isinstance(given, Source) else None
    return unit if unit and unit.name == name else None


def bus_of(units, signal):
    """The control bus that a signal may be, as a Stethoscope chooses it, and the place of the unit that reads it."""
    choice = source_of(units, signal, "Select")
    chooses, signal = (choice.inputs[0], choice.inputs[-1]) if choice and len(choice.inputs) == 3 else (1.0, signal)
    slides = source_of(units, signal, "K2A")
    reads = source_of(units, slides.inputs[0], "In") if slides else None
    if reads is None or reads.rate != CONTROL:
        return None, None
    place, offset = slides.inputs[0]
    return Bus(number_of(units, chooses), number_of(units, reads.inputs[0]), offset), place


def scope_of(units, unit, changed):
    """What a unit shows; among the units that are changed are the ones that read its control buses."""
    number, most, frames, *signals = unit.inputs
    if isinstance(most, Source):
        raise Refused("the most frames of it must be a constant")
    most = round(most)
    if not 1 <= most * len(signals) <= MOST_SAMPLES:
        raise Refused(f"it has {len(signals)} channels of {most} frames, and may have {MOST_SAMPLES} samples")
    buses = []
    for signal in signals:
        bus, place = bus_of(units, signal)
        buses.append(bus)
        if bus:
            changed[place] = units[place]._replace(name=HEARD)
    return Scope(number_of(units, number), number_of(units, frames), most, buses)


def shown(session, source):
    """A definition whose waves are shown, its scopes, and why they can't be had, if there are any."""
    places = [at for at, unit in enumerate(source.units) if unit.name == THERE]
    units, found = list(source.units), []
    for at in places:
        try:
            if session.scopes is None or session.scopes.reason:
                raise Refused(session.scopes.reason if session.scopes else UNSHARED)
            found.append(scope_of(source.units, source.units[at], changed := {}))
            for place, unit in changed.items():
                units[place] = unit
            units[at] = units[at]._replace(name=SHOWN)
        except Refused as refused:
            return source, [], [f"{named(source.units[at])}: {refused}"]
        except (IndexError, ValueError, TypeError, OverflowError):
            return source, [], [f"{named(source.units[at])}: its inputs aren't those that are known"]
    return source._replace(units=units), found, []


# What they are here.

def scope_out(graph, number, most, frames, signals):
    """Writes each frame into the ring, and behind the ring how many frames were written before it."""
    for given in (number, frames):
        if isinstance(given, Wire):
            given.slot.join(Slot(HERTZ))
    ring, width = float(ring_of(round(most))), check_width(len(signals))
    buffer = Control("scope_buffer", 0.0)
    graph.scopes.append(buffer)
    at, = COUNT(graph, end=ring)
    count, = COUNT(graph, end=float(MOST_COUNT))
    for place, values, measure in ((at, signals, SAMPLE), (ring, [count] * width, NUMBER)):
        inputs = [(buffer, Slot(NUMBER)), (place, Slot(NUMBER)), *((each, Slot(measure)) for each in values)]
        graph.line("BufWr", inputs)
    return [0.0]


def heard(graph, bus):
    """What stands on control buses, whatever it is."""
    return graph.line("In.kr", [(bus, Slot(NUMBER))], [Slot() for _ in range(check_width(graph.unit.outputs))])


UNITS = {
    SHOWN: Row("number most frames signals*", scope_out, frames=True),
    HEARD: Row("bus", heard),
}
