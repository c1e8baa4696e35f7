"""LocalIn and LocalOut: audio buses of which the bridge gives each synth its own, by a control."""
from typing import NamedTuple

from .buses import WIDEST
from .graph import Control
from .held import hold
from .measures import NUMBER, Refused, Slot
from .rows import Row
from .scgf import AUDIO

# The buses that are given out, from the last one down, and then again.
FIRST, END = 64, 128


class PrivateBuses:
    """Gives out buses in turn: those of a synth that has ended are free again by then."""

    def __init__(self):
        self.next = END

    def take(self, count):
        """The first one of some buses."""
        if self.next - count < FIRST:
            self.next = END
        self.next -= count
        return self.next


class Local(NamedTuple):
    """The buses of a definition at one rate: the control that holds the first one, and the measure of each."""

    control: Control
    slots: list


def local(graph, count):
    if count > WIDEST:
        raise Refused(f"it has {count} channels, and may have {WIDEST}")
    slots = [Slot() for _ in range(count)]
    found = graph.local.setdefault(graph.unit.rate, Local(Control("local_bus", END - count), slots))
    if len(found.slots) != count:
        raise Refused(f"it has {count} channels, and LocalIn has {len(found.slots)}")
    return found


def local_in(graph, defaults):
    if any(each != 0 for each in defaults):
        graph.note("its first block is 0")
    found = local(graph, graph.unit.outputs)
    heard = graph.line("InFeedback", [(found.control, Slot(NUMBER))], found.slots)
    return heard if graph.unit.rate == AUDIO else [hold(graph, each) for each in heard]


def local_out(graph, signals):
    found = local(graph, len(signals))
    graph.line("Out.ar", [(found.control, Slot(NUMBER)), *zip(signals, found.slots)])
    return []


UNITS = {
    "LocalIn": Row("defaults*", local_in),
    "LocalOut": Row("signals*", local_out),
}
