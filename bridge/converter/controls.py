"""Controls of a definition: their names here, and those of a TrigControl, which are triggers."""
import re

from .graph import Control
from .held import block_part, last_block
from .rows import SUMMING, start
from .templates import template

# Controls; those of a LagControl have inputs, their times.
CONTROLS = {"Control", "AudioControl", "LagControl", "TrigControl"}
KEPT = {"snova", "def", "control", "end"}
# How many numbers beside each other stand for one value of a trigger.
NEIGHBOURS = 64

OTHER = template("less = Lt a:M b:M -> sample", "more = Gt a:M b:M -> sample", "Add less:sample more:sample -> sample")


class Trigger(Control):
    """A control whose value counts in the block in which it comes.

    The same value that comes again is a neighbouring number here, so that it is another one; nobody hears which.
    """

    def __init__(self, name, default):
        super().__init__(name, default)
        self.times = 0

    def sent(self, value):
        found = super().sent(value)
        self.times += 1
        return found + self.times % NEIGHBOURS if value and not self.slot.guess().whole else found


def plain_name(name, taken=()):
    """A name that may stand here and isn't taken."""
    found = re.sub(r"[^A-Za-z0-9_]", "_", name)[:31]
    if not re.match(r"[A-Za-z_]", found) or found in KEPT:
        found = ("_" + found)[:31]
    number = 2
    while found in taken:
        end = f"_{number}"
        found, number = found.removesuffix(f"_{number - 1}")[:31 - len(end)] + end, number + 1
    return found


def named_controls(synth_def):
    """The controls in their order; those of an array are numbered."""
    begins, found = {number: name for name, number in synth_def.names}, []
    triggers = {number for unit in synth_def.units if unit.name == "TrigControl"
                for number in range(unit.special, unit.special + unit.outputs)}
    name, start = "control", 0
    for number, default in enumerate(synth_def.controls):
        if number in begins:
            name, start = begins[number], number
        own = name if number == start else f"{name}_{number - start}"
        kind = Trigger if number in triggers else Control
        found.append(kind(plain_name(own, {control.name for control in found}), default))
    return found


def fired(graph, trigger):
    """The value of a trigger in the block in which it came, else 0.

    What sums it up hears one frame of it; at the first frame a half, since the first frame of all else counts twice.
    """
    block_part(graph)
    changed, = OTHER(graph, a=trigger, b=last_block(graph, trigger))
    if graph.listeners & SUMMING:
        once = graph.product(graph.block_start, graph.product(start(graph), -0.5, 1.0))
        return graph.product(trigger, graph.product(changed, once))
    found = graph.product(trigger, changed)
    found.held = True
    return found
