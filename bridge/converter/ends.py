"""What frees or pauses a synth."""
from .rows import Row, same
from .scgf import Source
from .templates import template

# Of units that end, the place of the input that says what happens then.
DONE_ACTION = {"EnvGen": 4, "Line": 3, "XLine": 3, "Linen": 4, "PlayBuf": 5, "RecordBuf": 7, "DetectSilence": 3,
               "Duty": 2, "TDuty": 2}
# What happens as another unit ends, as that unit's own done action.
WHEN_DONE = {"PauseSelfWhenDone": 1.0, "FreeSelfWhenDone": 2.0}


# From this one on done actions free the synth and do something to other nodes too; greater ones do nothing.
FURTHER, LAST = 3, 15


def with_done_actions(units, note):
    """The units of a definition with done actions that are here.

    What ends with another unit becomes that unit's done action. Those that free the synth and do more only free it,
    which is noted for the unit.
    """
    found = list(units)
    for number, unit in enumerate(units):
        source = unit.inputs[0] if unit.name in WHEN_DONE else None
        if isinstance(source, Source) and done_action(found[source.unit]) == 0:
            found[source.unit] = with_done_action(found[source.unit], WHEN_DONE[unit.name])
        elif FURTHER <= done_action(unit) <= LAST:
            note(unit, f"its done action {done_action(unit):g} frees this synth alone")
            found[number] = with_done_action(unit, 2.0)
        elif done_action(unit) > LAST:
            found[number] = with_done_action(unit, 0.0)
    return found


def done_action(unit):
    """The done action of a unit; -1 if it has none, or one that isn't a constant."""
    found = unit.inputs[DONE_ACTION[unit.name]] if unit.name in DONE_ACTION else -1
    return -1 if isinstance(found, Source) else found


def with_done_action(unit, done):
    at = DONE_ACTION[unit.name]
    return unit._replace(inputs=[*unit.inputs[:at], done, *unit.inputs[at + 1:]])


UNITS = {
    "DetectSilence": Row("x amp time done", template("DetectSilence x:M amp:M time:seconds done:action -> sample")),
    "FreeSelf": Row("x", template("FreeSelf x:any")),
    "PauseSelf": Row("x", template("PauseSelf x:any")),
    "FreeSelfWhenDone": Row("x", same),
    "PauseSelfWhenDone": Row("x", same),
}
