"""How many buses and buffers there are here, and the reasons against what lies beyond them."""
import math

from .graph import Control, Line
from .measures import LEAST, MOST, Refused

CONTROL_BUSES, BUFFERS, AUDIO_BUSES = 1024, 1024, 128
ON_AUDIO_BUSES = {"In.ar", "Out.ar", "InFeedback", "ReplaceOut"}


def shown(value):
    """An argument as a reason shows it."""
    return {list: "an array", bytes: "a blob"}.get(type(value)) or repr(value)[:40]


def whole(value):
    """An argument that must be a whole number of 32 bits; floats without a fraction are taken too."""
    if not isinstance(value, (int, float)):
        raise Refused(f"{shown(value)} is no number")
    if not math.isfinite(value) or value != math.floor(value):
        raise Refused(f"{value:g} isn't whole")
    if not LEAST <= value <= MOST:
        raise Refused(f"{value:g} doesn't fit into 32 bits")
    return int(value)


def below(found, most, what, option):
    """Refuses a number that is none of `most`; the server answers those below 0."""
    if found >= most:
        raise Refused(f"there is no {what} {found}: there are {most} here; set s.options.{option} = {most}")
    return found


def bus(value):
    """An argument that must be the number of a control bus."""
    return below(whole(value), CONTROL_BUSES, "control bus", "numControlBusChannels")


def buffer(value):
    """An argument that must be the number of a buffer."""
    return below(whole(value), BUFFERS, "buffer", "numBuffers")


def check_audio_buses(node):
    """Refuses a synth that reads or writes an audio bus that isn't there."""
    for item in node.definition.graph.items:
        if isinstance(item, Line) and item.unit in ON_AUDIO_BUSES:
            given = item.inputs[0][0]
            first = node.value_of(given) if isinstance(given, Control) else given
            last = math.floor(first) + max(len(item.outputs), len(item.inputs) - 1) - 1
            below(last, AUDIO_BUSES, "audio bus", "numAudioBusChannels")
