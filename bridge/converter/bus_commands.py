"""The table of commands on control buses."""
from .commands import same, turned
from .limits import bus
from .measures import raw
from .osc import Message


def bus_value(session, number, value):
    """What a control bus is set to here."""
    slot = session.slot("bus", bus(number))
    slot.note(value)
    session.bus_values[number] = value
    return raw(value, slot.guess())


def c_set(session, pairs):
    found = [each for number, value in pairs for each in (number, bus_value(session, number, value))]
    return [Message("/c_set", found)]


def c_setn(session, runs):
    found = []
    for begin, values in runs:
        found += [begin, len(values), *(bus_value(session, begin + at, value) for at, value in enumerate(values))]
    return [Message("/c_setn", found)]


def c_fill(session, triples):
    return c_setn(session, [(begin, [value] * count) for begin, count, value in triples])


CONTROL_BUSES = [
    turned("/c_set", 25, "(bus value)..", c_set),
    turned("/c_setn", 26, "(bus run)..", c_setn),
    turned("/c_fill", 27, "(bus count value)..", c_fill),
    same("/c_get", 40, "(bus).."),
    same("/c_getn", 41, "(bus count).."),
]
