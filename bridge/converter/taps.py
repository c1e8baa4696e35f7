"""Units that only hear the sound: SendPeakRMS, which reports levels, and DiskOut, which records. A keeper, through
which the sound passes, does their work; their synth plays without them."""
from typing import NamedTuple, Union

from .controls import CONTROLS
from .measures import MOST, Refused
from .numbers import OUTPUTS
from .scgf import AUDIO, RATES, Source, Unit

PEAKS, DISK = "SendPeakRMS", "DiskOut"
READS = {"In", "InFeedback"}
# Seconds that a synth lasts that is to last for ever: more than a file holds.
FOREVER = 2e6
UNHEARD = "it hears the sound, which passes through live.py only if it starts snova itself (docs/INSTALLATION.md)"
# Why other units that only hear the sound are refused.
REASONS = {"ScopeOut": "waves are shown by ScopeOut2 alone"}


class Chosen(NamedTuple):
    """The control of so many that has a number."""

    control: int


class Tap(NamedTuple):
    """A unit that hears: of each channel the bus from which `In` reads, and how many buses further on it is. `given`
    are its other numbers, and `address` is that of its replies."""

    kind: str
    channels: list[tuple[Union[float, Chosen], int]]
    given: list[Union[float, Chosen]]
    address: str = ""

    def buses(self, node):
        """The buses that it hears in a synth."""
        return [round(value_of(node, first)) + offset for first, offset in self.channels]

    def values(self, node):
        return [value_of(node, each) for each in self.given]


def value_of(node, given):
    """A number, as the controls of a synth say."""
    return node.value_of(node.definition.control(given.control)) if isinstance(given, Chosen) else given


# Finding them in a definition.

def number_of(units, given):
    """A number, or which control has it."""
    if not isinstance(given, Source):
        if not abs(given) <= MOST:
            raise Refused(f"its number {given:g} is too great")
        return given
    unit = units[given.unit]
    if unit.name == "NumOutputBuses":
        return float(OUTPUTS)
    if unit.name not in CONTROLS:
        raise Refused("its numbers must be constants or controls")
    return Chosen(unit.special + given.output)


def channels_of(units, signals):
    found = []
    for signal in signals:
        unit = units[signal.unit] if isinstance(signal, Source) else None
        if unit is None or unit.name not in READS or unit.rate != AUDIO:
            raise Refused("it hears the sound that goes out, which In.ar reads, and nothing else")
        found.append((number_of(units, unit.inputs[0]), signal.output))
    return found


def peaks_tap(units, unit):
    rate, lag, number, count, *rest = unit.inputs
    signals, letters = rest[:round(count)], rest[round(count) + 1:]
    address = bytes(round(each) for each in letters).decode("latin-1")
    return Tap(PEAKS, channels_of(units, signals), [number_of(units, each) for each in (rate, lag, number)], address)


def disk_tap(units, unit):
    buffer, *signals = unit.inputs
    return Tap(DISK, channels_of(units, signals), [number_of(units, buffer)])


TAPS = {PEAKS: peaks_tap, DISK: disk_tap}


def named(unit):
    return f"{unit.name}.{RATES.get(unit.rate, unit.rate)}"


def without_taps(source):
    """A definition without its taps, and these."""
    units, found = list(source.units), []
    for at, unit in enumerate(source.units):
        if unit.name in TAPS:
            try:
                found.append(TAPS[unit.name](source.units, unit))
            except Refused as refused:
                raise Refused(f"{named(unit)}: {refused}") from None
            except (IndexError, ValueError, TypeError, OverflowError):
                raise Refused(f"{named(unit)}: its inputs aren't those that are known") from None
            units[at] = Unit("DC", unit.rate, [0.0], unit.outputs, 0)
    return source._replace(units=lasting(units) if found else units), found


def lasting(units):
    """A Line that frees its synth only if its time is above 0, as sclang's Recorder has it, lasts for ever else."""
    found = list(units)
    for at, unit in enumerate(units):
        done = unit.inputs[3] if unit.name == "Line" and len(unit.inputs) == 4 else None
        if isinstance(done, Source) and 0 <= done.unit < at:
            choice, time = units[done.unit], unit.inputs[2]
            if choice.name == "MulAdd" and choice.inputs[1:] == [-2.0, 2.0]:
                found[done.unit] = choice._replace(inputs=[choice.inputs[0], FOREVER, time])
                found[at] = unit._replace(inputs=[*unit.inputs[:2], done, 2.0])
    return found


def heard(session, source):
    """A definition without its taps, these, and why they can't be had, if there are any."""
    reasons = [f"{named(unit)}: {REASONS[unit.name]}" for unit in source.units if unit.name in REASONS]
    if reasons or not any(unit.name in TAPS for unit in source.units):
        return source, [], reasons[:1]
    if session.ears is None:
        return source, [], [f"{named(unit)}: {UNHEARD}" for unit in source.units if unit.name in TAPS][:1]
    try:
        return *without_taps(source), []
    except Refused as refused:
        return source, [], [str(refused)]


# A synth with taps.

def check_taps(session, node):
    """Refuses a synth that is to record what doesn't go out; where levels aren't heard, a note says so."""
    name, most = node.definition.source.name, session.ears.channels if node.taps else 0
    for tap in node.taps:
        outside = [bus for bus in tap.buses(node) if not 0 <= bus < most]
        if outside and tap.kind == DISK:
            raise Refused(f"the sound that goes out has {most} channels, and bus {outside[0]} can't be recorded")
        if outside:
            session.notes.append(f"{name}: the sound has {most} channels, and the level of bus {outside[0]} is 0")
        number = tap.given[0] if tap.kind == DISK else None
        buffer = session.buffers.get(round(value_of(node, number))) if tap.kind == DISK else None
        if buffer and buffer.channels != len(tap.channels):
            raise Refused(f"it records {len(tap.channels)} channels, and its buffer has {buffer.channels}")
