"""What numbers mean on their way from SuperCollider, where all are floats, to this server, where all are whole."""
import math
from typing import NamedTuple, Optional


class Refused(Exception):
    """Something can't be said here; the text says why."""


class Lacking(Refused):
    """What is refused because a definition was refused or didn't come."""

    def __init__(self, definition, reason):
        super().__init__(reason)
        self.definition = definition


class TooLong(Refused):
    """A definition takes more units than there may be."""


class Measure(NamedTuple):
    """A unit of measure: 1.0 there is `scale` here. A measure of a circle wraps at 2^32."""

    name: str
    scale: float
    wraps: bool = False
    whole: bool = False

    def holds(self, size):
        """Whether values up to a size can be said in it, and parts of them."""
        return not self.whole and size * self.scale < 2**31


SAMPLE = Measure("samples", 2.0**24)
HERTZ = Measure("hertz", 1000.0)
SECONDS = Measure("seconds", 1000.0)
# A time of which parts of a frame count; a constant is the nearest number to it.
TIME = Measure("times", SAMPLE.scale)
# A lag there is the time to a thousandth of the way, here the time to 1/e of it.
LAG = Measure("seconds of a lag", 1000.0 / math.log(1000))
RADIANS = Measure("radians", 2.0**32 / math.tau, wraps=True)
NUMBER = Measure("whole numbers", 1.0, whole=True)


def phase_of(turn):
    """The measure of a phase of which `turn` is a turn there."""
    return Measure("phases", 2.0**32 / turn, wraps=True)


FRACTIONS = "fractions"


def fraction_of(bound):
    """The finest measure by a power of two in which values below a bound can be said."""
    bits = min(24, 31 - math.ceil(math.log2(bound + 1)))
    return SAMPLE if bits == 24 else Measure(FRACTIONS, 2.0**bits)


LEAST, MOST = -(2**31), 2**31 - 1
# What is greater is more likely a frequency or a time than a sample.
LOUDEST = 32.0


def raw(value, measure):
    """The whole number that stands for a value here."""
    scaled = value * measure.scale
    if not math.isfinite(scaled):
        raise Refused(f"{value} is no number")
    found = math.floor(scaled + 0.5)
    if measure.whole and abs(scaled - found) > 1e-4:
        raise Refused(f"{value:g} isn't whole, as {measure.name} are here")
    if measure.wraps:
        return (found - LEAST) % 2**32 + LEAST
    if not LEAST <= found <= MOST:
        raise Refused(f"{value:g} is too great for {measure.name}, which are below {2**31 / measure.scale:g} here")
    return found


def value_of(number, measure):
    """The value there for which a whole number stands."""
    return number / measure.scale


class Slot:
    """A place whose measure is found out: places that must have the same one are joined."""

    def __init__(self, measure: Optional[Measure] = None):
        self.joined, self.own, self.size, self.multiplied = None, measure, 0.0, False

    def root(self):
        slot = self
        while slot.joined is not None:
            slot = slot.joined
        return slot

    @property
    def measure(self):
        """The measure, or None. What is multiplied can't wrap."""
        root = self.root()
        return root.own._replace(wraps=False) if root.own and root.multiplied else root.own

    def multiply(self):
        """Notes that what stands here is multiplied."""
        self.root().multiplied = True

    @property
    def bound(self):
        """The greatest size of the values that are known to stand here."""
        return self.root().size

    def note(self, value):
        """Notes that a value stands here."""
        root = self.root()
        root.size = max(root.size, abs(value))

    def join(self, other):
        """Makes two places have one measure; if both have one already, their scales must be equal."""
        mine, its = self.root(), other.root()
        if mine is its:
            return
        if mine.own and its.own and mine.own.scale != its.own.scale:
            raise Refused(f"{mine.own.name} and {its.own.name} meet")
        its.joined, mine.own = mine, mine.own or its.own
        mine.size = max(mine.size, its.size)
        mine.multiplied = mine.multiplied or its.multiplied

    def set(self, measure):
        self.join(Slot(measure))

    def guess(self):
        """The measure, or one that is likely for what is known to stand here."""
        if self.measure:
            return self.measure
        return SAMPLE if self.bound < LOUDEST else HERTZ if self.bound < 2e6 else NUMBER

    def settle(self):
        """Fixes the measure."""
        if self.measure is None:
            self.set(self.guess())
