"""Numbers with a measure and pitches, as a person writes them, and the raw numbers that a command file holds for them.

`440Hz` is 440000 millihertz, `1.5s` and `1500ms` are 1500 milliseconds, `0.25turn` is 1073741824, `3frames` is 3,
`-6dB` is the sample 0.501, and `a4` is 440000, of which `g#4` and `ab4` are a semitone below. Millihertz, turns and
samples are rounded to the nearest; milliseconds and frames must be whole.
"""
import re
from decimal import Decimal
from fractions import Fraction

ONE = 1 << 24
A4 = 440000
STEPS = {"c": -9, "d": -7, "e": -5, "f": -4, "g": -2, "a": 0, "b": 2}
SHIFTS = {"#": 1, "b": -1, "": 0}


class BadMeasure(ValueError):
    """A number with a measure has no raw number."""


def whole(number):
    if number.denominator != 1:
        raise BadMeasure("isn't a whole number of milliseconds or frames")
    return number.numerator


def turned(turns):
    """A phase, of which only the part of a turn counts: from half a turn back to below half a turn on."""
    return (round(turns * 2**32) + 2**31) % 2**32 - 2**31


def level(decibels):
    return round(Decimal(10) ** (Decimal(decibels.numerator) / decibels.denominator / 20) * ONE)


MEASURES = {
    "Hz": lambda number: round(number * 1000), "turn": turned, "s": lambda number: whole(number * 1000), "ms": whole,
    "frame": whole, "frames": whole, "dB": level,
}


def pitch(word):
    """The millihertz of a pitch in equal temperament, or None."""
    found = re.fullmatch(r"([a-g])([#b]?)([0-9])", word)
    if not found:
        return None
    steps = STEPS[found[1]] + SHIFTS[found[2]] + 12 * (int(found[3]) - 4)
    return round(A4 * Decimal(2) ** (Decimal(steps) / 12))


def measured(word):
    """The raw number of a number with a measure, or None if the word is another."""
    found = re.fullmatch(r"(-?[0-9]+(?:\.[0-9]+)?)([A-Za-z]+)", word)
    if not found:
        return None
    if found[2] not in MEASURES:
        raise BadMeasure(f"{word} has none of the measures {' '.join(MEASURES)}")
    try:
        return MEASURES[found[2]](Fraction(found[1]))
    except BadMeasure as bad:
        raise BadMeasure(f"{word} {bad}") from None
