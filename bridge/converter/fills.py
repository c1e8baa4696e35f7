"""The fills of `/b_gen` as scsynth works them out: sums of sines and of Chebyshev polynomials, and their levels."""
import math

from .measures import Refused

NORMALIZE, WAVETABLE, CLEAR = 1, 2, 4
# What is less than this is 0 but for rounding.
SILENCE = 2.0**-26


def sine_of(partial, amp, phase):
    """A sine that goes through `partial` turns as its place goes from 0 to 1."""
    return lambda place: amp * math.sin(partial * math.tau * place + phase)


def polynomial_of(partial, amp):
    """A Chebyshev polynomial, moved to 0 in its middle, as its place goes from 0 to 1."""
    middle = math.cos(partial * math.pi / 2)
    return lambda place: amp * (math.cos(partial * math.acos(min(1.0, 2 * place - 1))) - middle)


def in_groups(values, size):
    if len(values) % size:
        raise Refused(f"its partials don't come in groups of {size} numbers")
    return [values[at:at + size] for at in range(0, len(values), size)]


# Of each fill, its parts, which are added up.
PARTS = {
    "sine1": lambda values: [sine_of(at, amp, 0.0) for at, amp in enumerate(values, 1)],
    "sine2": lambda values: [sine_of(partial, amp, 0.0) for partial, amp in in_groups(values, 2)],
    "sine3": lambda values: [sine_of(*each) for each in in_groups(values, 3)],
    "cheby": lambda values: [polynomial_of(at, amp) for at, amp in enumerate(values, 1)],
}


def wavetable(values):
    """Values and the one after them as scsynth's oscillators read them: of each two, 2 a - b and b - a."""
    return [each for a, b in zip(values, values[1:]) for each in (2 * a - b, b - a)]


def normalized(samples, is_wavetable, most=1.0):
    """Samples whose greatest value is `most`."""
    values = [a + b for a, b in zip(samples[::2], samples[1::2])] if is_wavetable else samples
    peak = max(map(abs, values), default=0.0)
    return [each * most / peak for each in samples] if peak > SILENCE else samples


def filled(kind, flags, values, samples):
    """The samples of a buffer of one channel after a fill; `samples` are those before it, of which not all are kept."""
    is_wavetable, count = bool(flags & WAVETABLE), len(samples)
    if is_wavetable and count % 2:
        raise Refused(f"a wavetable has an even number of samples, and the buffer has {count}")
    places = count // 2 if is_wavetable else count
    parts = PARTS[kind](values)
    added = [sum(part(at / places) for part in parts) for at in range(places + is_wavetable)]
    added = wavetable(added) if is_wavetable else added
    found = added if flags & CLEAR else [a + b for a, b in zip(samples, added)]
    return normalized(found, is_wavetable) if flags & NORMALIZE else found
