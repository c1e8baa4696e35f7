"""Which units hear a unit."""
from .scgf import Source

# What works out each value of those at the same time.
ARITHMETIC = {"BinaryOpUGen", "UnaryOpUGen", "MulAdd", "Sum3", "Sum4"}


def listeners(units):
    """Of each unit the names of those that hear it, some of them through arithmetic."""
    found = [set() for _ in units]
    for number in reversed(range(len(units))):
        unit = units[number]
        names = found[number] if unit.name in ARITHMETIC else {unit.name}
        for each in unit.inputs:
            if isinstance(each, Source) and 0 <= each.unit < number:
                found[each.unit] |= names
    return found
