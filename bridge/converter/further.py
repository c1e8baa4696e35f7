"""The units that the server has got last: what needs one that isn't here is said by others, or refused."""

FURTHER = {"Blip", "BufRdL", "CombL", "DelayL", "Div", "Exp2", "LagUD", "Log2", "Mod", "PinkNoise", "PlayBufL", "SVF",
           "Saw", "Sine", "Trig"}
# Those that are here. To switch off what needs one, take it out.
HERE = set(FURTHER)


def has(*units):
    """Whether all these units are here."""
    return HERE.issuperset(units)


def is_absent(unit):
    """Whether a unit is one of these and isn't here."""
    return unit in FURTHER and unit not in HERE


def preferred(unit, build, otherwise):
    """What builds by a unit of these if it is here, and else otherwise."""
    def outputs(*given, **named):
        return (build if has(unit) else otherwise)(*given, **named)
    return outputs
