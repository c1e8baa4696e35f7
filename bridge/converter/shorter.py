"""Fewer units for the same sound, for a definition that would take more of them than there may be."""
import math
from collections import Counter
from typing import NamedTuple

# 1 as a sample, the ends of what numbers here hold, and how far off a factor may be for its size.
ONE, LEAST, MOST, OFF = 1 << 24, -(1 << 31), (1 << 31) - 1, 2e-6
# A random number is drawn between two ends that lie farther apart than this.
FINE = 64
# Units that are one if their inputs are the same; those that end do something even if nobody hears them.
ENDING = {"Line", "Linen"}
JOINED = ENDING | set("""Abs Add Clip Delay1 Div Exp2 Gate Gt Impulse Integrator LFPulse LFSaw LFTri Latch Log2 Lt Max
    Min Mod Mul MulAdd OnePole Phasor PulseCount SOS SVF Sine Sub""".split())
IN_ANY_ORDER = {"Add", "Mul", "Max", "Min"}
# What makes the next random number of the square of the last one, and the factor of the last one that does so too.
OF_SQUARE, OF_LAST = ["127.0", "0.3"], "125.0"


class Line:
    """A unit with its inputs as they are written, and the names of its outputs."""

    def __init__(self, unit, inputs, outputs):
        self.unit, self.inputs, self.outputs = unit, inputs, outputs

    def text(self):
        head = " ".join(self.outputs)
        return " ".join(filter(None, [head and head + " =", self.unit, *self.inputs]))

    def parts(self):
        return self.unit, list(self.inputs), self.outputs

    def key(self):
        """What is the same for units that give the same."""
        return (self.unit, *(sorted(self.inputs) if self.unit in IN_ANY_ORDER else self.inputs))


class Straight(NamedTuple):
    """`x * factor + addend`, of a wire and of whole numbers as they are here."""

    x: str
    factor: int
    addend: int = 0

    def after(self, first):
        """What this one makes of another one, or None if numbers here don't hold it."""
        exact = first.factor * self.factor / ONE
        factor, addend = round(exact), round(first.addend * self.factor / ONE) + self.addend
        holds = LEAST <= factor <= MOST and LEAST <= addend <= MOST and abs(factor - exact) <= OFF * abs(exact)
        return Straight(first.x, factor, addend) if holds else None

    def said(self):
        """A unit and its inputs."""
        if self.factor == ONE:
            return "Add", [self.x, str(self.addend)]
        return ("MulAdd", [*map(str, self)]) if self.addend else ("Mul", [self.x, str(self.factor)])


def is_number(given):
    return given[0] == "-" or given[0].isdigit()


def whole_of(given):
    """The whole number for which a written one stands."""
    return math.floor(float(given) * ONE + 1e-6) if "." in given else int(given)


def straight_of(line):
    """A unit as `x * factor + addend`, or None if it is another one."""
    if line is None or line.unit not in ("Mul", "Add", "Sub", "MulAdd"):
        return None
    x, *numbers = sorted(line.inputs[:2], key=is_number) + line.inputs[2:]
    if is_number(x) or not all(map(is_number, numbers)):
        return None
    first, *rest = map(whole_of, numbers)
    if line.unit == "Sub":
        return Straight(x, ONE, -first) if x == line.inputs[0] else Straight(x, -ONE, first)
    return Straight(x, ONE, first) if line.unit == "Add" else Straight(x, first, *rest)


class Shortening:
    """Lines on their way to fewer of them, as rules say. Wires in `whole` have whole numbers, whose rounding counts."""

    def __init__(self, lines, whole):
        self.lines, self.whole, self.made, self.uses = lines, whole, {}, Counter()

    def run(self, rules):
        """Applies the rules until none makes it shorter."""
        count = len(self.lines) + 1
        while len(self.lines) < count:
            count = len(self.lines)
            for rule in rules:
                self.join()
                for line in self.lines:
                    rule(self, line)
            self.join()
        return self.lines

    def join(self):
        """Lets units that give the same be one, leaves out what nobody hears, and counts who hears what."""
        seen, names, kept = {}, {}, []
        for line in self.lines:
            line.inputs = [names.get(each, each) for each in line.inputs]
            same = seen.setdefault(line.key(), line)
            if line.unit in JOINED and same is not line:
                names.update(zip(line.outputs, same.outputs))
            else:
                kept.append(line)
        self.lines, heard = [], Counter()
        for line in reversed(kept):
            if line.unit not in JOINED - ENDING or any(heard[name] for name in line.outputs):
                self.lines.insert(0, line)
                heard.update(line.inputs)
        self.uses, self.made = heard, {name: line for line in self.lines for name in line.outputs}

    def become(self, line, unit, inputs):
        self.uses.subtract(line.inputs)
        self.uses.update(inputs)
        line.unit, line.inputs = unit, inputs

    def alone(self, name, unit):
        """The line that makes a wire if it is such a unit, has parts of a number, and is heard once; or None."""
        line = self.made.get(name)
        fits = line and line.unit in unit and self.uses[name] == 1 and not self.whole.intersection(line.outputs)
        return line if fits else None


# The rules, each of which may say a line by what its inputs are made of.

def next_number(lines, line):
    """A random number by the last one, in place of its square."""
    square = lines.alone(line.inputs[0], ["Mul"]) if line.unit == "MulAdd" and line.inputs[1:] == OF_SQUARE else None
    last = lines.made.get(square.inputs[0]) if square and square.inputs[0] == square.inputs[1] else None
    if last and last.unit == "Phasor":
        lines.become(line, "MulAdd", [square.inputs[0], OF_LAST, OF_SQUARE[1]])


def difference(lines, line):
    """A sum with what is times -1."""
    for a, b in (line.inputs, line.inputs[::-1]) if line.unit == "Add" else ():
        back = straight_of(lines.made.get(b))
        if back and back[1:] == (-ONE, 0):
            lines.become(line, "Sub", [a, back.x])
            return


def sum_of_product(lines, line):
    """A sum with a product that nobody else hears."""
    for a, b in (line.inputs, line.inputs[::-1]) if line.unit == "Add" else ():
        product = lines.alone(a, ["Mul"])
        if product:
            lines.become(line, "MulAdd", [*product.inputs, b])
            return


def straight_on(lines, line):
    """What is straight of what is straight."""
    last = straight_of(line)
    first = straight_of(lines.alone(last.x, ["Mul", "Add", "Sub", "MulAdd"])) if last else None
    both = last.after(first) if first else None
    if both:
        lines.become(line, *both.said())


def of_power(lines, line):
    """A power of 2 times a number: the exponent has one more addend."""
    gain = straight_of(line)
    power = lines.alone(gain.x, ["Exp2"]) if gain and gain.factor > 0 and gain.addend == 0 else None
    exponent = lines.alone(power.inputs[0], ["Mul", "Add", "Sub", "MulAdd"]) if power else None
    straight = straight_of(exponent)
    if straight:
        more = round(math.log2(gain.factor / ONE) * ONE)
        lines.become(exponent, *straight._replace(addend=straight.addend + more).said())
        lines.become(line, "Exp2", list(power.inputs))


def from_middle(lines, line):
    """A random number that comes before the first one of a noise: it is 0."""
    before = lines.alone(line.inputs[0], ["MulAdd"]) if line.unit == "Latch" else None
    first, late = (lines.made.get(name) for name in before.inputs[1:]) if before else (None, None)
    if first and late and (first.unit, first.inputs, late.unit) == ("Impulse", ["0"], "Delay1"):
        lines.become(line, "Latch", [before.inputs[2], line.inputs[1]])


def ends_of(straight, drawn):
    """The ends of what goes from one end to the other there, if a random number can be drawn between them."""
    ends = [round(whole_of(each) * straight.factor / ONE) + straight.addend for each in drawn.inputs[2:4]]
    low, high = sorted(ends)
    fits = LEAST <= low < high <= MOST and FINE < high - low <= 2 * ONE
    return [str(low), str(high)] if fits else None


def is_drawn(lines, line):
    """Whether it holds a random number: what goes far, wrapped."""
    far = lines.made.get(line.inputs[4]) if line and line.unit == "Phasor" and line.inputs[1] == "0.0" else None
    return bool(far) and far.unit == "MulAdd" and far.inputs[2] == OF_SQUARE[1] and all(
        map(is_number, line.inputs[2:4]))


def drawn_between(lines, line):
    """A random number times a number: it is drawn between other ends."""
    straight = straight_of(line)
    drawn = lines.alone(straight.x, ["Phasor"]) if straight else None
    ends = ends_of(straight, drawn) if is_drawn(lines, drawn) else None
    if ends:
        trig, still, *_, reset = drawn.inputs
        lines.become(line, "Phasor", [trig, still, *ends, reset])


def lines_between(lines, line):
    """The same of lines from a random number to the next one."""
    straight = straight_of(line)
    way = lines.alone(straight.x, ["MulAdd"]) if straight else None
    step, old = (lines.made.get(way.inputs[at]) for at in (0, 2)) if way else (None, None)
    if not (step and old and step.unit == "Sub" and old.unit == "Latch" and lines.uses[old.outputs[0]] == 2
            and step.inputs[1] == old.outputs[0] and lines.uses[step.outputs[0]] == 1):
        return
    new, last = lines.made.get(step.inputs[0]), lines.made.get(old.inputs[0])
    ends = ends_of(straight, new) if is_drawn(lines, new) and lines.uses[new.outputs[0]] == 2 else None
    if ends and last and last.unit == "Delay1" and last.inputs == new.outputs:
        trig, still, *_, reset = new.inputs
        lines.become(new, "Phasor", [trig, still, *ends, reset])
        lines.become(old, "Phasor", [trig, still, *ends, last.outputs[0]])
        lines.become(line, "MulAdd", list(way.inputs))


SAME_SOUND = (next_number, difference, sum_of_product, straight_on, of_power)
OTHER_NUMBERS = (drawn_between, lines_between)


def shorter(lines, whole, most, note, sparing=False):
    """The same sound in at most so many lines if there are some, or else nearly the same, with a note. Where units are
    spared, its random numbers may be others."""
    found = Shortening(lines, whole).run((*SAME_SOUND, *(OTHER_NUMBERS if sparing else ())))
    if len(found) <= most:
        return found
    nearly = Shortening([Line(*each) for each in map(Line.parts, found)], whole).run((*SAME_SOUND, from_middle))
    if len(nearly) > most:
        return found
    note("its noise begins in the middle")
    return nearly
