"""A definition in the making: its units in order, and the measures of what flows between them."""
import math

from .further import is_absent
from .measures import FRACTIONS, HERTZ, LOUDEST, SAMPLE, SECONDS, Refused, Slot, TooLong, fraction_of, raw
from .shorter import Line as Written
from .shorter import shorter

# What one unit multiplies by is below this; greater factors take several.
GREATEST = 128.0
STEP = 64.0


# Units that give the same for the same inputs, so that one of them serves for all.
ALIKE = set("""Abs Add Blip Clip CombL CombN Delay1 DelayL DelayN Div Exp2 Gate Gt Impulse Integrator LFPulse LFSaw
    LFTri Lag LagUD Latch Log2 Lt Max Min Mod Mul MulAdd Neg OnePole Pan2 Phasor PulseCount SOS SVF Saw SinOsc Sine
    Stepper Sub Trig""".split())
# What may come of a few sums of sounds.
SOUND = 8.0
# Units that end, and then may free or pause their synth.
ENDING = {"Line", "Linen", "PlayBuf", "PlayBufL", "DetectSilence"}


class Wire:
    """An output of a unit, with the place of its measure."""

    # Whether it stands still for a block, or for good, and whether it is 0 unless a control is set; how great its
    # values are at most, if that is known; and the control and the number of which it is the sum.
    held, still, unset, most, parts = False, False, False, math.inf, None

    def __init__(self, slot=None):
        self.slot, self.name = slot or Slot(), None
        self.size = 0.0


class Control(Wire):
    """A control, with its default."""

    def __init__(self, name, default):
        super().__init__()
        self.name, self.default, self.size, self.unset = name, default, abs(default), default == 0
        self.slot.note(default)

    def sent(self, value):
        """The number that is sent for a value."""
        return raw(value, self.slot.guess())


class Unknown(Wire):
    """Stands for an output of a unit that was refused: any measure suits it."""

    slot = property(lambda self: Slot(), lambda self, _: None, doc="A place of its own for each use.")


def most_of(operand):
    """How great the values of an operand are at most."""
    if callable(operand):
        return math.inf
    return operand.most if isinstance(operand, Wire) else abs(operand)


def stands_still(*operands):
    """Whether operands are numbers and wires that never change."""
    return all(each.still if isinstance(each, Wire) else True for each in operands)


def is_unset(operand):
    """Whether an operand is 0, a wire as long as no control is set."""
    return operand.unset if isinstance(operand, Wire) else not callable(operand) and not operand


def decimal(value):
    """A sample as a literal with a point."""
    if not abs(value) < GREATEST:
        raise Refused(f"{value:g} is too great for a sample, which is below {GREATEST:g} here")
    text = f"{value:.8f}".rstrip("0")
    text = text + "0" if text.endswith(".") else text
    return "0.0" if text == "-0.0" else text


def literal(value, measure):
    return decimal(value) if measure == SAMPLE else str(raw(value, measure))


class Line:
    """A unit, its inputs with the places of their measures, and its output wires."""

    def __init__(self, origin, unit, inputs, outputs):
        self.origin, self.unit, self.inputs, self.outputs = origin, unit, inputs, outputs

    def lines(self, writer):
        yield self.unit, [writer.input(given, slot) for given, slot in self.inputs], self.outputs

    def acts(self):
        """Whether it does something even if nothing hears it."""
        return not self.outputs or self.unit in ENDING

    def hears(self):
        return [given for given, _ in self.inputs]


class Product:
    """`x * factor + addend`. The factor is a wire, or a number that may change the measure; addend may be None."""

    def __init__(self, origin, x, factor, addend, output):
        self.origin, self.x, self.factor, self.addend, self.output = origin, x, factor, addend, output
        self.outputs = [output]

    def acts(self):
        return False

    def hears(self):
        return [self.x, self.factor, self.addend]

    def is_gain(self):
        return not isinstance(self.factor, Wire)

    def certain(self):
        """Draws what is certain of the measures; it answers whether nothing is left to choose."""
        out = self.output.slot
        if self.is_gain():
            return (self.x.slot.measure and out.measure) or self.x.slot.root() is out.root()
        for one, other in ((self.x.slot, self.factor.slot), (self.factor.slot, self.x.slot)):
            if one.measure:
                self.choose(other if one.measure == SAMPLE else one)
                return True
        if out.measure == SAMPLE:
            self.choose(self.x.slot)
            return True
        return False

    def choose(self, carrier):
        """Lets one of two wires have the measure of the product, and the other be a factor."""
        other = self.x.slot if carrier.root() is self.factor.slot.root() else self.factor.slot
        carrier.join(self.output.slot)
        other.set(SAMPLE)

    def exact(self):
        """Guesses from the measure of the product, where it is of another kind; it answers whether it could."""
        measure = self.output.slot.measure
        if measure is None:
            return False
        if not self.is_gain():
            return self.part_of_many(measure)
        if measure.whole:
            self.x.slot.set(fraction_of(max(self.x.slot.bound, self.x.size)))
        elif measure.name == FRACTIONS and max(self.x.slot.bound, self.x.size) >= LOUDEST:
            self.x.slot.set(measure)
        elif measure.scale not in (SAMPLE.scale, HERTZ.scale):
            self.x.slot.settle()
        else:
            return False
        return True

    def part_of_many(self, measure):
        """Of a place between frames the count has its measure, and what it is multiplied by is the part of it."""
        if measure.name != FRACTIONS or self.x.slot.measure or self.factor.slot.measure:
            return False
        self.choose(max(self.x, self.factor, key=lambda wire: max(wire.size, wire.slot.bound)).slot)
        return True

    def forward(self):
        """Guesses from the measure of what is multiplied by a number; it answers whether it could."""
        if not self.is_gain() or self.x.slot.measure is None:
            return False
        out, factor = self.output.slot, self.fixed_factor()
        if self.x.slot.measure == SAMPLE and max(abs(factor), out.bound, self.output.size) >= LOUDEST:
            out.set(HERTZ)
        elif self.x.slot.measure.whole and factor % 1:
            out.settle()
        else:
            out.join(self.x.slot)
        return True

    def backward(self):
        """Guesses from the measure of the product; it answers whether it could."""
        if self.output.slot.measure is None:
            return False
        if not self.is_gain():
            larger = self.factor if self.factor.size > self.x.size else self.x
            self.choose(larger.slot)
        elif abs(self.fixed_factor()) > 8 and self.x.slot.bound < 16:
            self.x.slot.set(SAMPLE)
        elif self.output.slot.measure == SAMPLE and not SAMPLE.holds(max(self.x.slot.bound, self.x.size)):
            self.x.slot.set(HERTZ)
        else:
            self.x.slot.join(self.output.slot)
        return True

    def fixed_factor(self):
        return self.factor(SAMPLE) if callable(self.factor) else self.factor

    def ratio(self):
        """The factor between whole numbers here."""
        measure = self.output.slot.measure
        factor = self.factor(measure) if callable(self.factor) else self.factor
        return factor * measure.scale / self.x.slot.measure.scale

    def lines(self, writer):
        if self.is_gain():
            yield from self.gain_lines(writer)
            return
        inputs = [writer.input(self.x, self.x.slot), writer.input(self.factor, self.factor.slot)]
        yield from self.last_line(writer, inputs)

    def gain_lines(self, writer):
        ratio, name = self.ratio(), writer.input(self.x, self.x.slot)
        if not math.isfinite(ratio):
            raise Refused(f"{ratio} is no factor")
        if ratio == 1 and self.addend is None:
            self.output.name = name
            return
        while abs(ratio) >= GREATEST:
            step = Wire()
            yield "Mul", [name, decimal(STEP)], [step]
            name, ratio = step.name, ratio / STEP
        same = self.output.slot.measure.scale == self.x.slot.measure.scale
        yield from self.last_line(writer, [name, decimal(ratio) if same else str(raw(ratio, SAMPLE))])

    def last_line(self, writer, inputs):
        if self.addend is None:
            yield "Mul", inputs, [self.output]
        else:
            yield "MulAdd", [*inputs, writer.input(self.addend, self.output.slot)], [self.output]


def size_of(operand):
    """About how great an operand is. A wire of which little is known is like a sound."""
    if callable(operand):
        return 1.0
    if not isinstance(operand, Wire):
        return abs(operand)
    found = operand.size or operand.slot.bound
    return found if found > SOUND else 1.0


def size_at(slot, inputs):
    """The greatest size that is known of what goes to a place or to one that has the same measure."""
    sizes = [size_of(given) for given, other in inputs if isinstance(given, Wire) and other.root() is slot.root()]
    return max(slot.bound, *sizes)


# What may be asked of a buffer, and of a control: whether its value isn't whole.
RATE, CHANNELS, BETWEEN = "rate", "channels", "between"


class Graph:
    """The units of a definition in their order. `origin` is the unit there that is turned into units here.

    `asked` are the buffers and controls of which something is asked, each with what it is, and `known` the answers, if
    they aren't the likely ones. One that is `sparing` takes fewer units where random numbers may be others for it.
    """

    def __init__(self, rate, known=(), sparing=False):
        self.rate, self.items, self.origin, self.sparing = rate, [], "", sparing
        self.known, self.asked = known, []
        self.notes, self.stand_ins, self.places, self.triggers = [], [], [], {}
        self.start = self.random = self.part = self.block_start = None
        self.noise, self.draws, self.turns = None, 0, {}
        self.listeners, self.local, self.bends, self.scopes = set(), {}, {}, []

    def note(self, text, stand_in=False):
        """Notes that something will sound other than there; a stand-in is counted too."""
        found = f"{self.origin}: {text}"
        if found not in self.notes:
            self.notes.append(found)
        if stand_in:
            self.stand_ins.append(self.origin)

    def fact(self, what, index):
        """The sample rate of what is in a buffer, or its channels; whether a value is between whole ones."""
        self.asked.append((what, index))
        return self.known[len(self.asked) - 1] if self.known else self.likely(what, index)

    def likely(self, what, index=None):
        """What is true if nothing is known: a control has its default."""
        if what == BETWEEN:
            return float(index.default != round(index.default))
        return {RATE: float(self.rate), CHANNELS: 1.0}[what]

    def line(self, unit, inputs, outputs=()):
        """Adds a unit. Its inputs are pairs of an operand and a slot; it has one output for each slot of `outputs`."""
        if is_absent(unit):
            raise Refused(f"there is no unit {unit} here")
        for given, slot in inputs:
            if not isinstance(given, Wire):
                slot.note(given)
        inputs = [(self.heard(given, slot, inputs), slot) for given, slot in inputs]
        wires = [Wire(slot) for slot in outputs]
        for wire in wires:
            wire.size = max((given.size for given, slot in inputs if isinstance(given, Wire)
                             and slot.root() is wire.slot.root()), default=0.0)
        self.items.append(Line(self.origin, unit, inputs, wires))
        return wires

    def heard(self, given, slot, inputs):
        """An operand as a unit hears it: itself, or the same value in another measure, in which it fits."""
        if not isinstance(given, Wire):
            return given
        mine, wanted = given.slot.measure, slot.measure
        if mine and wanted:
            converts = mine.scale != wanted.scale and wanted.holds(given.slot.bound)
        else:
            converts = mine == SAMPLE and not SAMPLE.holds(size_at(slot, inputs))
        if not converts:
            given.slot.join(slot)
            return given
        found = self.product(given, 1.0)
        found.slot.join(slot)
        return found

    def product(self, x, factor, addend=None):
        """`x * factor + addend`, folded where nothing flows."""
        if not isinstance(x, Wire):
            x, factor = factor, x
        if not isinstance(x, Wire):
            found = x * factor
            return found if addend is None else self.sum(found, addend)
        if factor == 0:
            return 0.0 if addend is None else addend
        if addend == 0:
            addend = None
        for each in (x, factor):
            if isinstance(each, Wire):
                each.slot.multiply()
        output = Wire()
        output.size = size_of(x) * size_of(factor) + (abs(addend) if isinstance(addend, float) else 0.0)
        output.most = most_of(x) * most_of(factor) + most_of(addend or 0.0)
        output.still = stands_still(x, factor, addend)
        output.unset = (is_unset(x) or is_unset(factor)) and is_unset(addend or 0.0)
        if isinstance(addend, Wire):
            output.slot.join(addend.slot)
        elif addend is not None:
            output.slot.note(addend)
        self.items.append(Product(self.origin, x, factor, addend, output))
        return output

    def sum(self, a, b):
        """`a + b`, folded where nothing flows."""
        if a == 0 or b == 0:
            return b if a == 0 else a
        if not isinstance(a, Wire) and not isinstance(b, Wire):
            return a + b
        slot = Slot()
        found, = self.line("Add", [(a, slot), (b, slot)], [slot])
        found.most, found.still = most_of(a) + most_of(b), stands_still(a, b)
        found.unset = is_unset(a) and is_unset(b)
        if isinstance(a, Control) != isinstance(b, Control) and not (isinstance(a, Wire) and isinstance(b, Wire)):
            found.parts = (a, b) if isinstance(a, Control) else (b, a)
        return found

    def with_origin(self, item, act):
        """Acts for an item; what is refused names its unit."""
        self.origin = item.origin
        try:
            return act()
        except Refused as refused:
            raise Refused(f"{item.origin}: {refused}") from None

    def solve(self):
        """Finds all measures: first what is certain, and then, one by one, what is likely."""
        pending = [item for item in self.items if isinstance(item, Product)]
        while pending:
            left = [item for item in pending if not self.with_origin(item, item.certain)]
            if len(left) == len(pending) and not self.guess_one(left):
                left[0].x.slot.settle()
            pending = left
        for item in self.items:
            for slot in self.slots_of(item):
                slot.settle()

    def guess_one(self, pending):
        return any(self.with_origin(item, guess) for guesses in ("exact", "forward", "backward") for item in pending
                   for guess in [getattr(item, guesses)])

    def slots_of(self, item):
        if isinstance(item, Product):
            return [item.x.slot, item.output.slot]
        return [slot for _, slot in item.inputs] + [wire.slot for wire in item.outputs]


class Writer:
    """Writes the units of a solved graph as lines of a definition text."""

    MOST_UNITS, MOST_WIRES = 256, 512
    # With more units it isn't tried whether some are alike.
    MOST_TRIED = 2048

    def __init__(self, graph, taken):
        self.graph, self.taken, self.wires, self.written = graph, set(taken), 0, {}
        self.written_lines, self.whole = [], set()

    def fresh(self):
        """A name for a wire."""
        self.wires += 1
        name = f"w{self.wires}"
        return self.fresh() if name in self.taken else name

    def input(self, given, slot):
        if isinstance(given, Wire):
            return given.name
        if slot.measure.name == SECONDS.name and abs(given * 1000 - math.floor(given * 1000 + 0.5)) > 1e-3:
            self.graph.note(f"{given:g} s became {raw(given, slot.measure)} ms")
        return literal(given, slot.measure)

    def item_lines(self, item):
        for unit, inputs, outputs in item.lines(self):
            names = self.written.get((unit, *inputs))
            for wire, name in zip(outputs, names or [self.fresh() for _ in outputs]):
                wire.name = name
            if names:
                continue
            if unit in ALIKE:
                self.written[unit, *inputs] = [wire.name for wire in outputs]
            self.written_lines.append(Written(unit, inputs, [wire.name for wire in outputs]))
            self.whole.update(wire.name for wire in outputs if wire.slot.measure and wire.slot.measure.whole)

    def heard(self):
        """The items that do something, and those that they hear."""
        found, wanted = [], set()
        for item in reversed(self.graph.items):
            if item.acts() or any(wire in wanted for wire in item.outputs):
                found.append(item)
                wanted.update(each for each in item.hears() if isinstance(each, Wire))
        return reversed(found)

    def check_units(self, count, most=MOST_UNITS):
        if count > most:
            raise TooLong(f"it takes {count} units here, and there may be {self.MOST_UNITS}")

    def check_heard(self):
        """Refuses what is far too long, whatever its measures are: products aside, each item is a line."""
        self.check_units(sum(isinstance(item, Line) for item in self.heard()), self.MOST_TRIED)

    def may_be_too_long(self):
        """Whether it has more items than there may be units."""
        return sum(1 for _ in self.heard()) > self.MOST_UNITS

    def lines(self):
        for item in self.heard():
            self.graph.with_origin(item, lambda: self.item_lines(item))
        lines, self.graph.origin = self.written_lines, "shortened"
        if len(lines) > self.MOST_UNITS:
            lines = shorter(lines, self.whole, self.MOST_UNITS, self.graph.note, self.graph.sparing)
        self.check_units(len(lines))
        wires = sum(len(line.outputs) for line in lines)
        if wires > self.MOST_WIRES:
            raise Refused(f"it takes {wires} wires here, and there may be {self.MOST_WIRES}")
        return [line.text() for line in lines]
