"""A SynthDef of sclang becomes the text of a definition here, with what its controls mean."""
import math

from .controls import CONTROLS, fired, named_controls, plain_name
from .demand import asked
from .ends import with_done_actions
from .filters import lag
from .graph import Graph, Unknown, Writer
from .held import pass_on, slid
from .listeners import listeners
from .measures import Refused, TooLong, raw
from .operators import BINARY, UNARY, operate
from .scgf import RATES, Source
from .scopes import UNITS as OF_SCOPES
from .units import row_of

MOST_CONTROLS = 128
# What lasts for ever there lasts so many seconds here.
FOREVER = 1e6


OPERATORS = {"BinaryOpUGen": BINARY, "UnaryOpUGen": UNARY}


def told(unit):
    """A unit as it is told of: its name, its rate, and the operator that it is."""
    found = OPERATORS.get(unit.name, {}).get(unit.special)
    return f"{unit.name}.{RATES.get(unit.rate, unit.rate)}" + (f" {found.name}" if found else "")


def given(made, each):
    """What an input is here: a constant, or an output of a unit that was made."""
    if each == math.inf:
        return FOREVER
    if not isinstance(each, Source):
        if not math.isfinite(each):
            raise Refused(f"a constant is {each}")
        return each
    if not 0 <= each.unit < len(made) or not 0 <= each.output < len(made[each.unit]):
        raise Refused("an input is no output of a unit before it")
    return made[each.unit][each.output]


class Definition:
    """A definition that is being turned: `build` makes its units, and once measures are settled `text` is its text.

    `reasons` says why it is refused; what comes after a unit that is refused is built all the same, to find them all.
    """

    def __init__(self, synth_def, rate, known=()):
        self.source, self.rate, self.known = synth_def, rate, known
        end = "".join(f"_{each:.0f}" for each in known)[:24]
        self.name = plain_name(synth_def.name)[:31 - len(end)] + end
        self.numbers = dict(synth_def.names)
        self.begin()

    def begin(self, sparing=False):
        """Begins with no units."""
        self.graph, self.controls = Graph(self.rate, self.known, sparing), named_controls(self.source)
        self.text, self.reasons, self.too_long = None, [], False

    @property
    def refused(self):
        """The first reason for which it is refused, or None."""
        return self.reasons[0] if self.reasons else None

    def refuse(self, reason):
        if reason not in self.reasons:
            self.reasons.append(reason)

    def build(self):
        """Builds the units, and joins the measures of what is connected; sparingly if they would be too many."""
        self.build_units()
        if not self.refused and Writer(self.graph, ()).may_be_too_long():
            trial = Definition(self.source, self.rate, self.known)
            trial.build_units()
            trial.finish()
            if trial.too_long:
                self.begin(sparing=True)
                self.build_units()

    def build_units(self):
        if len(self.controls) > MOST_CONTROLS:
            self.refuse(f"it has {len(self.controls)} controls, and there may be {MOST_CONTROLS}")
        made, self.graph.units = [], with_done_actions(self.source.units, self.note_stand_in)
        for unit, self.graph.listeners in zip(self.graph.units, listeners(self.graph.units)):
            self.graph.origin = told(unit)
            self.graph.unit, self.graph.rate_name = unit, RATES.get(unit.rate)
            try:
                inputs = slid(self.graph, unit, [given(made, each) for each in unit.inputs])
                made.append(pass_on(unit, inputs, self.outputs(unit, inputs)))
            except Refused as refused:
                self.refuse(f"{self.graph.origin}: {refused}")
                made.append([Unknown() for _ in range(unit.outputs)])

    def note_stand_in(self, unit, text):
        self.graph.origin = told(unit)
        self.graph.note(text, stand_in=True)

    def outputs(self, unit, inputs):
        """What the outputs of a unit become."""
        if unit.name in CONTROLS:
            controls = self.controls[unit.special:unit.special + unit.outputs]
            if unit.name == "TrigControl":
                return [fired(self.graph, control) for control in controls]
            lagged = [lag(self.graph, control, time)[0] for control, time in zip(controls, inputs)]
            return lagged or controls
        if unit.name in OPERATORS:
            return asked(unit, inputs, self.graph, lambda graph, operands:
                         operate(OPERATORS[unit.name], graph, unit.special, operands))
        row = OF_SCOPES.get(unit.name) or row_of(unit.name)
        if row is None:
            raise Refused("there is no such unit here")
        return asked(unit, inputs, self.graph, lambda graph, operands: row.outputs(graph, unit, operands))

    def finish(self):
        """Settles the measures that are open, and writes the text."""
        try:
            controls = [*self.controls, *self.own_controls()]
            writer = Writer(self.graph, {control.name for control in controls})
            writer.check_heard()
            self.graph.solve()
            heads = [self.head(each) for each in controls]
            lines = writer.lines()
        except Refused as refused:
            self.too_long = isinstance(refused, TooLong)
            self.refuse(str(refused))
            return
        self.text = "".join(line + "\n" for line in ["snova 1", f"def {self.name}", *heads, *lines, "end"])

    def own_controls(self):
        """The controls that it has here alone, for buses and buffers of its synths, with names that aren't taken."""
        taken = {control.name for control in self.controls}
        for control in [*(control for control, _ in self.graph.local.values()), *self.graph.scopes]:
            control.name = plain_name(control.name, taken)
            taken.add(control.name)
            yield control

    def private(self, buses):
        """Pairs of a control and a bus that a new synth gets for itself."""
        return [each for control, slots in self.graph.local.values() for each in (control.name, buses.take(len(slots)))]

    def head(self, control):
        """The line of a control."""
        control.slot.settle()
        try:
            return f"control {control.name} {raw(control.default, control.slot.measure)}"
        except Refused as refused:
            raise Refused(f"control {control.name}: {refused}") from None

    def name_there(self, given):
        """The name there of a control that is named as it is here; a number stays."""
        names = [name for name, number in self.source.names if self.controls[number].name == given]
        return names[0] if names else given

    def control(self, given):
        """The control of a name or a number, or None."""
        number = given if isinstance(given, int) else self.numbers.get(given)
        return self.controls[number] if number is not None and 0 <= number < len(self.controls) else None
