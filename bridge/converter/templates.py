"""How a row of a table says what one unit of SuperCollider becomes here.

A template has lines `[NAME =] UNIT INPUT:MEASURE .. [-> MEASURE ..]`. An input is a parameter of the row, the name of
an earlier line, or a number. A measure is one of `WORDS` or `FIXED`, `any` for what is only on or off, or a capital
letter: all places with the same letter have one measure. The outputs are those of the last line; if it has none, its
first input stands for them.
"""
import math
import re

from .graph import Control, Wire
from .measures import HERTZ, LAG, NUMBER, RADIANS, SAMPLE, SECONDS, TIME, Refused, Slot

WORDS = {"sample": SAMPLE, "hertz": HERTZ, "seconds": SECONDS, "time": TIME, "lag": LAG, "radians": RADIANS,
         "number": NUMBER}
# Inputs that a definition here fixes: a bus or a buffer, the longest time of a delay, a done action.
INDEX, LONGEST, ACTION = "index", "longest", "action"


def constant(given, what):
    if isinstance(given, Wire):
        raise Refused(f"{what} must be a constant")
    return given


def index(given):
    """The number of a bus or a buffer: a constant or a control."""
    if isinstance(given, Wire) and not isinstance(given, Control):
        raise Refused("the number of a bus or a buffer must be a constant or a control, and is worked out")
    if isinstance(given, float) and not given.is_integer():
        raise Refused(f"the number {given:g} of a bus or a buffer isn't whole")
    return given


def action(given):
    done = constant(given, "the done action")
    if done not in (0, 1, 2):
        raise Refused(f"the done action {done:g} isn't there: 0 to 15 are")
    return done


def longest(given):
    seconds = constant(given, "the longest time")
    if not 0 <= seconds <= 60:
        raise Refused(f"the longest time is {seconds:g} s, and may be 0 to 60")
    return math.ceil(seconds * 1000 - 1e-3) / 1000


FIXED = {INDEX: (index, NUMBER), ACTION: (action, NUMBER), LONGEST: (longest, SECONDS)}


class Step:
    """A line of a template."""

    def __init__(self, text):
        match = re.fullmatch(r"(?:(\w+) = )?([\w.]+)((?: [^ ]+:\w+)*)(?: ->((?: \w+)+))?", text)
        self.name, self.unit, inputs, outputs = match.groups()
        self.inputs = [tuple(each.split(":")) for each in inputs.split()]
        self.outputs = (outputs or "").split()

    def slot(self, measure, letters):
        if measure in WORDS:
            return Slot(WORDS[measure])
        return Slot() if measure == "any" else letters.setdefault(measure, Slot())

    def input(self, name, measure, given, letters):
        operand = given[name] if name in given else float(name)
        if measure in FIXED:
            fixed, own = FIXED[measure]
            return fixed(operand), Slot(own)
        return operand, self.slot(measure, letters)

    def build(self, graph, given, letters):
        inputs = [self.input(name, measure, given, letters) for name, measure in self.inputs]
        outputs = graph.line(self.unit, inputs, [self.slot(measure, letters) for measure in self.outputs])
        if self.name:
            given[self.name] = outputs[0]
        return outputs or [inputs[0][0]]


def template(*lines):
    """What builds the units of a template: a function of the graph and the inputs by name."""
    steps = [Step(line) for line in lines]

    def build(graph, **given):
        letters = {}
        return [step.build(graph, given, letters) for step in steps][-1]
    return build
