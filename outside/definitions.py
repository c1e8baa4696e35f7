"""Definition texts: their grammar, and the line of the first fault."""
import re
from fractions import Fraction

ONE = 1 << 24
LEAST, MOST = -(1 << 31), (1 << 31) - 1
KEPT = {"snova", "def", "control", "end"}
MOST_CONTROLS = {1: 128, 2: 512}
MOST_ELEMENTS = 64

# The inputs of each unit: s a signal, # an index, ! a constant, and + 1 to 8 signals; then its outputs: a number, or + for 1 to 8.
UNITS = {
    "SinOsc": ("ss", 1), "Sine": ("ss", 1), "LFSaw": ("ss", 1), "Saw": ("ss", 1), "Blip": ("sss", 1),
    "LFPulse": ("sss", 1), "LFTri": ("ss", 1), "Impulse": ("s", 1),
    "WhiteNoise": ("", 1), "PinkNoise": ("", 1), "Phasor": ("sssss", 1), "Line": ("sss!", 1), "Linen": ("ssss!", 1),
    "Add": ("ss", 1), "Sub": ("ss", 1), "Mul": ("ss", 1), "MulAdd": ("sss", 1), "Neg": ("s", 1), "Abs": ("s", 1),
    "Min": ("ss", 1), "Max": ("ss", 1), "Clip": ("sss", 1), "Gt": ("ss", 1), "Lt": ("ss", 1), "Pan2": ("sss", 2),
    "Div": ("ss", 1), "Mod": ("ss", 1), "Exp2": ("s", 1), "Log2": ("s", 1),
    "OnePole": ("ss", 1), "Lag": ("ss", 1), "LagUD": ("sss", 1), "Integrator": ("ss", 1), "Delay1": ("s", 1),
    "DelayN": ("s!s", 1), "DelayL": ("s!s", 1), "CombN": ("s!ss", 1), "CombL": ("s!sss", 2), "SOS": ("ssssss", 1),
    "SVF": ("sss", 3), "Latch": ("ss", 1), "Gate": ("ss", 1), "PulseCount": ("ss", 1), "Stepper": ("ssssss", 1),
    "Trig": ("ss", 1), "In.ar": ("#", "+"), "InFeedback": ("#", "+"), "In.kr": ("#", "+"), "Out.ar": ("#+", 0),
    "ReplaceOut": ("#+", 0), "Out.kr": ("#+", 0), "PlayBuf": ("#ssss!", "+"), "PlayBufL": ("#ssss!", "+"),
    "RecordBuf": ("#ss!+", 0), "BufRd": ("#s", "+"), "BufRdL": ("#sss", "+"), "BufWr": ("#s+", 0),
    "BufFrames": ("#", 1), "SendTrig": ("sss", 0),
    "DetectSilence": ("sss!", 1), "FreeSelf": ("s", 0), "PauseSelf": ("s", 0),
}

WORDS = {
    "SinOsc": 1, "Sine": 1, "LFSaw": 1, "Saw": 1, "Blip": 1, "LFPulse": 1, "LFTri": 1, "Impulse": 2, "WhiteNoise": 1,
    "PinkNoise": 19, "Phasor": 3, "Line": 5, "Linen": 7, "OnePole": 1, "Lag": 2, "LagUD": 2, "Integrator": 1,
    "Delay1": 1, "SOS": 4, "SVF": 2, "Latch": 2, "Gate": 1, "PulseCount": 3, "Stepper": 4, "Trig": 3,
    "PlayBuf": 4, "PlayBufL": 4, "RecordBuf": 2, "SendTrig": 4, "DetectSilence": 2, "FreeSelf": 1, "PauseSelf": 1,
}

# Of units whose second input is their longest time: its least frames, and how many words more they have.
DELAYS = {"DelayN": (0, 2), "DelayL": (0, 2), "CombN": (1, 2), "CombL": (1, 3)}


class BadLine(Exception):
    """The first line at which no definition goes on, its kind of fault, and the word that is at fault, if it is one."""

    def __init__(self, line, kind, word=""):
        super().__init__(line, kind, word)
        self.line, self.kind, self.word = line, kind, word


class Wrong(Exception):
    """The line that is read continues no definition: the kind of its fault, and the word."""


def want(holds, kind="Line", word=""):
    if not holds:
        raise Wrong(kind, word)


def literal(word):
    """The value of a literal, or None."""
    if re.fullmatch(r"0|-?[1-9][0-9]*", word, re.A):
        value = int(word)
    elif re.fullmatch(r"-?(0|[1-9][0-9]{0,2})\.[0-9]{1,8}", word, re.A):
        value = Fraction(word) * ONE // 1
    else:
        return None
    return value if LEAST <= value <= MOST else None


def frames_of(ms, rate):
    return min(MOST, max(ms, 0) * rate // 1000)


class Unit:
    """A unit line. An input is a pair: v a value, c a control's number, or w a wire's number."""

    def __init__(self, name, inputs, outputs):
        self.name, self.inputs, self.outputs = name, inputs, outputs

    def words(self, rate):
        if self.name in DELAYS:
            least, more = DELAYS[self.name]
            return max(least, frames_of(self.inputs[1][1], rate)) + more
        return WORDS.get(self.name, 0)


class Definition:
    def __init__(self):
        self.version, self.name, self.controls, self.arrays, self.units = None, None, [], [], []
        self.names, self.wires, self.index_controls = {}, 0, set()

    def __deepcopy__(self, _):
        return self

    def words(self, rate):
        return sum(unit.words(rate) for unit in self.units)

    def begins_lines(self, word):
        return word in KEPT or word == "array" and self.version == 2

    def new_name(self, word):
        want(re.fullmatch(r"[A-Za-z_][A-Za-z0-9_]{0,30}", word, re.A) and not self.begins_lines(word), "Name", word)
        want(word not in self.names, "Twice", word)
        return word

    def room(self, count):
        """Refuses so many more controls if there is no room for them."""
        want(len(self.controls) + count <= MOST_CONTROLS[self.version], "Limit")

    def control(self, name, word):
        value = literal(word)
        want(value is not None, "Number", word)
        self.names[name] = ("c", len(self.controls))
        self.controls.append((name, value))

    def control_line(self, fields):
        want(len(fields) == 3 and not self.units)
        self.room(1)
        self.control(self.new_name(fields[1]), fields[2])

    def array_line(self, fields):
        """The elements are NAME, NAME.1, NAME.2 and so on, each a control of its own."""
        name, values = fields[1], fields[2:]
        want(not self.units)
        want(len(values) <= MOST_ELEMENTS, "Limit")
        self.room(len(values))
        self.arrays.append((len(self.controls), len(values)))
        self.control(self.new_name(name), values[0])
        for k, value in enumerate(values[1:], 1):
            self.control(f"{name}.{k}", value)

    def input(self, kind, word):
        value = literal(word)
        given = self.names.get(word) if value is None else ("v", value)
        want(given is not None, "Input", word)
        want(kind != "#" or given[0] in "vc", "Index", word)
        want(kind != "!" or given[0] == "v", "Constant", word)
        if kind == "#" and given[0] == "c":
            self.index_controls.add(given[1])
        return given

    def unit_line(self, outputs, fields):
        want(fields)
        want(len(self.units) < 256 and self.wires + len(outputs) <= 512, "Limit")
        want(fields[0] in UNITS, "Unit", fields[0])
        inputs, count = UNITS[fields[0]]
        want(len(outputs) in (range(1, 9) if count == "+" else [count]), "Count", fields[0])
        if inputs.endswith("+"):
            more = len(fields) - len(inputs)
            want(1 <= more <= 8, "Count", fields[0])
            inputs = inputs[:-1] + "s" * more
        want(len(fields) - 1 == len(inputs), "Count", fields[0])
        before = dict(self.names)
        for name in outputs:
            self.names[self.new_name(name)] = ("w", self.wires)
            self.wires += 1
        after, self.names = self.names, before
        given = [self.input(kind, word) for kind, word in zip(inputs, fields[1:])]
        self.names = after
        if fields[0] in DELAYS:
            want(0 <= given[1][1] <= 60000, "Constant", fields[2])
        self.units.append(Unit(fields[0], given, len(outputs)))

    def line(self, number, text):
        """Reads a line; it answers whether the definition ends with it."""
        fields = text.split(" ")
        want("" not in fields)
        if number == 1:
            want(fields in (["snova", "1"], ["snova", "2"]))
            self.version = int(fields[1])
        elif number == 2:
            want(len(fields) == 2 and fields[0] == "def")
            self.name = self.new_name(fields[1])
        elif fields[0] == "control":
            self.control_line(fields)
        elif fields[0] == "array" and self.version == 2:
            want(len(fields) >= 3)
            self.array_line(fields)
        elif fields == ["end"]:
            return True
        elif "=" in fields:
            place = fields.index("=")
            want(place >= 1)
            self.unit_line(fields[:place], fields[place + 1:])
        else:
            self.unit_line([], fields)
        return False


def read(text):
    """The definition of a text; BadLine tells the first line at which no definition continues."""
    *lines, rest = text.decode("latin-1").split("\n")
    definition, ended = Definition(), False
    for number, line in enumerate(lines, 1):
        try:
            want(not ended)
            ended = definition.line(number, line)
        except Wrong as wrong:
            raise BadLine(number, *wrong.args) from None
    if rest or not ended:
        raise BadLine(len(lines) + 1, "Line")
    return definition
