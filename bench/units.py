"""Measures what each unit takes for a frame, by snova and by scsynth.

    python3 units.py SNOVA WORKDIR [ROUNDS [UNIT ..]]

SNOVA is the built program. WORKDIR is made, and may be thrown away afterwards. For each UNIT (all of them) a synth with
60 of it is rendered, and the same synth without them: by snova with one worker, and by scsynth, if it is installed, with
60 of SuperCollider's namesake, all on one processor, for 10 seconds of sound, or 40 where a unit takes little. What is
printed is the difference of their user seconds, the least of ROUNDS (2) each, for a unit and a frame: with inputs that
are constants, and, where a unit has inputs whose movement may cost something, with these on a wire that moves at each
frame.
"""
import os
import shutil
import sys
from typing import NamedTuple

from gen import SHORT, Workload, same
from osc import AUDIO, CONTROL, Def, at, msg
from run import OPTIONS, SOUND, Server, replies

COUNT = 60
LONG = 4 * SHORT  # blocks: 40 seconds, for units that take little
MEASURES = {"Hz": (1000, 1.0), "ms": (1, 0.001), "s": (1000, 1.0)}  # what one of them is in snova, and in scsynth


class Namesake(NamedTuple):
    """A unit generator of scsynth. Without inputs or outputs it has those of the unit."""
    name: str
    inputs: str | None = None
    outputs: int | None = None
    rate: int = AUDIO
    special: int = 0


class Unit(NamedTuple):
    """A unit's inputs at rest, each with the source that moves it after a slash, how many outputs it has, and its namesake.

    A number after `=` is one that scsynth takes as a signal alone: there a DC gives it.
    """
    inputs: str = ""
    outputs: int = 1
    namesake: Namesake | None = None


def unary(special):
    return Namesake("UnaryOpUGen", special=special)


def binary(special):
    return Namesake("BinaryOpUGen", special=special)


def control(name):
    """A namesake that works once a block."""
    return Namesake(name, rate=CONTROL)


# What moves, by the names that the inputs have for it. One without outputs stands for the bus that it writes.
SOURCES = {
    "wave": "LFTri 100Hz 0",
    "freq": "MulAdd wave 400Hz 440Hz",
    "heard": "Out.ar 16 wave",
    "low": "MulAdd wave 0.25 -0.5",
    "place": "MulAdd wave 1000 1000",
    "rate": "MulAdd wave 0.5 1.0",
    "seconds": "MulAdd wave 0.04 0.05",
    "slow": "MulAdd wave 0.01 0.0",
    "spot": "MulAdd wave 50.0 60.0",
    "step": "MulAdd wave 3 0",
    "time": "MulAdd wave 40ms 50ms",
    "up": "MulAdd wave 0.25 0.5",
}
UNITS = {
    "SinOsc": Unit("440Hz/freq 0"),
    "Sine": Unit("440Hz/freq 0", 1, Namesake("SinOsc")),
    "LFSaw": Unit("440Hz/freq 0"),
    "Saw": Unit("440Hz/freq 0", 1, Namesake("Saw", "440Hz/freq")),
    "Blip": Unit("440Hz/freq 20 0", 1, Namesake("Blip", "440Hz/freq 20")),
    "LFPulse": Unit("440Hz/freq 0 0.5"),
    "LFTri": Unit("440Hz/freq 0"),
    "Impulse": Unit("440Hz/freq", 1, Namesake("Impulse", "440Hz/freq 0")),
    "WhiteNoise": Unit(),
    "PinkNoise": Unit(),
    "Phasor": Unit("0 0.01/slow -1.0 1.0 0"),
    "Line": Unit("0.0 1.0 60s 0"),
    "Linen": Unit("1/up 10ms 1.0 10ms 0", 1, control("Linen")),
    "Add": Unit("=0.5/wave 0.25/up", 1, binary(0)),
    "Sub": Unit("=0.5/wave 0.25/up", 1, binary(1)),
    "Mul": Unit("=0.5/wave 0.25/up", 1, binary(2)),
    "MulAdd": Unit("=0.5/wave 0.25/up 0.25"),
    "Neg": Unit("=0.5/wave", 1, unary(0)),
    "Abs": Unit("=0.5/wave", 1, unary(5)),
    "Min": Unit("=0.5/wave 0.25/up", 1, binary(12)),
    "Max": Unit("=0.5/wave 0.25/up", 1, binary(13)),
    "Clip": Unit("=0.5/wave -0.25 0.25"),
    "Gt": Unit("=0.5/wave 0.25/up", 1, binary(9)),
    "Lt": Unit("=0.5/wave 0.25/up", 1, binary(8)),
    "Pan2": Unit("=0.5/wave 0.25/wave 1.0", 2),
    "Div": Unit("=0.5/wave 0.25/up", 1, binary(4)),
    "Mod": Unit("=0.5/wave 0.25/up", 1, binary(5)),
    "Exp2": Unit("=0.5/wave", 1, unary(17)),
    "Log2": Unit("=0.5/up", 1, unary(26)),
    "OnePole": Unit("=0.5/wave 0.9/up"),
    "Lag": Unit("=0.5/wave 50ms/time"),
    "LagUD": Unit("=0.5/wave 0.99/up 0.999", 1, Namesake("LagUD", "=0.5/wave 0.1/up 1.0")),
    "Integrator": Unit("=0.5/wave 0.9/up"),
    "Delay1": Unit("=0.5/wave"),
    "DelayN": Unit("=0.5/wave 100ms 50ms/time"),
    "DelayL": Unit("=0.5/wave 100ms 0.0501/seconds"),
    "CombN": Unit("=0.5/wave 100ms 50ms/time 0.5"),
    "CombL": Unit("=0.5/wave 100ms 0.0501/seconds 0.5 0.25", 2, Namesake("CombL", "=0.5/wave 100ms 0.0501/seconds 1.0", 1)),
    "SOS": Unit("=0.5/wave 0.00255054 0.00510107 0.00255054 1.85214649 -0.86234863"),
    "SVF": Unit("=0.5/wave 440Hz/freq 0.5", 3, Namesake("LPF", "=0.5/wave 440Hz/freq", 1)),
    "Latch": Unit("=0.5/wave =0/wave"),
    "Gate": Unit("=0.5/wave =0/wave"),
    "PulseCount": Unit("=0/wave 0"),
    "Stepper": Unit("=0/wave 0 0 8 1 0"),
    "Trig": Unit("=0/wave 0.01"),
    "In.ar": Unit("16/heard", 1, Namesake("In")),
    "InFeedback": Unit("16/heard"),
    "In.kr": Unit("16", 1, control("In")),
    "Out.ar": Unit("16 =0.5/wave", 0, Namesake("Out")),
    "ReplaceOut": Unit("16 =0.5/wave", 0),
    "Out.kr": Unit("16 0.5/wave", 0, control("Out")),
    "PlayBuf": Unit("0 1/step 0 0 1 0"),
    "PlayBufL": Unit("0 0.9/rate 0 0 1 0", 1, Namesake("PlayBuf")),
    "RecordBuf": Unit("1 1 1 0 =0.5/wave", 0, Namesake("RecordBuf", "1 0 1.0 0.0 1 1 1 0 =0.5/wave")),
    "BufRd": Unit("0 =100/place", 1, Namesake("BufRd", "0 =100/place 1 1")),
    "BufRdL": Unit("0 =100.3/spot 1 1", 1, Namesake("BufRd", "0 =100.3/spot 1 2")),
    "BufWr": Unit("1 =100/place =0.5/wave", 0, Namesake("BufWr", "1 =100/place 1 =0.5/wave")),
    "BufFrames": Unit("0", 1, control("BufFrames")),
    "SendTrig": Unit("=0/wave 7 3", 0),
    "DetectSilence": Unit("=0.5/wave 0.01 100ms 0"),
    "FreeSelf": Unit("=0/low", 0, control("FreeSelf")),
    "PauseSelf": Unit("=0/low", 0, control("PauseSelf")),
}


LIGHT = (
    "Add", "Sub", "Mul", "MulAdd", "Neg", "Abs", "Min", "Max", "Clip", "Gt", "Lt", "Delay1", "In.ar", "InFeedback", "In.kr",
    "Out.ar", "ReplaceOut", "Out.kr", "BufFrames", "FreeSelf", "PauseSelf",
)


def namesake(name):
    """The namesake with all that it has of the unit."""
    unit = UNITS[name]
    it = unit.namesake or Namesake(name)
    return it._replace(inputs=it.inputs or unit.inputs, outputs=unit.outputs if it.outputs is None else it.outputs)


def words(inputs, moving):
    return [word.split("/")[-1 if moving else 0] for word in inputs.split()]


def measured(word, server):
    """A number with a measure, in the measure of snova (0) or scsynth (1)."""
    for measure, factors in MEASURES.items():
        if word.endswith(measure):
            return float(word.removesuffix(measure)) * factors[server]
    return None


class Spelling:
    """A definition as one server has it, with the sources that its words name."""

    def __init__(self):
        self.values = {}

    def value(self, word):
        if word not in self.values:
            self.values[word] = self.source(word) if word in SOURCES else self.constant(word)
        return self.values[word]

    def source(self, word):
        name, *rest = SOURCES[word].split()
        output = self.add(name, rest)
        return output if UNITS[name].outputs else self.value(rest[0])


class Text(Spelling):
    """A definition of snova."""

    def __init__(self):
        super().__init__()
        self.lines = []

    def constant(self, word):
        raw = measured(word, 0)
        return word.removeprefix("=") if raw is None else str(round(raw))

    def add(self, name, inputs):
        values = [self.value(word) for word in inputs]
        wires = [f"w{len(self.lines)}_{i}" for i in range(UNITS[name].outputs)]
        self.lines.append(" ".join([*wires, *["="][:len(wires)], name, *values]))
        return wires[0] if wires else None

    def made(self):
        return "\n".join(["snova 1", "def units", *self.lines, "end", ""]).encode()


class Graph(Spelling):
    """A definition of scsynth."""

    def __init__(self):
        super().__init__()
        self.definition = Def("units")

    def constant(self, word):
        if word.startswith("="):
            return self.definition.sig("DC", AUDIO, [float(word[1:])])
        number = measured(word, 1)
        return float(word) if number is None else number

    def add(self, name, inputs):
        kind, _, outputs, rate, special = namesake(name)
        return self.definition.sig(kind, rate, [self.value(word) for word in inputs], outputs, special)

    def made(self):
        return self.definition.scgf()


class Case:
    """A unit at rest or moving: the names of the workload with it and of the one without it."""

    def __init__(self, name, moving):
        self.inputs = (words(UNITS[name].inputs, moving), words(namesake(name).inputs, moving))
        self.unit, self.name = name, f"{name}_moving" if moving else name
        self.blocks = LONG if name in LIGHT else SHORT
        self.sources = sorted({word for word in self.inputs[0] + self.inputs[1] if word in SOURCES or word.startswith("=")})
        self.base = "_".join(["without", str(self.blocks), *self.sources])

    def messages(self, count):
        """What sets a synth with so many of the unit going, as each server has it."""
        spellings = (Graph(), Text())
        for spelling, inputs in zip(spellings, reversed(self.inputs)):
            for word in self.sources:
                spelling.value(word)
            for _ in range(count):
                spelling.add(self.unit, inputs)
        return [tuple(msg("/d_recv", spelling.made()) for spelling in spellings), same("/s_new", "units", 1000, 0, 0)]

    def write(self, folder, name, count):
        work = Workload(name)
        work.add(0, [same("/b_alloc", 0, 24000, 1), same("/b_alloc", 1, 24000, 1)])
        work.add(0, self.messages(count))
        work.add(at(self.blocks), [])
        work.write(folder)


def cases(names):
    """For each unit how it rests, and how it moves or None."""
    return {name: (Case(name, False), Case(name, True) if "/" in UNITS[name].inputs else None) for name in names}


def lay_out(folder, rows):
    """Writes the workloads, and returns their names."""
    os.makedirs(folder, exist_ok=True)
    found = {}
    for case in [case for row in rows.values() for case in row if case]:
        found[case.base] = case.write, 0
        found[case.name] = case.write, COUNT
    for name, (write, count) in found.items():
        write(folder, name, count)
    return list(found)


def installed(program):
    """The servers. scsynth gets a wire buffer for each output, which snova's units have too."""
    found = [Server("snova", "sn", [program, "render", "workers=1"], ["sound", "replies"])]
    if shutil.which("scsynth"):
        found.append(Server("scsynth", "sc", ["scsynth", *OPTIONS, "-w", "512", "-N"], SOUND))
    return found


def render(folder, names, found):
    for name in names:
        for server in found:
            server.render(folder, name)
            if server.kind == "sn":
                replies(f"{folder}/replies")
            else:
                accepted(f"{folder}/printed", name)


def accepted(path, name):
    """Ends the program if scsynth has printed that it refused a command, which its status doesn't tell."""
    with open(path, errors="replace") as file:
        said = file.read()
    if any(word in said for word in ("FAILURE", "ERROR", "exception")):
        sys.exit(f"scsynth {name}: {said}")


def nanoseconds(server, case):
    """What a unit takes for a frame."""
    with_units, without = [min(it[3] for it in server.took[name]) for name in (case.name, case.base)]
    return (with_units - without) * 1e9 / (COUNT * 64 * case.blocks)


def cells(case, found):
    if case is None:
        return ["-"] * 3
    took = [nanoseconds(server, case) for server in found]
    told = [f"{it:.2f}" for it in took]
    quotient = f"{took[0] / took[1]:.1f}" if len(took) > 1 and took[1] >= 0.05 else "-"
    return (told + ["-"])[:2] + [quotient]


def label(name):
    it = namesake(name)
    return it.name + (".kr" if it.rate == CONTROL else ".ar") + (f" {it.special}" if it.name.endswith("OpUGen") else "")


def main():
    program, folder = os.path.abspath(sys.argv[1]), os.path.abspath(sys.argv[2])
    rounds = int(sys.argv[3]) if len(sys.argv) > 3 else 2
    rows = cases(sys.argv[4:] or UNITS)
    found = installed(program)
    os.sched_setaffinity(0, {max(os.sched_getaffinity(0))})
    names = lay_out(folder, rows)
    for number in range(rounds):
        print(f"round {number + 1} of {rounds}, load {os.getloadavg()[0]:.1f}", file=sys.stderr)
        render(folder, names, found)
    print("| Unit | namesake | snova | scsynth | quotient | snova, moving | scsynth, moving | quotient |")
    print("|---" * 8 + "|")
    for name, row in rows.items():
        print("| " + " | ".join([name, label(name), *[cell for case in row for cell in cells(case, found)]]) + " |")


if __name__ == "__main__":
    main()
