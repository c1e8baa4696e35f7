"""Definitions as sclang writes them: the SynthDef file format, versions 1 and 2."""
import struct
from typing import NamedTuple, Union

from .osc import shortest

SCALAR, CONTROL, AUDIO = 0, 1, 2
RATES = {SCALAR: "ir", CONTROL: "kr", AUDIO: "ar", 3: "dr"}


class Source(NamedTuple):
    """An output of an earlier unit."""

    unit: int
    output: int


class Unit(NamedTuple):
    """A unit: an input is a constant or the output of a unit; `outputs` is how many there are."""

    name: str
    rate: int
    inputs: list[Union[float, Source]]
    outputs: int
    special: int


class SynthDef(NamedTuple):
    """A definition: the defaults of its controls, their names with the number of the first of each, and its units."""

    name: str
    controls: list[float]
    names: list[tuple[str, int]]
    units: list[Unit]


class BadFile(Exception):
    """Bytes are no SynthDef file."""


class Reader:
    def __init__(self, data):
        self.data, self.at, self.count_form = data, 0, ">i"

    def number(self, form):
        try:
            found = struct.unpack_from(form, self.data, self.at)[0]
        except struct.error:
            raise BadFile(f"it is cut at byte {len(self.data)}") from None
        self.at += struct.calcsize(form)
        return found

    def count(self):
        """A number that has 16 bits in version 1 and 32 in version 2."""
        return self.number(self.count_form)

    def text(self):
        size = self.number(">B")
        self.at += size
        return self.data[self.at - size:self.at].decode("latin-1")

    def floats(self, count):
        return [shortest(self.number(">f")) for _ in range(count)]

    def input(self, constants):
        unit, output = self.count(), self.count()
        return constants[output] if unit < 0 else Source(unit, output)

    def unit(self, constants):
        name, rate = self.text(), self.number(">b")
        inputs, outputs, special = self.count(), self.count(), self.number(">h")
        given = [self.input(constants) for _ in range(inputs)]
        self.at += outputs
        return Unit(name, rate, given, outputs, special)

    def definition(self):
        name = self.text()
        constants = self.floats(self.count())
        controls = self.floats(self.count())
        names = [(self.text(), self.count()) for _ in range(self.count())]
        units = [self.unit(constants) for _ in range(self.count())]
        for _ in range(self.number(">h")):
            self.text()
            self.floats(len(controls))
        return SynthDef(name, controls, names, units)


def read(data):
    """The definitions of a file; their variants are left out."""
    reader = Reader(data)
    if data[:4] != b"SCgf":
        raise BadFile("it doesn't begin with SCgf")
    reader.at = 4
    version = reader.number(">i")
    if version not in (1, 2):
        raise BadFile(f"its version is {version}")
    reader.count_form = ">h" if version == 1 else ">i"
    try:
        return [reader.definition() for _ in range(reader.number(">h"))]
    except IndexError:
        raise BadFile("it names a constant that isn't there") from None
