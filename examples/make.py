#!/usr/bin/env python3
"""Writes command files of pieces, NAME.txt in this directory, to out/NAME.osc.

    python3 examples/make.py            all pieces
    python3 examples/make.py NAME..     some of them

A piece is read line by line. `at TIME` begins a bundle that acts at that time, in seconds (`1.5`) or with its measure
(`1500ms`); times never go down. A line that starts with `/` is a message. Its words are ints (`440000`), numbers with
a point, which are samples in Q8.24 (`0.5` is 8388608), numbers with a measure and pitches (`440Hz`, `a4`:
measures.py), names, which are strings, with quotes or without, other strings without spaces, as paths, in quotes, and
blobs, as `#0aff`. The lines from `snova 1` or `snova 2` to `end` are a definition, sent by `/d_recv` in the bundle
before it; its literals may be such numbers too, and stand in its text as the raw ones. Empty lines and lines that
start with `#` say nothing. The sound ends at the last `at`. A line that can't be read, or at which a definition is at
fault, is reported with its number, and no file is written.
A synth that starts at the last `at` is warned of.
"""
import math
import re
import struct
import sys
from fractions import Fraction
from pathlib import Path

from measures import ONE, BadMeasure, measured, pitch

HERE = Path(__file__).resolve().parent
sys.path.append(str(HERE.parent / "outside"))

import definitions  # noqa: E402
import faults  # noqa: E402

SUMS = HERE / "sums.txt"
TITLES = ("snova 1", "snova 2")


class BadLine(Exception):
    """A line of a piece can't be read. Its number and text, if it isn't the line at hand."""

    def __init__(self, why, line=None):
        super().__init__(why)
        self.line = line

    def shown(self, number, text):
        number, text = self.line or (number, text)
        return f"line {number}: {self}: {text}"


def padded(data):
    return data + bytes(-len(data) % 4)


def string(text):
    return padded(text.encode() + b"\0")


def sized(data):
    return struct.pack(">i", len(data)) + data


def message(address, arguments):
    """An OSC message. Arguments are ints, strings and bytes (blobs)."""
    tags, data = ",", b""
    for argument in arguments:
        if isinstance(argument, int):
            tags, data = tags + "i", data + struct.pack(">i", argument)
        elif isinstance(argument, str):
            tags, data = tags + "s", data + string(argument)
        else:
            tags, data = tags + "b", data + padded(sized(argument))
    return string(address) + string(tags) + data


def bundle(tag, messages):
    return b"#bundle\0" + struct.pack(">Q", tag) + b"".join(map(sized, messages))


def tag_at(seconds):
    """The first time tag that is not before a time."""
    return math.ceil(seconds * 2**32)


def word(text, names):
    """An int, a string or a blob; a name with a point is that of an element of an array."""
    if re.fullmatch(r"-?[0-9]+", text):
        value = int(text)
    elif re.fullmatch(r"-?[0-9]+\.[0-9]+", text):
        value = math.floor(Fraction(text) * ONE)
    elif (value := raw(text)) is not None:
        if text in names:
            raise BadLine(f'{text} is a pitch, and a name of a definition above: write "{text}" for the name')
    elif found := (re.fullmatch(r'("?)([A-Za-z_][A-Za-z0-9_]*(?:\.[1-9][0-9]?)?)\1', text)
                   or re.fullmatch(r'(")([!#-\[\]-~]+)"', text)):
        return found[2]
    elif re.fullmatch(r"#([0-9a-f]{2})*", text):
        return bytes.fromhex(text[1:])
    else:
        raise BadLine(f"{text} is neither a number nor a name")
    if not -(2**31) <= value < 2**31:
        raise BadLine(f"{text} has more than 32 bits")
    return value


def raw(text):
    """The raw number of a pitch or of a number with a measure, or None."""
    try:
        return measured(text) if pitch(text) is None else pitch(text)
    except BadMeasure as bad:
        raise BadLine(str(bad)) from None


def seconds_of(text):
    found = re.fullmatch(r"([0-9]+(?:\.[0-9]+)?)(s|ms|)", text)
    if not found:
        raise BadLine(f"{text} is no time in seconds")
    return Fraction(found[1]) / (1000 if found[2] == "ms" else 1)


def raw_line(line, names):
    """A line of a definition with raw numbers. A known name is no pitch, and those that the line gives are added."""
    fields = line.split(" ")
    if fields[0] in ("def", "control", "array"):
        given, first = fields[1:2], 2
    else:
        first = fields.index("=") + 2 if "=" in fields else 1
        given = fields[:first - 2] if first > 1 else []
    values = ((field, None if field in names else raw(field)) for field in fields[first:])
    line = " ".join(fields[:first] + [field if value is None else str(value) for field, value in values])
    names.update(given)
    return line


class Reader:
    """Reads lines of a piece, and keeps the names of its definitions and their controls."""

    def __init__(self):
        self.names = set()

    def message(self, line):
        """The message that a line says."""
        address, *rest = line.split()
        return message(address, [word(text, self.names) for text in rest])

    def definition(self, lines):
        """The `/d_recv` of a definition, whose lines come with their numbers."""
        text, names = [], set()
        for place in lines:
            try:
                text.append(raw_line(place[1], names))
            except BadLine as bad:
                raise BadLine(str(bad), place) from None
        data = "".join(line + "\n" for line in text).encode()
        try:
            found = definitions.read(data)
        except definitions.BadLine as bad:
            place = lines[bad.line - 1]
            why = faults.why(bad.kind, faults.written(bad.word, text[bad.line - 1], place[1]), place[1])
            raise BadLine(f"{bad.kind}: {why} (docs/UNITS.md)", place) from None
        self.names.update([found.name, *(name for name, _ in found.controls)])
        return message("/d_recv", [data])

    def message_at(self, place, rest):
        """The message of a line, or of the definition that starts with it, whose lines are taken from the rest."""
        if place[1] not in TITLES:
            return self.message(place[1])
        lines = [place]
        for line in rest:
            lines.append(line)
            if line[1] == "end":
                return self.definition(lines)
        raise BadLine("the definition has no line `end`")


def bundles(piece):
    """The bundles of a piece: their times in seconds, and their messages."""
    found, reader = [(Fraction(0), [])], Reader()
    lines = iter(enumerate(piece.splitlines(), 1))
    for place in lines:
        line = place[1]
        try:
            if line.startswith("at "):
                found.append((seconds_of(line[3:]), []))
                if found[-1][0] < found[-2][0]:
                    raise BadLine("it is before the time above it")
            elif line in TITLES or line.startswith("/"):
                found[-1][1].append(reader.message_at(place, lines))
            elif line and not line.startswith("#"):
                raise BadLine("it is no line of a piece")
        except BadLine as bad:
            raise BadLine(bad.shown(*place)) from None
    return found


def shown(path):
    """A path as it is from the current folder, if it lies in it."""
    return path.relative_to(Path.cwd()) if path.is_relative_to(Path.cwd()) else path


def read(name):
    """The bundles of the piece of a name, or the end of the program with what is wrong."""
    path = HERE / (name + ".txt")
    try:
        found = bundles(path.read_text())
        if any(each.startswith(b"/s_new\0") for each in found[-1][1]):
            print(f"{shown(path)}: the sound ends at the last `at`, so synths that start there don't sound",
                  file=sys.stderr)
        return found
    except FileNotFoundError:
        raise SystemExit(f"there is no piece {name}; there are " + " ".join(all_names())) from None
    except (OSError, BadLine) as wrong:
        raise SystemExit(f"{shown(path)}: {wrong}") from None


def stream(name):
    """The command file of a piece: its bundles, each as a packet after its size."""
    return b"".join(sized(bundle(tag_at(seconds), messages)) for seconds, messages in read(name))


def write(name):
    """Writes the command file of a piece."""
    target = HERE / "out" / (name + ".osc")
    target.parent.mkdir(exist_ok=True)
    target.write_bytes(stream(name))
    return target


def all_names():
    return sorted(path.stem for path in HERE.glob("*.txt") if path != SUMS)


def main():
    for name in sys.argv[1:] or all_names():
        print(write(name))


if __name__ == "__main__":
    main()
