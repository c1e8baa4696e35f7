#!/usr/bin/env python3
"""Reads each piece of examples/, carries out its commands in the model, and exits with 1 if one is refused.

    python3 tools/check_examples.py

No sound is made, so what a unit ends by itself stays; that takes seconds. outside/ says how the model is used for the
rest. What is made of some numbers with measures, and what is said of some lines at fault, is compared with tables.
The lines that docs/UNITS.md gives to hear each unit must be those of a piece, and each unit has some.
"""
import re
import sys
from pathlib import Path

ROOT = Path(__file__).resolve().parent.parent
sys.path[:0] = [str(ROOT / "examples"), str(ROOT / "outside")]

import definitions  # noqa: E402
import make  # noqa: E402
import osc  # noqa: E402
import server  # noqa: E402
import shelf  # noqa: E402


# Pitches are those of tables of equal temperament at 440 Hz, in millihertz; -6 dB is 10 to the power of -0.3.
NUMBERS = {
    "440Hz": 440000, "-0.5Hz": -500, "261.6256Hz": 261626, "1.5s": 1500, "20ms": 20, "0.25turn": 2**30,
    "0.75turn": -(2**30), "1turn": 0, "3frames": 3, "-1frame": -1, "0dB": 2**24, "-6dB": 8408526, "a4": 440000,
    "c4": 261626, "db4": 277183, "c#4": 277183, "g9": 12543854, "0.5": 2**23, "-1": -1,
}
PIECE = """snova 1
def tone
control a4 440Hz
wave = SinOsc a4 0
Out.ar 0 wave wave
end
at 500ms
/s_new tone 1000 0 0 "a4" c4
"""
FAULTS = {
    "SinOsc a4 0": ("Tri a4", "line 4: Unit: there is no unit Tri"), "0 wave wave": ("wave wave", "line 5: Index: "),
    "440Hz": ("440hz", "line 3: 440hz has none of the measures"), '"a4"': ("a4", "line 8: a4 is a pitch, and a name"),
    "500ms": ("0.5Hz", "line 7: 0.5Hz is no time in seconds"),
    "end\n": ("", "line 1: the definition has no line `end`"),
}


class Silent(server.Run):
    """A run without the walk of its blocks."""

    def block(self):
        self.world.block += 1


def refused(name):
    """The commands of a piece that are refused."""
    packets = [osc.decode(make.bundle(make.tag_at(seconds), messages)) for seconds, messages in make.read(name)]
    sounds = shelf.Shelf({f"sounds/{path.name}": path.read_bytes() for path in (make.HERE / "sounds").iterdir()})
    run = Silent(server.settings_of([]), [sounds.packet(packet) for packet in packets])
    run.play()
    return [reply for reply in run.replies if reply[0] == "/fail"]


def misread():
    """Lines for what is made of numbers and of lines at fault, where it is other than in the tables."""
    for text, value in NUMBERS.items():
        if make.word(text, ()) != value:
            yield f"{text} is {make.word(text, ())}, and should be {value}"
    make.bundles(PIECE)
    for old, (new, wanted) in FAULTS.items():
        try:
            make.bundles(PIECE.replace(old, new, 1))
            said = "nothing"
        except make.BadLine as bad:
            said = str(bad)
        if not said.startswith(wanted):
            yield f"{new} in the place of {old}: {said}, and should be {wanted}"


def unheard():
    """Lines for what is wrong with the rows of docs/UNITS.md by which each unit is heard."""
    _, _, text = (ROOT / "docs/UNITS.md").read_text().partition("\n## Each unit heard\n")
    piece = "".join(line + "\n" for line in re.findall(r"^    (.*)$", text, re.M))
    rows = dict(re.findall(r"^\| (\S+) \| (`.*`) \| .* \|$", text, re.M))
    for name in definitions.UNITS.keys() ^ rows.keys():
        yield f"docs/UNITS.md: {name}: there is no line to hear it, or no such unit"
    for name, cell in rows.items():
        lines = re.findall(r"`([^`]*)`", cell)
        if not any(name in line.split() for line in lines):
            yield f"docs/UNITS.md: {name}: its lines are of other units"
        try:
            make.bundles(piece.replace("x = SinOsc freq 0", "\n".join(lines)))
        except make.BadLine as bad:
            yield f"docs/UNITS.md: {name}: {bad}"


def main():
    names, lines = make.all_names(), [*misread(), *unheard()]
    print("".join(line + "\n" for line in lines), end="")
    wrong = len(lines)
    for name in names:
        for reply in refused(name):
            print(f"examples/{name}.txt:", *reply)
            wrong += 1
    if wrong == 0:
        print(f"{len(names)} pieces are read, and no command of them is refused")
    return 1 if wrong else 0


if __name__ == "__main__":
    sys.exit(main())
