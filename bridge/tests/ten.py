#!/usr/bin/env python3
"""Plays the functions of bridge/TEN.md for a second, by scsynth and here, and writes their pictures and differences.

    python3 bridge/tests/ten.py --snova PROGRAM

It is run by hand, where Debian's `supercollider-language` and `supercollider-server` are installed. Of each function
of the page it writes a picture, docs/pictures/ten-N.png: on the left the sound of scsynth, on the right that of the
program, each as a spectrogram up to 9 kHz above the wave of the first channel. Below the function it writes how far
the sounds lie apart.
"""
import argparse
import cmath
import math
import re
import struct
import tempfile
import zlib
from itertools import count
from pathlib import Path

import corpus
import sounds

PAGE, PICTURES = sounds.TOP / "bridge/TEN.md", sounds.TOP / "docs/pictures"
FUNCTION = re.compile(r"^    (\{.*\})\.play;\n\n.*\n", re.M)
# A spectrum has so many frames, the next one starts so many later, and so many of its lines are drawn.
FRAMES, HOP, LINES = 512, 320, 96
COLUMNS = (sounds.RATE - FRAMES) // HOP
# The wave below has so many rows; each point of the picture is so many pixels wide and high.
WAVE, GAP, PIXELS = 24, 4, 2
# Decibels of the darkest spot, below a sine of full scale; of the 16 colors two are those of the wave and of the gap.
DARKEST, SHADES, INK, PAPER = -84, 14, 14, 15


def transform(samples):
    """The Fourier transform of 2^k samples."""
    if len(samples) == 1:
        return samples
    even, odd, half = transform(samples[::2]), transform(samples[1::2]), len(samples) // 2
    turned = [odd[k] * cmath.exp(-2j * math.pi * k / len(samples)) for k in range(half)]
    return [a + b for a, b in zip(even, turned)] + [a - b for a, b in zip(even, turned)]


def shades(samples):
    """The shades of the lines of one spectrum, from the lowest frequency up."""
    window = [0.5 - 0.5 * math.cos(math.tau * k / FRAMES) for k in range(FRAMES)]
    for line in transform([a * b / 2**15 for a, b in zip(samples, window)])[:LINES]:
        decibels = 20 * math.log10(max(abs(line) / (FRAMES / 4), 1e-9))
        yield min(SHADES - 1, max(0, int((1 - decibels / DARKEST) * SHADES)))


def panel(samples, peak):
    """The rows of the picture of one sound, from above; a wave as high as the peak fills its rows."""
    starts = range(0, COLUMNS * HOP, HOP)
    spectra = [list(shades(samples[at:at + FRAMES])) for at in starts]
    rows = [[column[line] for column in spectra] for line in reversed(range(LINES))]
    parts = [samples[at:at + HOP] for at in starts]
    ends = [[round((1 - end / peak) / 2 * (WAVE - 1)) for end in (max(part), min(part))] for part in parts]
    return rows + [[INK if top <= row <= low else PAPER for top, low in ends] for row in range(WAVE)]


def palette():
    """From black over red and yellow to white; the ink of the wave, and the paper."""
    steps = [step / (SHADES - 1) for step in range(SHADES)]
    heat = [[min(1.0, 2.2 * step), max(0.0, min(1.0, 2 * step - 0.7)), max(0.0, min(1.0, 4 * step - 3))]
            for step in steps]
    return bytes(round(255 * part) for color in heat + [[0.1, 0.2, 0.5], [1, 1, 1]] for part in color)


def png(rows):
    """A picture of 16 colors."""
    wide = [[color for color in row for _ in range(PIXELS)] for row in rows]
    lines = [bytes([0]) + bytes(a << 4 | b for a, b in zip(row[::2], row[1::2])) for row in wide]
    head = struct.pack(">IIBBBBB", len(wide[0]), PIXELS * len(rows), 4, 3, 0, 0, 0)
    data = zlib.compress(b"".join(line for line in lines for _ in range(PIXELS)), 9)
    found = b"\x89PNG\r\n\x1a\n"
    for kind, body in ((b"IHDR", head), (b"PLTE", palette()), (b"IDAT", data), (b"IEND", b"")):
        found += struct.pack(">I", len(body)) + kind + body + struct.pack(">I", zlib.crc32(kind + body))
    return found


def picture(there, here):
    gap, peak = [PAPER] * GAP, max(1, *map(abs, there[0]), *map(abs, here[0]))
    return png([a + gap + b for a, b in zip(panel(there[0], peak), panel(here[0], peak))])


def said(number, case):
    """The line below a function."""
    level, correlation = case.sounds
    notes = "; ".join(dict.fromkeys(case.converted.graph.notes)) or "nothing"
    return (f"![{number}](../docs/pictures/ten-{number}.png) Level {level:+.2f} dB, correlation {correlation:.3f}. "
            f"What the bridge notes: {notes}.")


def heard(number, text, definition, program, cache):
    """The line of a function, once its picture is written."""
    case = corpus.Case(number - 1, text, definition)
    there, here = corpus.by_scsynth(case, cache), corpus.by_snova(case, program, cache)
    case.sounds = corpus.compared(there, here)
    (PICTURES / f"ten-{number}.png").write_bytes(picture(there, here))
    return said(number, case)


def main():
    parser = argparse.ArgumentParser(description="Plays the functions of bridge/TEN.md, there and here.")
    parser.add_argument("--snova", required=True, help="the program that renders")
    program, page = parser.parse_args().snova, PAGE.read_text()
    texts = [corpus.Text("function", PAGE, 0, found.group(1)) for found in FUNCTION.finditer(page)]
    with tempfile.TemporaryDirectory() as folder:
        definitions = corpus.compiled(texts, Path(folder) / "cache")
        lines = iter([heard(*each, program, Path(folder) / "cache") for each in zip(count(1), texts, definitions)])
    PAGE.write_text(FUNCTION.sub(lambda found: f"    {found.group(1)}.play;\n\n{next(lines)}\n", page))
    return 0


if __name__ == "__main__":
    main()
