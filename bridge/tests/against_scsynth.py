#!/usr/bin/env python3
"""Renders the scores of data/ by scsynth and, turned, by `snova`, and prints how far the sounds lie apart.

    python3 bridge/tests/against_scsynth.py [--snova PROGRAM] [--keep FOLDER] [NAME..]

It is run by hand, where Debian's `supercollider-server` is installed. Without a program the model of outside/ renders
in its place. The difference is that of the first second after the first block, in decibels of the sound of scsynth,
and the level that of the tenth of a second in which the loudness lies farthest apart, in decibels of one another; of
`sine` also that between the sound here and a sine that is worked out in floats. `--keep` writes the first 20 blocks of
scsynth's sound, for `run.py`.
"""
import argparse
import math
import subprocess
import sys
import tempfile
from pathlib import Path

import sounds

DATA = Path(__file__).resolve().parent / "data"
BLOCK, SECOND, WINDOW = 64, 48000, 4800


def by_scsynth(score, folder):
    target = folder / "there.wav"
    command = ["scsynth", "-N", score, "_", target, "48000", "WAV", "float", "-o", "2", "-V", "-1"]
    subprocess.run(command, check=True, stdout=subprocess.DEVNULL)
    return sounds.read(target)


def by_snova(program, score, folder):
    """The sound of a program, or of the model if none is given."""
    stream = sounds.turned(score)
    if not program:
        return sounds.by_model(stream)
    (folder / "here.osc").write_bytes(stream)
    command = [program, "render", "bits=24", *(folder / f"here.{end}" for end in ("osc", "wav", "replies"))]
    subprocess.run(command, check=True, stdout=subprocess.DEVNULL)
    return sounds.read(folder / "here.wav")


def true_sine(frames, freq, level):
    return [level * math.sin(math.tau * (frame * freq / SECOND % 1)) for frame in range(frames)]


def line(name, there, here):
    pairs = [(a[BLOCK:SECOND], b[BLOCK:SECOND]) for a, b in zip(there, here) if any(a[:SECOND])]
    apart = max(sounds.decibels(a, b) for a, b in pairs)
    levels = max(sounds.level_apart(a, b, WINDOW) for a, b in pairs)
    return f"{name:12} {apart:8.1f} dB, level {levels:5.2f} dB"


def options():
    parser = argparse.ArgumentParser(description="Compares scsynth with the bridge and snova.")
    parser.add_argument("--snova", help="the program that renders; else the model does")
    parser.add_argument("--keep", type=Path, help="a folder for the first 20 blocks of scsynth's sound")
    parser.add_argument("names", nargs="*", help="scores of data/")
    return parser.parse_args()


def main():
    given = options()
    for name in given.names or sorted(path.stem for path in DATA.glob("*.osc") if path.stem != "handshake"):
        with tempfile.TemporaryDirectory() as folder:
            there = by_scsynth(DATA / f"{name}.osc", Path(folder))
            if given.keep:
                (given.keep / f"{name}.raw").write_bytes(sounds.kept(there))
                continue
            here = by_snova(given.snova, DATA / f"{name}.osc", Path(folder))
        print(line(name, there, here), flush=True)
        if name == "sine":
            print(line("a true sine", [true_sine(len(here[0]), 441.3, 0.5)], here), flush=True)
    return 0


if __name__ == "__main__":
    sys.exit(main())
