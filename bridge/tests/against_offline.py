#!/usr/bin/env python3
"""Lets sclang play the pieces of bridge/pieces.scd live, and compares the sound with that of their scores, rendered.

    python3 bridge/tests/against_offline.py --snova PROGRAM [NAME..]

It is run by hand, where Debian's `supercollider-language` is installed, and takes the ports 57110 and 57120. It prints
how many blocks of a piece came before its sound, and how many of its samples are other than those of the rendering.
"""
import argparse
import os
import subprocess
import sys
import tempfile
from pathlib import Path

import sounds

BRIDGE = Path(__file__).resolve().parent.parent
DATA = BRIDGE / "tests" / "data"
PIECES = ["bells", "saws", "wave"]
FRAME, BLOCK = 4, 256
HEADER = 44


def rendered(program, name, folder):
    """The samples of a score's sound."""
    (folder / "score.osc").write_bytes(sounds.turned(DATA / f"{name}.osc"))
    command = [program, "render", *(folder / f"score.{end}" for end in ("osc", "wav", "replies"))]
    subprocess.run(command, check=True, stdout=subprocess.DEVNULL)
    return (folder / "score.wav").read_bytes()[HEADER:]


def played(program, name, folder):
    """The samples of a piece that sclang plays."""
    sound = folder / "live.pcm"
    server = subprocess.Popen([program, "serve", "57120", sound], stdout=subprocess.DEVNULL)
    proxy = subprocess.Popen([sys.executable, BRIDGE / "live.py", "57110", "57120"])
    around = {**os.environ, "SNOVA_PIECE": name, "QT_QPA_PLATFORM": "offscreen"}
    try:
        subprocess.run(["sclang", "-D", BRIDGE / "pieces.scd"], env=around, capture_output=True, timeout=60)
        server.wait(10)
        proxy.wait(10)
    finally:
        for each in (proxy, server):
            each.kill()
    return sound.read_bytes()


def begin(samples):
    """The first frame that isn't silent."""
    return next((at for at in range(0, len(samples), FRAME) if any(samples[at:at + FRAME])), 0)


def line(name, offline, live):
    early = begin(live) - begin(offline)
    part = live[early:early + len(offline)]
    other = sum(part[at:at + 2] != offline[at:at + 2] for at in range(0, len(offline), 2))
    return f"{name:6} after {early / BLOCK:.2f} blocks, {other} of {len(offline) // 2} samples are other"


def main():
    parser = argparse.ArgumentParser(description="Compares pieces played live with their scores rendered.")
    parser.add_argument("--snova", required=True, help="the program")
    parser.add_argument("names", nargs="*", help="bells, saws or wave")
    given = parser.parse_args()
    for name in given.names or PIECES:
        with tempfile.TemporaryDirectory() as folder:
            offline, live = (of(given.snova, name, Path(folder)) for of in (rendered, played))
        print(line(name, offline, live), flush=True)
    return 0


if __name__ == "__main__":
    sys.exit(main())
