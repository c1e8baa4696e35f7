#!/usr/bin/env python3
"""Renders pieces of examples/ by the model, and prints the lines of `examples/sums.txt` for their sounds and replies.

    python3 outside/sums.py > examples/sums.txt      all pieces
    python3 outside/sums.py NAME..                   some of them

A line is a SHA-256 and the name of a file, as `sha256sum` writes it: NAME.wav and NAME.replies at the settings without
keys, and NAME.bits=24.wav and so on with a key. examples/README.md says how long it takes.
"""
import hashlib
import sys
from pathlib import Path

ROOT = Path(__file__).resolve().parent.parent
sys.path.append(str(ROOT / "examples"))

import make  # noqa: E402
import osc  # noqa: E402
import server  # noqa: E402
import shelf  # noqa: E402

# The keys of one run of the model, and then those that its sound is written with: bits change no sample.
RUNS = (([], ([], ["bits=24"])), (["rate=96000"], (["rate=96000"],)))


def played(name, keys):
    """A piece after its last block."""
    settings = server.settings_of(keys)
    files = shelf.Shelf({f"sounds/{path.name}": path.read_bytes() for path in (make.HERE / "sounds").iterdir()})
    run = server.Run(settings, [files.packet(packet) for packet in server.accepted(settings, make.stream(name))])
    run.play()
    return run


def line(content, *parts):
    return f"{hashlib.sha256(content).hexdigest()}  {'.'.join(parts)}"


def lines(name):
    """The lines of a piece."""
    for keys, written in RUNS:
        run = played(name, keys)
        replies = b"".join(osc.frame(osc.message(*reply)) for reply in run.replies)
        for each in written:
            yield line(server.wav(server.settings_of(each), run.sound), name, *each, "wav")
            yield line(replies, name, *each, "replies")


def main():
    for name in sys.argv[1:] or make.all_names():
        print(*lines(name), sep="\n", flush=True)


if __name__ == "__main__":
    main()
