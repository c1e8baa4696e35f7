#!/usr/bin/env python3
"""Renders pieces of this directory in six ways each, and compares each sound and its replies with their sums.

    python3 examples/check.py [--unproved] [NAME..]      some pieces, or all

The ways are the settings without keys, `bits=24` and `rate=96000`, each with one worker and with four. The sums in
sums.txt are those of a model that shares no code with `snova` (outside/sums.py). If `snova` isn't built yet, `rt ci`
proves and builds it first, and --unproved is as in render.py. It exits with 1 if a byte differs.
"""
import hashlib
import sys
import tempfile
from pathlib import Path

import make
import render

SETTINGS = ([], ["bits=24"], ["rate=96000"])
WORKERS = ("workers=1", "workers=4")


def wanted():
    """The sum of each file, by its name."""
    return {name: digest for digest, name in (line.split("  ") for line in make.SUMS.read_text().splitlines())}


def ways(name, folder):
    """For each way to render a piece the paths of its two files, and the call."""
    commands = make.write(name)
    for keys in SETTINGS:
        for workers in WORKERS:
            paths = [folder / workers / ".".join([name, *keys, end]) for end in ("wav", "replies")]
            yield paths, ["render", *keys, workers, *map(str, [commands, *paths])]


def wrong(paths, sums):
    """A line for each of some files that has another sum."""
    for path in paths:
        found = hashlib.sha256(path.read_bytes()).hexdigest() if path.exists() else "not there"
        if found != sums.get(path.name):
            yield f"{path.parent.name} {path.name} is {found}, and its sum {sums.get(path.name, 'is not in sums.txt')}"


def check(names, is_proved, folder):
    """Each piece with the lines of what is wrong, as it ends. A file is removed once it was compared."""
    every = {name: list(ways(name, folder)) for name in names}
    ended = iter(render.run([call for each in every.values() for _, call in each], is_proved))
    sums = wanted()
    for name, each in every.items():
        found = []
        for (paths, _), (line, _) in zip(each, ended):
            found += [f"{differs} ({line})" for differs in wrong(paths, sums)]
            for path in paths:
                path.unlink(missing_ok=True)
        yield name, found


def main():
    names, is_proved = render.chosen(sorted({name.split(".")[0] for name in wanted()}), __doc__)
    many = len(SETTINGS) * len(WORKERS)
    with tempfile.TemporaryDirectory() as folder:
        for workers in WORKERS:
            Path(folder, workers).mkdir()
        is_same = True
        for name, found in check(names, is_proved, Path(folder)):
            print("\n".join(found) or f"{name}: the same to the last byte, in {many} ways", flush=True)
            is_same = is_same and not found
    return 0 if is_same else 1


if __name__ == "__main__":
    sys.exit(main())
