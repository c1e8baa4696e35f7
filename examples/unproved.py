#!/usr/bin/env python3
"""Calls a `snova` that the kit's `rt try` builds without a proof, in a minute or two at each call.

    python3 examples/unproved.py WORD..      what `crates/snova/out/snova WORD..` does, if that is built

The kit keeps no such program, so it ends with its call; `serve` lasts for up to ten hours. It is built with checks
that make it a hundred times slower. Files that a command names are found by whole paths alone.
"""
import re
import subprocess
import sys
import tempfile
from pathlib import Path

HERE = Path(__file__).resolve().parent
CRATE = HERE.parent / "crates" / "snova"
SECONDS = "36000"


def rt(*words, **how):
    """A call of the kit's command, which has ended."""
    try:
        return subprocess.run(["rt", *words], **how)
    except FileNotFoundError:
        raise SystemExit("the Rattle kit's command `rt` isn't on the path: README.md says what it is") from None


def whole(word):
    """A word of a call with the whole path of a file in place of a path."""
    return word if "=" in word or re.fullmatch(r"[0-9]*", word) else str(Path(word).absolute())


def run(calls):
    """The line and the status of each of several calls, by one build; a status is None where the program gave none."""
    with tempfile.TemporaryDirectory() as folder:
        for number, call in enumerate(calls):
            Path(folder, f"{number:04}").touch()
            Path(folder, f"{number:04}.args").write_text("".join(word + "\n" for word in call))
        words = ["--seconds", SECONDS, "--cases", folder]
        for path in (HERE / "sounds").iterdir():
            words += ["--data", f"sounds/{path.name}={path}"]
        done = rt("try", *words, cwd=CRATE, capture_output=True, text=True)
    lines = dict(re.findall(r"^== (\d+)\n(.*)$", done.stdout, re.M))
    statuses = dict(re.findall(r"^case=(\d+) run=ended status=(\d+) ", done.stderr, re.M))
    if len(statuses) < len(calls):
        print(done.stderr, end="", file=sys.stderr)
    names = [f"{number:04}" for number in range(len(calls))]
    return [(lines.get(name, ""), int(statuses[name]) if name in statuses else None) for name in names]


def main():
    words = [sys.argv[1], *map(whole, sys.argv[2:])] if sys.argv[1:] else []
    return rt("try", "--seconds", SECONDS, "--", *words, cwd=CRATE).returncode


if __name__ == "__main__":
    sys.exit(main())
