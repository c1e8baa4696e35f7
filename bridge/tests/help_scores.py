#!/usr/bin/env python3
"""Converts the scores of SuperCollider's help, and prints for each what `convert.py` said at its end.

    python3 bridge/tests/help_scores.py [--why] [--keep FOLDER] [--snova PROGRAM]

It is run by hand, where Debian's `supercollider-language` is installed. sclang runs the code of each help file with a
Score, and what it would render, write or play is kept. With a program, each score that converts whole is rendered too.
"""
import argparse
import os
import re
import subprocess
import sys
import tempfile
from pathlib import Path

from corpus import CODE, brackets

HELP = Path("/usr/share/SuperCollider/HelpSource")
HERE = Path(__file__).resolve().parent
CONVERT = HERE.parent / "convert.py"
MADE = re.compile(r"\bScore\b|\basScore\b|\.render\b")
# What else makes a score, and how it is kept: what is written or played, and what is rendered in a comment.
RENDERED = 'recordNRT(outputFilePath: "/dev/null");'
OTHERWISE = [
    (re.compile(r"^Score\.writeFromFile\(([^,]*),.*$", re.M), rf"Score.newFromFile(\1).{RENDERED}"),
    (re.compile(r"^z\.play;\n\n", re.M), f"z.{RENDERED}\n\n"),
    (re.compile(r"^ *([abc])\.play;? *$", re.M), ""),
    (re.compile(r"^// *([abc])\.render\((.*)$", re.M), r"\1.render(\2"),
    (re.compile(r"\.add; *//use \.store.*"), ".store;"),
]
# Where sclang stores definitions, in its home.
STORED = ".local/share/SuperCollider/synthdefs"
# Each score is kept by the number of those before it.
KEEP = '#!/bin/sh\ncp "$2" "$(dirname "$0")/$(ls "$(dirname "$0")" | grep -c osc$).osc"\n'


def pieces(code):
    """What is run at once of a code block: what stands in brackets from a line's start on, and each other line."""
    for written, kept_so in OTHERWISE:
        code = written.sub(kept_so, code)
    closing, at, found = dict(brackets(code)), 0, []
    while at < len(code):
        end = closing[at] + 1 if code[at] == "(" and at in closing else code.find("\n", at) % (len(code) + 1)
        found.append(code[at:end].strip())
        at = end + 1
    return [each for each in found if each and ".boot" not in each and ".play" not in each]


def helps():
    """The help files with a Score: the name of each, its blocks of code with one, and what is run of all blocks."""
    for path in sorted(HELP.rglob("*.schelp")):
        blocks = [each.group(1) for each in CODE.finditer(path.read_text("utf-8", "replace"))]
        scored = [block for block in blocks if MADE.search(block)]
        if scored:
            yield path.relative_to(HELP), scored, [piece for block in blocks for piece in pieces(block)]


def kept(run, folder):
    """The scores that sclang writes as it runs some pieces."""
    for number, piece in enumerate(run):
        (folder / f"{number:03}.scd").write_text(piece)
    (folder / "keep.sh").write_text(KEEP)
    (folder / "keep.sh").chmod(0o755)
    around = {**os.environ, "SNOVA_SCORES": str(folder), "QT_QPA_PLATFORM": "offscreen",
              "QTWEBENGINE_DISABLE_SANDBOX": "1", "HOME": str(folder)}
    try:
        subprocess.run(["sclang", "-D", HERE / "help_scores.scd"], env=around, cwd=folder, timeout=180,
                       capture_output=True)
    except subprocess.TimeoutExpired:
        pass
    return sorted(folder.glob("*.osc"), key=lambda path: int(path.stem))


def converted(score, given):
    """What is printed of a score."""
    target = score.with_suffix(".here")
    words = [sys.executable, CONVERT, "--definitions", score.parent / STORED, *(["--why"] if given.why else [])]
    done = subprocess.run([*words, score, target], capture_output=True, text=True)
    yield from done.stderr.splitlines()
    if given.snova and not done.returncode:
        sound = [score.with_suffix(end) for end in (".wav", ".replies")]
        yield subprocess.run([given.snova, "render", target, *sound], capture_output=True, text=True).stdout.strip()


def main():
    parser = argparse.ArgumentParser(description="Converts the scores of SuperCollider's help.")
    parser.add_argument("--why", action="store_true", help="print all reasons of a refusal")
    parser.add_argument("--keep", type=Path, help="a folder for what is made")
    parser.add_argument("--snova", help="the program that renders")
    given = parser.parse_args()
    with tempfile.TemporaryDirectory() as folder:
        for at, (name, scored, run) in enumerate(helps()):
            own = (given.keep or Path(folder)) / str(at)
            own.mkdir(parents=True)
            scores = kept(run, own)
            print(f"{name}: {len(scored)} blocks, {len(scores)} scores", flush=True)
            for score in scores:
                print("\n".join(["", score.stem, *converted(score, given)]), flush=True)
    return 0


if __name__ == "__main__":
    sys.exit(main())
