#!/usr/bin/env python3
"""Draws a report of `snova plan`: prints it as a text for Graphviz, or draws it into OUT by `dot`, if that is installed.

    python3 examples/plan.py REPORT > plan.dot
    python3 examples/plan.py REPORT OUT.png

Each synth is a box with its units, and stands behind the first synths whose sound or values it reads. Two that write one bus or buffer, or
of which one writes what the other reads, have a line between them, red if both write it. The longest chain is drawn thick.
"""
import pathlib
import shutil
import subprocess
import sys


class Synth:
    def __init__(self, line):
        words = line.split()
        self.id, self.units = words[1], int(words[3])
        self.reads, self.writes, self.mixes = (set() if word == "-" else set(word.split(",")) for word in (words[5], words[7], words[9]))


def read(text):
    """The first line, the synths and the chain of a report."""
    lines = text.splitlines()
    synths = [Synth(line) for line in lines if line.startswith("node ")]
    chain = [word for word in lines[-1].split()[1:] if word != "-"]
    return lines[0], synths, chain


def line_between(first, second):
    """What two synths share of which one writes it, and whether both do."""
    both = first.writes & second.writes
    passed = first.writes & (second.reads | second.mixes) | (first.reads | first.mixes) & second.writes | first.mixes & second.reads
    return sorted(both | passed), bool(both)


def drawn(text):
    """A report as a text for Graphviz."""
    head, synths, chain = read(text)
    out = ["digraph plan {", f'    label="{head}"; labelloc=t; rankdir=LR; node [shape=box];']
    for synth in synths:
        width = 3 if synth.id in chain else 1
        out.append(f'    "{synth.id}" [label="{synth.id}\\n{synth.units} units", penwidth={width}];')
    steps = set(zip(chain, chain[1:]))
    for i, first in enumerate(synths):
        for second in synths[i + 1:]:
            shared, is_both = line_between(first, second)
            if shared:
                color = "red" if is_both else "black"
                width = 3 if (first.id, second.id) in steps else 1
                out.append(f'    "{first.id}" -> "{second.id}" [label="{" ".join(shared)}", color={color}, penwidth={width}];')
                steps.discard((first.id, second.id))
    out += [f'    "{first}" -> "{second}" [style=bold, penwidth=3, arrowhead=none];' for first, second in sorted(steps)]
    return "\n".join(out + ["}", ""])


def main():
    words = sys.argv[1:]
    if len(words) not in (1, 2):
        print(__doc__, file=sys.stderr)
        return 2
    text = drawn(pathlib.Path(words[0]).read_text())
    if len(words) == 1:
        print(text, end="")
        return 0
    if not shutil.which("dot"):
        print("dot of Graphviz is not installed", file=sys.stderr)
        return 1
    return subprocess.run(["dot", f"-T{pathlib.Path(words[1]).suffix[1:]}", "-o", words[1]], input=text, text=True).returncode


if __name__ == "__main__":
    sys.exit(main())
