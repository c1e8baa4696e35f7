#!/usr/bin/env python3
"""Writes the table of SuperCollider's unit generators and the operators into bridge/FROM-SUPERCOLLIDER.md, and what needs
the units that the server has got last into bridge/README.md. `run.py` compares them.

    python3 bridge/tests/page.py

data/there.txt has the units by their kinds, from the help of SuperCollider 3.13; those with a `*` are written by sclang
with others.
"""
import re
import sys
from pathlib import Path

TOP = Path(__file__).resolve().parent.parent.parent
sys.path.insert(0, str(TOP / "bridge"))

from converter import further, units  # noqa: E402
from converter.controls import CONTROLS  # noqa: E402
from converter.definitions import OPERATORS  # noqa: E402

NEEDED = ["| Unit of the server | Refused without it | Made from others without it |", "|---|---|---|"]
HEAD = ["| Kind | Same name here | Made from others here | Not converted |", "|---|---|---|---|"]


def kinds():
    """The names of each kind."""
    for line in (TOP / "bridge/tests/data/there.txt").read_text().splitlines():
        kind, _, names = line.partition(": ")
        yield kind, names.split()


def converted():
    return {*units.converted(), *CONTROLS, *OPERATORS}


def namesakes():
    """The names of the units here."""
    rows = re.findall(r"^\| (\w+)(?:\.[ak]r)? \|", (TOP / "docs/UNITS.md").read_text(), re.M)
    return {*rows, *further.HERE} & converted()


def state(name, here, found):
    if name in here:
        return 0
    return 1 if name in found else 2


def table():
    """The lines of the table, and of what sclang writes with others."""
    here, found, written, lines = namesakes(), converted(), [], list(HEAD)
    for kind, names in kinds():
        written += [name[:-1] for name in names if name.endswith("*")]
        columns = [[], [], []]
        for name in names:
            if not name.endswith("*"):
                columns[state(name, here, found)].append(name)
        lines.append("| " + " | ".join([kind, *(", ".join(each) for each in columns)]).replace("  ", " ") + " |")
    return [re.sub(r" +", " ", line) for line in lines], sorted(written)


def operators():
    """Of each kind of operators the names of those that are converted."""
    for unit, table_of in sorted(OPERATORS.items()):
        yield unit, " ".join(f"`{each.name}`" for each in table_of.values() if each.best())


def needing():
    """Of each unit that the server has got last the rows and operators that need it, and have no others without it."""
    every = [(name, row.needs) for name, rows in units.ROWS.items() for row in rows if row.needs]
    every += [(f"`{each.name}`", each.needs.split()) for table_of in OPERATORS.values() for each in table_of.values()]
    others = {name for name, rows in units.ROWS.items() if not rows[-1].needs}
    others |= {f"`{each.name}`" for table_of in OPERATORS.values() for each in table_of.values() if each.build}
    for unit in sorted(further.FURTHER):
        names = sorted({name for name, needed in every if unit in needed}, key=str.lower)
        alone, more = ([name for name in names if (name in others) == has] for has in (False, True))
        yield f"| {unit} | {', '.join(alone)} | {', '.join(more)} |".replace("|  |", "| |")


def missing():
    """The units that are converted, and that no kind has."""
    return sorted(converted() - {name.rstrip("*") for _, names in kinds() for name in names})


def with_table(text, head, lines):
    """A text whose table with a head has other lines."""
    start = text.index(head)
    return text[:start] + "\n".join(lines) + text[text.index("\n\n", start):]


def main():
    path = TOP / "bridge/FROM-SUPERCOLLIDER.md"
    text = with_table(path.read_text(), HEAD[0], table()[0])
    for unit, names in operators():
        text = re.sub(rf"^\| {unit} \| [^|]* \|", f"| {unit} | {names} |", text, flags=re.M)
    path.write_text(text)
    path = TOP / "bridge/README.md"
    path.write_text(with_table(path.read_text(), NEEDED[0], [*NEEDED, *needing()]))


if __name__ == "__main__":
    main()
