#!/usr/bin/env python3
"""Compares the list of crates in docs/ARCHITECTURE.md with crates.txt and the crates' pages, and exits with 1 if they differ.

    python3 tools/crates.py            says what differs
    python3 tools/crates.py --write    writes the list

The list has a heading for each comment of crates.txt, and of each crate the first sentence of its README.md. A README has
at most 300 words.
"""
import re
import sys
from pathlib import Path

ROOT = Path(__file__).resolve().parent.parent
PAGE = ROOT / "docs/ARCHITECTURE.md"
START, END = "<!-- crates -->\n", "<!-- end of crates -->"
MOST_WORDS = 300


def first_sentence(text):
    paragraph = text.split("\n\n")[1].replace("\n", " ")
    return re.split(r"(?<=\.) (?=[A-Z])", paragraph)[0].rstrip(".")


def rows():
    """The lines of the list, and what is wrong with the crates' pages."""
    listed, wrong = ["|Crate|What it is for|", "|---|---|"], []
    for line in (ROOT / "crates.txt").read_text().splitlines():
        if line.startswith("# "):
            listed.append(f"|**{line[2:]}**||")
        elif ":" in line:
            name = line.partition(":")[0].strip()
            path = ROOT / "crates" / name / "README.md"
            if not path.exists():
                wrong.append(f"{name} has no README.md")
                continue
            text = path.read_text()
            if len(text.split()) > MOST_WORDS:
                wrong.append(f"{path.relative_to(ROOT)} has {len(text.split())} words, more than {MOST_WORDS}")
            listed.append(f"|[`{name}`](../crates/{name}/README.md)|{first_sentence(text)}|")
    return listed, wrong


def main():
    listed, wrong = rows()
    text = PAGE.read_text()
    before, found, rest = text.partition(START)
    inside, ended, after = rest.partition(END)
    if not (found and ended):
        wrong.append(f"{PAGE.name} has no place for the list of crates")
    elif inside != (made := "\n".join(listed) + "\n"):
        if "--write" in sys.argv:
            PAGE.write_text(before + START + made + END + after)
        else:
            wrong.append("docs/ARCHITECTURE.md lists other crates; `python3 tools/crates.py --write` writes the list")
    print("\n".join(wrong) if wrong else f"{len([row for row in listed if row.startswith('|[')])} crates are listed, each with its page")
    return 1 if wrong else 0


if __name__ == "__main__":
    sys.exit(main())
