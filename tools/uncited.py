#!/usr/bin/env python3
"""Names the lemmas of proofs/ and the definitions of specs/ that nothing cites, and exits with 1 if there are any.

Run it at the top of the repository. It reads text alone: a name counts as cited if it stands as a word outside its own declaration
and outside the lines that import names, in its file if it isn't `pub`, else in any. What a proof file answers
(`pub NAME : goal.CLAUSE ..`) is cited by the check.
"""
import pathlib
import re
import sys

DECLARATION = re.compile(r"^(?P<indent> *)(?P<words>(?:(?:pub|abbrev|unfoldable|mutual|prim) )*)"
                         r"(?:(?:record|data) )?(?P<name>[^\s(){},;:.@\"]+)(?: [({].*)? :(?: |$)")
NAME = re.compile(r"[^\s(){},;:.\[\]@\"]+")
ANSWERS = ("Answers.antt", "Invariants.antt", "Proof.antt")


def without_comment(line):
    """The line up to the comment that ends it."""
    return re.sub(r"(^|\s)(--|//).*", "", line)


def is_import(line):
    return re.match(r"\s*(pub )?(ghost )?use\s", line) is not None


def declarations(path, lines):
    """The name of each lemma or definition at the top of a file or in a module of it, whether others see it, its first line and its end."""
    depths, found = {0}, []
    fields = None
    for at, line in enumerate(lines):
        indent = len(line) - len(line.lstrip(" "))
        if not line.strip():
            continue
        if fields is not None and indent <= fields:
            fields = None
        depths = {it for it in depths if it <= indent} | {0}
        if re.match(r"\s*module .* where$", line):
            depths.add(indent + 2)
            continue
        if re.match(r"\s*(pub |mutual )*(record|data) ", line):
            fields = indent
            continue
        matched = DECLARATION.match(line)
        if fields is None and matched and indent in depths and not is_import(line):
            is_public = "pub" in matched["words"].split() or path.parent.name == "specs"
            found.append((matched["name"], is_public, at, body_end(lines, at, indent, matched["name"])))
    return found


def body_end(lines, at, indent, name):
    """The first line after the declaration at `at` that belongs to something else."""
    end = at + 1
    while end < len(lines):
        line = lines[end]
        deeper = not line.strip() or len(line) - len(line.lstrip(" ")) > indent
        own = re.match(rf" {{{indent}}}({re.escape(name)}(\s|$)|unfolding |where|}})", line)
        if not deeper and not own:
            break
        end += 1
    return end


def uncited(root):
    """Each uncited name with its file and line."""
    files = [it for part in ("src", "specs", "proofs") for it in sorted(root.glob(f"crates/*/{part}/**/*"))
             if it.suffix in (".rt", ".antt")]
    texts = {it: [without_comment(line) for line in it.read_text().split("\n")] for it in files}
    places = {}
    for path, lines in texts.items():
        taken = False
        for at, line in enumerate(lines):
            taken = taken or is_import(line)
            if not taken:
                for word in NAME.findall(line):
                    places.setdefault(word, []).append((path, at))
            # (an import may go over several lines)
            taken = taken and path.suffix == ".rt" and ";" not in line
    for path, lines in texts.items():
        if path.suffix != ".antt":
            continue
        for name, is_public, first, end in declarations(path, lines):
            if "◌" in name or (path.name in ANSWERS and "goal." in lines[first]):
                continue
            seen = [(where, at) for where, at in places.get(name, []) if is_public or where == path]
            if all(where == path and first <= at < end for where, at in seen):
                yield path, first + 1, name


def main():
    found = list(uncited(pathlib.Path(".")))
    for path, line, name in found:
        print(f"{path}:{line}: nothing cites {name}")
    return 1 if found else 0


sys.exit(main())
