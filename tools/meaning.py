#!/usr/bin/env python3
"""Finds the definitions that a reader has to believe, and exits with 1 if a module of specs/ stands on the wrong shelf.

    python3 tools/meaning.py            compares the shelves and docs/MEANING.md with what the contracts cite
    python3 tools/meaning.py --write    writes docs/MEANING.md
    python3 tools/meaning.py --list     prints each of these definitions with its module
    python3 tools/meaning.py --mixed    prints the modules that also have workings, with those, to be split

What the program promises is cited by the contracts of a few calls (PROMISES). A definition that these cite, or that
such a definition cites, has to be believed; all others are workings, which inner contracts and proofs use. A module
with a definition of the first kind stands under the heading "what a reader believes" in specs/Lib.antt of its crate,
and any other under "workings". It reads text alone: names are resolved by the `use` lines of each file.
"""
import re
import sys
from pathlib import Path

ROOT = Path(__file__).resolve().parent.parent
PAGE = ROOT / "docs/MEANING.md"
BELIEVED, WORKINGS = "-- what a reader believes", "-- workings"

# Each promise: its letter, what it is about, and the calls whose contracts make it: a file or a folder, and a function
# in it, `trait` for all traits, or None for all.
PROMISES = [
    ("R", "a command file is rendered", [("sn_top/src/shelving.rt", "run_shelf")]),
    ("S", "a connection is served", [("sn_top/src/serving.rt", "serve")]),
    ("C", "several clients are served", [("sn_clients/src/serving.rt", "serve_many")]),
    ("T", "texts and streams are converted", [("sn_top/src/converting.rt", "convert")]),
    ("D", "a drill is played", [("sn_top/src/drilling.rt", "drill")]),
    ("P", "a plan is reported", [("sn_top/src/planning.rt", "plan_run")]),
    ("M", "the program: its words, paths, clock and printed lines", [("snova/src", None)]),
    ("O", "the outside: what a source, a sink, a link, a shelf and a pulse promise",
     [("sn_ports/src", "trait"), ("sn_shelf/src", "trait"), ("sn_clients/src/pulse.rt", "trait")]),
]

# The believed modules of the crates whose specs/Lib.antt has no headings yet; all their other modules are workings. Once a
# Lib.antt has headings, these count, and the crate's line is removed from here.
UNHEADED = {
    "sn_def": "Units Versions Definition Defs Reading Asked StateWords Facts Histories",
    "sn_drill": "Definitions Line Stream",
    "sn_files": "Kept",
    "sn_filt": "Ratios Powers Arithmetic Poles Seconds Followers Pulses Sections StateVariable Held Rings Filters Lines",
    "sn_fixed": "Arcs Fixed Lines Literal Natural Ranges Sine Triggers",
    "sn_gen": "Phases Oscillators Sine Rounded Noise Impulse Phasor Line Linen Generators Harmonics Pink",
    "sn_io": "Channels BusInputs BusOutputs Triggers BusUnits Positions BufferUnits Between",
    "sn_mem": "Words Layout Blocks Lanes Buses Buffers Done",
    "sn_osc": "Shape Grammar Bytes Reading Framing Frames Framed Faults Unpacking",
    "sn_pcm": "Allowed Pcm Sound",
    "sn_pool": "Regions",
    "sn_ports": "Causes Octets Transfer Links Limits",
    "sn_queue": "Time Waiting Steps",
    "sn_reply": "Replies Failing Frames Events",
    "sn_round": "Jobs",
    "sn_score": "Words Lines Score Faults",
    "sn_shelf": "Files Waves Expanded Asking",
    "sn_tree": "Trees Faults Views Reworking Members Below",
    "sn_words": "Choices Converting Drilling Keys Serving Words",
}

DECLARATION = re.compile(r"^(?P<indent> *)(?P<words>(?:(?:pub|abbrev|unfoldable|mutual|prim) )*)"
                         r"(?P<kind>(?:record|data) )?(?P<name>[^\s(){},;:.@\"]+)(?: [({](?:(?! = ).)*?)? :(?: |$)")
CHAIN = re.compile(r"[^\s(){},;:\[\]@\"]+")
BOUND = (re.compile(r"λ ([^.]*)\."), re.compile(r"[({]([^(){}:]*) : "))


def names_in(text):
    """The names of a text; of `a.b` the pair, since `a` may stand for a module."""
    for chain in CHAIN.findall(text):
        parts = chain.split(".")
        yield parts[0], parts[1] if len(parts) > 1 else ""


class Scope:
    """Which definition, or which module, a name stands for in a file."""

    def __init__(self):
        self.names, self.modules = {}, {}

    def add_import(self, line):
        path, _, braces = line.partition(".{")
        path, _, alias = path.strip(" ;").partition(" as ")
        crate, folder, *rest = path.split(".")[1:] + ["", ""]
        rest = [part for part in rest if part]
        if folder != "specs":
            return
        if not braces:
            self.modules[alias.strip() or rest[-1]] = (crate, rest)
            return
        for name in braces.rstrip(" ;}").split(","):
            name, _, told = name.strip().partition(" as ")
            self.names[told or name] = (crate, rest, name)

    def cited(self, text):
        """The definitions that a text cites, as (crate, path of the module, name)."""
        found = set(names_in(text))
        words = {name for name, _ in found}
        for name, inner in found:
            if name in self.modules and inner:
                yield (*self.modules[name], inner)
            elif name in self.names:
                yield self.names[name]
        for name in self.names:
            is_bind = name == "◌>>=◌" and "do" in words
            if "◌" in name and (is_bind or all(part in words for part in name.split("◌") if part)):
                yield self.names[name]


class Module:
    """A file of specs/: its definitions, and what each cites."""

    def __init__(self, crate, name, text):
        self.crate, self.name, self.scope = crate, name, Scope()
        self.names, self.owner, self.texts = [], {}, {}
        self.headline = headline_of(text)
        self.read(re.sub(r"(?m)(^|\s)--.*", "", text).split("\n"))
        for each in self.owner:
            self.scope.names[each] = (crate, [name], each)

    def read(self, lines):
        depths, opened, current = {0}, {}, None
        for line in lines:
            indent = len(line) - len(line.lstrip(" "))
            if not line.strip():
                continue
            if line.startswith("use "):
                self.scope.add_import(line)
                continue
            if current and indent > current[1]:
                self.go_on(*current, line)
                continue
            depths = {it for it in depths if it <= indent} | {0}
            opened = {depth: text for depth, text in opened.items() if depth <= indent}
            if re.match(r"\s*(module .* where|(\w+ )?mutual)$", line):
                depths.add(indent + 2)
                opened[indent + 2] = line
                current = None
                continue
            matched = DECLARATION.match(line)
            if matched and indent in depths:
                current = self.declare(matched, indent, opened)
            if current:
                self.texts[current[0]].append([line])

    def declare(self, matched, indent, opened):
        name = matched["name"]
        self.names.append(name)
        self.owner[name] = name
        self.texts[name] = [[text] for text in opened.values()]
        return name, indent, (matched["kind"] or "").strip()

    def go_on(self, name, indent, kind, line):
        """A line of the definition `name`: a constructor, or more of a clause."""
        if kind == "data" and (matched := re.match(r"\s*(\S+) : ", line)):
            self.owner[matched[1]] = name
        self.texts[name][-1].append(line)

    def cites(self, name):
        for lines in self.texts[name]:
            text = "\n".join(lines)
            head, *rest = re.split(r" =(?=\s)", text, maxsplit=1)
            is_clause = rest and not re.match(r"\s*(pub|abbrev|unfoldable)\b", text)
            bound, body = ({word for word, _ in names_in(head)}, rest[0]) if is_clause else (set(), text)
            for each in BOUND:
                bound |= {word for found in each.findall(body) for word in found.split()}
            body = re.sub(r"([{;]\s*|\n\s+)\w+ = ", r"\1", body)
            for crate, path, cited in self.scope.cited(body):
                if cited not in bound or "◌" in cited:
                    yield crate, path, cited


def headline_of(text):
    """The first sentence of the comment at the top."""
    comment = []
    for line in text.split("\n"):
        if not line.startswith("--"):
            break
        comment.append(line[2:].strip())
    return re.split(r"(?<=[.:]) ", " ".join(comment), maxsplit=1)[0].rstrip(".:")


def read_modules():
    modules = {}
    for path in sorted(ROOT.glob("crates/*/specs/*.antt")):
        if path.stem != "Lib":
            modules[path.parts[-3], path.stem] = Module(path.parts[-3], path.stem, path.read_text())
    return modules


# ---- the promises

def clauses_of(text):
    """The clauses of contracts and the ghost members, without their braces."""
    for start in re.finditer(r"\b(?:requires|ensures|ghost (?!use)\w+ =)[^{;\n]*\{", text):
        depth, at = 1, start.end()
        while depth:
            depth += {"{": 1, "}": -1}.get(text[at], 0)
            at += 1
        yield text[start.end():at - 1]


def parts_of(text, wanted):
    """The functions, or the traits, of a file of code that make a promise."""
    if wanted is None:
        return [text.partition("#[cfg(test)]")[0]]
    if wanted == "trait":
        return re.findall(r"(?m)^pub trait [\s\S]*?^}", text)
    return re.findall(rf"(?m)^pub fn {wanted}\b[\s\S]*?^{{", text)


def roots_of(calls):
    for place, wanted in calls:
        path = ROOT / "crates" / place
        for file in sorted(path.glob("*.rt")) if path.is_dir() else [path]:
            text = re.sub(r"(?m)^\s*//.*$", "", file.read_text())
            scope = Scope()
            for line in re.findall(r"ghost use (Rattle[^;]*);", text):
                scope.add_import("use " + " ".join(line.split()))
            for part in parts_of(text, wanted):
                for clause in clauses_of(part):
                    yield from scope.cited(clause)


def closure(modules, roots):
    """The definitions of specs/, and the types of the program, that the roots cite at last."""
    found, types, waiting = set(), set(), list(roots)
    while waiting:
        crate, path, name = waiting.pop()
        if path and path[0] == "declared":
            types.add((crate, path[1], path[2]))
        elif path and (module := modules.get((crate, path[0]))) and (owner := module.owner.get(name)):
            key = (crate, path[0], owner)
            if key not in found:
                found.add(key)
                waiting.extend(module.cites(owner))
    return found, types


# ---- the shelves

def shelves_of(crate):
    """The believed modules of a crate, whether its Lib.antt says so by headings, and all modules in their order."""
    lines = (ROOT / "crates" / crate / "specs/Lib.antt").read_text().split("\n")
    order = [line.split()[-1] for line in lines if line.startswith("pub mod ")]
    if BELIEVED not in lines and WORKINGS not in lines:
        return set(UNHEADED.get(crate, "").split()), False, order
    shelf, believed = None, set()
    for line in lines:
        shelf = line if line in (BELIEVED, WORKINGS) else shelf
        if line.startswith("pub mod ") and shelf == BELIEVED:
            believed.add(line.split()[-1])
    return believed, True, order


def misplaced(modules, found):
    for crate in sorted({crate for crate, _ in modules}):
        said, is_headed, _ = shelves_of(crate)
        if is_headed and crate in UNHEADED:
            yield f"{crate}: specs/Lib.antt has headings, so its line in UNHEADED of tools/meaning.py goes"
        cited = {module for each, module, _ in found if each == crate}
        for module in sorted(cited - said):
            yield f"{crate}: {module} belongs to what a reader believes, and stands among the workings"
        for module in sorted(said - cited):
            yield f"{crate}: no promise cites {module}, which stands among what a reader believes"


# ---- the page

HEAD = """# What a reader believes

The proof says that the program does what its contracts say. What they say is worth what their definitions are, so these
have to be read and believed, with those of the kit's library that they cite; no other definition and no proof does.
`tools/meaning.py` prints this page from the sources, and `.ci/run` fails if it differs:
**{definitions} definitions in {count} modules** of {crates} crates, of {all} definitions in {modules} modules.

The crates come from the top down, and in each crate a module comes before those that it cites. docs/READING.md is a
shorter way through them. A file is `crates/CRATE/specs/MODULE.antt`. Some modules also have definitions that are
workings; the third column says which have to be believed. The last column says which promises cite the module:

| | Promise |
|---|---|
{promises}

A definition may name a type of the program; these are listed below each table by their files in `src/`.
"""


def share(module, believed):
    """Which definitions of a module have to be believed."""
    names = [name for name in module.names if (module.crate, module.name, name) in believed]
    others = [name for name in module.names if name not in names]
    if not others:
        return f"all {len(names)}" if len(names) > 1 else f"`{names[0]}`"
    if len(others) <= min(3, len(names)):
        return f"{len(names)}, all but " + ", ".join(f"`{name}`" for name in others)
    return ", ".join(f"`{name}`" for name in names)


def in_reading_order(crate, order, modules, chosen):
    """The modules of a crate, each before those that it cites, and otherwise as they stand in Lib.antt."""
    cites = {name: {path[0] for each in modules[crate, name].names for other, path, _ in modules[crate, name].cites(each)
                    if other == crate and path and path[0] in chosen and path[0] != name} for name in chosen}
    placed = []
    while len(placed) < len(chosen):
        free = [name for name in order if name in chosen and name not in placed
                and not any(name in cites[other] for other in chosen if other not in placed and other != name)]
        placed.append((free or [name for name in order if name in chosen and name not in placed])[0])
    return placed


def page_of(modules, by_letter, found, types):
    lines = (ROOT / "crates.txt").read_text().splitlines()
    crates = [line.split(":")[0] for line in lines if ":" in line and line[0] != "#"]
    cited = {key[:2] for key in found}
    chosen = {crate: [name for each, name in modules if each == crate and (crate, name) in cited] for crate in crates}
    yield HEAD.format(
        definitions=len(found), count=len(cited), crates=sum(1 for each in chosen.values() if each),
        all=sum(len(module.names) for module in modules.values()), modules=len(modules),
        promises="\n".join(f"| {letter} | {text} |" for letter, text, _ in PROMISES))
    for crate in reversed(crates):
        if not chosen[crate]:
            continue
        yield f"## {crate}\n\n| Module | What it says | Definitions | |\n|---|---|---|---|"
        for name in in_reading_order(crate, shelves_of(crate)[2], modules, chosen[crate]):
            letters = "".join(letter for letter, keys in by_letter.items() if (crate, name) in {key[:2] for key in keys})
            module = modules[crate, name]
            yield f"| {name} | {module.headline.replace('|', chr(92) + '|')} | {share(module, found)} | {letters} |"
        own = sorted((file, name) for each, file, name in types if each == crate)
        if own:
            files = {file: ", ".join(f"`{name}`" for each, name in own if each == file) for file, _ in own}
            yield "\nTypes: " + "; ".join(f"{names} (`{file}.rt`)" for file, names in files.items()) + "."
        yield ""


def main():
    modules = read_modules()
    by_letter, types = {}, set()
    for letter, _, calls in PROMISES:
        by_letter[letter], more = closure(modules, roots_of(calls))
        types |= more
    found = set().union(*by_letter.values())
    page = "\n".join(page_of(modules, by_letter, found, types)).rstrip("\n") + "\n"
    if "--list" in sys.argv:
        print("\n".join(f"{crate} {module} {name}" for crate, module, name in sorted(found)))
        return 0
    if "--mixed" in sys.argv:
        for (crate, name), module in modules.items():
            rest = [each for each in module.names if (crate, name, each) not in found]
            if 0 < len(rest) < len(module.names):
                print(f"{crate} {name}: {' '.join(rest)}")
        return 0
    if "--write" in sys.argv:
        PAGE.write_text(page)
    wrong = list(misplaced(modules, found))
    if not PAGE.exists() or PAGE.read_text() != page:
        wrong.append("docs/MEANING.md differs from what is cited; `python3 tools/meaning.py --write` writes it")
    print("\n".join(wrong) if wrong else f"{len(found)} definitions have to be believed, and each module stands on its shelf")
    return 1 if wrong else 0


if __name__ == "__main__":
    sys.exit(main())
