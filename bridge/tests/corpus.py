#!/usr/bin/env python3
"""Counts how many of the definitions that SuperCollider ships are converted, and compares their sounds.

    python3 bridge/tests/corpus.py --count [--why] [--list OUTCOME]
    python3 bridge/tests/corpus.py --snova PROGRAM [--list OUTCOME]

It is run by hand, where Debian's `supercollider-language` is installed, and `supercollider-server` for the sounds.
It takes the definitions from the installed help, examples and class library: each `SynthDef(..)`, and each function
`{..}.play` or `.scope`. sclang compiles them once, in some minutes; what it wrote is kept in a folder (`--cache`).

`--count` prints how many compile, how many of these are different, and how many are converted, converted with a unit
left out or another one in its place (a stand-in), and refused; `--why` also for which reasons. With a program, each
that is converted plays for a second, by scsynth and here, and a table says how far the sounds lie apart.
"""
import argparse
import math
import operator
import os
import re
import subprocess
import sys
import tempfile
from array import array
from collections import Counter
from pathlib import Path
from typing import NamedTuple

import sounds
from converter import osc, scgf
from converter.definitions import Definition

SHIPPED = Path("/usr/share/SuperCollider")
FOLDERS = ["HelpSource", "examples", "SCClassLibrary"]
SCRIPT = Path(__file__).resolve().parent / "corpus.scd"
KINDS = {"SynthDef": "`SynthDef(..)`", "function": "`{..}.play`, `.scope`"}
# Of sclang: seconds without a text that it could compile, and how often it is started again after one that ends it.
PATIENCE, MOST_STARTS = 60, 20
# Parts of the names of units that are random.
RANDOM = ("Noise", "Dust", "Rand", "rand", "Gendy", "CoinGate", "Dwhite", "Dbrown", "Dshuf", "Vibrato", "PitchShift")
# The frames of a block, and the mean square of samples of 16 bits that is silence: -60 dB.
BLOCK, QUIET = 64, 1e-6 * 2**30
# What scsynth writes for what is no number, and the ids of nodes that play: noise that is silent by chance plays again.
NO_NUMBER, NODES = -2**15, (1000, 1001, 1002)
NEAR = (lambda heard: math.isinf(heard.level), lambda heard: abs(heard.level) <= 1,
        lambda heard: heard.correlation > 0.99, lambda heard: heard.correlation > 0.9)


# Finding the texts.

class Text(NamedTuple):
    """A SynthDef or a function, and where it stands."""

    kind: str
    path: Path
    line: int
    text: str

    def place(self):
        return f"{self.path.relative_to(SHIPPED)}:{self.line}"


# What brackets may stand in without counting, and brackets.
TOKEN = re.compile(r'"(?:\\.|[^"\\])*"|\'(?:\\.|[^\'\\])*\'|\$\\?.|//[^\n]*|/\*.*?\*/|[()\[\]{}]', re.S)
PAIRS = {")": "(", "]": "[", "}": "{"}
PLAYED = re.compile(r"\s*\.(play|scope)\b")
CODE = re.compile(r"(?:code|teletype)::(.*?)(?<!\\)::", re.S)


def brackets(text, start=0):
    """The pairs of brackets of a text in sclang, each where it opens and where it closes."""
    opened = []
    for found in TOKEN.finditer(text, start):
        mark, at = found.group(), found.start()
        if mark in PAIRS.values():
            opened.append(at)
        elif mark in PAIRS:
            if opened and text[opened[-1]] == PAIRS[mark]:
                yield opened.pop(), at
            else:
                opened.clear()


def definitions_of(text):
    """The SynthDefs of a file: where each stands, and its text."""
    for found in re.finditer(r"\bSynthDef(\.new)?\s*\(", text):
        start = found.end() - 1
        end = next((closes for opens, closes in brackets(text, start) if opens == start), None)
        if end:
            yield found.start(), text[found.start():end + 1]


def functions_of(text, is_help):
    """The functions of a file that play."""
    parts = [(found.start(1), found.group(1)) for found in CODE.finditer(text)] if is_help else [(0, text)]
    for start, part in parts:
        for opens, closes in brackets(part):
            alone = part[opens] == "{" and not part[opens - 1:opens].isalnum()
            if alone and PLAYED.match(part, closes + 1):
                yield start + opens, part[opens:closes + 1]


def texts():
    """All different texts, in the order of their files."""
    paths = [path for folder in FOLDERS for path in sorted((SHIPPED / folder).rglob("*"))]
    seen = set()
    for path in paths:
        if path.suffix not in (".schelp", ".scd", ".sc"):
            continue
        whole = path.read_text("utf-8", "replace")
        found = [("SynthDef", *each) for each in definitions_of(whole)]
        found += [("function", *each) for each in functions_of(whole, path.suffix == ".schelp")]
        for kind, start, text in found:
            if (kind, text) not in seen:
                seen.add((kind, text))
                yield Text(kind, path, whole.count("\n", 0, start) + 1, text)


# Compiling them.

def compile_some(cache):
    """Lets sclang compile what it hasn't tried yet; it ends early at a text that ends it or never ends."""
    around = {**os.environ, "SNOVA_CORPUS": str(cache), "QT_QPA_PLATFORM": "offscreen",
              "QTWEBENGINE_DISABLE_SANDBOX": "1"}
    running = subprocess.Popen(["sclang", "-D", SCRIPT], env=around, cwd=cache, stdin=subprocess.DEVNULL,
                               stdout=subprocess.DEVNULL, stderr=subprocess.DEVNULL)
    tried = -1
    while tried < (tried := len(list(cache.glob("*.tried")))):
        try:
            running.wait(PATIENCE)
        except subprocess.TimeoutExpired:
            continue
    running.kill()
    running.wait()


def compiled(found, cache):
    """The definition of each text, or None where there is none."""
    if not cache.exists():
        cache.mkdir(parents=True)
        for number, each in enumerate(found):
            (cache / f"{number}.{each.kind}").write_text(each.text)
    for _ in range(MOST_STARTS):
        if len(list(cache.glob("*.tried"))) == len(found):
            break
        compile_some(cache)
    paths = [cache / f"{number}.scsyndef" for number in range(len(found))]
    return [scgf.read(path.read_bytes())[0] if path.exists() else None for path in paths]


# Converting them.

CONVERTED, STAND_IN, REFUSED = "converted", "stand-in", "refused"


class Case:
    """A definition that is other than those before it: what becomes of it, and how its sounds compare."""

    def __init__(self, number, text, source):
        self.number, self.text, self.source = number, text, source
        self.converted = Definition(source, sounds.RATE)
        self.converted.build()
        if not self.converted.refused:
            self.converted.finish()
        self.sounds = self.fault = None

    @property
    def outcome(self):
        if self.converted.refused:
            return REFUSED
        return STAND_IN if self.converted.graph.stand_ins else CONVERTED

    def is_random(self):
        """Whether a unit in it is another one in each run there."""
        return any(stem in unit.name for unit in self.source.units for stem in RANDOM)

    def line(self):
        """What is known of it, on one line."""
        said = [str(self.number), self.text.kind, self.text.place(), self.outcome]
        said += [f"{self.sounds.level:+.2f} dB", f"{self.sounds.correlation:.4f}"] if self.sounds else []
        return " ".join(said + ["; ".join(self.converted.reasons), self.fault or ""])


def cases(found, definitions):
    """The definitions that are different, whatever their names are."""
    seen = set()
    for number, (text, source) in enumerate(zip(found, definitions)):
        key = (text.kind, repr(source._replace(name=""))) if source else None
        if source and key not in seen:
            seen.add(key)
            yield Case(number, text, source)


def count_table(found, definitions, different):
    """How many texts of each kind come how far."""
    yield "| | found | compile | different | converted | with a stand-in | refused |"
    yield "|---|---|---|---|---|---|---|"
    for kind, title in KINDS.items():
        own = [each for each in different if each.text.kind == kind]
        compile_too = sum(text.kind == kind and source is not None for text, source in zip(found, definitions))
        outcomes = Counter(each.outcome for each in own)
        numbers = [sum(text.kind == kind for text in found), compile_too, len(own), outcomes[CONVERTED],
                   outcomes[STAND_IN], outcomes[REFUSED]]
        yield " | ".join(["| " + title, *map(str, numbers)]) + " |"


def reasons_table(different):
    """For which reasons how many are refused, and for how many it is the only one."""
    yield "| reason | refused | alone |"
    yield "|---|---|---|"
    own = [set(map(general, each.converted.reasons)) for each in different]
    alone = Counter(reason for reasons in own if len(reasons) == 1 for reason in reasons)
    for reason, count in Counter(reason for reasons in own for reason in reasons).most_common():
        yield f"| {reason} | {count} | {alone[reason]} |"


def general(reason):
    """A reason without its rate and its numbers, to be counted with its like."""
    return re.sub(r"(?<!\w)\d+(\.\d+)?(e-?\d+)?\b", "N", re.sub(r"\.(ar|kr|ir|dr)\b", "", reason))


# Hearing them.

class Fault(Exception):
    """A definition that was converted can't be played."""


class Sounds(NamedTuple):
    """How the sound here lies to the one of scsynth: by its level in decibels, and by the correlation of both."""

    level: float
    correlation: float


def score(name, data, node=NODES[0]):
    """A score of one synth: one second of it."""
    messages = [osc.Message("/d_recv", [data]), osc.Message("/s_new", [name, node, 0, 0])]
    packets = [osc.Bundle(0, messages), osc.Bundle(1 << 32, [osc.Message("/c_set", [0, 0])])]
    return b"".join(osc.sized(osc.encoded(each)) for each in packets)


def read(path):
    """The channels of a WAV file of 16 bits."""
    samples = array("h", dict(sounds.chunks(path.read_bytes()))[b"data"])
    return [samples[channel::sounds.CHANNELS].tolist() for channel in range(sounds.CHANNELS)]


def by_scsynth(case, cache):
    """The sound of scsynth, kept in a file; its samples beyond full scale are clipped, as they are here."""
    target, source = cache / f"{case.number}.wav", cache / f"{case.number}.osc"
    if not target.exists():
        source.write_bytes(score(case.source.name, (cache / f"{case.number}.scsyndef").read_bytes()))
        command = ["scsynth", "-N", source, "_", target, str(sounds.RATE), "WAV", "int16", "-o", "2", "-V", "-1"]
        try:
            subprocess.run(command, check=True, timeout=PATIENCE, stdout=subprocess.DEVNULL, stderr=subprocess.DEVNULL)
        except subprocess.SubprocessError:
            target.unlink(missing_ok=True)
            raise
        source.unlink()
    return read(target)


def by_snova(case, program, folder, node):
    """The sound here."""
    (folder / "here.osc").write_bytes(score(case.converted.name, case.converted.text.encode(), node))
    command = [program, "render", *(folder / f"here.{end}" for end in ("osc", "wav", "replies"))]
    subprocess.run(command, check=True, timeout=PATIENCE, stdout=subprocess.DEVNULL)
    replies, _ = osc.whole_packets((folder / "here.replies").read_bytes())
    failed = [reply for reply in map(osc.decoded, replies) if reply.address == "/fail"]
    if failed:
        raise Fault(f"failed: {failed}")
    return read(folder / "here.wav")


def product(a, b):
    return sum(map(operator.mul, a, b))


def compared(there, here):
    """How two sounds lie to each other in the first second after the first block, or None if nothing sounds there."""
    there, here = ([channel[BLOCK:sounds.RATE] for channel in sound] for sound in (there, here))
    there_too = [each for each in there if set(each) != {NO_NUMBER}]
    if max((product(each, each) / len(each) for each in there_too), default=0) < QUIET:
        return None
    own, other, both = (sum(map(product, a, b)) for a, b in ((there, there), (here, here), (there, here)))
    if other == 0:
        return Sounds(-math.inf, 0.0)
    return Sounds(10 * math.log10(other / own), both / math.sqrt(own * other))


def hear(case, program, cache):
    """Lets a definition play, there and here."""
    try:
        there = by_scsynth(case, cache)
        with tempfile.TemporaryDirectory() as folder:
            for node in NODES:
                case.sounds = compared(there, by_snova(case, program, Path(folder), node))
                if not case.sounds or case.sounds.level > -math.inf or not case.is_random():
                    break
    except (Fault, subprocess.SubprocessError) as fault:
        case.fault = str(fault)


def sounds_table(different):
    """Of what is converted and sounds there: how many are near it."""
    yield "| | sound there | silent here | within 1 dB | correlation above 0.99 | above 0.9 |"
    yield "|---|---|---|---|---|---|"
    for kind, title in KINDS.items():
        for random, which in ((False, title), (True, f"{title} with noise")):
            own = [each.sounds for each in different
                   if each.sounds and each.text.kind == kind and each.is_random() == random]
            numbers = [len(own), *(sum(map(test, own)) for test in NEAR)]
            yield " | ".join(["| " + which, *map(str, numbers)]) + " |"


def options():
    parser = argparse.ArgumentParser(description="Converts the definitions that SuperCollider ships, and hears them.")
    parser.add_argument("--count", action="store_true", help="only count what is converted")
    parser.add_argument("--why", action="store_true", help="print the reasons of refusals too")
    parser.add_argument("--list", choices=[CONVERTED, STAND_IN, REFUSED, "apart"], help="print each of an outcome; "
                        "`apart` are those that sound there and whose level is more than 1 dB another one here")
    parser.add_argument("--snova", help="the program that renders")
    parser.add_argument("--cache", type=Path, default=Path("/tmp/snova-corpus"), help="a folder for what sclang wrote")
    given = parser.parse_args()
    if not given.count and not given.snova:
        parser.error("say --count or --snova")
    return given


def listed(case, which):
    if which == "apart":
        return case.fault or case.sounds is not None and abs(case.sounds.level) > 1
    return case.outcome == which


def main():
    given = options()
    found = list(texts())
    definitions = compiled(found, given.cache)
    different = list(cases(found, definitions))
    for line in count_table(found, definitions, different):
        print(line)
    if given.why:
        print(*reasons_table(different), sep="\n")
    if not given.count:
        for case in different:
            if case.outcome != REFUSED:
                hear(case, given.snova, given.cache)
        print(*sounds_table(different), sep="\n")
    for case in different:
        if given.list and listed(case, given.list):
            print(case.line())
    return 0


if __name__ == "__main__":
    sys.exit(main())
