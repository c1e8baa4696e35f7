#!/usr/bin/env python3
"""Tries the bridge on what sclang wrote (data/), prints what is other than it should be, and exits with 1 then.

    python3 bridge/tests/run.py
"""
import contextlib
import re
import subprocess
import sys
import tempfile
from pathlib import Path

import files
import hearing
import keeping
import live_checks
import page
import showing
import sounds
import window
from binary import version_1
from expected import BY_NUMBER, COMMANDS, FURTHER_SOUNDS, NUMBERED, REFUSED, REPLIES, SOUNDS

import convert
import definitions as model_definitions
from converter import further, osc, scgf, shorter
from converter.definitions import CONTROLS, OPERATORS, Definition
from converter.osc import Message
from converter.replies import back
from converter.session import Session
from converter.table import COMMANDS as TABLE
from converter.table import NUMBERS
from converter.units import converted

DATA = sounds.DATA
CONVERT = Path(__file__).resolve().parent.parent / "convert.py"
TAKEN, REFUSED_FILE, FURTHER_FILE = (DATA / f"{name}.scsyndef" for name in ("taken", "refused", "further"))


def compare(what, wanted, found):
    if wanted != found:
        yield f"{what}: wanted {wanted}, got {found}"


@contextlib.contextmanager
def here(units):
    """These units are here, of those that the server has got last."""
    kept = set(further.HERE)
    further.HERE.clear()
    further.HERE.update(units)
    try:
        yield
    finally:
        further.HERE.clear()
        further.HERE.update(kept)


def text_of(source):
    """The text of a definition, or why it is refused."""
    definition = Definition(source, sounds.RATE)
    definition.build()
    if not definition.refused:
        definition.finish()
    return definition.refused or definition.text


def definitions():
    """Each definition becomes the text that is wanted, which the model reads; others are refused for the reason."""
    texts = texts_of(DATA / "taken.txt")
    sources = scgf.read(TAKEN.read_bytes())
    yield from compare("how many definitions", len(texts), len(sources))
    for source, text in zip(sources, texts):
        found = text_of(source)
        yield from compare(source.name, text, found.rstrip("\n"))
        try:
            model_definitions.read(found.encode())
        except model_definitions.BadLine as bad:
            yield f"{source.name}: line {bad} is none"
    found = {source.name: text_of(source) for source in scgf.read(REFUSED_FILE.read_bytes())}
    yield from compare("refused", REFUSED, found)


def texts_of(path):
    """The texts of a file, without the ends of their last lines."""
    return [text.rstrip("\n") for text in path.read_text().replace("end\n\n", "end\n\0").split("\0")]


def further_texts():
    """With all units that the server has got last the definitions become other texts."""
    sources, texts = scgf.read(FURTHER_FILE.read_bytes()), texts_of(DATA / "further.txt")
    yield from compare("how many definitions", len(texts), len(sources))
    with here(further.FURTHER):
        for source, text in zip(sources, texts):
            yield from compare(source.name, text, text_of(source).rstrip("\n"))


def by_sections():
    """Without the state-variable filter, filters whose frequency moves become sections."""
    sources = {source.name: source for source in scgf.read(FURTHER_FILE.read_bytes())}
    with here(further.FURTHER - {"SVF"}):
        yield from compare("swept by sections", (DATA / "swept.txt").read_text(), text_of(sources["swept"]))


def without_each():
    """Without one of these units no text has it; what then can't be said is refused."""
    for unit in further.FURTHER:
        with here(further.FURTHER - {unit}):
            for source in scgf.read(FURTHER_FILE.read_bytes()):
                found = text_of(source)
                wrong = found.startswith("snova") and unit in found.split()
                yield from compare(f"{source.name} without {unit}", False, wrong)


def units_here():
    """The units that are taken to be here are those that the model knows."""
    yield from compare("units that aren't here", set(), further.HERE - set(model_definitions.UNITS))


# Lines that are shortened, and what they become. `n` has whole numbers.
LONG = """a = Mul x 0.5|b = MulAdd a 0.5 0.25|c = Mul b y|d = Add z c|e = Mul z -1.0|f = Add d e|g = MulAdd x 2.0 -2.0
h = Exp2 g|i = Mul h 0.5|n = MulAdd x 3 0|o = Mul n 64.0|p = Line 0.0 1.0 9 2|q = Line 0.0 1.0 9 2|r = Clip q 0.0 0.5
Out.ar 0 f i o r"""
SHORT = """b = MulAdd x 4194304 4194304|d = MulAdd b y z|f = Sub d z|g = MulAdd x 33554432 -50331648|h = Exp2 g
n = MulAdd x 3 0|o = Mul n 64.0|p = Line 0.0 1.0 9 2|r = Clip p 0.0 0.5|Out.ar 0 f h o r"""


def line_of(text):
    head, _, rest = text.rpartition("= ")
    unit, *inputs = rest.split()
    return shorter.Line(unit, inputs, head.split())


def shortened():
    """What takes too many units is said by fewer of them, and whole numbers are still rounded."""
    found = shorter.shorter([line_of(text) for text in re.split(r"[|\n]", LONG)], {"n"}, 10, None)
    yield from compare("shortened", re.split(r"[|\n]", SHORT), [line.text() for line in found])
    begins, notes = ["s = Impulse 0", "d = Delay1 x", "f = MulAdd r s d", "o = Latch f t", "Out.ar 0 o"], []
    found = shorter.shorter([line_of(text) for text in begins], set(), 3, notes.append)
    wanted = ["d = Delay1 x", "o = Latch d t", "Out.ar 0 o"]
    yield from compare("from the middle", wanted, [line.text() for line in found])
    yield from compare("its note", ["its noise begins in the middle"], notes)


def many():
    """A definition with units that can't be converted."""
    a, b, c = (scgf.Source(unit, 0) for unit in range(3))
    units = [("Missing", [], 0), ("SinOsc", [a, a], 0), ("Lag", [a, a], 0), ("BinaryOpUGen", [b, a], 4),
             ("Missing", [c], 0), ("Decay", [b, a], 0), ("Out", [0.0, a, b], 0)]
    return scgf.SynthDef("many", [], [], [scgf.Unit(name, scgf.AUDIO, inputs, 1, special)
                                          for name, inputs, special in units])


# Why it is refused: each reason once, and none that only follows from another one.
REASONS = ["Missing.ar: there is no such unit here", "BinaryOpUGen.ar /: division by a signal isn't there",
           "Decay.ar: its time must be a constant"]


def reasons():
    """All reasons of a refusal are named."""
    found = Definition(many(), sounds.RATE)
    found.build()
    yield from compare("reasons", REASONS, found.reasons)


def reported():
    """The end of a run says how much plays; what is refused stands once, with what needs it."""
    commands_there = [
        ("/d_recv", TAKEN.read_bytes()), ("/d_recv", version_1(many())), ("/s_new", "many", 1000, 0, 0),
        ("/s_new", "many", 1001, 0, 0), ("/n_set", 1000, "gate", 0), ("/s_new", "absent", 1002, 0, 0),
        ("/s_new", "tone", 1003, 0, 0), ("/n_set", 1003, "amp", 500), ("/n_set", 1003, "amp", 600), (0,)]
    score = [(0, [Message(address, list(given)) for address, *given in commands_there])]
    session_there = Session(sounds.RATE, learnt=convert.learnt(score, sounds.RATE))
    session_there.most_reasons = None
    convert.turned(score, session_there, False)
    *lines, last = [line for line in convert.report(session_there) if not line.startswith("note")]
    need = " (2 notes and 1 other command need it)"
    wanted = [f"refused: /d_recv many: {reason}{need if reason is REASONS[0] else ''}" for reason in REASONS]
    wanted += ["refused: /n_set 1003: 500 is too great for samples, which are below 128 here (2 times)",
               "refused: /s_new absent: the definition absent didn't come (1 note needs it)"]
    yield from compare("what is reported", wanted, lines)
    count = len(scgf.read(TAKEN.read_bytes())) + 1
    start = f"1 of 4 notes play, 1 of {count} definitions is refused, and "
    yield from compare("the last line", start, last[:len(start)])


def named(page, start, end):
    """What stands in the first column of a table of a page."""
    rows = re.findall(r"^\| ([^|]+) \| ([^|]+)", page[page.index(start):page.index(end)], re.M)
    return {name: what for names, what in rows[1:] for name in names.split(", ")}


def table():
    """The tables of bridge/FROM-SUPERCOLLIDER.md name each unit and each command, and no other, and what is refused."""
    text_of_page = (sounds.TOP / "bridge/FROM-SUPERCOLLIDER.md").read_text()
    units = named(text_of_page, "| Unit there |", "## The commands that the bridge takes")
    yield from compare("the table of units", sorted({*converted(), *CONTROLS, *OPERATORS}), sorted(units))
    commands_there = named(text_of_page, "| Command there |", "## How much of it plays")
    yield from compare("the table of commands", sorted(set(TABLE) - {"/none"}), sorted(commands_there))
    refused = sorted(name for name, what in commands_there.items() if what.startswith("refused"))
    yield from compare("refused commands", sorted(name for name, row in TABLE.items() if row.refused), refused)


def all_units():
    """bridge/FROM-SUPERCOLLIDER.md has all units of SuperCollider as page.py prints them."""
    text = (sounds.TOP / "bridge/FROM-SUPERCOLLIDER.md").read_text()
    found, others = page.table()
    yield from compare("units that have no kind", [], page.missing())
    yield from compare("the table of all units", True, "\n".join(found) + "\n\n" in text)
    for unit, names in page.operators():
        yield from compare(f"the operators of {unit}", True, f"| {unit} | {names} |" in text)
    read_me = (sounds.TOP / "bridge/README.md").read_text()
    yield from compare("the table of what is needed", True, "\n".join([*page.NEEDED, *page.needing()]) in read_me)
    yield from compare("what sclang writes with others", True, ", ".join(others) + "." in re.sub(r"\s+", " ", text))


def versions():
    """A file of version 1 reads as the one of version 2 of which it is made; bytes that are cut are told."""
    for source in scgf.read(TAKEN.read_bytes()):
        yield from compare(f"{source.name} of version 1", [source], scgf.read(version_1(source)))
    whole = TAKEN.read_bytes()
    for size in (3, 9, 40, len(whole) - 1):
        try:
            scgf.read(whole[:size])
            yield f"{size} bytes of a file are taken"
        except scgf.BadFile:
            pass


def session():
    """A session that has the definitions that are taken, and what it sent for them."""
    found = Session(sounds.RATE, live=True)
    found.messages(Message("/d_recv", [TAKEN.read_bytes()]))
    return found


def commands():
    """Commands in a row become those that are wanted, or are refused for the reason."""
    played = session()
    for there, wanted in COMMANDS:
        played.refusals = []
        found = [[each.address, *each.arguments] for each in played.messages(Message(there[0], there[1:]))]
        yield from compare(there, wanted, played.refusals[0] if played.refusals else found)
    for there, wanted in REPLIES:
        found = back(played, Message(there[0], there[1:]))
        yield from compare(there, wanted, [found.address, *found.arguments])


def numbers():
    """Each number of the Server Command Reference is that of its command, and no other is there."""
    yield from compare("the numbers", dict(enumerate("/" + name for name in NUMBERED)),
                       {number: row.address for number, row in sorted(NUMBERS.items())})


def own_controls():
    """A trigger that comes again is another number; each synth has buses of its own for what it feeds back."""
    struck = scgf.SynthDef("struck", [0.0], [("t_hit", 0)], [
        scgf.Unit("TrigControl", scgf.CONTROL, [], 1, 0),
        scgf.Unit("FreeSelf", scgf.CONTROL, [scgf.Source(0, 0)], 0, 0)])
    echo = scgf.SynthDef("echo", [], [], [
        scgf.Unit("LocalIn", scgf.AUDIO, [0.0], 1, 0), scgf.Unit("LocalOut", scgf.AUDIO, [scgf.Source(0, 0)], 0, 0)])
    played = Session(sounds.RATE)
    for source in (struck, echo):
        played.messages(Message("/d_recv", [version_1(source)]))
    sent = [["/s_new", "struck", 5], ["/n_set", 5, "t_hit", 1.0], ["/n_set", 5, "t_hit", 1.0],
            ["/s_new", "echo", 6], ["/s_new", "echo", 7]]
    found = [[each.address, *each.arguments] for there in sent
             for each in played.messages(Message(there[0], there[1:]))]
    one = 1 << 24
    wanted = [["/s_new", "struck", 5, 0, 0], ["/n_set", 5, "t_hit", one + 1], ["/n_set", 5, "t_hit", one + 2],
              ["/s_new", "echo", 6, 0, 0, "local_bus", 127], ["/s_new", "echo", 7, 0, 0, "local_bus", 126]]
    yield from compare("own controls", wanted, found)


def counted_part():
    """A part of the frames of a buffer, from which on frames and places between them are read, is one of these."""
    control, frames, place, at = scgf.Source(0, 0), scgf.Source(1, 0), scgf.Source(2, 0), scgf.Source(3, 0)
    units = [("Control", scgf.CONTROL, [], 2, 0), ("BufFrames", scgf.SCALAR, [control], 1, 0),
             ("BinaryOpUGen", scgf.CONTROL, [scgf.Source(0, 1), frames], 1, 2),
             ("Phasor", scgf.AUDIO, [0.0, 0.5, place, frames, 0.0], 1, 0),
             ("BufRd", scgf.AUDIO, [control, at, 1.0, 1.0], 1, 0), ("Out", scgf.AUDIO, [0.0, scgf.Source(4, 0)], 0, 0)]
    found = text_of(scgf.SynthDef("part", [0.0, 0.0], [("bufnum", 0), ("start", 1)], [scgf.Unit(*u) for u in units]))
    wanted = ["w1 = BufFrames bufnum", "w2 = Mul w1 64.0", "w3 = Mul w2 1073741824", "w4 = Mul start w3",
              "w5 = Phasor 0.0 2048 w4 w3 0", "w6 = Mul w5 4096", "w7 = BufRd bufnum w6", "Out.ar 0 w7", "end"]
    yield from compare("a part of the frames", wanted, found.splitlines()[4:])


def given_back():
    """In a score an id that is used again after /s_noid becomes another one, until its synth is freed."""
    played, source = Session(sounds.RATE), scgf.SynthDef("still", [], [], [])
    played.messages(Message("/d_recv", [version_1(source)]))
    sent = [["/s_new", "still", 5, 0, 0], ["/s_noid", 5], ["/s_new", "still", 5, 0, 0], ["/n_run", 5, 0],
            ["/n_free", 5], ["/s_new", "still", 6, 3, -16], ["/n_free", -16], ["/s_new", "still", 5, 0, 0]]
    found = [[each.address, *each.arguments] for there in sent
             for each in played.messages(Message(there[0], there[1:]))]
    other = 1 << 30
    wanted = [["/s_new", "still", 5, 0, 0], ["/s_new", "still", other, 0, 0], ["/n_run", other, 0],
              ["/n_free", other], ["/s_new", "still", 6, 3, 5], ["/n_free", 5], ["/s_new", "still", 5, 0, 0]]
    yield from compare("an id that is given back", wanted, found)
    yield from compare("what is refused", [], played.refusals)


def packets():
    """What is spelled is read again."""
    message = Message("/a", [1, 0.5, "b", b"cd", [2, "e"]])
    nested = osc.Bundle(7, [message, osc.Bundle(9, [Message("/f", [])])])
    for packet in (message, nested):
        yield from compare("a packet", packet, osc.decoded(osc.encoded(packet)))
    for data, message in BY_NUMBER:
        yield from compare("a message by number", message, osc.decoded(data))
        yield from compare("its bytes", data, osc.encoded(message))
    for data in (b"", b"/a\0", b"/a\0\0,i\0\0", b"/a\0\0,?\0\0"):
        try:
            osc.decoded(data)
            yield f"{data} is taken for a packet"
        except osc.BadPacket:
            pass


def heard(wanted=SOUNDS):
    """The begin of each score, rendered by the model, is that of scsynth within some decibels."""
    for name, most in wanted.items():
        there = sounds.kept_sound(DATA / f"{name}.raw")
        here = sounds.by_model(sounds.turned(DATA / f"{name}.osc"), sounds.KEPT_FRAMES // 64)
        for channel, (a, b) in enumerate(zip(there, here)):
            apart = sounds.decibels(a[64:], b[64:]) if any(a) else -200
            if apart > most:
                yield f"{name}, channel {channel}: {apart:.1f} dB apart, and at most {most} are wanted"


def further_sounds():
    return heard(FURTHER_SOUNDS)


def random():
    """A number from 0.2 to 0.4 that stays, and a noise of -1 and 1, both at half their level."""
    number, noise = sounds.by_model(sounds.turned(DATA / "random.osc"), 4)
    yield from compare("a random number stays", 1, len(set(number)))
    yield from compare("it is in its range", True, 0.1 <= number[0] <= 0.2)
    yield from compare("a noise of -1 and 1", {-0.5, 0.5}, set(noise))


def strictness():
    """A run goes on after a refusal, and ends at it if it is strict."""
    with tempfile.TemporaryDirectory() as folder:
        source, target = Path(folder) / "in.osc", Path(folder) / "out.osc"
        messages = [Message("/d_recv", [REFUSED_FILE.read_bytes()]), Message("/c_set", [0, 0.5])]
        source.write_bytes(osc.sized(osc.encoded(osc.Bundle(0, messages))))
        for words, written in (["--strict"], False), ([], True):
            done = subprocess.run([sys.executable, CONVERT, *words, source, target], capture_output=True, text=True)
            yield from compare(f"status {words}", 1, done.returncode)
            yield from compare(f"written {words}", written, target.exists())
            first = "refused: /d_recv meets: Out.ar: hertz and samples meet"
            refused = [line for line in done.stderr.splitlines() if line.startswith("refused")]
            yield from compare(f"reported {words}", first, refused[0])
        last = osc.messages_of(osc.decoded(osc.whole_packets(target.read_bytes())[0][-1]))[-1]
        yield from compare("what is left", Message("/c_set", [0, 8388608]), last)


# With the units that are here, and without those that the server has got last.
WITH = [table, all_units, units_here, further_texts, by_sections, without_each, heard, further_sounds,
        random]
WITHOUT = [shortened, numbers, packets, versions, definitions, reasons, reported, commands, own_controls, counted_part,
           given_back, heard, random, strictness, *files.CHECKS, *live_checks.CHECKS, *keeping.CHECKS, *hearing.CHECKS,
           *showing.CHECKS, *window.CHECKS]


def main():
    wrong = [line for check in WITH for line in check()]
    with here(()):
        wrong += [line for check in WITHOUT for line in check()]
    for line in wrong:
        print(line)
    return 1 if wrong else 0


if __name__ == "__main__":
    sys.exit(main())
