"""Checks of what hears the sound for clients: levels, and files that are recorded."""
import contextlib
import io
import math
import random
import tempfile
from pathlib import Path
from types import SimpleNamespace

import live_checks
import sounds
from binary import version_1
from stand import Client, gateway

from converter import osc, scgf, soundfiles
from converter.osc import Message
from converter.scgf import AUDIO, CONTROL, Source
from keeper.hearing import Hearing, Levels, Switch

FRAMES, LAG, DAMAGED = 4800, 3.0, 1000


def compare(what, wanted, found):
    if wanted != found:
        yield f"{what}: wanted {wanted}, got {found}"


def unit(name, rate, inputs, outputs=1, special=0):
    return scgf.Unit(name, rate, inputs, outputs, special)


def recorder():
    """What sclang's Recorder sends: a synth that records two buses for a time, or until it is freed."""
    units = [unit("Control", CONTROL, [], 3), unit("BinaryOpUGen", CONTROL, [Source(0, 2), 0.0], 1, 10),
             unit("MulAdd", CONTROL, [Source(1, 0), -2.0, 2.0]),
             unit("Line", CONTROL, [0.0, 0.0, Source(0, 2), Source(2, 0)]),
             unit("In", AUDIO, [Source(0, 0)], 2), unit("DiskOut", AUDIO, [Source(0, 1), Source(4, 0), Source(4, 1)])]
    return scgf.SynthDef("recorder", [0.0, 0.0, 0.0], [("in", 0), ("bufnum", 1), ("duration", 2)], units)


def meters(bus):
    """What a ServerMeter sends: levels of two buses, a tenth of a second each."""
    units = [unit("In", AUDIO, [bus], 2),
             unit("SendPeakRMS", CONTROL, [10.0, LAG, 7.0, 2.0, Source(0, 0), Source(0, 1), 2.0, *map(float, b"/o")])]
    return scgf.SynthDef(f"meters{bus:g}", [], [], units)


def spans():
    """What is on from some frames to others is heard there alone, whatever pieces the sound comes in."""
    for piece in (1, 7, 64, 1000):
        switch, found = Switch(), set()
        for at, is_on in ((10, True), (20, True), (30, False), (30, True), (50, False), (900, True)):
            switch.turn(at, is_on)
        for begin in range(0, 1000, piece):
            for first, last in switch.spans(begin, begin + piece):
                found.update(range(first, last))
        wanted = {*range(10, 50), *range(900, -(-1000 // piece) * piece)}
        yield from compare(f"pieces of {piece}", wanted, found)


def levels():
    """A sine has its peak and its mean level; then the peak falls as it does in scsynth, 60 dB in the time given."""
    found, heard = [], Levels(sounds.RATE, 10, LAG, [0, 5], 2)
    sound = [round(8192 * math.sin(math.tau * at / 100)) for at in range(FRAMES)]
    samples = [each for value in sound for each in (value, 0)] + [0] * 2 * FRAMES
    for at in range(0, len(samples), 300):
        found += heard.take(samples[at:at + 300], 32768)
    wanted = [[0.25, 0.176778, 0, 0], [0.198582, 0, 0, 0]]
    yield from compare("levels", wanted, [[round(each, 6) for each in report] for report in found])


class Played:
    """A gateway whose server sends the sound that is put in here."""

    def __init__(self):
        self.opened, self.server = gateway()
        settings = SimpleNamespace(channels=2, rate=sounds.RATE, bits=16, wide=4)
        self.sound, self.client, self.lines = SimpleNamespace(hears=[], source=None), Client(), []
        self.opened.ears = Hearing(settings, self.sound, self.opened, self.lines.append)
        self.opened.serve(self.server)
        self.send("/notify", 1)

    def send(self, *there):
        """Sends a command, and answers what comes back."""
        self.client.taken()
        with contextlib.redirect_stderr(io.StringIO()):
            self.opened.take(self.client, osc.encoded(Message(there[0], list(there[1:]))))
        return self.taken()

    def define(self, source):
        return self.send("/d_recv", version_1(source))

    def taken(self):
        return [[each.address, *each.arguments] for each in map(osc.decoded, self.client.taken())]

    def play(self, value, frames):
        """So many frames come, of which both channels have a value, the second one less by 1."""
        data = (value.to_bytes(2, "little", signed=True) + (value - 1).to_bytes(2, "little", signed=True)) * frames
        for at in range(0, len(data), 999):
            self.sound.hears[0](data[at:at + 999])
        self.opened.ears.look()


def recorded():
    """A file has what was heard while its synth ran, and not while it paused; /done comes once all is in it."""
    with tempfile.TemporaryDirectory() as folder:
        path, played = Path(folder) / "out.wav", Played()
        yield from compare("a definition", [["/done", "/d_recv"]], played.define(recorder()))
        played.send("/b_alloc", 3, 65536, 2)
        done = played.send("/b_write", 3, str(path), "wav", "int16", 0, 0, 1)
        yield from compare("a file that stays open", [["/done", "/b_write", 3]], done)
        played.play(1, 10)
        played.send("/s_new", "recorder", 1000, 0, 0, "bufnum", 3, "duration", -1)
        played.play(2, 100)
        played.opened.hear_message(Message("/n_off", [1000, 0, -1, -1, 0]))
        played.play(3, 100)
        played.opened.hear_message(Message("/n_on", [1000, 0, -1, -1, 0]))
        played.play(4, 50)
        played.send("/n_free", 1000)
        yield from compare("the end of a file", [], played.send("/b_close", 3))
        played.play(5, 10)
        yield from compare("its answer", [["/done", "/b_close", 3]], played.taken())
        found = soundfiles.read(path)
        yield from compare("the file", (2, [2, 1] * 100 + [4, 3] * 50), (found.channels, list(found.samples)))
        outside = played.send("/s_new", "recorder", 1001, 0, 0, "in", 1, "bufnum", 3)
        reason = "the sound that goes out has 2 channels, and bus 2 can't be recorded"
        yield from compare("another bus", [["/fail", "/s_new", reason]], outside)
        yield from compare("no file", [["/done", "/b_close", 3]], played.send("/b_close", 3))


def file_forms():
    """Files of all forms that grow are as those that are written at once; the end of a session closes them."""
    for kind in soundfiles.WRITERS:
        for coding in soundfiles.CODINGS:
            with tempfile.TemporaryDirectory() as folder:
                path, played = Path(folder) / "out", Played()
                played.define(recorder())
                played.send("/b_alloc", 3, 65536, 2)
                played.send("/b_write", 3, str(path), kind, coding, 0, 0, 1)
                played.send("/s_new", "recorder", 1000, 0, 0, "bufnum", 3)
                played.play(-4096, 33)
                played.opened.ears.close()
                values = [-4096 / 32768, -4097 / 32768] * 33
                yield from compare(f"{kind} {coding}", soundfiles.written((kind, coding), 2, sounds.RATE, values),
                                   path.read_bytes())


def reported():
    """Levels of the sound are reported under the id of the synth for clients; those of other buses are 0."""
    played = Played()
    for number, bus in ((1000, 0.0), (1001, 2.0)):
        played.define(meters(bus))
        played.send("/s_new", f"meters{bus:g}", number, 1, 0)
    played.send("/s_noid", 1000)
    played.play(8192, FRAMES)
    found = [[*each[:3], *(round(value, 4) for value in each[3:])] for each in played.taken()]
    yield from compare("levels", [["/o", -16, 7, 0.25, 0.25, 0.25, 0.25], ["/o", 1001, 7, 0, 0, 0, 0]], found)
    played.send("/n_free", 1001)
    played.send("/n_free", -16)
    played.play(1, FRAMES)
    yield from compare("after its end", [], played.taken())
    yield from compare("what is kept", [{}, []], [played.opened.ears.listeners, played.opened.ears.ending])


def unheard():
    """Where the sound doesn't pass through, and for what isn't the sound, there is a reason."""
    opened, _ = gateway()
    client, found = Client(), Played().define(meters(0.0)._replace(units=meters(0.0).units[1:]))
    with contextlib.redirect_stderr(io.StringIO()):
        opened.take(client, osc.encoded(Message("/d_recv", [version_1(meters(0.0))])))
    answer = osc.decoded(client.taken()[-1]).arguments[1]
    yield from compare("without a keeper", "meters0: SendPeakRMS.kr: it hears the sound, which passes through live.py "
                       "only if it starts snova itself (docs/INSTALLATION.md)", answer)
    yield from compare("another signal", "/fail", found[0][0])


def damage():
    """Whatever comes while something is heard, what hears goes on."""
    with tempfile.TemporaryDirectory() as folder:
        played, source = Played(), random.Random(3)
        there = [["/d_recv", version_1(recorder())], ["/d_recv", version_1(meters(0.0))], ["/b_alloc", 3, 64, 2],
                 ["/s_new", "recorder", 1000, 0, 0, "bufnum", 3], ["/s_new", "meters0", 1001, 1, 0],
                 ["/n_run", 1000, 0], ["/n_run", 1000, 1], ["/s_noid", 1000], ["/n_free", 1000],
                 ["/b_close", 3], ["/n_free", 1001], ["/s_newargs", "recorder", 1002, 0, 0, "bufnum", 1, 3]]
        packets = [osc.encoded(Message(each[0], each[1:])) for each in there]
        kept_open = osc.encoded(Message("/b_write", [3, f"{folder}/out", "wav", "int16", 0, 0, 1]))

        def act():
            for _ in range(DAMAGED):
                data = source.choice(packets)
                for each in (data if source.random() < 0.5 else live_checks.damaged(source, data), kept_open):
                    played.opened.take(played.client, each)
                played.play(source.randrange(-3000, 3000), 64)
                played.client.taken()
        found = live_checks.quietly(act)
        yield from (line for line in found.splitlines() if line.startswith("dropped"))
        yield from compare("what is reported", [], played.lines)


CHECKS = [spans, levels, recorded, file_forms, reported, unheard, damage]
