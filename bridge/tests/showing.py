"""Checks of waves that are shown in sclang: a scope opens, shows what its synth writes, and closes."""
import contextlib
import io
import os
import random
import struct
import tempfile
from pathlib import Path

import live_checks
from binary import version_1
from stand import Client, Stand, gateway

import definitions as model_definitions
from converter import osc, scgf, shared
from converter.osc import Message
from converter.scgf import AUDIO, CONTROL, Source
from converter.showing import Scopes

PORT, BUFFER, SCOPE, CYCLE, RING = 57, 1023, 2, 100, 512
DAMAGED = 2000
# The definition of `stethoscope` here.
TEXT = f"""snova 1
def stethoscope2
control bus 0
control rate 0
control cycle 0
control scope_buffer 0
w1 = In.ar bus
w2 = In.kr bus
w3 = Lt rate 1.0
w4 = Mul w2 -1.0
w5 = Add w1 w4
w6 = MulAdd w5 w3 w2
w7 = Phasor 0.0 1 0 {RING} 0
w8 = Phasor 0.0 1 0 1073741824 0
BufWr scope_buffer w7 w6
BufWr scope_buffer {RING} w8
end
"""
SYNTH = ["stethoscope2", 1000, 1, 0, "bus", 0, "rate", 0, "cycle", CYCLE + 0.5]


def compare(what, wanted, found):
    if wanted != found:
        yield f"{what}: wanted {wanted}, got {found}"


def unit(name, rate, inputs, outputs=1, special=0):
    return scgf.Unit(name, rate, inputs, outputs, special)


def stethoscope():
    """What a Stethoscope of one channel sends, but for fewer frames."""
    units = [unit("Control", CONTROL, [], 3), unit("In", AUDIO, [Source(0, 0)]), unit("In", CONTROL, [Source(0, 0)]),
             unit("K2A", AUDIO, [Source(2, 0)]), unit("Select", AUDIO, [Source(0, 1), Source(1, 0), Source(3, 0)]),
             unit("ScopeOut2", AUDIO, [float(SCOPE), 128.0, Source(0, 2), Source(4, 0)])]
    return scgf.SynthDef("stethoscope2", [0.0, 0.0, 0.0], [("bus", 0), ("rate", 1), ("cycle", 2)], units)


class Ring(Stand):
    """A server with a ring into which each frame is written with its own number, as a sample is; `count` have been."""

    count = late = 0

    def answers(self, message):
        given = message.arguments
        if message.address == "/b_getn":
            last = self.count - 1
            written = (last - (last - at) % RING for at in range(given[1], sum(given[1:])))
            return [Message("/b_setn", [*given, *written])]
        if message.address == "/b_get":
            self.count, self.late = self.count + self.late, 0
            return [Message("/b_set", [*given, self.count - 1])]
        return super().answers(message)


class Opened:
    """A gateway that shows waves, whose server has a ring."""

    def __init__(self, folder):
        self.folder, self.client, self.server = Path(folder), Client(), Ring()
        self.opened, _ = gateway()
        self.server.hear = lambda message: self.opened.hear(osc.encoded(message))
        self.scopes = self.opened.scopes = Scopes()
        self.scopes.open(PORT, folder)
        self.opened.serve(self.server)
        self.send("/d_recv", version_1(stethoscope()))

    def send(self, *there):
        """Sends a command, and answers what comes back, and what the server was sent."""
        self.client.taken()
        self.server.came.clear()
        with contextlib.redirect_stderr(io.StringIO()):
            self.opened.take(self.client, osc.encoded(Message(there[0], list(there[1:]))))
        return [[each.address, *each.arguments] for each in map(osc.decoded, self.client.taken())]

    def came(self):
        return [[each.address, *each.arguments] for each in self.server.came]

    def look(self):
        """Looks when a wave is due."""
        for shown in self.scopes.shown.values():
            shown.due = 0.0
        self.server.came.clear()
        self.scopes.look(self.opened)

    def shows(self):
        """The status of the scope, and the wave that sclang reads next."""
        at, file = shared.SCOPES + shared.SCOPE * SCOPE, self.scopes.segment.file

        def read(form, place):
            return struct.unpack(form, os.pread(file, struct.calcsize(form), place))
        (status,), (part,) = read("<i", at), read("<i", at + shared.STAGE)
        frames, changed = read("<II", at + shared.FIRST_PART + shared.PART * part + 8)
        return status, list(read(f"<{frames * changed}f", shared.area(SCOPE, part)))


def shown():
    """What a Stethoscope sends shows the last whole cycle of the signal, or of a control bus in its measure."""
    with tempfile.TemporaryDirectory() as folder:
        there = Opened(folder)
        texts = [each[1] for each in there.came() if each[0] == "/d_recv"]
        yield from compare("its definition", [TEXT.encode()], texts)
        model_definitions.read(texts[0])
        there.send("/s_new", *SYNTH)
        wanted = [["/b_alloc", BUFFER, RING + 1, 1], ["/s_new", *SYNTH[:4], "bus", 0, "rate", 0, "cycle", 100500,
                                                      "scope_buffer", BUFFER]]
        yield from compare("a synth", wanted, there.came())
        yield from compare("nothing yet", (1, []), there.shows())
        for count, wave in ((730, []), (735, range(600, 700)), (1090, range(600, 700)), (1090, range(900, 1000))):
            there.server.count = count
            there.look()
            yield from compare(f"after {count}", (1, [each / 2**24 for each in wave]), there.shows())
        there.server.late = RING
        there.look()
        yield from compare("overwritten", (1, [each / 2**24 for each in range(900, 1000)]), there.shows())
        there.send("/c_set", 3, 440.0)
        there.send("/n_set", 1000, "bus", 3, "rate", 1)
        there.look()
        wanted = struct.unpack("<100f", struct.pack("<100f", *(each / 1000 for each in range(1500, 1600))))
        yield from compare("a control bus in hertz", (1, list(wanted)), there.shows())


def closed():
    """A client can't take a scope or its buffer; when the synth is gone both are free, and the file goes in the end."""
    with tempfile.TemporaryDirectory() as folder:
        there = Opened(folder)
        there.send("/s_new", *SYNTH)
        there.send("/n_free", 1000)
        there.send("/s_new", *SYNTH)
        yield from compare("another one at once", BUFFER - 1, there.came()[-1][-1])
        there.look()
        yield from compare("what is freed", ["/b_free", BUFFER], there.came()[0])
        used = there.send("/s_new", SYNTH[0], 1001, *SYNTH[2:])
        yield from compare("a scope that is in use", [["/fail", "/s_new", f"the scope {SCOPE} is in use"]], used)
        reason = f"a scope has the buffer {BUFFER - 1}; take one of a lower number"
        taken = there.send("/b_alloc", BUFFER - 1, 64, 1)
        yield from compare("its buffer", [["/fail", "/b_alloc", reason]], taken)
        there.send("/n_free", 1000)
        there.look()
        yield from compare("at the end", ([["/b_free", BUFFER - 1]], 0), (there.came(), there.shows()[0]))
        kept = [there.scopes.shown, there.scopes.ended, there.opened.session.buffers, there.opened.questions]
        yield from compare("what is kept", [{}, [], {}, {}], kept)
        there.scopes.close()
        yield from compare("the file", [], list(Path(folder).iterdir()))


def unshown():
    """Where no memory is shared, a scope is refused for the reason."""
    there = Opened("/nowhere")
    found = there.send("/d_recv", version_1(stethoscope()))[-1]
    reason = "stethoscope2: ScopeOut2.ar: sclang shares memory with a server on Linux and x86-64 alone"
    yield from compare("no memory", ["/fail", "/d_recv", reason], found)


def damage():
    """Whatever comes while waves are shown, what shows them goes on."""
    with tempfile.TemporaryDirectory() as folder:
        there, source = Opened(folder), random.Random(5)
        sent = [["/d_recv", version_1(stethoscope())], ["/s_new", *SYNTH], ["/n_set", 1000, "cycle", 64, "rate", 1],
                ["/n_free", 1000], ["/b_alloc", BUFFER, 64, 1], ["/b_free", BUFFER], ["/b_getn", BUFFER, 0, 9]]
        packets = [osc.encoded(Message(each[0], each[1:])) for each in sent]

        def act():
            for _ in range(DAMAGED):
                data = source.choice(packets)
                there.opened.take(there.client, live_checks.damaged(source, data) if source.random() < 0.5 else data)
                there.server.count += source.randrange(300)
                there.look()
                there.client.taken()
        found = live_checks.quietly(act)
        yield from (line for line in found.splitlines() if line.startswith("dropped"))


CHECKS = [shown, closed, unshown, damage]
