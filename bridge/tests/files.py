"""Tries sound files and wave fills: files are made here by `struct`, and what they must hold is worked out by hand."""
import contextlib
import io
import math
import struct
import subprocess
import sys
import tempfile
from pathlib import Path

import sounds
from stand import Client, gateway

from converter import fills, osc, scgf, soundfiles
from converter.osc import Message
from converter.replies import back
from converter.session import Session

DATA = Path(__file__).resolve().parent / "data"
CONVERT = DATA.parent.parent / "convert.py"
ONE = 1 << 24


def compare(what, wanted, found):
    if wanted != found:
        yield f"{what}: wanted {wanted}, got {found}"


def riff(kind, bits, data, channels=1, rate=44100, more=b""):
    form = struct.pack("<HHIIHH", kind, channels, rate, rate * channels * bits // 8, channels * bits // 8, bits) + more
    chunks = [b"fmt ", struct.pack("<I", len(form)), form, b"odd ", struct.pack("<I", 1), b"x\0"]
    body = b"WAVE" + b"".join(chunks) + b"data" + struct.pack("<I", len(data)) + data
    return b"RIFF" + struct.pack("<I", len(body)) + body


def extensible(kind):
    return struct.pack("<HHIH", 22, 24, 0, kind) + bytes.fromhex("000000001000800000aa00389b71")


# 44,100 as a float of 80 bits: 44100 / 2^15 times 2^63, and 15 above 16383.
RATE_OF_AIFF = struct.pack(">HQ", 16383 + 15, 44100 << 48)


def form(bits, data, name=b"", channels=1):
    frames = len(data) * 8 // bits // channels
    common = struct.pack(">hIh", channels, frames, bits) + RATE_OF_AIFF + (name + b"\0\0" if name else b"")
    body = (b"AIFC" if name else b"AIFF") + b"COMM" + struct.pack(">I", len(common)) + common
    body += b"SSND" + struct.pack(">III", len(data) + 8, 0, 0) + data
    return b"FORM" + struct.pack(">I", len(body)) + body


def big(hexadecimal):
    return bytes.fromhex(hexadecimal)


def little(hexadecimal, size):
    data = bytes.fromhex(hexadecimal)
    return b"".join(data[at:at + size][::-1] for at in range(0, len(data), size))


# 0.5, -0.5, the greatest and the least number; of 16, 24 and 32 bits. Here 1.0 is 2^24.
OF_16, OF_24, OF_32 = "4000c0007fff8000", "400000c000007fffff800000", "40000000c00000007fffffff80000000"
HALVES = [ONE // 2, -ONE // 2]
READ_16, READ_24, READ_32 = ([*HALVES, most, -ONE] for most in (ONE - 512, ONE - 2, ONE))
# As floats: 0.5, -0.5, 1.0, 200.0, which is beyond the range of a sample here, and -infinity.
OF_FLOATS, READ_FLOATS = "3f000000bf0000003f80000043480000ff800000", [*HALVES, ONE, 2**31 - 1, -2**31]

READ = {
    "WAV of 16 bits": (riff(1, 16, little(OF_16, 2)), READ_16),
    "WAV of 24 bits": (riff(1, 24, little(OF_24, 3)), READ_24),
    "WAV of 32 bits": (riff(1, 32, little(OF_32, 4)), READ_32),
    "WAV of floats": (riff(3, 32, little(OF_FLOATS, 4)), READ_FLOATS),
    "extensible of 24 bits": (riff(0xFFFE, 24, little(OF_24, 3), more=extensible(1)), READ_24),
    "extensible of floats": (riff(0xFFFE, 32, little(OF_FLOATS, 4), more=extensible(3)), READ_FLOATS),
    "WAV that is cut": (riff(1, 16, little(OF_16, 2))[:-3], READ_16[:2]),
    "AIFF of 16 bits": (form(16, big(OF_16)), READ_16),
    "AIFF of 24 bits": (form(24, big(OF_24)), READ_24),
    "AIFF of 32 bits": (form(32, big(OF_32)), READ_32),
    "NONE": (form(24, big(OF_24), b"NONE"), READ_24),
    "twos": (form(16, big(OF_16), b"twos"), READ_16),
    "sowt": (form(16, little(OF_16, 2), b"sowt"), READ_16),
    "in24": (form(24, big(OF_24), b"in24"), READ_24),
    "in32": (form(32, big(OF_32), b"in32"), READ_32),
    "42ni": (form(24, little(OF_24, 3), b"42ni"), READ_24),
    "23ni": (form(32, little(OF_32, 4), b"23ni"), READ_32),
    "fl32": (form(32, big(OF_FLOATS), b"fl32"), READ_FLOATS),
    "FL32": (form(32, big(OF_FLOATS), b"FL32"), READ_FLOATS),
}
REFUSED = {
    "8 bits": (riff(1, 8, b"abcd"), "it has samples of 8 bits, and may have some of 16, 24 or 32"),
    "doubles": (riff(3, 64, bytes(16)), "it has floats of 64 bits, and may have some of 32"),
    "A-law": (riff(6, 8, b"abcd"), "its samples are A-law"),
    "another form": (riff(0x1234, 16, b"abcd"), "its samples are of the form 4660"),
    "u-law": (form(16, b"abcd", b"ulaw"), "its samples are of the form 'ulaw'"),
    "no samples": (riff(1, 16, b"")[:-8], "it has no chunk 'data'"),
    "no channel": (riff(1, 16, b"", channels=0), "it has no channel"),
    "no frame": (riff(1, 16, b""), "it has 0 frames, and none is read from 0 on"),
    "no number": (riff(3, 32, bytes.fromhex("0000c07f")), "nan is no number"),
    "FLAC": (b"fLaC" + bytes(40), "it is FLAC, and may be WAV or AIFF"),
    "RF64": (b"RF64" + bytes(40), "it is RF64, and may be WAV or AIFF"),
    "text": (b"snova 1\n", "it is neither WAV nor AIFF"),
    "nothing": (b"", "it is neither WAV nor AIFF"),
}


def plain(messages):
    """Commands as lists; the samples of a run one by one."""
    read = [osc.decoded(osc.encoded(each)) for each in messages]
    return [[each.address, *each.arguments] for each in read]


class Played:
    """A session of its own, a folder, and the commands there that make of files there what is wanted."""

    def __init__(self, folder):
        self.folder, self.session = Path(folder), Session(sounds.RATE)

    def file(self, name, data):
        (self.folder / name).write_bytes(data)
        return str(self.folder / name)

    def sent(self, *there):
        """What is sent for a command, or why it is refused."""
        self.session.refusals = []
        found = plain(self.session.messages(Message(there[0], list(there[1:]))))
        return found if not self.session.refusals else self.session.refusals[0].rpartition(f"{self.folder}/")[2]


def forms():
    """Files of each form are read, and others refused."""
    with tempfile.TemporaryDirectory() as folder:
        played = Played(folder)
        for name, (data, samples) in READ.items():
            wanted = [["/b_alloc", 0, len(samples), 1], ["/b_setn", 0, 0, len(samples), *samples]]
            yield from compare(name, wanted, played.sent("/b_allocRead", 0, played.file("in", data)))
            yield from compare(f"the rate of {name}", 44100.0, played.session.buffers[0].rate)
        for name, (data, reason) in REFUSED.items():
            yield from compare(name, f"in: {reason}", played.sent("/b_allocRead", 0, played.file("in", data)))
        yield from compare("no file", "none: No such file or directory",
                           played.sent("/b_allocRead", 0, str(played.folder / "none")))


# Of a file of 2 channels and 4 frames, whose samples are 1 to 8 parts of 2^15; an eighth of a kilobyte here.
STEPS = riff(1, 16, struct.pack("<8h", *range(1, 9)), channels=2)


def steps(*numbers):
    return [number * 512 for number in numbers]


def parts():
    """Parts of a file, chosen channels, and buffers that are there already; what is carried comes last."""
    zero = b"/b_zero\0,i\0\0\0\0\0\1"
    with tempfile.TemporaryDirectory() as folder:
        played = Played(folder)
        path = played.file("steps", STEPS)
        cases = [
            (["/b_allocRead", 1, path, 1, 2, zero],
             [["/b_alloc", 1, 2, 2], ["/b_setn", 1, 0, 4, *steps(3, 4, 5, 6)], ["/b_zero", 1]]),
            (["/b_allocRead", 1, path, 2, -1, 0], [["/b_alloc", 1, 2, 2], ["/b_setn", 1, 0, 4, *steps(5, 6, 7, 8)]]),
            (["/b_allocReadChannel", 1, path, 0, 3, 1, zero],
             [["/b_alloc", 1, 3, 1], ["/b_setn", 1, 0, 3, *steps(2, 4, 6)], ["/b_zero", 1]]),
            (["/b_allocReadChannel", 1, path, 0, 0, 1, 0],
             [["/b_alloc", 1, 4, 2], ["/b_setn", 1, 0, 8, *steps(2, 1, 4, 3, 6, 5, 8, 7)]]),
            (["/b_read", 1, path, 0, 3, 2, 0, zero], [["/b_setn", 1, 4, 4, *steps(1, 2, 3, 4)], ["/b_zero", 1]]),
            (["/b_readChannel", 1, path, 3, -1, 0, 0, 0, 1, 0], [["/b_setn", 1, 0, 2, *steps(7, 8)]]),
            (["/b_readChannel", 1, path, 0, -1, 0, 0, 5, 1], "steps: it has no channel 5, but 2 from 0 on"),
            (["/b_readChannel", 1, path, 0, -1, 0, 0, 1], "steps: 1 channels are read, and the buffer has 2"),
            (["/b_read", 1, path, 4], "steps: it has 4 frames, and none is read from 4 on"),
            (["/b_read", 1, path, 0, 1, 4], "/b_read 1: the buffer has 4 frames, and no frame 4"),
            (["/b_read", 1, path, 0, 1, 0, 1],
             "/b_read 1: nothing is played from a disk here, and no file stays open to be read"),
            (["/b_read", 2, path], "/b_read 2: no buffer 2 was made"),
            (["/b_write", 1, path, "wav", "int16"], [["/b_getn", 1, 0, 8]]),
        ]
        for there, wanted in cases:
            yield from compare(there, wanted, played.sent(*there))
        yield from compare("its rate", Message("/b_info", [1, 4, 2, 44100.0]),
                           back(played.session, Message("/b_info", [1, 4, 2, 48000])))
        played.session.memory = 15
        yield from compare("a file that doesn't fit", "steps: with its 8 samples the buffers have 16 words, and snova "
                           "has 15: start both with memory=16", played.sent("/b_allocRead", 2, path))
        played.session.memory, played.session.most_bytes = 16, played.session.file_bytes + 40
        yield from compare("a file that fits", 2, len(played.sent("/b_allocRead", 2, path)))
        reason = f"the command file has more than {played.session.most_bytes} bytes, which snova doesn't read"
        yield from compare("one that doesn't", f"steps: with its 8 samples {reason}",
                           played.sent("/b_allocRead", 2, path))


def sampler():
    """A definition that asks for the rate and the channels of a buffer that a control chooses."""
    out, buffer = scgf.Source(0, 0), scgf.Source(0, 1)
    units = [("Control", scgf.CONTROL, [], 2), ("BufRateScale", scgf.CONTROL, [buffer], 1),
             ("BufChannels", scgf.CONTROL, [buffer], 1),
             ("Line", scgf.CONTROL, [scgf.Source(1, 0), scgf.Source(2, 0), 1.0, 0.0], 1),
             ("Out", scgf.CONTROL, [out, scgf.Source(3, 0)], 0)]
    return scgf.SynthDef("sampler", [0.0, 0.0], [("out", 0), ("buf", 1)], [scgf.Unit(*each, 0) for each in units])


def variants():
    """A synth of a file of another rate or with more channels is one of a definition for such files, sent once."""
    with tempfile.TemporaryDirectory() as folder:
        played = Played(folder)
        definition = played.session.definition(sampler())
        played.session.keep(definition)
        played.sent("/b_alloc", 1, 100)
        played.sent("/b_allocRead", 2, played.file("steps", STEPS))
        at_44100 = [["/s_new", "sampler_44100_2", 1001, 0, 0, "buf", 2]]
        text = definition.text.replace("def sampler", "def sampler_44100_2").replace("Line 1.0 1.0", "Line 0.91875 2.0")
        yield from compare("a buffer", [["/s_new", "sampler", 1000, 0, 0, "buf", 1]],
                           played.sent("/s_new", "sampler", 1000, 0, 0, "buf", 1))
        yield from compare("a file", [["/d_recv", text.encode()], *at_44100],
                           played.sent("/s_new", "sampler", 1001, 0, 0, "buf", 2))
        yield from compare("a file again", at_44100, played.sent("/s_new", "sampler", 1001, 0, 0, "buf", 2))
        yield from compare("freed", [["/d_free", "sampler", "sampler_44100_2"]], played.sent("/d_free", "sampler"))


def answers():
    """Live, a command in parts is answered once, at its end; a file is written of samples as they come."""
    opened, server = gateway()
    client, halves = Client(), [ONE // 2, -ONE // 2] * 3
    with tempfile.TemporaryDirectory() as folder:
        path, target = Path(folder) / "steps", Path(folder) / "out"
        path.write_bytes(STEPS)
        cases = [
            (["/b_allocRead", 1, str(path)], {}, ["/done", "/b_allocRead", 1]),
            (["/b_read", 1, str(path)], {}, ["/done", "/b_read", 1]),
            (["/b_allocRead", 2, str(path)], {"/b_alloc": Message("/fail", ["/b_alloc", "pool full"])},
             ["/fail", "/b_allocRead", "pool full", 2]),
            (["/b_write", 1, str(target), "aiff", "int8"], {},
             ["/fail", "/b_write", f"{target}: no samples of the form int8 are written here; int16, int24, int32, "
              "float are"]),
            (["/b_write", 1, str(target), "AIFF", "int16", -1, 1, 0, 0],
             {"/b_getn": Message("/b_setn", [1, 2, 6, *halves])}, ["/done", "/b_write", 1]),
        ]
        for there, server.tree, wanted in cases:
            with contextlib.redirect_stderr(io.StringIO()):
                opened.take(client, osc.encoded(Message(there[0], there[1:])))
            found = [osc.decoded(data) for data in client.taken()]
            yield from compare(there, [wanted], [[each.address, *each.arguments] for each in found])
        yield from compare("what is asked", Message("/b_getn", [1, 2, 6]), server.came[-1])
        data = form(16, struct.pack(">6h", *[16384, -16384] * 3), channels=2)
        yield from compare("the file", data, target.read_bytes())


def written():
    """What is written is read again."""
    values = [0.0, 0.5, -0.5, 0.25]
    with tempfile.TemporaryDirectory() as folder:
        for kind in soundfiles.WRITERS:
            for coding in soundfiles.CODINGS:
                target = Path(folder) / "out"
                target.write_bytes(soundfiles.written((kind, coding), 2, 44100.0, values))
                found = soundfiles.read(target)
                yield from compare(f"{kind} {coding}", (44100.0, 2, values),
                                   (found.rate, found.channels, [each / found.full for each in found.samples]))


def of_score():
    """A file that a score writes is made of the replies to its rendering, in which others ask for samples too."""
    with tempfile.TemporaryDirectory() as name:
        folder, values = Path(name), [0.5, -0.25, 0.0, 0.125]
        target = folder / "out.wav"
        there = [["/b_alloc", 1, 4], ["/b_setn", 1, 0, 4, *values], ["/b_getn", 1, 0, 2],
                 ["/b_write", 1, str(target), "wav", "int16", 2, 1]]
        score = osc.Bundle(0, [Message(each[0], each[1:]) for each in there])
        (folder / "in.osc").write_bytes(osc.sized(osc.encoded(score)))
        runs = [Message("/b_setn", [1, 0, 2, HALF, -ONE // 4]), Message("/done", ["/b_alloc", 1]),
                Message("/b_setn", [1, 1, 2, -ONE // 4, 0])]
        wanted = soundfiles.written(("wav", "int16"), 1, sounds.RATE, values[1:3])
        for count, status in ((2, 1), (3, 0)):
            replies = b"".join(osc.sized(osc.encoded(each)) for each in runs[:count])
            (folder / "replies").write_bytes(replies)
            words = ["--replies", folder / "replies", folder / "in.osc", folder / "out.osc"]
            done = subprocess.run([sys.executable, CONVERT, *words], capture_output=True, text=True)
            yield from compare(f"the status with {count} replies", status, done.returncode)
            yield from compare(f"the file with {count} replies", not status, target.exists())
        yield from compare("the file of a score", wanted, target.read_bytes())


def filled():
    """Wave fills are those of scsynth, which wrote the samples of data/fills.txt."""
    before = [0.5, -1.5, 0.25, 1.0] + [0.0] * 12
    for line in (DATA / "fills.txt").read_text().splitlines():
        words, _, samples = line.partition(" = ")
        kind, flags, *values = words.split()
        found = fills.filled(kind, int(flags), list(map(float, values)), before)
        apart = max(abs(a - float(b)) for a, b in zip(found, samples.split(), strict=True))
        if apart > 1e-6:
            yield f"{words}: {apart} apart"


# After a buffer of four frames: fills, copies and levels as a score has them. Of the last two samples aren't known.
HALF, QUARTER = ONE // 2, [0, ONE, 0, -ONE]
KINDS_TOLD = "sine1, sine2, sine3, cheby, copy, normalize, wnormalize are"
FILLS = [
    (["/b_gen", 3, "sine1", 4, 1.0], [["/b_setn", 3, 0, 4, *QUARTER]]),
    (["/b_gen", 3, "sine2", 0, 1, 1], [["/b_setn", 3, 0, 4, *(2 * each for each in QUARTER)]]),
    (["/b_gen", 3, "sine3", 5, 1, 0.5, math.pi / 2], [["/b_setn", 3, 0, 4, ONE, 0, -ONE, 0]]),
    (["/b_gen", 3, "cheby", 4, 1], [["/b_setn", 3, 0, 4, -ONE, -HALF, 0, HALF]]),
    (["/b_gen", 3, "sine2", 4, 1.0], "/b_gen 3: its partials don't come in groups of 2 numbers"),
    (["/b_gen", 3, "square", 1], f"/b_gen 3: the fill square isn't there: {KINDS_TOLD}"),
    (["/b_gen", 4, "sine1", 7, 1.0], "/b_gen 4: no buffer 4 was made"),
    (["/b_set", 3, 0, 0.5], [["/b_set", 3, 0, HALF]]),
    (["/b_setn", 3, 2, 2, -0.25, 0.0], [["/b_setn", 3, 2, 2, -ONE // 4, 0]]),
    (["/b_fill", 3, 3, 1, 0.25], [["/b_fill", 3, 3, 1, ONE // 4]]),
    (["/b_gen", 3, "normalize"], [["/b_setn", 3, 0, 4, ONE, -ONE, -HALF, HALF]]),
    (["/b_gen", 3, "wnormalize", 0.25], [["/b_setn", 3, 0, 4, ONE, -ONE, -HALF, HALF]]),
    (["/b_alloc", 5, 3, 1, 0], [["/b_alloc", 5, 3, 1]]),
    (["/b_gen", 5, "copy", 1, 3, 0, -1], [["/b_setn", 5, 1, 2, ONE, -ONE]]),
    (["/b_gen", 5, "copy", 0, 3, 2, 1], [["/b_setn", 5, 0, 1, -HALF]]),
    (["/b_gen", 5, "copy", 0, 5, 1, 9], [["/b_setn", 5, 0, 2, ONE, -ONE]]),
    (["/b_gen", 5, "copy", 0, 5, 0, 0], []),
    (["/b_gen", 5, "copy", 0, 5], "/b_gen 5: it takes a place, a buffer, a place in it, and a count of frames"),
    (["/b_alloc", 6, 3, 2], [["/b_alloc", 6, 3, 2]]),
    (["/b_gen", 5, "copy", 0, 6, 0, -1], "/b_gen 5: buffer 6 has 2 channels, and this one has 1"),
]


def filling():
    """A fill, a copy or a level becomes a run of samples, if it is known what is in the buffer."""
    with tempfile.TemporaryDirectory() as folder:
        played = Played(folder)
        played.sent("/b_alloc", 3, 4)
        for there, wanted in FILLS:
            yield from compare(there, wanted, played.sent(*there))
        played.session.buffers[3].samples = None
        yield from compare("unknown", "/b_gen 3: what is in buffer 3 isn't known, and a score can't ask for it",
                           played.sent("/b_gen", 3, "normalize"))


def asking():
    """What a live session doesn't know it asks for, and what comes meanwhile waits for what is made of it."""
    opened, server = gateway()
    client, late = Client(), []
    for there in (["/b_alloc", 1, 4], ["/b_alloc", 2, 4], ["/b_setn", 1, 0, 4, 0.25, 0.5, 0.0, 0.0]):
        opened.take(client, osc.encoded(Message(there[0], there[1:])))
    client.taken()
    server.came.clear()
    server.hear = late.append
    server.tree = {"/b_getn": Message("/b_setn", [1, 0, 4, ONE // 4, HALF, 0, 0])}
    for there in (["/b_gen", 1, "normalize", 1.0], ["/b_zero", 1], ["/sync", 9]):
        opened.take(client, osc.encoded(Message(there[0], there[1:])))
    yield from compare("what is asked for first", [Message("/b_getn", [1, 0, 4])], server.came)
    while late:
        opened.hear(osc.encoded(late.pop(0)))
    yield from compare("what follows", [["/b_getn", 1, 0, 4], ["/b_setn", 1, 0, 4, HALF, ONE, 0, 0], ["/b_zero", 1]],
                       plain(server.came))
    found = [osc.decoded(data) for data in client.taken()]
    yield from compare("the answers", [Message("/done", ["/b_gen", 1]), Message("/synced", [9])], found)
    for there in (["/b_set", 1, 0, 0.5], ["/b_gen", 2, "copy", 0, 1, 0, -1], ["/sync", 10]):
        opened.take(client, osc.encoded(Message(there[0], there[1:])))
    with contextlib.redirect_stderr(io.StringIO()):
        opened.ends()
    yield from compare("a server that ends", Message("/fail", ["/sync", "there is no server yet"]),
                       osc.decoded(client.taken()[-1]))


def long_runs():
    """A long file comes in packets that the server reads."""
    data = riff(1, 16, struct.pack("<30000h", *[1] * 30000))
    with tempfile.TemporaryDirectory() as folder:
        played = Played(folder)
        made = played.session.messages(Message("/b_allocRead", [0, played.file("long", data)]))
        yield from compare("the runs", [13000, 13000, 4000], [each.arguments[2] for each in made[1:]])
        found = [value for run in plain(made)[1:] for value in run[4:]]
        yield from compare("the samples", [512] * 30000, found)
        yield from compare("their sizes", True, all(len(osc.encoded(osc.Bundle(1, [each]))) < 65537 for each in made))


CHECKS = [forms, parts, variants, answers, written, of_score, filled, filling, asking, long_runs]
