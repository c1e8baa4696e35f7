"""Sounds for the tests: read, rendered by the model of outside/, and compared."""
import math
import struct
import sys
from pathlib import Path

TOP = Path(__file__).resolve().parent.parent.parent
sys.path[:0] = [str(TOP / "bridge"), str(TOP / "outside")]

import convert  # noqa: E402
import server  # noqa: E402
from converter import osc  # noqa: E402
from converter.session import Session  # noqa: E402

DATA = Path(__file__).resolve().parent / "data"
RATE, CHANNELS = 48000, 2
KEPT_FRAMES = 1280


def chunks(data):
    at = 12
    while at + 8 <= len(data):
        size = struct.unpack_from("<I", data, at + 4)[0]
        yield data[at:at + 4], data[at + 8:at + 8 + size]
        at += 8 + size + size % 2


def read(path):
    """The channels of a WAV file of floats or of 24 bits, from -1.0 to 1.0."""
    found = dict(chunks(Path(path).read_bytes()))
    form, channels, bits = struct.unpack("<HH10xH", found[b"fmt "][:16])
    data = found[b"data"]
    if bits == 32:
        values = struct.unpack(f"<{len(data) // 4}f", data)
    else:
        values = [int.from_bytes(data[at:at + 3], "little", signed=True) / 2**23 for at in range(0, len(data), 3)]
    return [list(values[at::channels]) for at in range(channels)]


def turned(path):
    """The stream for `snova` of a score."""
    score = convert.read(path)
    session = Session(RATE, learnt=convert.learnt(score, RATE))
    packets, _ = convert.turned(score, session, False)
    if session.refusals:
        raise SystemExit(f"{path}: {session.refusals}")
    return b"".join(map(osc.sized, packets))


def by_model(stream, blocks=None):
    """The channels of a stream that the model renders, all of it or some blocks."""
    run = server.Run(server.settings_of([]), osc_packets(stream))
    run.last = min(run.last, blocks) if blocks else run.last
    run.play()
    failed = [reply for reply in run.replies if reply[0] == "/fail"]
    if failed:
        raise SystemExit(f"refused: {failed}")
    return [[sample / 2**24 for sample in run.sound[at::CHANNELS]] for at in range(CHANNELS)]


def osc_packets(stream):
    return server.accepted(server.settings_of([]), stream)


def decibels(wanted, found):
    """How far a sound lies from another one, in decibels of that one."""
    apart = sum((a - b) ** 2 for a, b in zip(wanted, found))
    return 10 * math.log10(max(apart, 1e-30) / max(sum(a * a for a in wanted), 1e-30))


def energy(samples):
    return sum(each * each for each in samples) / len(samples)


def level_apart(wanted, found, window):
    """How far the levels of two sounds lie apart in any window that isn't quiet, in decibels."""
    windows = [(energy(wanted[at:at + window]), energy(found[at:at + window])) for at in range(0, len(found), window)]
    return max((abs(10 * math.log10(b / a)) for a, b in windows if a > 1e-5 and b > 0), default=0.0)


def kept(channels):
    """The begin of a sound as 16 bits, channel by channel in turn."""
    frames = zip(*(each[:KEPT_FRAMES] for each in channels))
    values = [round(max(-1.0, min(1.0, value)) * 32767) for frame in frames for value in frame]
    return struct.pack(f"<{len(values)}h", *values)


def kept_sound(path):
    data = path.read_bytes()
    values = struct.unpack(f"<{len(data) // 2}h", data)
    return [[value / 32767 for value in values[at::CHANNELS]] for at in range(CHANNELS)]
