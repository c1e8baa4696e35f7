"""Sound files: WAV and AIFF of 16, 24 and 32 bits and of floats of 32 bits."""
import math
import os
import stat
import struct
import sys
from array import array
from typing import NamedTuple

from .measures import MOST, SAMPLE, raw

# How other files start, and their names.
OTHERS = {b"fLaC": "FLAC", b"OggS": "Ogg", b"caff": "CAF", b".snd": "a Sun or NeXT file", b"ID3": "MP3",
          b"RF64": "RF64", b"RIFX": "RIFX", b"riff": "Wave64", b"8SVX": "8SVX"}
# Of WAV, what the number of a form stands for.
PCM, FLOAT, EXTENSIBLE = 1, 3, 0xFFFE
WAV_FORMS = {2: "ADPCM", 6: "A-law", 7: "mu-law", 17: "IMA ADPCM", 49: "GSM", 85: "MP3"}
# The rest of the name of a form that WAVE_FORMAT_EXTENSIBLE gives.
EXTENDED = bytes.fromhex("000000001000800000aa00389b71")
MOST_CHUNKS = 4096
# The range of a sample here.
QUIETEST, LOUDEST = -128.0, MOST / SAMPLE.scale


class BadSound(Exception):
    """A file is no sound file that can be read here; the text says why."""


class Coding(NamedTuple):
    """How samples are written: as whole numbers or floats, of how many bits, and "little" or "big" end first."""

    floats: bool
    bits: int
    order: str


# Of AIFF-C, how samples are written; None stands for the bits that the file names.
AIFF_CODINGS = {
    b"NONE": (False, None, "big"), b"twos": (False, None, "big"), b"sowt": (False, None, "little"),
    b"in24": (False, 24, "big"), b"in32": (False, 32, "big"), b"42ni": (False, 24, "little"),
    b"23ni": (False, 32, "little"), b"fl32": (True, 32, "big"), b"FL32": (True, 32, "big"),
}


class Header(NamedTuple):
    """What a file says of its samples: `frames` of them from the byte `begin` on."""

    rate: float
    channels: int
    coding: Coding
    begin: int
    frames: int

    @property
    def frame_size(self):
        return self.channels * self.coding.bits // 8


class Sound(NamedTuple):
    """Samples, frame by frame; whole numbers have `full` for 1.0."""

    rate: float
    channels: int
    samples: array
    full: float

    @property
    def frames(self):
        return len(self.samples) // self.channels


def chunks(file, form):
    """The chunks of a file: their names, where their bytes begin, and how many there are."""
    at, end = 12, file.seek(0, 2)
    for _ in range(MOST_CHUNKS):
        if at + 8 > end:
            return
        file.seek(at)
        name, size = struct.unpack(form, file.read(8))
        yield name, at + 8, min(size, end - at - 8)
        at += 8 + size + size % 2


def parts(file, form, describing, holding):
    """The first bytes of the chunk that describes samples; where the one that holds them starts, and its size."""
    found = {}
    for name, begin, size in chunks(file, form):
        if name in (describing, holding) and name not in found:
            found[name] = begin, size, file.read(min(size, 64))
        if len(found) == 2:
            return found[describing][2], *found[holding][:2]
    missing = describing if describing not in found else holding
    raise BadSound(f"it has no chunk '{missing.decode()}'")


def whole_header(rate, channels, coding, begin, size):
    """A header whose numbers are in their ranges; of `size` bytes of samples the whole frames count."""
    if coding.bits not in ((32,) if coding.floats else (16, 24, 32)):
        what, may = ("floats", "32") if coding.floats else ("samples", "16, 24 or 32")
        raise BadSound(f"it has {what} of {coding.bits} bits, and may have some of {may}")
    if channels < 1:
        raise BadSound("it has no channel")
    if not 1 <= rate <= 1e6:
        raise BadSound(f"its sample rate is {rate:g}")
    return Header(rate, channels, coding, begin, size // (channels * coding.bits // 8))


def wav_header(file):
    form, begin, size = parts(file, "<4sI", b"fmt ", b"data")
    if len(form) < 16:
        raise BadSound("its chunk 'fmt ' is too short")
    kind, channels, rate, _, block, bits = struct.unpack_from("<HHIIHH", form)
    if kind == EXTENSIBLE and len(form) >= 40 and form[26:40] == EXTENDED:
        kind, bits = struct.unpack_from("<H", form, 24)[0], 8 * block // max(1, channels)
    if kind not in (PCM, FLOAT):
        raise BadSound(f"its samples are {WAV_FORMS.get(kind, f'of the form {kind}')}")
    return whole_header(float(rate), channels, Coding(kind == FLOAT, bits, "little"), begin, size)


def extended(data):
    """The value of a float of 80 bits, as AIFF has its sample rate."""
    power, fraction = struct.unpack(">HQ", data)
    return math.ldexp(float(fraction), power - 16446) if power < 16446 else 0.0


def aiff_header(file, kind):
    form, begin, size = parts(file, ">4sI", b"COMM", b"SSND")
    if len(form) < (18 if kind == b"AIFF" else 22) or size < 8:
        raise BadSound("one of its chunks is too short")
    channels, frames, bits = struct.unpack_from(">HIH", form)
    name = form[18:22] if kind == b"AIFC" else b"NONE"
    if name not in AIFF_CODINGS:
        raise BadSound(f"its samples are of the form {name.decode('latin-1')!r}")
    floats, fixed, order = AIFF_CODINGS[name]
    file.seek(begin)
    offset = struct.unpack(">I", file.read(4))[0]
    left = max(0, size - 8 - offset)
    found = whole_header(extended(form[8:18]), channels, Coding(floats, fixed or bits, order), begin + 8 + offset, left)
    return found._replace(frames=min(frames, found.frames))


def header(file):
    """What an open file says of its samples."""
    file.seek(0)
    begin = file.read(12)
    if begin[:4] == b"RIFF" and begin[8:] == b"WAVE":
        return wav_header(file)
    if begin[:4] == b"FORM" and begin[8:] in (b"AIFF", b"AIFC"):
        return aiff_header(file, begin[8:])
    for start, name in OTHERS.items():
        if start in (begin[:len(start)], begin[8:]):
            raise BadSound(f"it is {name}, and may be WAV or AIFF")
    raise BadSound("it is neither WAV nor AIFF")


def decoded(data, coding):
    """Bytes as samples, and what whole numbers have for 1.0; those of 24 bits become the upper ones of 32."""
    bits = coding.bits
    if bits == 24:
        wide = bytearray(len(data) // 3 * 4)
        for at in range(3):
            wide[at + (coding.order == "little")::4] = data[at::3]
        data, bits = wide, 32
    found = array("f" if coding.floats else {16: "h", 32: "i"}[bits], bytes(data))
    if coding.order != sys.byteorder:
        found.byteswap()
    return found, 1.0 if coding.floats else 2.0 ** (bits - 1)


def numbers(sound, measure):
    """The samples as whole numbers of a measure; what is beyond the range of a sample here stops at its end."""
    if sound.samples.typecode == "f":
        return array("i", [raw(min(max(each, QUIETEST), LOUDEST), measure) for each in sound.samples])
    factor = measure.scale / sound.full
    if measure.whole or measure.wraps:
        return array("i", [raw(each / sound.full, measure) for each in sound.samples])
    if factor.is_integer():
        return array("i", [each * int(factor) for each in sound.samples])
    return array("i", [math.floor(each * factor + 0.5) for each in sound.samples])


def picked(sound, channels):
    """Some channels of a sound, in the order in which they are named."""
    for each in channels:
        if not 0 <= each < sound.channels:
            raise BadSound(f"it has no channel {each}, but {sound.channels} from 0 on")
    return sound._replace(channels=len(channels), samples=picked_samples(sound.samples, sound.channels, channels))


def picked_samples(samples, width, channels):
    """Of samples with so many in a frame those of some channels."""
    found = array(samples.typecode, bytes(len(samples) // width * len(channels) * samples.itemsize))
    for at, each in enumerate(channels):
        found[at::len(channels)] = samples[each::width]
    return found


def opened(path):
    """A file, open; only a regular one can be read."""
    file = open(path, "rb", opener=lambda name, flags: os.open(name, flags | os.O_NONBLOCK))
    if not stat.S_ISREG(os.fstat(file.fileno()).st_mode):
        file.close()
        raise BadSound("it is no regular file")
    return file


def described(path):
    """The header of a file."""
    with opened(path) as file:
        return header(file)


def read(path, start=0, count=None):
    """The frames of a file from one on: so many, or all if there aren't so many."""
    with opened(path) as file:
        found = header(file)
        count = max(0, min(found.frames - start, found.frames if count is None else count))
        file.seek(found.begin + start * found.frame_size)
        data = file.read(count * found.frame_size)
        data = data[:len(data) // found.frame_size * found.frame_size]
        return Sound(found.rate, found.channels, *decoded(data, found.coding))


# Of the words of `/b_write`, how samples are written.
CODINGS = {"int16": (False, 16), "int24": (False, 24), "int32": (False, 32), "float": (True, 32)}


def spelled(values, coding):
    """The bytes of samples, of which whole numbers stop at 1.0."""
    if coding.floats:
        return packed(array("f", values), coding)
    full = 2 ** (coding.bits - 1)
    found = array("i", [max(-full, min(full - 1, math.floor(each * full + 0.5))) for each in values])
    return packed(array("h", found) if coding.bits == 16 else found, coding)


def spelled_again(samples, bits, coding):
    """The bytes of samples that are whole numbers of so many bits, 16 or 32."""
    if coding.floats:
        return packed(array("f", map((1 / 2 ** (bits - 1)).__mul__, samples)), coding)
    more = coding.bits - bits
    if more:
        samples = [each << more if more > 0 else each >> -more for each in samples]
    return packed(array("h" if coding.bits == 16 else "i", samples), coding)


def packed(found, coding):
    """The bytes of samples in an array of their size; those of 24 bits are in one of 32."""
    if coding.order != sys.byteorder:
        found.byteswap()
    data = found.tobytes()
    if coding.bits != 24:
        return data
    narrow = bytearray(len(data) // 4 * 3)
    for at in range(3):
        narrow[at::3] = data[at + (coding.order == "big")::4]
    return bytes(narrow)


def chunk(form, name, data):
    return struct.pack(form, name, len(data)) + data + bytes(len(data) % 2)


def wav_head(channels, rate, coding, frames):
    frame = channels * coding.bits // 8
    size = frames * frame
    form = struct.pack("<HHIIHH", FLOAT if coding.floats else PCM, channels, round(rate), round(rate) * frame, frame,
                       coding.bits) + bytes(2 * coding.floats)
    body = b"WAVE" + chunk("<4sI", b"fmt ", form) + struct.pack("<4sI", b"data", size)
    return struct.pack("<4sI", b"RIFF", len(body) + size + size % 2) + body


def aiff_head(channels, rate, coding, frames):
    part, power = math.frexp(rate)
    size = frames * channels * coding.bits // 8
    form = struct.pack(">HIHHQ", channels, frames, coding.bits, power + 16382, int(part * 2**64))
    kind, version = b"AIFF", b""
    if coding.floats:
        kind, version = b"AIFC", chunk(">4sI", b"FVER", struct.pack(">I", 0xA2805140))
        form += b"FL32" + b"\7float32"
    body = kind + version + chunk(">4sI", b"COMM", form) + struct.pack(">4sI", b"SSND", 8 + size) + bytes(8)
    return struct.pack(">4sI", b"FORM", len(body) + size + size % 2) + body


# Of each form the bytes before the samples, of which there are so many frames, and which end of a sample comes first.
WRITERS = {"wav": (wav_head, "little"), "aiff": (aiff_head, "big")}


def form_of(words):
    """What writes the head of a file, and how its samples are written; `words` are the two that `/b_write` has."""
    kind, coding = (each.lower() for each in words)
    if kind not in WRITERS:
        raise BadSound(f"no file of the form {kind} is written here; wav and aiff are")
    if coding not in CODINGS:
        raise BadSound(f"no samples of the form {coding} are written here; {', '.join(CODINGS)} are")
    head, order = WRITERS[kind]
    return head, Coding(*CODINGS[coding], order)


def written(words, channels, rate, values):
    """The bytes of a file of samples, from -1.0 to 1.0."""
    head, coding = form_of(words)
    data = spelled(values, coding)
    return head(channels, rate, coding, len(values) // channels) + data + bytes(len(data) % 2)
