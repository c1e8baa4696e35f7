"""WAV files, what is heard of them, and streams whose commands name them."""
import os
import re
import struct
import subprocess
import osc
import server
from cases import stream

LONGEST_FILE = 33554432
MOST_SAMPLES = 16777216


def chunk(name, content, size=None):
    return name + struct.pack("<I", len(content) if size is None else size) + content + b"\0" * (len(content) % 2)


def form(tag=1, channels=1, bits=16, rate=48000, align=None, rest=b""):
    align = channels * bits // 8 if align is None else align
    return chunk(b"fmt ", struct.pack("<HHIIHH", tag, channels, rate, rate * align, align, bits) + rest)


def riff(*chunks):
    body = b"WAVE" + b"".join(chunks)
    return b"RIFF" + struct.pack("<I", len(body)) + body


def heard(file):
    """The number of channels and the samples of a WAV file, or None."""
    if len(file) > LONGEST_FILE or file[:4] != b"RIFF" or file[8:12] != b"WAVE":
        return None
    place, found = 12, None
    while len(file) - place >= 8:
        name, (size,) = file[place:place + 4], struct.unpack_from("<I", file, place + 4)
        content = file[place + 8:place + 8 + size]
        if name == b"data":
            return found and samples_of(found, content)
        if name == b"fmt " and found is None:
            found = content
        place += 8 + size + size % 2
    return None


def samples_of(found, content):
    if len(found) < 16:
        return None
    tag, channels, _, _, align, bits = struct.unpack_from("<HHIIHH", found)
    if tag == 65534 and len(found) >= 40:
        tag = struct.unpack_from("<H", found, 24)[0]
    if tag != 1 or not 1 <= channels <= 8 or bits not in (16, 24) or align != channels * bits // 8 or len(content) < align:
        return None
    width = bits // 8
    whole = content[:len(content) // align * align]
    parts = (whole[i:i + width] for i in range(0, len(whole), width))
    return channels, [int.from_bytes(part, "little", signed=True) * (512 if bits == 16 else 2) for part in parts]


class Shelf:
    """Replaces commands that name files; so many samples may still come in."""

    def __init__(self, files):
        self.files, self.room = files, MOST_SAMPLES

    def packet(self, packet):
        if isinstance(packet, osc.Bundle):
            packet.elements = [self.packet(element) for element in packet.elements]
            return packet
        if packet.address == b"/b_allocRead" and isinstance(packet.body, list):
            packet.body = self.arguments(packet.body)
        return packet

    def arguments(self, body):
        if not re.fullmatch("isi?i?b?", "".join(tag for tag, _ in body)):
            return body
        numbers = [value for tag, value in body[2:] if tag == "i"] + [0, 0]
        wave = heard(self.files.get(body[1][1].decode("latin-1"), b""))
        if not wave:
            return body
        channels, samples = wave
        start, wanted = numbers[:2]
        left = len(samples) // channels - start
        if start < 0 or left <= 0 or wanted < 0:
            return body
        frames = min(left, wanted or left)
        if frames * channels > self.room:
            return body
        self.room -= frames * channels
        part = samples[start * channels:(start + frames) * channels]
        blob = struct.pack(f">{len(part)}i", *part)
        return [body[0], ("i", frames), ("i", channels), ("b", blob), *(pair for pair in body if pair[0] == "b")]


NOTES = struct.pack("<8h", 1, -1, 32767, -32768, 5, 6, 7, 8)
FINE = bytes(range(250, 256)) + bytes(range(0, 128, 7)) + b"\xff\xff\x7f\0\0\x80"

FILES = {
    "a.wav": riff(form(), chunk(b"data", b"\0\x40")),
    "notes.wav": riff(form(), chunk(b"data", NOTES)),
    "two.wav": riff(form(channels=2), chunk(b"data", NOTES)),
    "fine.wav": riff(form(bits=24), chunk(b"data", FINE)),
    "three.wav": riff(form(channels=3, bits=24), chunk(b"data", FINE)),
    "eight.wav": riff(form(channels=8), chunk(b"data", NOTES * 2)),
    "listed.wav": riff(chunk(b"LIST", b"odd"), form(rate=8000), chunk(b"fact", b"\1\0\0\0"), chunk(b"LIST", b"x"), chunk(b"data", NOTES), chunk(b"LIST", b"behind")),
    "extended.wav": riff(form(tag=65534, channels=2, rest=struct.pack("<HHIH", 22, 16, 3, 1) + bytes(14)), chunk(b"data", NOTES)),
    "cut.wav": riff(form(channels=2), chunk(b"data", NOTES[:15], size=400)),
    "endless.wav": riff(form(), chunk(b"data", NOTES, size=0xffffffff)),
    "twice.wav": riff(form(), form(channels=2), chunk(b"data", NOTES), chunk(b"data", b"\1\1")),
    "late.wav": riff(chunk(b"data", NOTES), form()),
    "nine.wav": riff(form(channels=9), chunk(b"data", bytes(18))),
    "none.wav": riff(form(channels=0), chunk(b"data", NOTES)),
    "eight bits.wav": riff(form(bits=8), chunk(b"data", NOTES)),
    "long.wav": riff(form(bits=32), chunk(b"data", NOTES)),
    "float.wav": riff(form(tag=3, bits=16), chunk(b"data", NOTES)),
    "gap.wav": riff(form(align=4), chunk(b"data", NOTES)),
    "short.wav": riff(chunk(b"fmt ", bytes(14)), chunk(b"data", NOTES)),
    "half.wav": riff(form(tag=65534, rest=bytes(23)), chunk(b"data", NOTES)),
    "other.wav": riff(form(tag=65534, rest=struct.pack("<HHIH", 22, 16, 3, 3) + bytes(14)), chunk(b"data", NOTES)),
    "silent.wav": riff(form(), chunk(b"data", b"\1")),
    "empty.wav": b"",
    "head.wav": b"RIFF\0\0\0\0WAVE",
    "broken.wav": riff(form())[:30],
    "rifx.wav": b"RIFX" + riff(form(), chunk(b"data", NOTES))[4:],
    "below/deep.wav": riff(form(), chunk(b"data", NOTES)),
}

ASKED = [("/b_allocRead", i, name) for i, name in enumerate(FILES)]
TOLD = [("/b_query", *range(len(FILES))), *(("/b_getn", i, 0, 2) for i in range(len(FILES)))]

SHELF_CASES = [
    ("files: each file", stream(*ASKED, *TOLD)),
    ("files: parts of a file", stream(*(("/b_allocRead", i, "two.wav", *part) for i, part in enumerate([(0,), (1,), (3,), (4,), (-1,), (0, 0), (0, 1), (1, 2), (1, 3), (1, 9), (0, -1), (2147483647,), (0, 2147483647)])), *TOLD)),
    ("files: names", stream(*(("/b_allocRead", i, name) for i, name in enumerate(["below/deep.wav", "./a.wav", "below/../a.wav", "../a.wav", "/proc/self/cwd/a.wav", "below", "", ".", "pipe", "nowhere/a.wav", "a.wav/a.wav", "x" * 300, "below//deep.wav"])), *TOLD)),
    ("files: in bundles, with completions", stream(osc.bundle(1, osc.message("/b_allocRead", 0, "a.wav", osc.message("/b_get", 0, 0)), osc.bundle(1, osc.message("/b_allocRead", 1, "notes.wav", 1, osc.message("/b_getn", 1, 0, 7)), osc.message("/b_allocRead", 2000, "a.wav"))), ("/b_alloc", 3, 1, osc.message("/b_allocRead", 4, "a.wav")))),
]


LAID_OUT = {**FILES, "./a.wav": FILES["a.wav"], "below//deep.wav": FILES["below/deep.wav"]}


def model(words, data, files=LAID_OUT):
    """The line, the status, the sound and the replies of a run over these files."""
    settings = server.settings_of(words)
    shelf = Shelf(files)
    run = server.Run(settings, [shelf.packet(packet) for packet in server.accepted(settings, data)])
    run.play()
    replies = b"".join(osc.frame(osc.message(*reply)) for reply in run.replies)
    return f"done {run.last} blocks", 0, server.wav(settings, run.sound), replies


def lay_out(folder):
    os.makedirs(os.path.join(folder, "below"))
    os.mkfifo(os.path.join(folder, "pipe"))
    for name, content in FILES.items():
        with open(os.path.join(folder, name), "wb") as file:
            file.write(content)


def program_run(binary, words, data, folder):
    with open(os.path.join(folder, "commands"), "wb") as file:
        file.write(data)
    done = subprocess.run([*binary, "render", *words, "commands", "sound", "replies"], cwd=folder, capture_output=True, timeout=600)
    sound, replies = (open(os.path.join(folder, name), "rb").read() for name in ("sound", "replies"))
    return done.stdout.decode().rstrip("\n"), done.returncode, sound, replies
