"""A whole run: the order of what waits, boundaries, blocks, and the bytes of sound and replies."""
import re
import struct
import commands
import osc
from world import World

DEFAULTS = {"rate": 48000, "channels": 2, "bits": 16, "workers": 4, "memory": 1048576}
ALLOWED = {"rate": (44100, 48000, 96000), "channels": range(1, 9), "bits": (16, 24), "workers": range(1, 17), "memory": range(65536, 16777217)}
LONGEST_STREAM = 16777216


class Refused(Exception):
    """A run that writes nothing: its line and its status."""

    def __init__(self, line, status):
        super().__init__(line)
        self.line, self.status = line, status


class Entry:
    def __init__(self, key, due, messages):
        self.key, self.due, self.messages = key, due, messages


def entries_of(packet, rate):
    """The entries of a packet that arrives at boundary 0 of a server whose time begins at 0."""
    if isinstance(packet, osc.Message):
        return [Entry(0, 0, [packet])]
    key = 0 if packet.tag == 1 else packet.tag
    entry = Entry(key, key * rate >> 38, [e for e in packet.elements if isinstance(e, osc.Message)])
    inner = [entries_of(e, rate) for e in packet.elements if isinstance(e, osc.Bundle)]
    return [entry] + [e for entries in inner for e in entries]


class Run:
    def __init__(self, settings, packets):
        self.settings = settings
        self.world = World(settings["rate"], settings["memory"])
        waiting = [entry for packet in packets for entry in entries_of(packet, settings["rate"])]
        self.waiting = sorted(waiting, key=lambda entry: entry.key)
        self.last = max((entry.due for entry in waiting), default=0)
        self.replies, self.sound = [], []

    def act(self, message, block):
        while message:
            self.world, told, message, accepted = commands.command(self.world, message)
            self.replies += told
            if accepted == "/clearSched":
                self.waiting = [entry for entry in self.waiting if entry.due <= block]

    def boundary(self, block):
        while self.waiting and self.waiting[0].due <= block:
            for message in self.waiting.pop(0).messages:
                self.act(message, block)
        self.replies += self.world.new_clashes()

    def block(self):
        block = self.world.block
        self.world.walk()
        for frame in range(64):
            for bus in range(self.settings["channels"]):
                number, samples = self.world.audio[bus]
                self.sound.append(samples[frame] if number == block else 0)
        self.replies += self.world.settle()

    def play(self):
        for block in range(self.last):
            self.boundary(block)
            self.block()
        self.boundary(self.last)


def pcm(sample, bits):
    if bits == 16:
        return max(-32768, min(32767, sample >> 9)).to_bytes(2, "little", signed=True)
    return max(-8388608, min(8388607, sample >> 1)).to_bytes(3, "little", signed=True)


def wav(settings, samples):
    channels, rate, bits = settings["channels"], settings["rate"], settings["bits"]
    data = b"".join(pcm(sample, bits) for sample in samples)
    align = channels * bits // 8
    head = struct.pack("<4sI4s4sIHHIIHH4sI", b"RIFF", 36 + len(data), b"WAVE", b"fmt ", 16, 1, channels, rate, rate * align,
                       align, bits, b"data", len(data))
    return head + data


def settings_of(words):
    settings = dict(DEFAULTS)
    settings.update((key, int(value)) for key, value in (word.split("=") for word in words))
    return settings


def bad_word(words):
    """The number of the first bad setting, from 1, or None."""
    given = set()
    for number, word in enumerate(words, 1):
        key, _, value = word.partition("=")
        if key not in ALLOWED or key in given or not re.fullmatch("[1-9][0-9]*", value, re.A) or int(value) not in ALLOWED[key]:
            return number
        given.add(key)
    return None


def run(words, stream):
    """The line, the status, the sound and the replies of a run."""
    settings = settings_of(words)
    try:
        packets = accepted(settings, stream)
    except Refused as refused:
        return refused.line, refused.status, b"", b""
    run = Run(settings, packets)
    run.play()
    replies = b"".join(osc.frame(osc.message(*reply)) for reply in run.replies)
    return f"done {run.last} blocks", 0, wav(settings, run.sound), replies


def accepted(settings, stream):
    """The packets of a stream that is played."""
    if len(stream) > LONGEST_STREAM:
        raise Refused(f"stream over {LONGEST_STREAM} bytes", 4)
    try:
        packets = osc.packets_of(stream)
    except osc.Fault as fault:
        raise Refused(f"bad stream: packet {fault.packet}, byte {fault.place}, fault P{fault.kind}", 3) from None
    last = max((entry.due for packet in packets for entry in entries_of(packet, settings["rate"])), default=0)
    if 36 + last * 64 * settings["channels"] * settings["bits"] // 8 > 4294967295:
        raise Refused(f"sound too long: {last} blocks", 5)
    return packets
