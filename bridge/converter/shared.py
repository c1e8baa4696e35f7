"""The memory that scsynth shares with sclang on one machine, in which a ScopeView finds the waves that it draws.

It is laid out as boost's managed_shared_memory is by scsynth 3.13 on x86-64: an index of one name, behind which are the
control buses and the scope buffers. A pointer is the distance from where it stands, and 1 is none.
"""
import os
import platform
import struct
from pathlib import Path

FOLDER = "/dev/shm"
BUFFERS = 128
# So many samples each part of a scope buffer has room for.
MOST_SAMPLES = 1 << 15
INITIALIZED, SHARED_LOCK, RECURSIVE_LOCK, NONE = 2, 0x80, 0x81, 1
# Where things stand. Control buses have no value here, so they are no numbers.
MANAGER, HEADER, OTHERS, ENTRY, BUSES, TABLE, SCOPES, AREAS = 0x10, 0xa0, 0xc0, 0x200, 0x1000, 0x11000, 0x12000, 0x20000
BUS_COUNT, NO_NUMBER, BLACK, NAMED = 16384, b"\0\0\xc0\x7f", 2, 0x21
# A scope buffer, its parts in turn, and the bytes of each.
SCOPE, PARTS, FIRST_PART, PART, SAMPLES = 88, 3, 40, 16, 4 * MOST_SAMPLES
SIZE = AREAS + BUFFERS * PARTS * SAMPLES
STAGE, OUT = 24, 32


class Unshared(Exception):
    """There can't be such a memory; the text says why."""


def pointers(at, *targets):
    """The bytes of pointers from a place on."""
    return b"".join(struct.pack("<q", target - at - 8 * count) for count, target in enumerate(targets))


def words(*values):
    return struct.pack(f"<{len(values)}q", *values)


def head(name):
    """Pairs of a place and the bytes there, for a memory of a name, whose scope buffers are free."""
    value = ENTRY + 40
    spelled = name.encode() + b"\0"
    yield MANAGER + 16, words(SHARED_LOCK)
    yield MANAGER + 88, words(SIZE - MANAGER)
    yield HEADER - 32, words(RECURSIVE_LOCK)
    yield HEADER - 8, words(1) + pointers(HEADER, ENTRY, ENTRY, ENTRY)
    yield OTHERS, words(NONE) + pointers(OTHERS + 8, OTHERS, OTHERS)
    yield ENTRY, words(HEADER - ENTRY | BLACK, NONE, NONE, 72) + struct.pack("<HBB", len(name), 8, NAMED)
    yield value + 32, pointers(value + 32, BUSES, MANAGER, TABLE) + words(BUFFERS, BUFFERS) + spelled
    yield BUSES, NO_NUMBER * BUS_COUNT
    yield TABLE, pointers(TABLE, *(SCOPES + SCOPE * each for each in range(BUFFERS)))
    for number in range(BUFFERS):
        yield SCOPES + SCOPE * number, scope(number, 0, 0, 0)
    yield 0, struct.pack("<i", INITIALIZED)


def area(number, part):
    """Where the samples of a part of a scope buffer stand."""
    return AREAS + (number * PARTS + part) * SAMPLES


def scope(number, status, frames, channels):
    """The bytes of a scope buffer in which there is nothing."""
    at = SCOPES + SCOPE * number + FIRST_PART
    parts = (pointers(at + PART * part, area(number, part)) + words(0) for part in range(PARTS))
    return struct.pack("<iIIxxxxqiiixxxx", status, frames, channels, NONE, 0, 1, 2) + b"".join(parts)


class Segment:
    """The memory for a port, which is there until it is closed. Whoever maps it can't end this program."""

    def __init__(self, port, folder=FOLDER):
        name = f"SuperColliderServer_{port}"
        self.path, self.file, self.shown = Path(folder) / name, None, {}
        if platform.machine() not in ("x86_64", "AMD64") or not self.path.parent.is_dir():
            raise Unshared("sclang shares memory with a server on Linux and x86-64 alone")
        try:
            self.path.unlink(missing_ok=True)
            self.file = os.open(self.path, os.O_RDWR | os.O_CREAT | os.O_EXCL | os.O_CLOEXEC, 0o644)
            os.truncate(self.file, SIZE)
            for at, data in head(name):
                self.put(at, data)
        except OSError as wrong:
            self.close()
            raise Unshared(f"{self.path}: {wrong.strerror}") from None

    def put(self, at, data):
        """Writes bytes; what there is no room for is reported."""
        if os.pwrite(self.file, data, at) != len(data):
            raise OSError(0, "there is no room for it")

    def open(self, number, frames, channels):
        """A scope buffer is written from now on, with at most so many frames."""
        at = SCOPES + SCOPE * number
        self.put(at, scope(number, 0, frames, channels))
        self.put(at, struct.pack("<i", 1))
        self.shown[number] = frames

    def show(self, number, channels):
        """Shows a wave: the samples of each channel, floats of 32 bits. They go to the part that isn't read now.

        The reader takes the part that is staged and puts its own in its place.
        """
        at = SCOPES + SCOPE * number
        staged, = struct.unpack("<i", os.pread(self.file, 4, at + STAGE))
        read, = struct.unpack("<i", os.pread(self.file, 4, at + OUT))
        if {staged, read} <= set(range(PARTS)) and staged != read:
            part = PARTS - staged - read
            for place, samples in enumerate(channels):
                self.put(area(number, part) + 4 * place * self.shown[number], samples.tobytes())
            self.put(at + FIRST_PART + PART * part + 8, struct.pack("<II", len(channels[0]), 1))
            self.put(at + STAGE, struct.pack("<i", part))

    def free(self, number):
        """Nothing is written to a scope buffer any more."""
        self.put(SCOPES + SCOPE * number, struct.pack("<i", 0))
        self.shown.pop(number, None)

    def close(self):
        """It goes; who has mapped it keeps what was there."""
        if self.file is not None:
            os.close(self.file)
            self.file = None
            self.path.unlink(missing_ok=True)
