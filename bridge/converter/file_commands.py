"""The table of commands on sound files, which the bridge reads and writes itself."""
from . import soundfiles
from .buffers import (NO_STREAMS, Buffer, answered, buffer_of, check_own, measure_of, questions, remember,
                      runs)
from .buses import WIDEST
from .commands import Asked, done_as, turned
from .measures import Refused
from .osc import Message
from .written import Written

NO_RECORDING = "a file is recorded only if live.py starts snova itself (docs/INSTALLATION.md)"
# So many words the server may have at most.
MOST_WORDS = 2**24
# A sample in a command takes its type tag and its bytes.
SAMPLE_BYTES = 5


def attempted(path, act, *given):
    """What is done with a file; what can't be done is refused."""
    try:
        return act(path.encode("latin-1"), *given)
    except OSError as wrong:
        raise Refused(f"{path}: {wrong.strerror}") from None
    except (soundfiles.BadSound, Refused) as bad:
        raise Refused(f"{path}: {bad}") from None


class Part:
    """A part of a sound file: some of its channels, all if none are named, and its frames from one on."""

    def __init__(self, path, start, count, channels):
        self.path, self.start, self.channels = path, start, channels
        self.header = attempted(path, soundfiles.described)
        left = self.header.frames - start
        if start < 0 or left < 1:
            raise Refused(f"{path}: it has {self.header.frames} frames, and none is read from {start} on")
        self.frames = min(count, left) if count > 0 else left
        if self.width > WIDEST:
            raise Refused(f"{path}: it has {self.width} channels, and a buffer has at most {WIDEST} here")

    @property
    def width(self):
        return len(self.channels) or self.header.channels

    @property
    def size(self):
        return self.frames * self.width

    def numbers(self, session, buffer):
        """The samples for a buffer."""
        self.take(session)
        sound = attempted(self.path, soundfiles.read, self.start, self.frames)
        if self.channels:
            sound = attempted(self.path, lambda _: soundfiles.picked(sound, self.channels))
        return attempted(self.path, lambda _: soundfiles.numbers(sound, measure_of(session, buffer)))

    def take(self, session):
        """Refuses samples that don't fit into a command file; the others take their bytes of it."""
        taken = session.file_bytes + self.size * SAMPLE_BYTES
        if session.most_bytes and taken > session.most_bytes:
            raise Refused(f"{self.path}: with its {self.size} samples the command file has more than "
                          f"{session.most_bytes} bytes, which snova doesn't read")
        session.file_bytes = taken


def check_memory(session, number, part):
    """Refuses samples that don't fit into the server's words next to those of the other buffers."""
    words = part.size + sum(each.size for other, each in session.buffers.items() if other != number)
    if words <= session.memory:
        return
    least = 1 << (words - 1).bit_length()
    way = f"start both with memory={least}" if least <= MOST_WORDS else f"at most {MOST_WORDS} are possible"
    raise Refused(f"{part.path}: with its {part.size} samples the buffers have {words} words, and snova has "
                  f"{session.memory}: {way}")


def put(session, number, begin, values):
    """The commands that set samples of a file, which a score remembers."""
    if not session.live:
        scale = measure_of(session, number).scale
        remember(session, number, begin, [each / scale for each in values])
    return runs(number, begin, values)


def read_new(address):
    """A buffer is made of a sound file."""
    def turn(session, number, path, start, count, channels=()):
        check_own(session, number)
        part = Part(path, start, count, channels)
        check_memory(session, number, part)
        session.buffers[number] = Buffer(part.frames, part.width, part.header.rate, None if session.live else [])
        if session.learns:
            return []
        values = part.numbers(session, number)
        made = Message("/b_alloc", [number, part.frames, part.width])
        return Asked([made, *put(session, number, 0, values)], done_as(address, number))
    return turn


def read_into(address):
    """A sound file is read into a buffer that is there, from one of its frames on."""
    def turn(session, number, path, start, count, begin, stays, channels=()):
        buffer = buffer_of(session, number)
        if stays:
            raise Refused(NO_STREAMS)
        if not 0 <= begin < buffer.frames:
            raise Refused(f"the buffer has {buffer.frames} frames, and no frame {begin}")
        part = Part(path, start, count, named(channels, buffer.channels))
        if part.width != buffer.channels:
            raise Refused(f"{path}: {part.width} channels are read, and the buffer has {buffer.channels}")
        part.frames = min(part.frames, buffer.frames - begin)
        buffer.rate, buffer.samples = part.header.rate, None if session.live else buffer.samples
        if session.learns:
            return []
        values = part.numbers(session, number)
        return Asked(put(session, number, begin * part.width, values), done_as(address, number))
    return turn


def named(channels, width):
    """The channels that are named; sclang writes one more 0 where it has no completion message."""
    return channels[:-1] if len(channels) == width + 1 and channels[-1] == 0 else channels


def kept_open(session, number, path, words, count):
    """A file is made, which stays open for what DiskOut records."""
    if session.ears is None:
        raise Refused(NO_RECORDING)
    if count:
        raise Refused("a file that stays open starts without frames here: the count must be 0")
    channels = session.buffers[number].channels
    if not 1 <= channels <= WIDEST:
        raise Refused(f"the buffer has {channels} channels")
    attempted(path, lambda name: session.ears.open(number, name, words, channels))
    return Asked([], done_as("/b_write", number))


def b_close(session, number):
    """A file that is recorded is closed once all is in it; where none is open, nothing is done."""
    def answer(_gateway, client, _replies):
        session.ears.close_file(number, client)
        return []
    is_open = session.ears is not None and number in session.ears.files
    return Asked([], answer if is_open else done_as("/b_close", number))


def b_write(session, number, path, *given):
    """The samples are asked for, and written once they have come; those of a score once it is rendered."""
    *words, count, start, stays = given
    buffer = buffer_of(session, number)
    if stays:
        return kept_open(session, number, path, words, count)
    if not 0 <= start < buffer.frames:
        raise Refused(f"the buffer has {buffer.frames} frames, and none is written from {start} on")
    attempted(path, lambda _: soundfiles.written(words, 1, buffer.rate, []))
    frames = min(count, buffer.frames - start) if count >= 0 else buffer.frames - start
    first, end = start * buffer.channels, (start + frames) * buffer.channels
    file = Written(path, words, buffer.channels, buffer.rate, questions(number, first, end))

    def answer(gateway, client, replies):
        values = answered(replies)
        if len(values) == end - first:
            try:
                file.write(values)
            except OSError as wrong:
                return [Message("/fail", ["/b_write", f"{path}: {wrong.strerror}", number])]
        return done_as("/b_write", number)(gateway, client, replies)
    if session.live:
        return Asked(file.asked, answer)
    session.writes.append(file)
    return file.asked


NEW, INTO = "buffer text start:int=0 count:int=0", "buffer text start:int=0 count:int=-1 begin:int=0 stays:int=0"

SOUND_FILES = [
    turned("/b_allocRead", 29, NEW, read_new("/b_allocRead"), carries=True),
    turned("/b_read", 30, INTO, read_into("/b_read"), carries=True),
    turned("/b_write", 31, "buffer text text text count:int=-1 start:int=0 stays:int=0", b_write, carries=True),
    turned("/b_close", 33, "buffer", b_close, carries=True),
    turned("/b_allocReadChannel", 54, NEW + " (int)..", read_new("/b_allocReadChannel"), carries=True),
    turned("/b_readChannel", 55, INTO + " (int)..", read_into("/b_readChannel"), carries=True),
]
