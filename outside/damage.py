"""Damaged streams by chance: bytes that are changed, taken out or put in, sizes and tags that are changed, frames that are exchanged
or stand inside bundles, and an end that is cut off. A seed gives one stream."""
import struct
import osc
import scores
import server
from random_cases import Chance, faulty_text, packets, play
from cases import stream

# A stream of more blocks is not played.
MOST_BLOCKS = 50
BYTES = [0, 1, 4, 8, 12, 16, 44, 47, 35, 98, 105, 115, 127, 128, 255]
SIZES = [0, 1, 2, 3, 4, 6, 12, 16, 65532, 65536, 65540, (1 << 31) - 1, (1 << 31) - 4, -1, -4, -(1 << 31)]
TAGS = [0, 1, 2, 5, 5726623, 5726624, 1 << 32, (1 << 63) - 1, 1 << 63, (1 << 64) - 1]


def sizes_in(data, place, end):
    """The places of the sizes of frames or elements, as far as they are whole, each with its size."""
    found = []
    while end - place >= 4:
        size = struct.unpack_from(">i", data, place)[0]
        if size < 0 or size > end - place - 4:
            break
        found.append((place, size))
        if data[place + 4:place + 12] == b"#bundle\0":
            found += sizes_in(data, place + 20, place + 4 + size)
        place += 4 + size
    return found


def frames_of(data):
    """The frames at the begin of a stream, and what stands behind them."""
    place, frames = 0, []
    while len(data) - place >= 4 and 0 <= (size := struct.unpack_from(">i", data, place)[0]) <= len(data) - place - 4:
        frames.append(data[place:place + 4 + size])
        place += 4 + size
    return frames, data[place:]


def change_bytes(chance, data):
    data = bytearray(data)
    for _ in range(chance.choice([1, 1, 2, 4, 30])):
        at = chance.randrange(len(data))
        data[at] = chance.choice([*BYTES, data[at] ^ 1 << chance.randrange(8), chance.randrange(256)])
    return bytes(data)


def take_out(chance, data):
    at = chance.randrange(len(data))
    return data[:at] + data[at + chance.choice([1, 2, 3, 4, 8, 20]):]


def put_in(chance, data):
    at = chance.randrange(len(data) + 1)
    return data[:at] + chance.choice([bytes(chance.randint(1, 8)), bytes(4), b"#bundle\0", b"/a\0\0", data[at:at + 16]]) + data[at:]


def cut(chance, data):
    at = chance.randrange(len(data))
    return data[:at - at % 4 if chance.random() < 0.5 else at]


def change_size(chance, data):
    found = sizes_in(data, 0, len(data))
    if not found:
        return change_bytes(chance, data)
    at, size = chance.choice(found)
    other = chance.choice([*SIZES, size - 4, size + 4, size - 1, size + 1, size // 2, 2 * size])
    return data[:at] + struct.pack(">i", other) + data[at + 4:]


def change_tag(chance, data):
    heads = [at for at, _ in sizes_in(data, 0, len(data)) if data[at + 4:at + 12] == b"#bundle\0" and at + 20 <= len(data)]
    if not heads:
        return change_bytes(chance, data)
    at = chance.choice(heads) + 12
    return data[:at] + struct.pack(">Q", chance.choice(TAGS)) + data[at + 8:]


def exchange_frames(chance, data):
    frames, rest = frames_of(data)
    if not frames:
        return change_bytes(chance, data)
    one, other = chance.randrange(len(frames)), chance.randrange(len(frames))
    if chance.random() < 0.5:
        frames[one], frames[other] = frames[other], frames[one]
    elif chance.random() < 0.5:
        frames[one] = frames[other]
    else:
        del frames[one]
    return b"".join(frames) + rest


def enclose(chance, data):
    """The first frame inside some bundles."""
    frames, rest = frames_of(data)
    if not frames:
        return change_bytes(chance, data)
    packet = frames[0][4:]
    for _ in range(chance.randint(1, 10)):
        packet = osc.bundle(chance.choice([0, 1, 1, 1, 2]), packet)
    return b"".join([osc.frame(packet), *frames[1:]]) + rest


WAYS = [change_bytes] * 4 + [enclose, take_out, put_in, cut, change_size, change_size, change_tag, exchange_frames]


def damaged_packet(chance, packet):
    """A packet with some damage, of a length that a frame may have."""
    data = osc.frame(packet)
    for _ in range(chance.choice([1, 1, 2])):
        data = chance.choice(WAYS)(chance, data) or data
    return osc.padded(data[4:osc.LONGEST + 4]) or bytes(4)


TEXT_PIECES = [b"", b" ", b"\n", b'"', b"\\", b"#", b"0", b"-", b"?", b"[ 0 1\n", b"]\n", b"()", b"\\x", b"\\x00", b"/", b"/a\n", b"\r", b"\xff", b"4294967296", b"2147483648"]


def damaged_text(seed):
    """A text of commands, in which some bytes are others, lines are exchanged, or an end is cut off."""
    chance = Chance(seed)
    lines = scores.dumped(play(chance))[0].splitlines(keepends=True)
    begin = chance.randrange(len(lines))
    lines = lines[begin:begin + chance.randint(1, 20)]
    one, other = chance.randrange(len(lines)), chance.randrange(len(lines))
    if chance.random() < 0.3:
        lines[one], lines[other] = lines[other], lines[one]
    text = b"".join(lines)
    for _ in range(chance.randint(0, 2)):
        at = chance.randrange(len(text) + 1)
        text = text[:at] + chance.choice(TEXT_PIECES) + text[at + chance.choice([0, 0, 1, 2]):]
    return text[:chance.randrange(len(text) + 1)] if chance.random() < 0.1 else text


def settings_by_chance(chance):
    return (f"rate={chance.choice([44100, 48000, 96000])}", f"channels={chance.randint(1, 2)}", f"bits={chance.choice([16, 24])}",
            f"workers={chance.choice([1, 4])}", "memory=65536")


def drawn(chance):
    """The kind of a stream without damage, and the stream."""
    kind = chance.choice(["packets"] * 5 + ["play"] * 2 + ["texts"])
    make = {"packets": packets, "play": play, "texts": lambda chance: stream(*[("/d_recv", faulty_text(chance)) for _ in range(4)], ("/status",))}
    return kind, make[kind](chance)


def damaged_connection(seed):
    """What is sent over a connection: a stream, of which some packets are damaged, and in half of all cases also the frames."""
    chance = Chance(seed)
    words, (kind, data) = settings_by_chance(chance), drawn(chance)
    frames, rest = frames_of(data)
    share = chance.choice([0.1, 0.5, 1])
    data = b"".join(osc.frame(damaged_packet(chance, frame[4:])) if chance.random() < share else frame for frame in frames) + rest
    if chance.random() < 0.5:
        data = chance.choice(WAYS)(chance, data) or data
    return f"damaged connection {seed}, {kind}", words, data


def is_short(words, data):
    """Whether a stream is refused, or played in a few blocks."""
    try:
        packets = server.accepted(server.settings_of(words), data)
    except server.Refused:
        return True
    return server.Run(server.settings_of(words), packets).last <= MOST_BLOCKS


def damaged_case(seed):
    chance = Chance(seed)
    words, (kind, whole) = settings_by_chance(chance), drawn(chance)
    while True:
        data = whole
        for _ in range(chance.choice([1, 1, 1, 2, 3])):
            data = chance.choice(WAYS)(chance, data) or whole
        if is_short(words, data):
            return f"damaged {seed}, {kind}", words, data
