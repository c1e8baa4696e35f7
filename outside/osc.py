"""Packets of Open Sound Control 1.0: how they are spelled, and how they are read."""
import struct

LONGEST = 65536


class Fault(Exception):
    """A packet or a stream is at fault: its kind (P1 to P14) and its place."""

    def __init__(self, kind, place):
        super().__init__(kind, place)
        self.kind, self.place = kind, place


class Foreign:
    """Arguments with tags that are not read."""


def padded(data):
    return data + bytes(-len(data) % 4)


def string(text):
    data = text.encode("latin-1") if isinstance(text, str) else text
    return padded(data + b"\0")


def argument(value):
    if isinstance(value, int):
        return b"i", struct.pack(">i", value)
    if isinstance(value, str):
        return b"s", string(value)
    return b"b", struct.pack(">i", len(value)) + padded(value)


def message(address, *arguments):
    """The bytes of a message; a whole number is an int, a text a string, and bytes are a blob."""
    pairs = [argument(value) for value in arguments]
    tags = b"," + b"".join(tag for tag, _ in pairs)
    return string(address) + string(tags) + b"".join(data for _, data in pairs)


def frame(packet):
    return struct.pack(">i", len(packet)) + packet


def bundle(tag, *elements):
    return b"#bundle\0" + struct.pack(">Q", tag) + b"".join(frame(element) for element in elements)


class Message:
    def __init__(self, address, body):
        self.address, self.body = address, body


class Bundle:
    def __init__(self, tag, elements):
        self.tag, self.elements = tag, elements


def read_string(data, place, end, first=None):
    """A string and the place behind its padding."""
    stop = data.find(b"\0", place, end)
    if stop < 0:
        raise Fault(3, place)
    if first is not None and data[place:place + 1] != first:
        raise Fault(5, place)
    behind = stop + 4 - (stop - place) % 4
    check_padding(data, stop + 1, behind)
    return data[place:stop], behind


def check_padding(data, place, behind):
    for i in range(place, behind):
        if data[i] != 0:
            raise Fault(4, i)


def read_argument(data, tag, place, end):
    if place == end:
        raise Fault(6, end)
    if tag == b"s":
        return read_string(data, place, end)
    number = struct.unpack_from(">i", data, place)[0]
    if tag == b"i":
        return number, place + 4
    if number < 0 or number > end - place - 4:
        raise Fault(8, place)
    stop = place + 4 + number
    behind = stop + -number % 4
    check_padding(data, stop, behind)
    return data[place + 4:stop], behind


def read_message(data, place, end):
    address, place = read_string(data, place, end)
    if place == end:
        return Message(address, [])
    tags, place = read_string(data, place, end, b",")
    if tags[1:].strip(b"isb"):
        return Message(address, Foreign())
    arguments = []
    for tag in tags[1:]:
        value, place = read_argument(data, bytes([tag]), place, end)
        arguments.append((chr(tag), value))
    if place != end:
        raise Fault(7, place)
    return Message(address, arguments)


def read_bundle(data, place, end, depth, around):
    if end - place < 16 or data[place:place + 8] != b"#bundle\0":
        raise Fault(10, place)
    if depth >= 8:
        raise Fault(12, place)
    tag = struct.unpack_from(">Q", data, place + 8)[0]
    if tag != 1 and around != 1 and tag < around:
        raise Fault(11, place + 8)
    counts_as = around if tag == 1 else tag
    place += 16
    elements = []
    while place < end:
        size = struct.unpack_from(">i", data, place)[0]
        if size < 4 or size % 4 or size > end - place - 4:
            raise Fault(9, place)
        place += 4
        elements.append(read_packet(data, place, place + size, depth + 1, counts_as))
        place += size
    return Bundle(counts_as, elements)


def read_packet(data, place, end, depth, around):
    if data[place:place + 1] == b"/":
        return read_message(data, place, end)
    if data[place:place + 1] == b"#":
        return read_bundle(data, place, end, depth, around)
    raise Fault(2, place)


def decode(data):
    """The packet that bytes spell. A bundle's tag is what it counts as, 1 where that is the time of arrival."""
    if not data or len(data) > LONGEST or len(data) % 4:
        raise Fault(1, 0)
    return read_packet(data, 0, len(data), 0, 1)


def packets_of(stream):
    """The packets of a stream, or a fault with the number of its packet in front."""
    packets, place = [], 0
    while place < len(stream):
        try:
            packet, place = next_packet(stream, place)
        except Fault as fault:
            fault.packet = len(packets)
            raise
        packets.append(packet)
    return packets


def next_packet(stream, place):
    if len(stream) - place < 4:
        raise Fault(14, place)
    size = struct.unpack_from(">i", stream, place)[0]
    if size < 4 or size > LONGEST or size % 4:
        raise Fault(13, place)
    if len(stream) - place - 4 < size:
        raise Fault(14, place)
    begin = place + 4
    try:
        return decode(stream[begin:begin + size]), begin + size
    except Fault as fault:
        raise Fault(fault.kind, begin + fault.place) from None
