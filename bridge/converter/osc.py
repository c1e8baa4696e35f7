"""Packets of Open Sound Control as SuperCollider writes them (floats and arrays too), and as `snova` reads them."""
import re
import struct
import sys
from array import array
from typing import NamedTuple, Union


class Message(NamedTuple):
    """An address and its arguments: int, float, str, bytes (a blob), or a list of these (an array).

    An `array` of ints stands for as many arguments.

    sclang writes the number of a command in place of the address: an int of 32 bits, whose first byte is null.
    """

    address: Union[str, int]
    arguments: list


class Bundle(NamedTuple):
    """A time tag and the messages and bundles that act at it."""

    tag: int
    elements: list


Packet = Union[Message, Bundle]


class Double(float):
    """A float that is written with 64 bits."""


class BadPacket(Exception):
    """Bytes are no packet."""


def messages_of(packet):
    """The messages of a packet, those of inner bundles too."""
    if isinstance(packet, Message):
        return [packet]
    return [message for each in packet.elements for message in messages_of(each)]


# So deep bundles and arrays may nest.
DEEPEST = 64


def shortest(value):
    """The number with the fewest digits that a float of 32 bits stands for: what sclang was given."""
    if not abs(value) < 1e38:
        return value
    texts = (f"{value:.{digits}g}" for digits in range(1, 10))
    return next((float(text) for text in texts if struct.pack(">f", float(text)) == struct.pack(">f", value)), value)


INT, LONG, FLOAT, DOUBLE, TAG = (struct.Struct(form) for form in (">i", ">q", ">f", ">d", ">Q"))
# Of each type tag: how its bytes are read, and what is made of them.
NUMBERS = {"i": (INT, int), "f": (FLOAT, shortest), "d": (DOUBLE, float), "h": (LONG, int), "c": (INT, int)}
# Type tags one by one, but ints that stand next to each other, of which replies have thousands.
TAGS = re.compile("i{2,}|.", re.S)
PLAIN = {"T": 1, "F": 0, "N": 0, "I": 1}


def padded(data):
    return data + bytes(-len(data) % 4)


def string(text):
    return padded(text.encode("latin-1", "replace") + b"\0")


def sized(data):
    """A packet behind its size, as files and streams have it."""
    return INT.pack(len(data)) + data


def big_endian(numbers):
    """The numbers of an array with the byte of the greatest value first."""
    if sys.byteorder == "big":
        return numbers
    found = numbers[:]
    found.byteswap()
    return found


# Of each type of an argument: its tag, and its bytes.
WRITTEN = {int: ("i", INT.pack), float: ("f", FLOAT.pack), Double: ("d", DOUBLE.pack), str: ("s", string),
           bytes: ("b", lambda value: padded(sized(value)))}


def write(values, tags, data):
    """Adds the tags and the bytes of arguments to what is there."""
    for value in values:
        if isinstance(value, list):
            tags.append("[")
            write(value, tags, data)
            tags.append("]")
        elif isinstance(value, array):
            tags.append("i" * len(value))
            data.append(big_endian(value).tobytes())
        else:
            tag, bytes_of = WRITTEN[type(value)]
            tags.append(tag)
            data.append(bytes_of(value))


def encoded(packet):
    """The bytes of a message or a bundle."""
    if isinstance(packet, Bundle):
        return b"#bundle\0" + TAG.pack(packet.tag) + b"".join(sized(encoded(each)) for each in packet.elements)
    tags, data = [","], []
    write(packet.arguments, tags, data)
    address = INT.pack(packet.address) if isinstance(packet.address, int) else string(packet.address)
    return b"".join([address, string("".join(tags)), *data])


# A packet for `snova` has at most so many bytes, and an element of a bundle that is one.
LONGEST_PACKET = 65536
LONGEST_ELEMENT = LONGEST_PACKET - 20


def packets(tag, elements):
    """The bytes of the packets of a bundle: as many as its encoded messages need."""
    found, size = [[]], 16
    for element in elements:
        if found[-1] and size + 4 + len(element) > LONGEST_PACKET:
            found.append([])
            size = 16
        found[-1].append(sized(element))
        size += 4 + len(element)
    return [b"#bundle\0" + TAG.pack(tag) + b"".join(each) for each in found]


class Reader:
    """Reads the bytes of one packet, which stands in `depth` bundles, from the left."""

    def __init__(self, data, depth=0):
        self.data, self.at, self.depth = data, 0, depth

    def skip(self, end):
        """Goes on to a place, which is in the packet."""
        if not self.at <= end <= len(self.data):
            raise BadPacket(f"it is cut at byte {len(self.data)}")
        start, self.at = self.at, end
        return start

    def number(self, form):
        return form.unpack_from(self.data, self.skip(self.at + form.size))[0]

    def string(self):
        end = self.data.find(b"\0", self.at)
        if end < 0:
            raise BadPacket(f"the string at byte {self.at} has no end")
        start = self.skip(self.at + (end - self.at) // 4 * 4 + 4)
        return self.data[start:end].decode("latin-1")

    def blob(self):
        size = self.number(INT)
        start = self.skip(self.at + size)
        self.skip(self.at - -size // 4 * 4 - size)
        return self.data[start:start + size]

    def argument(self, tag):
        if tag in NUMBERS:
            form, made = NUMBERS[tag]
            return made(self.number(form))
        if tag in PLAIN:
            return PLAIN[tag]
        if tag in "sS":
            return self.string()
        if tag == "b":
            return self.blob()
        raise BadPacket(f"the type tag {tag} isn't known")

    def arguments(self, tags, depth=0):
        """The arguments of some tags, up to the end of an array or of all."""
        if depth > DEEPEST:
            raise BadPacket(f"its arrays nest deeper than {DEEPEST}")
        found = []
        for tag in tags:
            if tag == "]":
                break
            if len(tag) > 1:
                found += struct.unpack_from(f">{len(tag)}i", self.data, self.skip(self.at + INT.size * len(tag)))
            else:
                found.append(self.arguments(tags, depth + 1) if tag == "[" else self.argument(tag))
        return found

    def message(self):
        address = self.number(INT) if self.data[:1] == b"\0" else self.string()
        tags = self.string() if self.at < len(self.data) else ","
        return Message(address, self.arguments(iter(TAGS.findall(tags, 1))))

    def bundle(self):
        if self.depth == DEEPEST:
            raise BadPacket(f"its bundles nest deeper than {DEEPEST}")
        self.skip(8)
        tag, elements = self.number(TAG), []
        while self.at < len(self.data):
            size = self.number(INT)
            start = self.skip(self.at + size)
            elements.append(decoded(self.data[start:start + size], self.depth + 1))
        return Bundle(tag, elements)


def decoded(data, depth=0):
    """The packet that bytes spell; it stands in `depth` bundles."""
    reader = Reader(data, depth)
    return reader.bundle() if data[:8] == b"#bundle\0" else reader.message()


def whole_packets(data):
    """The bytes of the whole packets at the start of a stream, and what is left of it."""
    found = []
    while len(data) >= 4 and len(data) >= 4 + (size := INT.unpack_from(data)[0]):
        if size < 0:
            raise BadPacket(f"a size of {size} bytes")
        found.append(data[4:4 + size])
        data = data[4 + size:]
    return found, data
