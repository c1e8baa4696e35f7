"""What the keeper and its window send each other: frames with a kind, a size and bytes."""
import json
import struct

HEAD = struct.Struct(">cI")
# Something as JSON, and sound as the server sent it.
TEXT, SOUND = b"t", b"s"


def framed(kind, data):
    return HEAD.pack(kind, len(data)) + data


def told(what):
    """The frame of something that JSON can say."""
    return framed(TEXT, json.dumps(what, separators=(",", ":")).encode())


class Frames:
    """Puts together what comes in pieces."""

    def __init__(self):
        self.came = bytearray()

    def take(self, data):
        """The frames that are whole with these bytes: a kind, and what was sent."""
        self.came += data
        at, found = 0, []
        while len(self.came) - at >= HEAD.size:
            kind, size = HEAD.unpack_from(self.came, at)
            end = at + HEAD.size + size
            if len(self.came) < end:
                break
            body = bytes(self.came[at + HEAD.size:end])
            found.append((kind, json.loads(body) if kind == TEXT else body))
            at = end
        del self.came[:at]
        return found
