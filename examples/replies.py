#!/usr/bin/env python3
"""Prints the messages of a reply file, and exits with 1 if there is a `/fail` among them.

    python3 examples/replies.py FILE
"""
import struct
import sys
from pathlib import Path


def text_at(data, at):
    """The string at a place of a packet, and the place after it."""
    end = data.index(b"\0", at)
    return data[at:end].decode("latin-1"), end + 4 - end % 4


def words(packet):
    """The address and the arguments of a message of ints and strings."""
    address, at = text_at(packet, 0)
    tags, at = text_at(packet, at)
    found = [address]
    for tag in tags[1:]:
        if tag == "i":
            found.append(struct.unpack_from(">i", packet, at)[0])
            at += 4
        else:
            argument, at = text_at(packet, at)
            found.append(argument)
    return found


def packets(data):
    """The whole packets at the begin of some bytes, and the bytes that are left."""
    found = []
    while len(data) >= 4 and len(data) >= 4 + (size := struct.unpack_from(">i", data)[0]):
        found.append(data[4:4 + size])
        data = data[4 + size:]
    return found, data


def shown(packet):
    return " ".join(str(word) for word in words(packet))


def printed(path):
    """Prints the messages of a file, and gives 1 if there is a `/fail` or a part of a packet, else 0."""
    found, left = packets(path.read_bytes())
    lines = [shown(packet) for packet in found]
    for line in lines:
        print(line)
    if left:
        print(f"{len(left)} bytes are left", file=sys.stderr)
    failed = sum(line.startswith("/fail ") for line in lines)
    if failed:
        print(f"{failed} of {len(lines)} replies are /fail", file=sys.stderr)
    return 1 if failed or left else 0


def main():
    if len(sys.argv) != 2:
        raise SystemExit(__doc__.strip())
    return printed(Path(sys.argv[1]))


if __name__ == "__main__":
    sys.exit(main())
