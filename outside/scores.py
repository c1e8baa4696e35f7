"""Text of packets, both ways, by the grammar, and a comparison with a built program: python3 scores.py SNOVA

SNOVA dumps the stream of each piece of ../examples, and scores the text back to the same bytes. So it does with packets of every form
and with rows that are worked by hand. Texts that are no score and streams that are no list of packets must have the same first fault.
Words that are refused, files that fail, too many bytes and too little memory must have their line and their status, and leave nothing
in OUT, or a prefix. It prints each difference and exits with 1 if there is one.
"""
import re
import resource
import signal
import struct
import subprocess
import sys
import tempfile
from pathlib import Path

import osc

EXAMPLES = Path(__file__).resolve().parent.parent / "examples"

# ---- from a stream to its text


def quoted(data):
    marks = {34: '\\"', 92: "\\\\"}
    return '"' + "".join(marks.get(b) or (chr(b) if 32 <= b <= 126 else f"\\x{b:02x}") for b in data) + '"'


def address_word(data):
    return data.decode() if re.fullmatch(rb"[!#-\[\]-~]+", data) else quoted(data)


def body_words(data, place, end):
    """The fields of a message, read from what stands behind its address."""
    if place == end:
        return []
    tags, place = osc.read_string(data, place, end)
    if tags[1:].strip(b"isb"):
        return ["?" + quoted(tags[1:]), "#" + data[place:end].hex()]
    words = []
    for tag in tags[1:]:
        value, place = osc.read_argument(data, bytes([tag]), place, end)
        words.append(str(value) if tag == 105 else quoted(value) if tag == 115 else "#" + value.hex())
    return words or ["()"]


def packet_lines(data, place, end):
    if data[place:place + 1] == b"/":
        address, behind = osc.read_string(data, place, end)
        yield " ".join([address_word(address), *body_words(data, behind, end)])
        return
    yield "[ {} {}".format(*struct.unpack_from(">II", data, place + 8))
    place += 16
    while place < end:
        size = struct.unpack_from(">i", data, place)[0]
        yield from packet_lines(data, place + 4, place + 4 + size)
        place += 4 + size
    yield "]"


def dumped(stream):
    """The text of a stream that has no fault, and how many packets it has."""
    lines, place, packets = [], 0, 0
    while place < len(stream):
        size = struct.unpack_from(">i", stream, place)[0]
        lines += packet_lines(stream, place + 4, place + 4 + size)
        place, packets = place + 4 + size, packets + 1
    return "".join(line + "\n" for line in lines).encode(), packets


# ---- from a text to its stream

PLAIN = r"[!#-\[\]-~]+"
QUOTED = r'"(?:[ !#-\[\]-~]|\\["\\]|\\x(?:[01][0-9a-f]|7f|[89a-f][0-9a-f]))*"'
INT = r"0|-?[1-9][0-9]*"
BLOB = r"#(?:[0-9a-f]{2})*"
OPENING = re.compile(rf"\[ (0|[1-9][0-9]*) (0|[1-9][0-9]*)")
MESSAGE = re.compile(rf"({PLAIN}|{QUOTED})((?: .*)?)")
FOREIGN = re.compile(rf" \?({QUOTED}) ({BLOB})")
FIELD = re.compile(rf" ({QUOTED}|{BLOB}|{INT})(?= |$)")


class BadLine(Exception):
    """No score goes on with this line."""


def unquoted(word):
    data = re.sub(rb"\\(x..|.)", lambda it: bytes.fromhex(it[1][1:].decode()) if it[1][:1] == b"x" else it[1], word[1:-1].encode())
    if 0 in data:
        raise BadLine
    return data


def argument(word):
    if word[0] in '"#':
        return osc.argument(bytes.fromhex(word[1:])) if word[0] == "#" else (b"s", osc.string(unquoted(word)))
    if not -(1 << 31) <= int(word) < 1 << 31:
        raise BadLine
    return osc.argument(int(word))


def body(rest):
    """What stands behind an address."""
    if not rest:
        return b""
    if rest == " ()":
        return osc.string(b",")
    foreign = FOREIGN.fullmatch(rest)
    if foreign:
        tags, data = unquoted(foreign[1]), bytes.fromhex(foreign[2][1:])
        if not tags.strip(b"isb") or len(data) % 4:
            raise BadLine
        return osc.string(b"," + tags) + data
    pairs, place = [], 0
    while place < len(rest):
        field = FIELD.match(rest, place)
        if not field:
            raise BadLine
        pairs.append(argument(field[1]))
        place = field.end()
    return osc.string(b"," + b"".join(tag for tag, _ in pairs)) + b"".join(data for _, data in pairs)


def message(line):
    parts = MESSAGE.fullmatch(line)
    if not parts:
        raise BadLine
    address = unquoted(parts[1]) if parts[1][0] == '"' else parts[1].encode()
    if address[:1] != b"/" or parts[1][0] == '"' and re.fullmatch(PLAIN, address.decode("latin-1")):
        raise BadLine
    return osc.string(address) + body(parts[2])


def opened(line, open_bundles):
    """The head of a bundle, and the tag that it counts as."""
    halves = OPENING.fullmatch(line)
    if not halves or len(open_bundles) == 8 or any(int(half) >= 1 << 32 for half in halves.groups()):
        raise BadLine
    tag, around = int(halves[1]) << 32 | int(halves[2]), open_bundles[-1][1] if open_bundles else 1
    if tag != 1 and around != 1 and tag < around:
        raise BadLine
    return b"#bundle\0" + struct.pack(">Q", tag), around if tag == 1 else tag


def closed(open_bundles):
    """The packet that its open bundles would be, if all were closed."""
    packet = b""
    for data, _ in reversed(open_bundles):
        packet = data + (osc.frame(packet) if packet else b"")
    return packet


def take(line, open_bundles, stream):
    """One line more: each open bundle has its bytes and the tag that it counts as."""
    if line == "]":
        if not open_bundles:
            raise BadLine
        packet = open_bundles.pop()[0]
    elif line.startswith("["):
        open_bundles.append(list(opened(line, open_bundles)))
        packet = None
    else:
        packet = message(line)
    if packet is not None and open_bundles:
        open_bundles[-1][0] += osc.frame(packet)
    elif packet is not None:
        stream.append(packet)
    if len(closed(open_bundles) if open_bundles else packet) > osc.LONGEST:
        raise BadLine


def scored(text):
    """The stream of a text and how many packets it has, or None and the number of the line at fault."""
    lines = text.decode("latin-1").split("\n")
    open_bundles, stream = [], []
    for number, line in enumerate(lines[:-1], 1):
        try:
            take(line, open_bundles, stream)
        except BadLine:
            return None, number
    if lines[-1] or open_bundles:
        return None, len(lines)
    return b"".join(osc.frame(packet) for packet in stream), len(stream)


# ---- a comparison

FRAMES = [
    osc.string(b"/a"), osc.string(b"/a") + osc.string(b","), osc.string(b"/a") + osc.string(b",f") + b"\x3f\x80\0\0",
    osc.message("/b c\"\\\x7f\xff", -1, 0, 2147483647, -2147483648, "", 'x"\\\x01~ y', b"", b"\0\xff\x0a"),
    osc.bundle(0), osc.bundle(2**64 - 1, osc.bundle(1, osc.message("/[", 1), osc.bundle(2**64 - 1)), osc.message("/]")),
    osc.message("/long", "n" * 65516),
]
NO_SCORES = [
    b"[ 1 0\n", b"/a 007\n", b"]\n", b"/a\n]\n", b"a\n", b"/a", b"/a\n/b", b"\n", b'"/a"\n', b"/a #0A\n", b"/a #0\n", b"/a -0\n", b"/a 2147483648\n",
    b'/a "\\x41"\n', b'/a "\\x00"\n', b'/a "\\"\n', b'/a "x\n', b'/a "\x7f"\n', b"/a ()  1\n", b"/a () 1\n", b"/a  1\n", b"/a \n", b'/a ?"is" #\n',
    b'/a ?"f" #3f80\n', b'/a ?"f"\n', b"[ 01 0\n]\n", b"[ 4294967296 0\n]\n", b"[ 1 0 \n]\n", b"[ 2 0\n[ 1 0\n]\n]\n", b"[ 0 0\n" * 9 + b"]\n" * 9,
    b"[ 0 0\n[ 0 0\n" + b'/l "' + b"n" * 65484 + b'"\n/a\n]\n]\n', b'/l "' + b"n" * 65529 + b'"\n', b"/a 1\r\n", b"/a\n[ 0 1\n/b\n]\n/c 1 2 x\n",
]

# Rows worked by hand: a text of one packet, and its stream.
ROWS = [
    (b"[ 1 0\n/c_get 3\n]\n", "00000024 2362756e646c6500 0000000100000000 00000010 2f635f6765740000 2c690000 00000003"),
    (b'/a ?"f" #3f800000\n', "0000000c 2f610000 2c660000 3f800000"),
]
# Texts worked by hand, and their first line at fault.
BAD_ROWS = [(b"[ 1 0\n", 2), (b"/a 007\n", 1)]


def nested(depth):
    """So many bundles, one inside the other."""
    return osc.bundle(1, nested(depth - 1)) if depth > 1 else osc.bundle(1)


ONE = osc.frame(osc.message("/a", 1))
# Streams that are no list of packets: what follows a packet that is good.
NO_STREAMS = [
    osc.frame(b"a\0\0\0"), osc.frame(b"/aaa"), osc.frame(b"/a\0\1"), osc.frame(b"/a\0\0ab\0\0"), osc.frame(b"/a\0\0,i\0\0"),
    osc.frame(b"/a\0\0,\0\0\0more"), osc.frame(b"/a\0\0,b\0\0\0\0\0\5more"), osc.frame(osc.bundle(1) + b"\0\0\0\5"), osc.frame(b"#bundl\0\0"),
    osc.frame(osc.bundle(9, osc.bundle(8))), osc.frame(nested(9)), struct.pack(">i", 6) + b"/a\0\0\0\0", ONE[:-1], b"\0\0",
]

MOST = 16777216
# A line, and a frame, of which so many have as many bytes as there may be.
LONG_LINE, LINES = b"/" + b"n" * 32766 + b"\n", 512
LONG_FRAME, FULL = osc.frame(osc.message("/a", bytes(65520))), 256
MANY = 400000


def with_little_memory():
    resource.setrlimit(resource.RLIMIT_AS, (48 << 20, 48 << 20))


def with_short_files():
    signal.signal(signal.SIGXFSZ, signal.SIG_IGN)
    resource.setrlimit(resource.RLIMIT_FSIZE, (9, 9))


# The words, what IN holds and how often, the line, the status, what OUT holds then (None: it was not made), and what the program is run with.
ENDS = [
    ([], ONE, 1, "bad word 0", 2, None, None),
    (["sore", "given", "made"], ONE, 1, "bad word 0", 2, None, None),
    (["dump"], ONE, 1, "bad word 1", 2, None, None),
    (["score"], ONE, 1, "bad word 1", 2, None, None),
    (["score", "given"], ONE, 1, "bad word 2", 2, None, None),
    (["dump", "given", "made", "more"], ONE, 1, "bad word 3", 2, None, None),
    (["score", "given", "made", "more", "words"], ONE, 1, "bad word 3", 2, None, None),
    (["dump", "absent", "made"], ONE, 1, "cannot open", 9, None, None),
    (["dump", "given", "absent/made"], ONE, 1, "cannot open", 9, None, None),
    (["dump", "given", "given"], ONE, 1, "cannot open", 9, None, None),
    (["dump", ".", "made"], ONE, 1, "read fault", 6, b"", None),
    (["score", ".", "made"], ONE, 1, "read fault", 6, b"", None),
    (["dump", "given", "/dev/full"], ONE, 1, "out fault", 7, None, None),
    (["score", "given", "/dev/full"], b"/a\n", 1, "out fault", 7, None, None),
    (["dump", "given", "made"], ONE, 3, "out fault", 7, b"/a 1\n/a 1", with_short_files),
    (["score", "given", "made"], b"/a 1\n", 1, "out fault", 7, ONE[:9], with_short_files),
    (["dump", "given", "made"], ONE, MANY, "no memory", 1, b"", with_little_memory),
    (["score", "given", "made"], b"/a 1\n", MANY, "no memory", 1, b"", with_little_memory),
    (["dump", "given", "made"], LONG_FRAME, FULL, "done 256 packets", 0, b"/a #" + b"00" * 65520 + b"\n", None),
    (["score", "given", "made"], LONG_LINE, LINES, "done 512 packets", 0, osc.frame(LONG_LINE[:-1] + b"\0"), None),
    (["dump", "given", "made"], b"/", MOST + 1, "stream over 16777216 bytes", 4, b"", None),
    (["score", "given", "made"], b"\n", MOST + 1, "stream over 16777216 bytes", 4, b"", None),
]


def run(snova, words, given, folder, prepare=None):
    """What a conversion printed, its status and what it wrote, if anything."""
    made = folder / "made"
    made.unlink(missing_ok=True)
    (folder / "given").write_bytes(given)
    ran = subprocess.run([snova, *words], cwd=folder, stdout=subprocess.PIPE, stderr=subprocess.DEVNULL, check=False, preexec_fn=prepare)
    return ran.stdout.decode().strip(), ran.returncode, made.read_bytes() if made.exists() else None


def convert(snova, word, given, folder):
    return run(snova, [word, "given", "made"], given, folder)


def size(data):
    return "no file" if data is None else f"{len(data)} bytes"


def compare(what, ran, wanted):
    if ran != wanted:
        print(f"{what}: {ran[0]}, status {ran[1]}, {size(ran[2])}; wanted {wanted[0]}, status {wanted[1]}, {size(wanted[2])}")
    return ran == wanted


def compare_forms(snova, folder, what, text, stream, packets):
    done = f"done {packets} packets"
    there = compare(f"{what}, dump", convert(snova, "dump", stream, folder), (done, 0, text))
    back = compare(f"{what}, score", convert(snova, "score", text, folder), (done, 0, stream))
    return there and back


def compare_stream(snova, folder, what, stream):
    text, packets = dumped(stream)
    same = scored(text) == (stream, packets) or print(f"{what}: the model does not read its text back")
    return bool(same) and compare_forms(snova, folder, what, text, stream, packets)


def compare_text(snova, folder, text):
    stream, number = scored(text)
    wanted = (f"bad score: line {number}", 16, b"") if stream is None else (f"done {number} packets", 0, stream)
    return compare(f"score of {text[:60]}", convert(snova, "score", text, folder), wanted)


def compare_bad_stream(snova, folder, stream):
    try:
        osc.packets_of(stream)
    except osc.Fault as fault:
        line = f"bad stream: packet {fault.packet}, byte {fault.place}, fault P{fault.kind}"
        return compare(f"dump of {stream}", convert(snova, "dump", stream, folder), (line, 3, b""))
    return print(f"dump of {stream}: the model finds no fault")


def compare_end(snova, folder, words, given, times, line, status, out, prepare):
    wanted = line, status, out * times if status == 0 else out
    return compare(f"{' '.join(words)}, with {len(given) * times} bytes", run(snova, words, given * times, folder, prepare), wanted)


def examples():
    """The name and the stream of each piece."""
    sys.path.append(str(EXAMPLES))
    import make

    for name in make.all_names():
        yield f"examples/{name}.txt", make.stream(name)


def main(snova):
    streams = {"packets of every form": b"".join(osc.frame(packet) for packet in FRAMES), "nothing": b"", **dict(examples())}
    with tempfile.TemporaryDirectory() as name:
        folder = Path(name)
        same = [compare_stream(snova, folder, what, stream) for what, stream in streams.items()]
        same += [compare_forms(snova, folder, text.decode(), text, bytes.fromhex(stream), 1) for text, stream in ROWS]
        same += [compare(text.decode(), convert(snova, "score", text, folder), (f"bad score: line {line}", 16, b"")) for text, line in BAD_ROWS]
        same += [compare_text(snova, folder, text) for text in NO_SCORES]
        same += [compare_bad_stream(snova, folder, ONE + stream) for stream in NO_STREAMS]
        same += [compare_end(snova, folder, *end) for end in ENDS]
    if all(same):
        print(f"{len(streams) + len(ROWS)} streams are dumped and scored back, {len(NO_SCORES) + len(BAD_ROWS)} texts and {len(NO_STREAMS)} streams "
              f"have their first fault, and {len(ENDS)} ends are as they should be")
    return 0 if all(same) else 1


if __name__ == "__main__":
    if len(sys.argv) != 2:
        sys.exit(__doc__)
    sys.exit(main(str(Path(sys.argv[1]).resolve())))
