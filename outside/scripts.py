"""Runs the scripts of crates/sn_cases/data through the model, and compares: python3 scripts.py [FILE ..]."""
import functools
import glob
import os
import re
import sys
import osc
import server
import connection

DATA = os.path.join(os.path.dirname(os.path.abspath(__file__)), "..", "crates", "sn_cases", "data", "*.txt")
# A sound of more blocks is not worked out: its case fails after the header.
LONG = 100000
FAULTS = ("read fault", "sound fault", "reply fault", "link fault")


class Case:
    def __init__(self, name):
        self.name, self.words, self.ending, self.blocks, self.same, self.sum, self.base = name, [], None, 0, None, None, None
        self.items, self.replies, self.sound, self.events = [], b"", b"", []
        self.piece, self.fails, self.length, self.left = 4096, [], 0, None
        self.numbers = None

    def stream(self):
        """What was put in up to here: packets, bundles with their tags, and bytes without a size."""
        parts = []
        for kind, value in self.items:
            parts.append(value if kind == "bytes" else osc.frame(osc.bundle(*value) if kind == "bundle" else value))
        self.items = []
        return b"".join(parts)

    def element(self, packet):
        if self.items and self.items[-1][0] == "bundle":
            self.items[-1][1].append(packet)
        else:
            self.items.append(("packet", packet))

    def send(self):
        data = self.stream()
        if data:
            self.events.append(data)


def value_of(word, blobs):
    if word.startswith('"'):
        return word[1:-1]
    if word.startswith("@"):
        return blobs[word[1:]]
    return int(word) if re.fullmatch(r"[+-]?[0-9]+", word) and -(1 << 31) <= int(word) < 1 << 31 else word


def message(line, blobs):
    address, _, rest = line.partition(" ")
    if not address.startswith("/") or rest.count('"') % 2:
        raise ValueError(line)
    return osc.message(address, *[value_of(word, blobs) for word in re.findall(r'"[^"]*"|[^\s"]+', rest)])


def case_line(case, line, blobs):
    word, _, rest = line.partition(" ")
    if word == "many":
        count, _, again = rest.partition(" ")
        for _ in range(int(count)):
            case_line(case, again, blobs)
    elif word == "with":
        case.words += rest.split()
    elif word == "at":
        case.items.append(("bundle", [int(rest)]))
    elif word == "raw":
        case.element(bytes.fromhex(rest))
    elif word == "bytes":
        case.items.append(("bytes", bytes.fromhex(rest)))
    elif word == "=":
        case.sound += bytes.fromhex(rest)
    elif word == "sum":
        case.sum = int(rest, 16)
    elif word == "same":
        case.same = rest.removeprefix("as ")
    elif word == "blocks":
        case.blocks = int(rest)
    elif word == "ends":
        case.ending = rest
    elif word == "leaves":
        case.left = int(rest)
    elif word == "source":
        case.piece, *case.fails = map(int, rest.split())
    elif word == "over":
        case.base = int(rest)
    elif word == "ticks":
        case.send()
        case.events.append(int(rest))
    elif word == "several":
        case.numbers = [int(number) for number in rest.split()][1:]
    elif word == "client":
        case.events.append(case.stream())
    elif word == ">":
        case.replies += osc.frame(message(rest, blobs))
    elif word not in ("sound", "replies", "meet", "apart", "again"):
        case.element(message(line, blobs))


def cases_of(path):
    cases, blobs, text = [], {}, None
    for number, line in enumerate(open(path, newline="\n").read().split("\n"), 1):
        word, _, rest = line.partition(" ")
        if text is not None:
            if line == ".":
                text = None
            else:
                blobs[text] += line.encode("latin-1") + b"\n"
        elif line == "" or line.startswith("#"):
            pass
        elif word == "case":
            cases.append(Case(rest))
        elif word == "text":
            if rest in blobs:
                print(f"{path}:{number}: the text {rest} is there already")
            text, blobs[rest] = rest, b""
        elif word == "blob":
            name, _, command = rest.partition(" ")
            blobs[name] = message(command, blobs)
        else:
            try:
                case_line(cases[-1], line, blobs)
            except (ValueError, KeyError, IndexError) as error:
                print(f"{path}:{number}: {error!r}")
    return cases


def fnv(data):
    total = 0xcbf29ce484222325
    for byte in data:
        total = (total ^ byte) * 0x100000001b3 % (1 << 64)
    return total


@functools.cache
def rendered(words, stream):
    line, _, sound, replies = server.run(words, stream)
    return line, sound, replies


def model_of(case):
    """The line, the sound behind its header, the whole sound, and the replies that the model makes of a case."""
    if case.base is not None:
        case.send()
        line, sound, replies = connection.serve(server.settings_of(case.words), case.base, case.events)
        return line, sound, sound, replies
    if case.numbers is not None:
        # A pulse gives its numbers up to the first 0.
        numbers = case.numbers[:case.numbers.index(0)] if 0 in case.numbers else case.numbers
        line, sound, replies = connection.together(server.settings_of(case.words), numbers, [*case.events, case.stream()])
        return line, sound, sound, replies
    bad = server.bad_word(case.words)
    if bad is not None:
        return f"bad word {bad}", b"", b"", b""
    stream = case.stream()
    case.length = len(stream)
    if case.blocks > LONG:
        packets = server.accepted(server.settings_of(case.words), stream)
        return f"done {server.Run(server.settings_of(case.words), packets).last} blocks", b"", b"", case.replies
    line, sound, replies = rendered(tuple(case.words), stream)
    return line, sound[44:], sound, replies


def told(what, script, model):
    """Where two lists of bytes differ first, and some bytes from there on."""
    at = next((i for i, (one, other) in enumerate(zip(script, model)) if one != other), min(len(script), len(model)))
    return f"  {what}: {len(script)} and {len(model)} bytes, from byte {at}: script {script[at:at + 32].hex()}, model {model[at:at + 32].hex()}"


def left_of(case):
    """How many bytes are not taken: none, or those behind the calls before the first that fails."""
    return max(0, case.length - case.piece * min(case.fails)) if case.fails else 0


def differences(case, made):
    """What of a case is other than in the model."""
    line, samples, sound, replies = made[case.name]
    found = []
    wanted = case.ending or f"done {case.blocks} blocks"
    if case.ending == "read fault":
        wanted, samples, sound, replies = line, b"", b"", b""
    elif case.ending in FAULTS:
        wanted = line if case.base is not None else f"done {case.blocks} blocks"
    if line != wanted:
        found.append(f"  ends: script {wanted}, model {line}")
    if case.left not in (None, left_of(case)):
        found.append(f"  leaves: script {case.left}, model {left_of(case)}")
    if case.same:
        _, _, said_sound, said_replies = made[case.same]
        if (said_sound, said_replies) != (sound, replies):
            found.append(f"  not the same as {case.same}")
        return found
    if case.replies != replies:
        found.append(told("replies", case.replies, replies))
    if case.sum is not None and case.sum != fnv(sound):
        found.append(f"  sum: model {fnv(sound):016x}")
    # A sink that fails takes a part alone, and a case may tell how much at most.
    if case.ending == "sound fault" and samples.startswith(case.sound):
        return found
    if case.sum is None and case.sound != samples:
        found.append(told("sound", case.sound, samples))
    return found


def main():
    paths = sys.argv[1:] or sorted(glob.glob(DATA))
    count = wrong = 0
    for path in paths:
        cases = cases_of(path)
        made = {}
        for case in cases:
            made[case.name] = model_of(case)
        if len(made) < len(cases):
            print(f"{path}: a name is given twice")
            wrong += 1
        for case in cases:
            count += 1
            found = differences(case, made)
            if found:
                wrong += 1
                print(f"{os.path.basename(path)}: {case.name}", *found, sep="\n")
    print(f"{count} cases, {wrong} with a difference")
    return 1 if wrong else 0


if __name__ == "__main__":
    sys.exit(main())
