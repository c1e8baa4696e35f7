#!/usr/bin/env python3
"""Turns a command file that sclang wrote (`Score.write`) into one that `snova` renders.

    python3 bridge/convert.py [--rate FRAMES] [--memory WORDS] [--definitions FOLDER] [--strict] [--why] [--texts]
        [--replies FILE] IN.osc OUT.osc

What is refused, times that were rounded and units that do less here are reported on the standard error, and a last
line says how much plays. The run goes on without what is refused and ends with status 1 after it wrote OUT.osc; with
`--strict` it ends at the first refusal and writes nothing. `--why` gives all reasons of each refusal. `--texts` prints
the definitions. The samples of sound files are put into OUT.osc. Definitions that a score needs and doesn't bring are
taken from the files of a folder, as sclang stores them. Files that the score writes (`/b_write`) are written by the same
command with `--replies` and the replies to the rendering.
"""
import argparse
import re
import sys
from pathlib import Path

from converter import osc
from converter.session import MEMORY, Session
from converter.written import write_all

# So many bytes snova reads of a command file.
LONGEST_FILE = 2**24


class Stopped(Exception):
    """A refusal stops the run."""


def after(tag):
    """A time tag that isn't before the time from which sclang cut it off: so what acts at a block there does here."""
    return tag + 1 if tag > 1 else 0


def entries(packet, tag=0):
    """The bundles of a packet, each with its messages; those inside another one come after it."""
    if isinstance(packet, osc.Message):
        yield tag, [packet]
        return
    own = tag if packet.tag == 1 else after(packet.tag)
    yield own, [each for each in packet.elements if isinstance(each, osc.Message)]
    for each in packet.elements:
        if isinstance(each, osc.Bundle):
            yield from entries(each, own)


def read(path):
    """The bundles of a command file by their time tags."""
    packets, left = osc.whole_packets(Path(path).read_bytes())
    if left:
        raise osc.BadPacket(f"{len(left)} bytes after the last packet")
    found = [entry for packet in packets for entry in entries(osc.decoded(packet))]
    return sorted(found, key=lambda entry: entry[0])


def learnt(score, rate, memory=MEMORY):
    """A session that has seen the whole score: what it learns of measures is known from the beginning."""
    session = Session(rate, learns=True, memory=memory)
    for _, messages in score:
        for message in messages:
            session.messages(message)
    return session


def stored(names, folder):
    """A bundle at the beginning, of the definitions of some names that a folder has."""
    paths = [Path(folder) / f"{name}.scsyndef" for name in names if "/" not in name]
    return 0, [osc.Message("/d_recv", [path.read_bytes()]) for path in paths if path.is_file()]


def turned(score, session, strict):
    """The packets for `snova`, and the messages in them."""
    found, sent = [], []
    for tag, messages in score:
        made = []
        for message in messages:
            made += session.messages(message)
            if strict and (lines := refusals(session)):
                raise Stopped(lines[0])
        found += osc.packets(tag, map(osc.encoded, made))
        sent += made
    return found, sent


def refusals(session):
    """What was refused: of what differs in its numbers alone the first, with how many there are; and what needs it."""
    needing = {f"/d_recv {name}": session.tally.needing(name) for name in session.tally.refused}
    kinds, lines = {}, []
    for line in session.refusals:
        kinds.setdefault(re.sub(r"\d[\d.]*", "#", line), []).append(line)
    for kind in kinds.values():
        needs = needing.pop(kind[0].partition(": ")[0], "")
        lines.append(kind[0] + needs + (f" ({len(kind)} times)" if len(kind) > 1 else ""))
    return lines + session.tally.missing()


def report(session):
    """What was noted and refused, and how much plays."""
    notes, refused = list(dict.fromkeys(session.notes)), refusals(session)
    differing = list(dict.fromkeys(note.partition(": ")[0] for note in notes))
    lines = [f"note: {line}" for line in notes] + [f"refused: {line}" for line in refused]
    return [*lines, session.tally.line(differing)]


def options():
    parser = argparse.ArgumentParser(description="Turns a command file of sclang into one for snova.")
    parser.add_argument("--rate", type=int, default=48000, help="frames a second of the rendering, 48000")
    parser.add_argument("--memory", type=int, default=MEMORY, help=f"words that snova has for buffers, {MEMORY}")
    parser.add_argument("--definitions", metavar="FOLDER", help="where sclang stored definitions")
    parser.add_argument("--strict", action="store_true", help="end at the first refusal and write nothing")
    parser.add_argument("--why", action="store_true", help="print all reasons of each refusal")
    parser.add_argument("--replies", metavar="FILE", help="write the files of /b_write, from the replies to OUT.osc")
    parser.add_argument("--texts", action="store_true", help="print the definitions")
    parser.add_argument("source", metavar="IN.osc")
    parser.add_argument("target", metavar="OUT.osc")
    return parser.parse_args()


def converted(given):
    """The session that has seen the score, the packets for `snova`, and the messages in them."""
    score = read(given.source)
    first = learnt(score, given.rate, given.memory)
    if given.definitions and first.tally.absent():
        score.insert(0, stored(first.tally.absent(), given.definitions))
        first = learnt(score, given.rate, given.memory)
    session = Session(given.rate, learnt=first, memory=given.memory)
    session.most_bytes = LONGEST_FILE
    session.most_reasons = None if given.why else 1
    return session, *turned(score, session, given.strict)


def file_lines(given, session, sent):
    """Writes the files of a score that was rendered; what is to be done for them or can't be done."""
    if not given.replies:
        return [f"to write once it is rendered, with --replies: {file.path}" for file in session.writes]
    replies = [osc.decoded(data) for data in osc.whole_packets(Path(given.replies).read_bytes())[0]]
    return list(write_all(session, sent, replies))


def main():
    given = options()
    try:
        session, packets, sent = converted(given)
        lines = file_lines(given, session, sent)
    except Stopped as stopped:
        print(f"refused: {stopped}", file=sys.stderr)
        return 1
    except (OSError, osc.BadPacket) as wrong:
        print(f"{given.source}: {wrong}", file=sys.stderr)
        return 2
    Path(given.target).write_bytes(b"".join(map(osc.sized, packets)))
    if given.texts:
        print("\n".join(each.text for each in session.built.values() if each.text), end="")
    print("\n".join([*lines, *report(session)]), file=sys.stderr)
    return 1 if refusals(session) or given.replies and lines else 0


if __name__ == "__main__":
    sys.exit(main())
