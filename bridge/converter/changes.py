"""`/b_gen`: samples of a buffer that are made of what is in one, which is known or asked for."""
from array import array
from typing import Callable, NamedTuple

from .buffers import answered, buffer_of, questions, runs, sample_values
from .commands import Asked, done_as, turned
from .fills import CLEAR, PARTS, filled, normalized
from .limits import buffer as buffer_number
from .limits import whole
from .measures import Refused

DONE = "/b_gen"


class Change(NamedTuple):
    """`make` makes of `count` samples of the buffer `source`, from `start` on, those of a buffer from `at` on."""

    at: int
    source: int
    start: int
    count: int
    make: Callable


def fill(session, number, kind, given):
    """A sum of waves, alone or with what is there."""
    if not given:
        raise Refused("it has too few arguments")
    flags, buffer = round(given[0]), buffer_of(session, number)
    if buffer.channels != 1:
        raise Refused(f"the buffer has {buffer.channels} channels, and those of one are filled")
    if flags & CLEAR:
        return Change(0, number, 0, 0, lambda _: filled(kind, flags, given[1:], [0.0] * buffer.size))
    return Change(0, number, 0, buffer.size, lambda samples: filled(kind, flags, given[1:], samples))


def copy(session, number, _kind, given):
    """Frames of another buffer; places outside of the buffers count as their ends, as scsynth counts them."""
    if len(given) != 4:
        raise Refused("it takes a place, a buffer, a place in it, and a count of frames")
    target, source = buffer_of(session, number), buffer_of(session, buffer_number(given[1]))
    if source.channels != target.channels:
        raise Refused(f"buffer {given[1]:g} has {source.channels} channels, and this one has {target.channels}")
    at, start, frames = (whole(given[place]) for place in (0, 2, 3))
    at, start = max(0, min(at, target.frames - 1)), max(0, min(start, source.frames - 1))
    most = min(source.frames - start, target.frames - at)
    count = (most if frames < 0 else min(frames, most)) * target.channels
    return Change(at * target.channels, whole(given[1]), start * target.channels, count, list)


def normalize(session, number, kind, given):
    """Samples whose greatest value is 1, or what is said."""
    most, is_wavetable = given[0] if given else 1.0, kind == "wnormalize"
    return Change(0, number, 0, buffer_of(session, number).size,
                  lambda samples: normalized(samples, is_wavetable, most))


KINDS = {**{kind: fill for kind in PARTS}, "copy": copy, "normalize": normalize, "wnormalize": normalize}


def b_gen(session, number, kind, given):
    """What is known is worked out; a live session asks for the rest, and what comes after it waits."""
    if kind not in KINDS:
        raise Refused(f"the fill {kind} isn't there: {', '.join(KINDS)} are")
    change = KINDS[kind](session, number, kind, given)
    is_known = buffer_of(session, change.source).samples is not None and not session.changes(change.source)
    if change.count == 0 or is_known:
        samples = buffer_of(session, change.source).all_samples() if change.count else []
        return made(session, number, change, samples[change.start:change.start + change.count])
    if not session.live:
        raise Refused(f"what is in buffer {change.source} isn't known, and a score can't ask for it")
    buffer_of(session, number).samples = None
    return Asked(questions(change.source, change.start, change.start + change.count),
                 asked_again(session, number, change), holds=True)


def made(session, number, change, samples):
    """The commands that set a buffer to what a change makes."""
    found, buffer = change.make(samples), buffer_of(session, number)
    values = sample_values(session, number, found)
    if change.at == 0 and len(found) == buffer.size:
        buffer.samples = found
    else:
        buffer.put(change.at, found)
    return Asked(runs(number, change.at, array("i", values)), done_as(DONE, number))


def asked_again(session, number, change):
    """What follows from the samples that were asked for."""
    def answer(gateway, client, replies):
        samples = answered(replies)
        if len(samples) != change.count:
            return done_as(DONE, number)(gateway, client, replies)
        try:
            gateway.send(client, [made(session, number, change, samples)])
        except Refused as refused:
            gateway.refuse(client, f"{DONE} {number}", str(refused))
        return []
    return answer


CHANGES = [turned(DONE, 38, "buffer kind:text (value)..", b_gen, carries=True)]
