"""EnvGen and Linen, said by Line, Linen and Phasor.

A ramp goes up while an envelope runs. A segment is the part of the ramp between its two times, scaled to the way
between its two levels; the level of an envelope is the sum of its segments. What comes after a gate has closed is a
second ramp, from the level at which it closed. An envelope that loops goes on with a ramp that starts again.
"""
import math
from itertools import accumulate
from typing import NamedTuple, Optional

from .graph import Control, Wire
from .lines import LINE, LINEN
from .logarithms import exp_2, log_2
from .measures import SAMPLE, Refused, Slot
from .ratios import divided
from .rows import BLOCK, DELAY_1, GREATER, LATCH, Row
from .scgf import AUDIO, Source
from .shapes import EXPONENTIAL, LINEAR, Part, Segment, done_of, over
from .templates import action, constant, template

# How far the ramp of an envelope goes: far, so that a short segment isn't too steep.
TOP = 64.0
# Whole milliseconds in which there is a block.
SOME_BLOCK = 0.002
# Places of the inputs of EnvGen there, and the numbers of operators: * and <=.
STRETCH, FIRST_LEVEL, FIRST_TIME = 3, 5, 10
TIMES, AT_MOST = 2, 10

CLIP = template("Clip x:sample low:sample high:sample -> sample")
KEPT = template("Gate x:M switch:any -> M")
BEGUN = template("PulseCount gate:any 0:any -> number")
# A switch that is on while a gate is closed again.
CLOSED = template(
    "count = PulseCount gate:any 0:any -> number",
    "begun = Gt count:number 0:number -> sample",
    "on = Gt gate:G 0:G -> sample",
    "Sub begun:sample on:sample -> sample")
# A ramp from 0 to `top` that begins with each rise of a gate.
AGAIN = template(
    "on = Gt gate:G 0:G -> sample",
    "before = Delay1 on:sample -> sample",
    "rise = Gt on:sample before:sample -> sample",
    "keep = Sub 1:sample rise:sample -> sample",
    "count = PulseCount rise:any 0:any -> number",
    "going = Gt count:number 0:number -> sample",
    "steps = Mul going:sample step:sample -> sample",
    "ramp = Integrator steps:sample keep:sample -> sample",
    "Clip ramp:sample 0:sample top:sample -> sample")
# A ramp from 0 to `top` again and again while a switch is on, else 0.
LOOP = template(
    "steps = Mul on:sample step:sample -> sample",
    "ramp = Phasor on:any steps:sample 0:sample top:sample 0:sample -> sample",
    "Mul ramp:sample on:sample -> sample")


# A gate that stays open until a ramp has come to its end.
WIDENED = template(
    "on = Gt gate:G 0:G -> sample",
    "begun = Gt ramp:sample 0:sample -> sample",
    "short = Lt ramp:sample top:sample -> sample",
    "going = Mul begun:sample short:sample -> sample",
    "Max on:sample going:sample -> sample")


class Envelope(NamedTuple):
    """The first level of an envelope and its segments, of which those from `release` on come after the gate has closed.

    Before it closes, those of `loop` are played again and again.
    """

    first: object
    segments: list
    release: Optional[int]
    loop: list


def envelope_of(graph, shape, stretch):
    """The envelope that the inputs of a unit say."""
    if len(shape) < 4:
        raise Refused("its envelope is cut")
    first, *numbers = shape[:4]
    count, release, loop = (round(settled(graph, each, "its number of segments or of a node")) for each in numbers)
    rest = shape[4:]
    if len(rest) != 4 * count or count < 1:
        raise Refused(f"its envelope has {len(rest)} values for {count} segments")
    segments = [segment_of(graph, rest[at:at + 4], stretch) for at in range(0, len(rest), 4)]
    release = release if 0 <= release < count else None
    if isinstance(segments[0].time, Wire):
        segments[0] = segments[0]._replace(time=time_of_circle(graph, segments[0].time, stretch))
    return Envelope(first, segments, release, segments[loop:release] if release and 0 <= loop < release else [])


def source_of(graph, given):
    """The unit there of which an input is an output, or None."""
    return graph.units[given.unit] if isinstance(given, Source) else None


def is_operator(unit, number):
    return unit is not None and (unit.name, unit.special) == ("BinaryOpUGen", number)


def time_of_circle(graph, given, stretch):
    """The time of a first segment, which sclang multiplies by 1 for a circle, as Latch(1, Impulse(0))."""
    time = source_of(graph, graph.unit.inputs[FIRST_TIME])
    latch = source_of(graph, time.inputs[0]) if is_operator(time, TIMES) else None
    circle = latch is not None and latch.name == "Latch" and latch.inputs[0] == 1
    return graph.product(time.inputs[1], stretch) if circle and not isinstance(time.inputs[1], Source) else given


def settled(graph, given, what):
    """A constant, or in its place the default of a control."""
    if not isinstance(given, Control):
        return constant(given, what)
    graph.note(f"{what} is {given.default:g}, the default of {given.name}", stand_in=True)
    return given.default


def segment_of(graph, given, stretch):
    level, time, shape, curve = given
    shape, curve = round(settled(graph, shape, "its shape")), settled(graph, curve, "its curve")
    return Segment(level, counted(graph, graph.product(time, stretch)), shape, curve)


def counted(graph, time):
    """The time of a segment; at control rate it counts as whole blocks, at least one."""
    if isinstance(time, Wire) and time.unset and graph.unit.rate != AUDIO:
        return GREATER(graph, a=time, b=SOME_BLOCK)[0]
    if isinstance(time, Wire) or graph.unit.rate == AUDIO:
        return time
    return max(1, math.floor(time * graph.rate / BLOCK + 1e-4)) * BLOCK / graph.rate


def times_are_constant(segments):
    return not any(isinstance(segment.time, Wire) for segment in segments)


def total_time(segments):
    return sum(segment.time for segment in segments)


def is_open(gate):
    """Whether a gate is open for good."""
    return not isinstance(gate, Wire) and gate > 0


def begun(graph, gate):
    """A switch that is on from the first opening of a gate on."""
    return 1.0 if is_open(gate) else BEGUN(graph, gate=gate)[0]


def end_at(graph, x, limit, done):
    """Lets a done action act as a wire comes to a limit."""
    if action(done):
        graph.line("FreeSelf" if done == 2 else "PauseSelf", [(over(graph, x, limit), Slot())])


def ramp_of(graph, gate, time, done, again):
    """A ramp from 0 to TOP that begins with a gate, and `again` with each rise of it.

    What is open from the start is a block ahead at control rate: there a first block is worked out before the sound.
    """
    if is_open(gate):
        early = BLOCK / graph.rate if graph.unit.rate != AUDIO and time else 0.0
        return LINE(graph, start=TOP * early / (time or 1.0), end=TOP, dur=round(time - early, 3), done=done)[0]
    if again and time:
        ramp, = AGAIN(graph, gate=gate, step=TOP / (time * graph.rate), top=TOP)
    else:
        ramp, = LINEN(graph, gate=begun(graph, gate), attack=time, level=TOP, release=0.0, done=0.0)
        ramp.slot.set(SAMPLE)
    end_at(graph, ramp, TOP, done)
    return ramp


def parts_of(graph, ramp, segments):
    """The parts that segments with constant times have of a ramp."""
    times = [0.0, *accumulate(segment.time for segment in segments)]
    ends = [TOP * time / times[-1] if times[-1] else 0.0 for time in times]
    return [Part(CLIP(graph, x=ramp, low=low, high=high)[0] if low < high else ramp, low, high)
            for low, high in zip(ends, ends[1:])]


def in_a_row(graph, gate, segments):
    """For segments whose times are worked out: a ramp each, which begins as the one before it is over."""
    parts = []
    for segment in segments:
        switch = over(graph, parts[-1].x, 1.0) if parts else begun(graph, gate)
        ramp, = LINEN(graph, gate=switch, attack=segment.time, level=1.0, release=0.0, done=0.0)
        ramp.slot.set(SAMPLE)
        parts.append(Part(ramp, 0.0, 1.0))
    return parts


def parts_from(graph, gate, segments, done, again):
    """The parts of segments that begin with a gate; the done action acts when they are over."""
    if not times_are_constant(segments):
        if again and not is_open(gate):
            graph.note("it opens once, as its times aren't constants")
        parts = in_a_row(graph, gate, segments)
        end_at(graph, parts[-1].x, 1.0, done)
        return parts
    if is_open(gate) and total_time(segments) == 0 and not action(done):
        return [Part(None, 0.0, 0.0) for _ in segments]
    return parts_of(graph, ramp_of(graph, gate, total_time(segments), done, again), segments)


def risen(graph, parts, segments, level):
    """The level after segments, from the level before them on."""
    sound = level
    for part, segment in zip(parts, segments):
        way = graph.sum(segment.level, graph.product(level, -1.0))
        if isinstance(way, Wire) or way:
            sound = rise(graph, part, segment, level, way, sound)
        level = segment.level
    return sound


def rise(graph, part, segment, before, way, sound):
    """A level with one more segment, by its way."""
    if segment.shape == EXPONENTIAL and isinstance(way, Wire) and part.x is not None and part.low < part.high:
        ratio = log_2(graph, divided(graph, segment.level, before))
        level = graph.product(before, exp_2(graph, graph.product(part.line(graph, 0.0, 1.0), ratio)))
        return graph.sum(sound, graph.sum(level, graph.product(before, -1.0)))
    if segment.is_linear() and part.low < part.high and not isinstance(way, Wire):
        slope = way / (part.high - part.low)
        return graph.product(part.x, slope, graph.sum(sound, -slope * part.low))
    return graph.product(done_of(graph, part, segment, before), way, sound)


def looped(graph, last, envelope, sound):
    """A level that goes on from the last part through the segments that are played again and again."""
    segments = envelope.loop
    if not times_are_constant(segments) or total_time(segments) == 0:
        raise Refused("an envelope that loops takes some time, which is a constant")
    step, level = TOP / (total_time(segments) * graph.rate), segments[-1].level
    on = 1.0 if last.x is None else over(graph, last.x, last.high)
    ramp, = LOOP(graph, on=on, step=step, top=TOP)
    around = risen(graph, parts_of(graph, ramp, segments), segments, level)
    return graph.sum(sound, graph.sum(around, graph.product(level, -1.0)))


class Opening(NamedTuple):
    """The level from the opening of a gate on, and what is left of the way of its first segment, from 1 to 0."""

    level: object
    left: object


def opened(graph, gate, envelope, done, again):
    segments = envelope.segments[:envelope.release]
    if not segments:
        return Opening(envelope.first, 0.0)
    parts = parts_from(graph, gate, segments, done, again)
    level = risen(graph, parts, segments, envelope.first)
    if envelope.loop:
        level = looped(graph, parts[-1], envelope, level)
    if not again or parts[0].low == parts[0].high:
        return Opening(level, 0.0)
    return Opening(level, graph.product(done_of(graph, parts[0], segments[0], envelope.first), -1.0, 1.0))


def carried(graph, gate, first, opening, level):
    """The level from an opening on that goes on from where another level was as the gate opened."""
    if not isinstance(opening.left, Wire) or not isinstance(level, Wire):
        return opening.level
    away = graph.sum(level, graph.product(first, -1.0))
    start, = LATCH(graph, x=DELAY_1(graph, x=away)[0], trig=gate)
    return graph.product(start, opening.left, opening.level)


def falls_once(envelope, again):
    """Whether what comes after a gate that opens once is a single segment, to the level from which all came: 0."""
    after = envelope.segments[envelope.release:]
    return not again and len(after) == 1 and after[0].level == 0 and envelope.first == 0


def released(graph, gate, envelope, done, again):
    """The level of an envelope whose gate opens and closes."""
    *before, last = envelope.segments
    if not falls_once(envelope, again):
        return closed(graph, gate, envelope, done, again)
    if len(before) == 1 and before[0].is_linear() and last.is_linear() and not envelope.loop:
        return LINEN(graph, gate=gate, attack=before[0].time, level=before[0].level, release=last.time, done=done)[0]
    level, _ = opened(graph, gate, envelope, 0.0, False)
    fall, = LINEN(graph, gate=gate, attack=0.0, level=1.0, release=last.time, done=done)
    fall.slot.set(SAMPLE)
    if not last.is_linear():
        fall = graph.product(done_of(graph, Part(fall, 1.0, 0.0), last, 1.0), -1.0, 1.0)
    return graph.product(KEPT(graph, x=level, switch=gate)[0] if isinstance(level, Wire) else level, fall)


def closed(graph, gate, envelope, done, again):
    """The same of any segments after the gate has closed, which start at the level that stood then."""
    after = envelope.segments[envelope.release:]
    opening, (off,) = opened(graph, gate, envelope, 0.0, again), CLOSED(graph, gate=gate)
    parts, on = parts_from(graph, off, after, done, again), graph.product(off, -1.0, 1.0)

    def gone_on(level):
        if isinstance(level, Wire):
            level, = KEPT(graph, x=level, switch=on)
        sound = risen(graph, parts, after, level)
        return graph.product(off, graph.sum(sound, graph.product(level, -1.0)), level)
    level = gone_on(opening.level)
    return gone_on(carried(graph, gate, envelope.first, opening, level)) if isinstance(opening.left, Wire) else level


def fades_in(graph):
    """Whether the first level is what sclang writes for a fade: 1 where its time is 0, else 0."""
    stretch, first = graph.unit.inputs[STRETCH], source_of(graph, graph.unit.inputs[FIRST_LEVEL])
    return is_operator(first, AT_MOST) and first.inputs == [stretch, 0.0]


def env_gen(graph, gate, scale, bias, stretch, done, shape):
    """The level of an envelope, scaled and moved. It opens again and again unless it then frees its synth."""
    done = settled(graph, done, "its done action")
    envelope = envelope_of(graph, shape, stretch)
    if fades_in(graph):
        envelope = envelope._replace(first=0.0)
    again = action(done) != 2 and not is_open(gate)
    if is_open(gate) or envelope.release is None:
        opening = opened(graph, gate, envelope, done if envelope.release is None else 0.0, again)
        level = carried(graph, gate, envelope.first, opening, opening.level)
    else:
        level = released(graph, gate, envelope, done, again)
    return [graph.product(level, scale, None if bias == 0 else bias)]


def linen(graph, gate, attack, level, release, done):
    """A rise, which is gone through even if its gate has closed, and then a fall."""
    if not isinstance(gate, Wire) or isinstance(gate, Control):
        graph.note("it falls even before it has risen to its end")
        return LINEN(graph, gate=gate, attack=attack, level=level, release=release, done=done)
    segments = [Segment(level, attack, LINEAR, 0.0), Segment(0.0, release, LINEAR, 0.0)]
    again = action(done) != 2 and times_are_constant(segments)
    ramp = ramp_of(graph, gate, attack, 0.0, again)
    wider, = WIDENED(graph, gate=gate, ramp=ramp, top=TOP - 1e-6)
    return [closed(graph, wider, Envelope(0.0, segments, 1, []), done, again)]


def env_at(graph, at, offset, first, count, shape):
    """An envelope along a signal in place of the time."""
    count = round(constant(count, "its number of segments"))
    segments = []
    for start in range(0, 4 * count, 4):
        time, bend, curve, level = shape[start:start + 4]
        bend, curve = round(constant(bend, "its shape")), constant(curve, "its curve")
        segments.append(Segment(level, constant(time, "its time"), bend, curve))
    x, sound, low = graph.sum(at, graph.product(offset, -1.0)), first, 0.0
    parts = []
    for segment in segments:
        high = low + segment.time
        parts.append(Part(CLIP(graph, x=x, low=low, high=high)[0], low, high))
        low = high
    return [risen(graph, parts, segments, sound)]


UNITS = {
    "IEnvGen": Row("at offset first count total? shape*", env_at),
    "EnvGen": Row("gate scale bias stretch done shape*", env_gen),
    "Linen": Row("gate attack level release done", linen),
}
