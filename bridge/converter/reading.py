"""Buffers that are read between two frames, and held or wrapped at their ends, by BufRdL and PlayBufL."""
from .between import STRAIGHT
from .buses import FRAMES, LONGEST, buffer_slot, check_width
from .graph import Control, Wire
from .held import hold
from .measures import NUMBER, SAMPLE, Slot, fraction_of
from .playing import play_whole
from .ratios import RATIO, in_samples
from .rows import BLOCK, DIFFERENCE, GREATER, LESSER, Row
from .scgf import AUDIO
from .templates import action, index, template

# A place in parts of a frame, and how many parts of 2^24 one of them has; and the same of whole frames.
PARTS, ONE = fraction_of(LONGEST), SAMPLE.scale
STEP = ONE / PARTS.scale
# What reads nothing between two frames, and what reads a cubic there.
WHOLE, CUBIC = 1.0, 4.0
HELD, WRAPPED = 0.0, 1.0
REMAINDER = template("Mod a:number b:number -> number")
RAMP = template("Phasor 0:any 1:number 0:number frames:number 0:number -> number")


def placed(graph, at, measure):
    """A place in a measure: a constant stays."""
    found = graph.product(at, 1.0)
    if isinstance(found, Wire):
        found.slot.set(measure)
    return found


def whole(graph, at):
    """The whole frames of a place; a control whose measure isn't known has whole frames."""
    if isinstance(at, Control) and at.slot.measure in (None, NUMBER):
        return at
    return placed(graph, at, NUMBER) if isinstance(at, Wire) else float(at // 1)


def read(graph, buf, at, loop, count=1):
    """What stands at whole frames."""
    inputs = [(index(buf), Slot(NUMBER)), (whole(graph, at), Slot(NUMBER)), (ONE, Slot(NUMBER)), (loop, Slot())]
    return graph.line("BufRdL", inputs, [buffer_slot(graph, buf)] * count)


def read_between(graph, buf, at, loop, count=1):
    """What lies between two frames."""
    at = placed(graph, at, PARTS)
    inputs = [(index(buf), Slot(NUMBER)), (at, Slot(PARTS)), (STEP, Slot(NUMBER)), (loop, Slot())]
    return graph.line("BufRdL", inputs, [buffer_slot(graph, buf)] * count)


def note_of(graph, between):
    if between == CUBIC:
        graph.note(STRAIGHT)


def buf_rd(graph, buf, at, loop, between):
    note_of(graph, between)
    way = read if between == WHOLE else read_between
    return way(graph, buf, at, loop, check_width(graph.unit.outputs))


def play_buf(graph, buf, rate, trig, start, loop, done):
    """A constant rate that is whole plays by whole frames. At control rate a block there is a frame."""
    if not isinstance(rate, Wire) and rate == round(rate) and graph.unit.rate == AUDIO:
        return play_whole(graph, buf, rate, trig, whole(graph, start), loop, done)
    graph.note(STRAIGHT)
    slot, count = buffer_slot(graph, buf), check_width(graph.unit.outputs)
    step = in_samples(graph, rate if graph.unit.rate == AUDIO else graph.product(rate, 1 / BLOCK))
    inputs = [(index(buf), Slot(NUMBER)), (step, Slot(SAMPLE)), (trig, Slot()), (whole(graph, start), Slot(NUMBER)),
              (loop, Slot()), (action(done), Slot(NUMBER))]
    found = graph.line("PlayBufL", inputs, [slot] * count)
    return found if graph.unit.rate == AUDIO else [hold(graph, each) for each in found]


# Tables of one channel.

def towards_zero(graph, x):
    """The whole frames of a place, rounded towards 0."""
    if not isinstance(x, Wire):
        return float(int(x))
    sides = [GREATER(graph, a=graph.product(x, sign), b=0.0)[0] for sign in (1.0, -1.0)]
    up, down = (whole(graph, each) for each in sides)
    return DIFFERENCE(graph, a=up, b=down)[0]


def held(graph, buf, x):
    return read(graph, buf, x, HELD)


def wrapped(graph, buf, x):
    return read(graph, buf, towards_zero(graph, x), WRAPPED)


def between_indices(graph, buf, x):
    return read_between(graph, buf, x, HELD)


def folded(graph, buf, x):
    """It goes back where it meets an end: a remainder of twice the way, or what is left of it."""
    turn = graph.product(FRAMES(graph, buf=buf)[0], 2.0, -2.0)
    turn.slot.set(NUMBER)
    at, = REMAINDER(graph, a=towards_zero(graph, x), b=turn)
    return read(graph, buf, LESSER(graph, a=at, b=DIFFERENCE(graph, a=turn, b=at)[0])[0], HELD)


def key(graph, buf, x, octave):
    """A step of a scale as a key: those beyond the table are in other octaves."""
    degree, (frames,) = whole(graph, x), FRAMES(graph, buf=buf)
    at, = REMAINDER(graph, a=degree, b=frames)
    octaves, = RATIO(graph, a=DIFFERENCE(graph, a=degree, b=at)[0], b=frames)
    found, = read(graph, buf, degree, WRAPPED)
    return [graph.product(octaves, octave, found)]


# A delay that stands in a buffer.

def tap_write(graph, buf, x):
    """Writes around a buffer; what it gives is where it writes."""
    place, = RAMP(graph, frames=FRAMES(graph, buf=buf)[0])
    graph.line("BufWr", [(index(buf), Slot(NUMBER)), (place, Slot(NUMBER)), (x, buffer_slot(graph, buf, True))])
    return [place]


def tap_read(graph, buf, place, time, between):
    """Reads so long before."""
    note_of(graph, between)
    back = placed(graph, graph.product(time, -float(graph.rate)), PARTS)
    at = graph.sum(placed(graph, place, PARTS), back)
    return (read if between == WHOLE else read_between)(graph, buf, at, WRAPPED)


UNITS = {
    "BufRd": Row("buf at loop between", buf_rd, needs="BufRdL"),
    "PlayBuf": Row("buf rate trig start loop done", play_buf, needs="PlayBufL"),
    "Index": Row("buf x", held, needs="BufRdL"),
    "WrapIndex": Row("buf x", wrapped, needs="BufRdL"),
    "FoldIndex": Row("buf x", folded, needs="BufRdL Mod"),
    "IndexL": Row("buf x", between_indices, needs="BufRdL"),
    "DegreeToKey": Row("buf x octave", key, needs="BufRdL Div Mod"),
    "DelTapWr": Row("buf x", tap_write, frames=True),
    "DelTapRd": Row("buf place time between", tap_read, frames=True, needs="BufRdL"),
}
