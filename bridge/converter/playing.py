"""PlayBuf: whole rates by PlayBuf here, others from frame to frame by what is worked out."""
from .buses import FRAMES, buffer_slot, check_width, play_loop
from .generators import ramp
from .graph import BETWEEN, Control, Wire
from .measures import NUMBER, SAMPLE, Refused, Slot
from .rows import DELAY_1, DIFFERENCE, LATCH, Row, first, start
from .templates import action, index, template

INTEGRATOR = template("Integrator x:number 1:sample -> number")
BEYOND = template("over = Gt at:number last:number -> sample", "under = Lt at:number 0:number -> sample",
                  "Max over:sample under:sample -> sample")
EITHER = template("on = Gt x:G 0:G -> sample", "Max on:sample y:sample -> sample")


def play_buf(graph, buf, rate, trig, start, loop, done):
    """A whole rate plays by whole steps; so does one that a control gives, if its value is whole."""
    if isinstance(rate, Wire) and not isinstance(rate, Control) or is_between(graph, rate):
        if isinstance(loop, Wire):
            raise Refused("its rate isn't whole, and whether it loops isn't a constant")
        if loop > 0:
            return play_loop(graph, buf, rate, trig, start)
        return play_once(graph, buf, rate, trig, start, done)
    return play_whole(graph, buf, rate, trig, start, loop, done)


def play_whole(graph, buf, rate, trig, start, loop, done):
    slot, count = buffer_slot(graph, buf), check_width(graph.unit.outputs)
    inputs = [(index(buf), Slot(NUMBER)), (rate, Slot(NUMBER)), (trig, Slot()), (start, Slot(NUMBER)), (loop, Slot()),
              (action(done), Slot(NUMBER))]
    return graph.line("PlayBuf", inputs, [slot] * count)


def is_between(graph, rate):
    """Whether a rate goes to places between frames."""
    return bool(graph.fact(BETWEEN, rate)) if isinstance(rate, Wire) else rate != round(rate)


def place(graph, rate, trig, begin):
    """How far a sum of rates has come: whole frames, and the part of a frame behind them.

    The part is what LFSaw has of a turn, and what is missing of the rate from frame to frame is whole.
    """
    if isinstance(rate, Wire):
        rate.slot.set(SAMPLE)
    part = graph.product(ramp(graph, graph.product(rate, float(graph.rate))), 0.5, 0.5)
    way, = DIFFERENCE(graph, a=part, b=DELAY_1(graph, x=part)[0])
    step = graph.product(graph.sum(graph.product(way, -1.0, 0.5), rate), 1.0)
    step.slot.set(NUMBER)
    come, = INTEGRATOR(graph, x=step)
    if isinstance(trig, Wire):
        at = LATCH(graph, x=come, trig=EITHER(graph, x=trig, y=start(graph))[0])[0]
    else:
        at = first(graph, come)
    return graph.sum(DIFFERENCE(graph, a=come, b=at)[0], begin), part


def play_once(graph, buf, rate, trig, begin, done):
    """Each channel goes straight from the frame below to the one above."""
    graph.note("it goes straight from frame to frame")
    slot, count = buffer_slot(graph, buf), check_width(graph.unit.outputs)
    whole, part = place(graph, rate, trig, begin)
    numbers = [(index(buf), Slot(NUMBER))]
    low = graph.line("BufRd", [*numbers, (whole, Slot(NUMBER))], [slot] * count)
    high = graph.line("BufRd", [*numbers, (graph.sum(whole, 1.0), Slot(NUMBER))], [slot] * count)
    if action(done):
        last = graph.sum(FRAMES(graph, buf=buf)[0], -1.0)
        graph.line("FreeSelf" if done == 2 else "PauseSelf", [(BEYOND(graph, at=whole, last=last)[0], Slot())])
    return [graph.product(DIFFERENCE(graph, a=b, b=a)[0], part, a) for a, b in zip(low, high)]


UNITS = {"PlayBuf": Row("buf rate trig start loop done", play_buf, frames=True)}
