"""Triggers, and what they count and hold."""
from .delays import delay
from .graph import Wire
from .measures import NUMBER, SECONDS, Slot
from .ratios import in_samples
from .rows import DELAY_1, DIFFERENCE, GREATER, LATCH, LESS, MORE, SIZE, Row, counted, start
from .templates import constant, template

MOST_COUNT = 2**19 - 1
COUNT = template("PulseCount trig:any reset:any -> number")
STEPPER = template("Stepper trig:any reset:any min:number max:number step:number to:number -> number")
GATE = template("Gate x:M trig:any -> M")
CLIP = template("Clip x:M low:M high:M -> M")
# 1.0 at the frame of each rise.
RISE = template("on = Gt trig:G 0:G -> sample", "before = Delay1 on:sample -> sample",
                "Gt on:sample before:sample -> sample")
# Frames since the last trigger, from 0 on; before the first one a great number. It stays at the end of its range.
SINCE = template("keep = Sub 1:sample rise:sample -> sample", "never = Min start:sample keep:sample -> sample",
                 "step = MulAdd never:sample 1073741824:number 1:number -> number",
                 "Integrator step:number keep:sample -> number")
# Frames since the first frame or the last trigger.
FRAMES_SINCE = template("Phasor trig:any 1:number 0:number 2147483647:number 0:number -> number")
TRIG = template("Trig trig:M time:sample -> M")
LONGER = "a trigger while it is on makes it last longer"


def send_trig(graph, trig, number, value):
    """Reports a value; of the trigger's number is kept which measure it has."""
    slot = Slot()
    graph.line("SendTrig", [(trig, Slot()), (constant(number, "its id"), Slot(NUMBER)), (value, slot)])
    graph.triggers[round(number)] = slot
    return [trig]


def poll(graph, trig, x, number, label):
    """Reports a value under its id, or else under one that no other has."""
    number = constant(number, "its id")
    send_trig(graph, trig, number if number >= 0 else -1.0 - len(graph.triggers), x)
    return [x]


def begun(graph, trig):
    """A trigger; a constant above 0 is one at the first frame."""
    return trig if isinstance(trig, Wire) else graph.product(start(graph), max(0.0, trig))


def for_a_while(graph, trig, time):
    """1 from each trigger on for a time, and at least for a frame."""
    rise, = RISE(graph, trig=trig)
    if isinstance(time, Wire):
        time.slot.set(SECONDS)
    frames = graph.product(time, graph.rate)
    if isinstance(frames, Wire):
        frames.slot.set(NUMBER)
    since, = SINCE(graph, rise=rise, start=start(graph))
    last = GREATER(graph, a=frames, b=1.0)[0] if isinstance(frames, Wire) else float(max(1, round(frames)))
    return MORE(graph, a=graph.sum(last, 1.0), b=since)


def trig_1(graph, trig, time):
    trig = begun(graph, trig)
    return for_a_while(graph, trig, time) if isinstance(trig, Wire) else [0.0]


def trig(graph, trig, time):
    """What the trigger was, for a time."""
    trig = begun(graph, trig)
    if not isinstance(trig, Wire):
        return [0.0]
    return [graph.product(for_a_while(graph, trig, time)[0], LATCH(graph, x=trig, trig=trig)[0])]


def at_its_height(graph, trig, time):
    """What the trigger was, for a time, in which another one does nothing."""
    trig = begun(graph, trig)
    if not isinstance(trig, Wire):
        return [0.0]
    return TRIG(graph, trig=trig, time=in_samples(graph, time))


def on_for_a_while(graph, trig, time):
    found, = at_its_height(graph, trig, time)
    return MORE(graph, a=found, b=0.0) if isinstance(found, Wire) else [0.0]


def delayed(graph, trig, time):
    return delay(graph, RISE(graph, trig=trig)[0], 60.0, constant(time, "its time"))


def toggle(graph, trig):
    return STEPPER(graph, trig=trig, reset=0.0, min=0.0, max=1.0, step=1.0, to=0.0)


def set_reset(graph, trig, reset):
    """Whether a trigger came after the last reset."""
    return MORE(graph, a=COUNT(graph, trig=trig, reset=reset)[0], b=0.0)


def schmidt(graph, x, low, high):
    return set_reset(graph, MORE(graph, a=x, b=high)[0], LESS(graph, a=x, b=low)[0])


def in_range(graph, x, low, high):
    off, = SIZE(graph, x=DIFFERENCE(graph, a=x, b=CLIP(graph, x=x, low=low, high=high)[0])[0])
    return [graph.product(MORE(graph, a=off, b=0.0)[0], -1.0, 1.0)]


def in_rect(graph, x, y, left, top, right, bottom):
    """Whether a point lies in a rectangle."""
    return [graph.product(in_range(graph, x, left, right)[0], in_range(graph, y, top, bottom)[0])]


def changes_more(graph, a, b):
    """1 where a changes more from frame to frame than b, and 0 where b does; where both do as much, it stays."""
    ways = [SIZE(graph, x=DIFFERENCE(graph, a=each, b=DELAY_1(graph, x=each)[0])[0])[0] for each in (a, b)]
    way, = DIFFERENCE(graph, a=ways[0], b=ways[1])
    apart, = MORE(graph, a=SIZE(graph, x=way)[0], b=0.0)
    return GATE(graph, x=MORE(graph, a=way, b=0.0)[0], trig=apart)[0]


def most_change(graph, a, b):
    return [graph.product(changes_more(graph, a, b), DIFFERENCE(graph, a=a, b=b)[0], b)]


def least_change(graph, a, b):
    return [graph.product(changes_more(graph, a, b), DIFFERENCE(graph, a=b, b=a)[0], a)]


def sweep(graph, trig, rate):
    """Seconds since the trigger, times a rate."""
    frames, = FRAMES_SINCE(graph, trig=trig)
    if not isinstance(rate, Wire):
        return [graph.product(frames, rate / graph.rate)]
    graph.note("a rate that moves acts on the whole time")
    return [graph.product(graph.product(frames, 1 / graph.rate), rate)]


def timer(graph, trig):
    """Seconds between the last two triggers."""
    before, = DELAY_1(graph, x=FRAMES_SINCE(graph, trig=trig)[0])
    return [graph.product(LATCH(graph, x=graph.sum(before, 1.0), trig=trig)[0], 1 / graph.rate)]


def divided(graph, trig, count, begin):
    """Each trigger at which a count begins again."""
    count, begin = constant(count, "its divisor"), constant(begin, "its start")
    at, = STEPPER(graph, trig=trig, reset=0.0, min=0.0, max=count - 1, step=1.0, to=begin)
    return [graph.product(RISE(graph, trig=trig)[0], LESS(graph, a=at, b=1.0)[0])]


def nothing(graph, rest):
    return [0.0]


FURTHER = {
    "Trig": Row("trig time", at_its_height, needs="Trig"),
    "Trig1": Row("trig time", on_for_a_while, needs="Trig"),
}
UNITS = {
    "Latch": Row("x trig", template("Latch x:M trig:any -> M")),
    "Gate": Row("x trig", GATE),
    "MostChange": Row("a b", most_change),
    "LeastChange": Row("a b", least_change),
    "Trig": Row("trig time", trig, note=LONGER),
    "Trig1": Row("trig time", trig_1, note=LONGER),
    "TDelay": Row("trig time", delayed, note="each trigger is delayed"),
    "ToggleFF": Row("trig", counted(toggle, 1.0)),
    "SetResetFF": Row("trig reset", set_reset),
    "Schmidt": Row("x low high", schmidt),
    "InRange": Row("x low high", in_range),
    "InRect": Row("x y left top right bottom", in_rect),
    "PulseCount": Row("trig reset", counted(COUNT, MOST_COUNT)),
    "PulseDivider": Row("trig count begin", divided),
    "Stepper": Row("trig reset min max step to", counted(STEPPER, "max")),
    "Sweep": Row("trig rate", sweep),
    "Timer": Row("trig", timer),
    "SendTrig": Row("trig number value", send_trig),
    "Poll": Row("trig x number label*", poll, note="it posts nothing, and is reported by /tr"),
    "SendReply": Row("rest*", nothing, note="it is left out", stand_in=True),
}
