"""Units that give a number of the server, or of a buffer."""
import math

from .buses import FRAMES, LONGEST
from .graph import CHANNELS, RATE, Control, Wire
from .measures import NUMBER
from .rows import Row, counted, same
from .templates import index

# The channels of the server if it isn't told otherwise, and the buses behind them that sclang keeps for inputs.
OUTPUTS = 2
FEW = f"it is {OUTPUTS}, as if the server weren't told otherwise"

frames = counted(FRAMES, LONGEST)


def of_rate(value):
    """A unit that only reports the server's rate."""
    return lambda graph, **given: [value(graph.rate)]


def number(value):
    """A unit that only reports a number."""
    return of_rate(lambda rate: float(value))


def fact(graph, what, buf):
    """What is true of a buffer."""
    if isinstance(buf, Wire) and not isinstance(buf, Control):
        graph.note(f"the {what} of a buffer whose number is worked out is {graph.likely(what):g}")
        return graph.likely(what)
    if isinstance(buf, Control):
        buf.slot.set(NUMBER)
    return graph.fact(what, index(buf))


def of_buffer(value):
    """A unit that reports a number of the sample rate of what is in a buffer, and of the server's."""
    return lambda graph, buf: [value(fact(graph, RATE, buf), graph.rate)]


def seconds(graph, buf):
    return [graph.product(frames(graph, buf=buf)[0], 1 / fact(graph, RATE, buf))]


def samples(graph, buf):
    return [graph.product(frames(graph, buf=buf)[0], fact(graph, CHANNELS, buf))]


UNITS = {
    "BufFrames": Row("buf", frames),
    "BufDur": Row("buf", seconds),
    "BufSamples": Row("buf", samples),
    "BufChannels": Row("buf", lambda graph, buf: [fact(graph, CHANNELS, buf)]),
    "BufRateScale": Row("buf", of_buffer(lambda own, rate: own / rate)),
    "BufSampleRate": Row("buf", of_buffer(lambda own, _: own)),
    "SampleRate": Row("", of_rate(float)),
    "SampleDur": Row("", of_rate(lambda rate: 1 / rate)),
    "ControlRate": Row("", of_rate(lambda rate: rate / 64)),
    "ControlDur": Row("", of_rate(lambda rate: 64 / rate)),
    "RadiansPerSample": Row("", of_rate(lambda rate: math.tau / rate)),
    "SubsampleOffset": Row("", number(0)),
    "CheckBadValues": Row("x id? post?", lambda graph, x: [0.0], note="all numbers here are good"),
    "Sanitize": Row("x other?", same),
    "NumOutputBuses": Row("", number(OUTPUTS), note=FEW),
    "NumInputBuses": Row("", number(OUTPUTS), note="no sound comes in: it is that of the buses behind the outputs"),
    "NumAudioBuses": Row("", number(128)),
    "NumControlBuses": Row("", number(1024)),
    "NumBuffers": Row("", number(1024)),
}
