"""Line, XLine and Linen."""
import math

from .measures import Refused
from .rows import Row
from .shapes import exponent, exponential
from .templates import constant, template

LINE = template("Line start:M end:M dur:seconds done:action -> M")
LINEN = template("Linen gate:any attack:seconds level:M release:seconds done:action -> M")


def exponential_line(graph, start, end, dur, done):
    """From the larger end the other one is reached by e to a line."""
    start, end = constant(start, "its start"), constant(end, "its end")
    if start * end <= 0:
        raise Refused("its start and its end must have one sign, and none may be 0")
    if start == end:
        return LINE(graph, start=start, end=end, dur=dur, done=done)
    depth = -abs(math.log(end / start))
    part = exponent(depth)
    low, high = (0.0, part) if abs(end) < abs(start) else (part, 0.0)
    z, = LINE(graph, start=low, end=high, dur=dur, done=done)
    return [graph.product(exponential(graph, z, depth), max(start, end, key=abs))]


UNITS = {
    "Line": Row("start end dur done", LINE),
    "XLine": Row("start end dur done", exponential_line),
}
