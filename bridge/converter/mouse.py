"""The mouse and the keys: control buses stand for them, from 0 to 1."""
from .buses import Place
from .filters import lag
from .measures import NUMBER, SAMPLE, Refused, Slot
from .random_numbers import between, between_by_ratios
from .rows import Row

LINEAR, BY_RATIOS = 0, 1


def position(graph, bus):
    """From 0 to 1: what a bus holds that stands for a device."""
    graph.note(f"it follows control bus {bus}, from 0 to 1")
    slot = Slot(SAMPLE)
    graph.places.append(Place("bus", float(bus), 0, slot))
    return graph.line("In.kr", [(float(bus), Slot(NUMBER))], [slot])[0]


def followed(bus):
    """A device with two ends and a curve between them."""
    def build(graph, low, high, time, warp=LINEAR):
        if warp not in (LINEAR, BY_RATIOS):
            raise Refused(f"its warp is {warp}, and must be 0 or 1")
        way = between_by_ratios if warp == BY_RATIOS else between
        return lag(graph, way(graph, graph.product(position(graph, bus), 2.0, -1.0), low, high), time)
    return build


UNITS = {
    "MouseX": Row("low high warp time", followed(1020)),
    "MouseY": Row("low high warp time", followed(1021)),
    "MouseButton": Row("low high time", followed(1022)),
    "KeyState": Row("key? low high time", followed(1023)),
}
