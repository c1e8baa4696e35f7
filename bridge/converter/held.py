"""What stands still for a block: what control-rate units give that jump from block to block.

Others read such a value as it is. What works it into a sound there slides to it from that of the block before.
"""
from .graph import Wire
from .listeners import ARITHMETIC
from .rows import DELAY_1, DIFFERENCE, LATCH
from .scgf import AUDIO
from .templates import template

# The part of a block that is over: 0 at its first frame.
PART = template("Phasor 0:any 0.015625:sample 0:sample 1:sample 0:sample -> sample")
BLOCK_START = template("Lt part:sample 0.0078125:sample -> sample")


def block_part(graph):
    if graph.part is None:
        graph.part, = PART(graph)
        graph.block_start, = BLOCK_START(graph, part=graph.part)
    return graph.part


def hold(graph, x):
    """A wire as it is at the first frame of each block."""
    block_part(graph)
    found, = LATCH(graph, x=x, trig=graph.block_start)
    found.held = True
    return found


def last_block(graph, held):
    """What something held was in the block before."""
    found, = LATCH(graph, x=DELAY_1(graph, x=held)[0], trig=graph.block_start)
    found.held = True
    return found


def before(graph, x):
    """What was a frame before, or at control rate a block before."""
    return DELAY_1(graph, x=x)[0] if graph.unit.rate == AUDIO else last_block(graph, hold(graph, x))


def slide(graph, x):
    """From the value of the block before to that of this one."""
    now = hold(graph, x)
    last = last_block(graph, now)
    return graph.product(block_part(graph), DIFFERENCE(graph, a=now, b=last)[0], last)


def slid(graph, unit, inputs):
    """The inputs of a unit: what works at audio rate slides to those that stand still."""
    if unit.rate != AUDIO or unit.name not in ARITHMETIC | {"K2A"}:
        return inputs
    return [slide(graph, each) if isinstance(each, Wire) and each.held else each for each in inputs]


def pass_on(unit, inputs, outputs):
    """What is worked out at control rate of what stands still does so too."""
    if unit.rate != AUDIO and unit.name in ARITHMETIC:
        held = any(isinstance(each, Wire) and each.held for each in inputs)
        for each in outputs:
            if held and isinstance(each, Wire):
                each.held = True
    return outputs
