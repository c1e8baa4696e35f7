"""What the tables of units are made of: `Row`, and the helpers that several of them need."""
from .graph import Wire
from .measures import Refused
from .scgf import AUDIO
from .templates import template


class Row:
    """What becomes of a unit: its parameters in their order, and what builds the units here and answers its outputs.

    A parameter `name=value` must be that constant; `name?` isn't used here. The last one may be `name*`: all further
    inputs. A unit that counts frames (`frames`) is refused at control rate, where a frame there is a block. `note` says
    what differs. A `stand_in` is a unit that is left out here, or has another one in its place; its note says so. What
    it `needs` are units of those that the server has got last.
    """

    def __init__(self, parameters, build, frames=False, note=None, stand_in=False, needs=""):
        self.parameters, self.build, self.frames = parameters.split(), build, frames
        self.note, self.stand_in, self.needs = note, stand_in, needs.split()

    def arguments(self, inputs):
        """The inputs by name."""
        found, rest = {}, list(inputs)
        for parameter in self.parameters:
            if parameter.endswith("*"):
                found[parameter[:-1]], rest = rest, []
                break
            if not rest:
                raise Refused(f"it has {len(inputs)} inputs, and {len(self.parameters)} are known")
            given, (name, _, wanted) = rest.pop(0), parameter.partition("=")
            if wanted and given != float(wanted):
                raise Refused(f"its {name} must be {wanted}")
            if not wanted and not name.endswith("?"):
                found[name] = given
        if rest:
            raise Refused(f"it has {len(inputs)} inputs, and {len(self.parameters)} are known")
        return found

    def outputs(self, graph, unit, inputs):
        """Builds a unit; it answers its outputs."""
        if self.frames and unit.rate != AUDIO:
            raise Refused("it counts blocks at control rate, and all units count frames here")
        if self.note:
            graph.note(self.note, self.stand_in)
        return self.build(graph, **self.arguments(inputs))


BLOCK = 64
# Units that sum up what comes: an impulse is a frame long for them, even at control rate.
SUMMING = {"Decay", "Decay2", "Integrator", "Ringz", "Formlet", "Klank"}

LATCH = template("Latch x:M trig:any -> M")
START = template("Impulse 0:hertz -> sample")
DELAY_1 = template("Delay1 x:M -> M")
DIFFERENCE = template("Sub a:M b:M -> M")
SIZE = template("Abs x:M -> M")
MORE, LESS = template("Gt a:M b:M -> sample"), template("Lt a:M b:M -> sample")
LESSER, GREATER = template("Min a:M b:M -> M"), template("Max a:M b:M -> M")


def start(graph):
    """What is 1 at the first frame."""
    if graph.start is None:
        graph.start, = START(graph)
    return graph.start


def first(graph, x):
    """What a wire is at the first frame."""
    return LATCH(graph, x=x, trig=start(graph))[0] if isinstance(x, Wire) and not x.still else x


def same(graph, x):
    return [x]


def counted(build, most=None):
    """A unit that gives whole numbers, up to `most`, a number or a parameter; others may take another measure."""
    def outputs(graph, **given):
        found, bound = graph.product(build(graph, **given)[0], 1.0), given.get(most, most)
        found.slot.note(bound.size if isinstance(bound, Wire) else bound)
        return [found]
    return outputs
