"""Turns what `snova` answers into what sclang expects: values are floats again."""
from .commands import Form
from .measures import SAMPLE, value_of
from .osc import Message


PAIRS, RUNS = Form("(int int)..").read, Form("(int run)..").read
ID_AND_PAIRS, ID_AND_RUNS = Form("int (control int)..").read, Form("int (int run)..").read


def there(session, kind, number, value):
    """A value of a bus or of a buffer as it is there."""
    return value_of(value, session.slot(kind, number).guess())


def set_buses(session, arguments):
    (pairs,), _ = PAIRS(arguments)
    return [each for bus, value in pairs for each in (bus, there(session, "bus", bus, value))]


def set_bus_runs(session, arguments):
    (runs,), _ = RUNS(arguments)
    found = []
    for begin, values in runs:
        found += [begin, len(values), *(there(session, "bus", begin + at, value) for at, value in enumerate(values))]
    return found


def set_samples(session, arguments):
    (buffer, pairs), _ = ID_AND_PAIRS(arguments)
    return [buffer, *(each for at, value in pairs for each in (at, there(session, "buffer", buffer, value)))]


def set_sample_runs(session, arguments):
    (buffer, runs), _ = ID_AND_RUNS(arguments)
    found = [buffer]
    for begin, values in runs:
        found += [begin, len(values), *(there(session, "buffer", buffer, value) for value in values)]
    return found


def definition_of(session, number):
    node = session.nodes.by_id.get(number)
    return node.definition if node else None


def set_controls(session, arguments):
    """The values of a synth's controls, which `/s_get` asked for, with the names that they have there."""
    (node, pairs), _ = ID_AND_PAIRS(arguments)
    definition, found = definition_of(session, node), [node]
    for given, value in pairs:
        name = definition.name_there(given) if definition else given
        control = definition.control(name) if definition else None
        found += [name, value_of(value, control.slot.guess() if control else SAMPLE)]
    return found


def trigger(session, arguments):
    node, number, value = arguments
    definition = definition_of(session, node)
    slot = definition.graph.triggers.get(number) if definition else None
    return [node, number, value_of(value, slot.guess() if slot else SAMPLE)]


def status(session, arguments):
    """With the use of the processor and the rates."""
    return [*arguments, *session.use()]


SIZES = Form("(int int int int)..").read


def info(session, arguments):
    """The sizes of buffers, with the rates of what is in them."""
    (rows,), _ = SIZES(arguments)
    return [each for row in rows for each in info_row(session, *row)]


def info_row(session, number, frames, channels, rate):
    known = session.buffers.get(number)
    return number, frames, channels, known.rate if known and frames else float(rate)


def query_tree(session, arguments):
    """The tree below a group. The name of a definition, two places after the id of its synth, is the one there."""
    definitions = {at: definition_of(session, arguments[at - 2]) for at, each in enumerate(arguments)
                   if isinstance(each, str)}
    return [definitions[at].source.name if definitions.get(at) else each for at, each in enumerate(arguments)]


TURNED_BACK = {
    "/c_set": set_buses, "/c_setn": set_bus_runs, "/b_set": set_samples, "/b_setn": set_sample_runs,
    "/n_set": set_controls, "/tr": trigger, "/status.reply": status, "/b_info": info,
    "/g_queryTree.reply": query_tree,
}


def back(session, message):
    """A reply as sclang expects it; samples of waves that are shown stay as they are."""
    turn = TURNED_BACK.get(message.address)
    if turn is None or session.scopes and session.scopes.is_raw(message):
        return message
    return Message(message.address, turn(session, message.arguments))
