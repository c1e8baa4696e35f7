"""Variants of definitions: one for the files in the buffers of which a definition asks the rate or the channels."""
from .graph import BETWEEN, Control
from .measures import Lacking
from .osc import Message

MOVED = "a buffer with a file of another kind is read as the one before"


def facts_for(session, node):
    """What is true of the buffers that a synth chooses, and of its controls, as far as its definition asks."""
    return tuple(fact_for(session, node, *each) for each in node.definition.graph.asked)


def fact_for(session, node, what, index):
    value = node.value_of(index) if isinstance(index, Control) else index
    if what == BETWEEN:
        return float(value != round(value))
    buffer = session.buffers.get(round(value))
    return float(getattr(buffer, what)) if buffer else node.definition.graph.likely(what)


def likely(graph):
    return tuple(graph.likely(*each) for each in graph.asked)


def variant(session, node):
    """The definition of a synth for the buffers that it reads; a new one is sent first."""
    base, facts = node.definition, facts_for(session, node)
    if facts == likely(base.graph):
        return base
    key = base.source.name, facts
    found = session.variants.get(key)
    if found is None or found.source != base.source:
        found = session.variants[key] = session.definition(base.source, facts)
        session.first += sent(session, found)
    if found.refused:
        raise Lacking(base.source.name, f"the definition {base.source.name} was refused for such files")
    return found


def sent(session, definition):
    """The command that sends a variant; why it is refused is kept once."""
    if not definition.refused:
        return [Message("/d_recv", [definition.text.encode()])] if definition.text else []
    name, graph = definition.source.name, definition.graph
    own = " and ".join(f"the {what} {value:g}" for (what, _), value in zip(graph.asked, graph.known))
    session.tally.definition(name, True)
    session.refusals += [f"/d_recv {name}: {each}: a buffer has {own}, and snova the rate {session.rate}"
                         for each in definition.reasons[:session.most_reasons]]
    return []


def check_facts(session, synth):
    """Notes if a synth chooses a buffer with a file of another kind than the one that it began with."""
    graph = synth.definition.graph
    if facts_for(session, synth) != tuple(graph.known or likely(graph)) and MOVED not in graph.notes:
        graph.notes.append(MOVED)
        session.notes.append(f"{synth.definition.source.name}: {MOVED}")
