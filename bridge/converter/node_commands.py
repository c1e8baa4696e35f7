"""The table of commands on nodes: synths, groups, and their controls."""
from .audio_maps import n_mapa
from .commands import each_same, left_out, same, turned
from .limits import bus, check_audio_buses, whole
from .measures import Lacking, Refused, raw
from .nodes import AFTER, BEFORE, HEAD, TAIL, Node
from .osc import Message
from .server_commands import await_definition
from .taps import check_taps
from .variants import check_facts, variant


def name_here(control, given):
    """A control as it is named here; a number stays."""
    return control.name if isinstance(given, str) else given


def mapped_bus(text):
    """The letter and the number of a bus that a string such as `c5` or `a5` names."""
    if not (text[:1] in ("c", "a") and text[1:].isdecimal() and text.isascii()):
        raise Refused(f"{text} is no bus")
    return text[0], (bus if text[0] == "c" else whole)(int(text[1:]))


def mapped(session, number, maps):
    """The commands by which controls follow buses: triples of a control, a letter and a number."""
    control = [(given, number_of) for given, letter, number_of in maps if letter == "c"]
    audio = [(given, number_of) for given, letter, number_of in maps if letter == "a"]
    found = n_map(session, number, control) if control else []
    return found + (n_mapa(session, number, audio) if audio else [])


# Controls.

def controls_of(synths, given):
    """The controls of synths that have a name or a number; they must have one measure."""
    found = [control for synth in synths if (control := synth.definition.control(given))]
    if len({control.slot.guess().scale for control in found}) > 1:
        names = sorted({control.slot.guess().name for control in found})
        raise Refused(f"{given} is in {' and in '.join(names)} in synths below the group")
    return found


def set_control(synths, given, value):
    """A control as it is named here, and a value for it here; nothing if no synth has it."""
    controls = controls_of(synths, given)
    for control in controls:
        control.slot.note(value)
    found = [[name_here(control, given), control.sent(value)] for control in controls]
    for synth in synths:
        if own := synth.definition.control(given):
            synth.values[own] = value
            synth.maps.pop(own, None)
    return found[0] if found else []


def numbered(synths, given, offset):
    """The control some places after a control."""
    for synth in synths:
        number = given if isinstance(given, int) else synth.definition.numbers.get(given)
        if number is not None:
            return number + offset
    return None


def values_of(definition, pairs):
    """The values that controls are given, as they are there."""
    found = {}
    for given, value in pairs:
        number = given if isinstance(given, int) else definition.numbers.get(given, len(definition.controls))
        for offset, each in enumerate(value if isinstance(value, list) else [value]):
            if not isinstance(each, str):
                found[definition.control(number + offset)] = each
    return found


def settings(synths, pairs):
    """Pairs of a control and a value as they are here, and pairs of a control and a bus that it is to follow."""
    sets, maps = [], []
    for given, value in pairs:
        for offset, each in enumerate(value if isinstance(value, list) else [value]):
            control = numbered(synths, given, offset) if offset else given
            if isinstance(each, str):
                maps.append((control, *mapped_bus(each)))
            else:
                sets += set_control(synths, control, each)
    return sets, maps


def relinked(session, synths, pairs):
    """Connects again what the controls that were set choose."""
    given = {synth.definition.control(name) for synth in synths for name, _ in pairs}
    for synth in synths:
        check_facts(session, synth)
    return [message for synth in synths for message in session.link(synth, given)]


def s_new(session, name, given, action, target, pairs):
    session.tally.asked += 1
    await_definition(session, name)
    number, found = session.nodes.number(given), session.definitions.get(name)
    if found is None or found.refused:
        session.nodes.lack(number, name)
        raise Lacking(name, f"the definition {name} " + (f"was refused: {found.refused}" if found else "didn't come"))
    found = variant(session, Node(number, found, values_of(found, pairs)))
    node = Node(number, found)
    sets, maps = settings([node], pairs)
    check_audio_buses(node)
    node.taps = session.taps.get(name, ())
    check_taps(session, node)
    again = session.link(node)
    private = found.private(session.private_buses)
    if scopes := session.waves.get(name):
        private += session.scopes.take(session, node, scopes)
    session.nodes.add(node, action, target)
    session.tally.played += 1
    made = Message("/s_new", [found.name, number, action, target, *sets, *private])
    return [*again, made, *mapped(session, number, maps)]


def n_set(session, number, pairs):
    synths = session.nodes.synths(number)
    before = [(dict(synth.values), dict(synth.maps)) for synth in synths]
    try:
        sets, maps = settings(synths, pairs)
        for synth in synths:
            check_audio_buses(synth)
        again = relinked(session, synths, pairs)
    except Refused:
        for synth, kept in zip(synths, before):
            synth.values, synth.maps = kept
        raise
    made = [Message("/n_set", [number, *sets])] if sets else []
    return [*again, *made, *mapped(session, number, maps)]


def n_fill(session, number, triples):
    return n_set(session, number, [(begin, [value] * count) for begin, count, value in triples])


def n_map(session, number, pairs):
    synths, found, again = session.nodes.synths(number), [], []
    for given, followed in pairs:
        controls = controls_of(synths, given)
        found += [name_here(controls[0], given), followed] if controls else []
        for control in controls if followed != -1 else []:
            again += session.connect("bus", followed, control.slot)
        for synth in synths:
            follow(synth, synth.definition.control(given), followed)
    return [*again, Message("/n_map", [number, *found])] if found else []


def follow(synth, control, number):
    """Notes which bus a control follows; -1 is none."""
    if control and number == -1:
        synth.maps.pop(control, None)
    elif control:
        synth.maps[control] = f"c{number}"


def spread(session, number, triples):
    """Pairs of a control and a bus, of triples of the first ones and a count; the bus -1 is that of all."""
    synths = session.nodes.synths(number)
    return [(numbered(synths, given, offset) if offset else given, first if first == -1 else first + offset)
            for given, first, count in triples for offset in range(count)]


def n_mapn(session, number, triples):
    return n_map(session, number, [(given, bus(followed)) for given, followed in spread(session, number, triples)])


def n_mapan(session, number, triples):
    return n_mapa(session, number, spread(session, number, triples))


def new_groups(address):
    """Of groups that are made: one command for each, whose id is chosen for -1."""
    def turn(session, triples):
        found = []
        for given, action, target in triples:
            number = session.nodes.number(given)
            session.nodes.add(Node(number), action, target)
            found.append(Message(address, [number, action, target]))
        return found
    return turn


def s_noid(session, numbers):
    """Synths keep running under other ids; what isn't there, or is a group, is left out, as scsynth does."""
    nodes = session.nodes
    for given in numbers:
        number = None if nodes.ids.is_hidden(given) else nodes.node(given)
        if number in nodes.by_id and nodes.by_id[number].definition:
            nodes.ids.release(nodes.ids.of_client(number))
    return []


# What is remembered of where nodes stand.

def freed(session, numbers):
    for number in numbers:
        session.nodes.free(number)


def placed(action):
    """Of pairs of a node and its target."""
    def remember(session, pairs):
        for number, target in pairs:
            session.nodes.move(number, action, target)
    return remember


def put(action):
    """Of pairs of a group and the node that goes into it."""
    def remember(session, pairs):
        for group, number in pairs:
            session.nodes.move(number, action, group)
    return remember


def ordered(session, action, target, numbers):
    for number in numbers:
        session.nodes.move(number, action, target)


def emptied(synths_only):
    def remember(session, groups):
        for group in groups:
            session.nodes.free_below(group, synths_only)
    return remember


NO_PLUGINS = "units take no commands here"

NODES = [
    turned("/s_new", 9, "text id:int=-1 action:int=0 target:node=0 (control setting)..", s_new),
    each_same("/n_free", 11, "(node)..", freed),
    each_same("/n_run", 12, "(node int).."),
    left_out("/n_cmd", 13, NO_PLUGINS),
    turned("/n_map", 14, "node (control bus)..", n_map),
    turned("/n_set", 15, "node (control setting)..", n_set),
    turned("/n_setn", 16, "node (control run)..", n_set),
    turned("/n_fill", 17, "node (control count value)..", n_fill),
    each_same("/n_before", 18, "(node node)..", placed(BEFORE)),
    each_same("/n_after", 19, "(node node)..", placed(AFTER)),
    left_out("/u_cmd", 20, NO_PLUGINS),
    turned("/g_new", 21, "(int int node)..", new_groups("/g_new")),
    each_same("/g_head", 22, "(node node)..", put(HEAD)),
    each_same("/g_tail", 23, "(node node)..", put(TAIL)),
    each_same("/g_freeAll", 24, "(node)..", emptied(False)),
    turned("/n_mapn", 48, "node (control bus count)..", n_mapn),
    turned("/s_noid", 49, "(int)..", s_noid),
    each_same("/g_deepFree", 50, "(node)..", emptied(True)),
    turned("/s_newargs", 59, "text id:int=-1 action:int=0 target:node=0 (control run)..", s_new),
    turned("/n_mapa", 60, "node (control int)..", n_mapa),
    turned("/n_mapan", 61, "node (control int count)..", n_mapan),
    same("/n_order", 62, "action:int target:node (node)..", ordered),
    turned("/p_new", 63, "(int int node)..", new_groups("/p_new")),
]
