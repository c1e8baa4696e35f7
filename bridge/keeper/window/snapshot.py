"""What the window is told of a session: of each synth, of the tree, and of all else once a second."""
import math
import os
import time

PAGE = os.sysconf("SC_PAGE_SIZE")
GROUP, PARALLEL, PAUSED = 1, 2, 4
# So many controls of a synth, buffers and control buses are told.
MOST_CONTROLS, MOST_LISTED = 64, 256


def finite(value):
    """A number as JSON can say it."""
    return value if isinstance(value, int) or math.isfinite(value) else None


def shape(tree):
    """The nodes in the order in which they are rendered: the id, the depth and the flags of each, behind each other."""
    found, depths = [], {0: 0}
    for number, parent in tree.in_order():
        depth = depths[number] = depths.get(parent, 0) + 1
        flags = GROUP if number in tree.children else 0
        flags |= PARALLEL if number in tree.parallel else 0
        flags |= PAUSED if number in tree.paused else 0
        found += (number, depth, flags)
    return found


def controls(node):
    """The controls of a synth whose definition came from sclang: the name, the value and the measure there, and the bus
    that it follows."""
    names = {number: name for name, number in node.definition.source.names}
    return [[names.get(number, control.name), finite(node.value_of(control)), control.slot.guess().name,
             node.maps.get(control)] for number, control in enumerate(node.definition.controls[:MOST_CONTROLS])]


def synth(gateway, number):
    """A synth: its definition, what its controls were set to and the buses that they follow, as the server was sent
    them; and its name and its controls there, if its definition came from sclang."""
    found, node = gateway.recall.tree.synths[number], gateway.session.nodes.by_id.get(number)
    there = [node.definition.source.name, controls(node)] if node and node.definition else None
    return [found.definition, found.values, found.buses, there]


def memory_of(number):
    """The bytes that a program has in memory."""
    try:
        with open(f"/proc/{number}/statm", encoding="ascii") as file:
            return int(file.read().split()[1]) * PAGE
    except (OSError, ValueError, IndexError):
        return 0


def buses(gateway):
    """The control buses that were set: the number and the value, as it is there if it came from sclang."""
    set_there, found = gateway.session.bus_values, []
    for bus, value in sorted(gateway.recall.buses.values.items())[:MOST_LISTED]:
        found.append([bus, finite(set_there.get(bus, value)), bus in set_there])
    return found


def buffers(gateway):
    rows = sorted(gateway.recall.buffers.by_number.items())
    return [[number, each.frames, each.channels] for number, each in rows[:MOST_LISTED]]


def memory(keeper, window):
    used = sum(len(each.samples) for each in keeper.gateway.recall.buffers.by_number.values())
    server = memory_of(keeper.process.program.pid) if keeper.server else 0
    return {"server": server, "keeper": memory_of(os.getpid()), "window": memory_of(window),
            "words": used, "most": keeper.settings.memory}


def state(keeper, window):
    """All that is told once a second."""
    gateway, sound, load = keeper.gateway, keeper.sound, keeper.load
    clients = gateway.clients
    return {
        "now": time.time(), "since": keeper.since, "plays": keeper.server is not None,
        "restarts": [keeper.restarts, keeper.last_restart], "players": [sound.restarts, sound.settings.player],
        "load": [load.lately[-1], max(load.lately)], "late": [load.late, 1000 * load.worst],
        "speed": sound.frames.speed, "clients": [[clients.number(each), str(each)] for each in clients],
        "memory": memory(keeper, window), "waiting": len(gateway.recall.waiting),
        "buffers": buffers(gateway), "buses": buses(gateway),
    }
