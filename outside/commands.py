"""What each command does to a world, and what it answers."""
import copy
import definitions
import osc
import re
import struct
from world import Buffer, Failed, Node, Synth, need

ASKED = 8192
DEEPEST = 8


def kinds(arguments):
    return "".join(tag for tag, _ in arguments)


class Taker:
    """Takes the arguments of a command from the left; a wrong one refuses the command for its arguments."""

    def __init__(self, arguments):
        self.left = list(arguments)

    def take(self, tags, least=None, most=None):
        need(self.left, "arguments")
        tag, value = self.left.pop(0)
        need(tag in tags, "arguments")
        need(least is None or value >= least, "arguments")
        need(most is None or value <= most, "arguments")
        return value

    def int(self, least=None, most=None):
        return self.take("i", least, most)

    def name_or_number(self):
        return self.take("is")

    def run(self):
        return [self.int() for _ in range(self.int(0))]

    def repeat(self, step, least=1):
        """What a step takes, until nothing is left."""
        rows = []
        while self.left:
            rows.append(step())
        need(len(rows) >= least, "arguments")
        return rows

    def ints(self, count, least=1):
        return self.repeat(lambda: [self.int() for _ in range(count)], least)

    def end(self):
        need(not self.left, "arguments")


class Commands:
    """A world that is changed by one command."""

    def __init__(self, world, arguments):
        self.world, self.told = world, []
        self.taker = Taker(arguments)
        self.completion = None

    def say(self, address, *arguments):
        self.told.append((address, *arguments))

    def node(self, ident):
        need(ident in self.world.nodes, "no such node")
        return self.world.nodes[ident]

    def group(self, ident):
        node = self.node(ident)
        need(node.is_group(), "not a group")
        return node

    # Nodes.

    def fresh_id(self, ident):
        need(ident not in self.world.nodes and (ident != -1 or self.world.next_id >= -(1 << 31)), "id in use")
        if ident != -1:
            return ident
        self.world.next_id -= 1
        return self.world.next_id + 1

    def judge_spot(self, action, target):
        need(0 <= action <= 4, "add action")
        target = self.node(target)
        need(action > 1 or target.is_group(), "not a group")
        need(action < 2 or target is not self.world.root, "root")
        return target

    def add(self, node, action, target):
        """Puts a new node into the tree; the node that it replaces is freed first."""
        world = self.world
        if action == 4:
            parent, at = target.parent, target.parent.children.index(target)
            world.free(target, self.told)
        need(len(world.nodes) < 4096, "too many nodes")
        if not node.is_group():
            node.place = world.least_place(node.definition.words(world.rate))
            need(node.place is not None, "pool full")
        if action == 4:
            parent.children.insert(at, node)
            node.parent = parent
        else:
            world.put(node, action, target)
        world.nodes[node.id] = node
        world.tell(self.told, "/n_go", *world.place(node))

    def s_new(self):
        t = self.taker
        name, ident, action, target = t.take("s"), t.int(-1), t.int(), t.int()
        pairs = t.repeat(lambda: (t.name_or_number(), t.int()), 0)
        definition = self.world.definitions.get(name)
        need(definition, "no such definition")
        ident = self.fresh_id(ident)
        target = self.judge_spot(action, target)
        synth = Synth(ident, definition, 0)
        for c, value in pairs:
            self.set_control(synth, c, value)
        self.add(synth, action, target)

    def new_groups(self, kind):
        t = self.taker
        for ident, action, target in t.repeat(lambda: (t.int(-1), t.int(), t.int())):
            ident = self.fresh_id(ident)
            target = self.judge_spot(action, target)
            self.add(Node(ident, kind), action, target)

    def g_new(self):
        self.new_groups("group")

    def p_new(self):
        self.new_groups("parallel")

    def n_free(self):
        for ident, in self.taker.ints(1):
            node = self.node(ident)
            need(ident != 0, "root")
            self.world.free(node, self.told)

    def n_run(self):
        for ident, flag in self.taker.ints(2):
            self.world.set_run(self.node(ident), flag != 0, self.told)

    def set_control(self, synth, c, value):
        number = synth.control(c)
        if number is not None:
            synth.values[number], synth.buses[number] = value, None

    def set_controls(self, synth, c, values):
        number = synth.control(c)
        if number is not None:
            for at, value in enumerate(values, number):
                self.set_control(synth, at, value)

    def set_rows(self, row):
        """Sets controls by rows, each of a control and of the values from there on, in all synths of the message's node."""
        ident = self.taker.int()
        rows = self.taker.repeat(row)
        for synth in self.node(ident).synths():
            for c, values in rows:
                self.set_controls(synth, c, values)

    def n_set(self):
        t = self.taker
        self.set_rows(lambda: (t.name_or_number(), [t.int()]))

    def n_setn(self):
        t = self.taker
        self.set_rows(lambda: (t.name_or_number(), t.run()))

    def n_fill(self):
        t = self.taker

        def row():
            c, count, value = t.name_or_number(), t.int(0), t.int()
            return c, [value] * min(count, 512)

        self.set_rows(row)

    def n_map(self):
        t = self.taker
        ident = t.int()
        rows = t.repeat(lambda: (t.name_or_number(), t.int()))
        synths = self.node(ident).synths()
        for c, bus in rows:
            need(-1 <= bus < 1024, "bus")
            need(all(synth.control(c) not in synth.definition.index_controls for synth in synths), "index control")
            for synth in synths:
                if synth.control(c) is not None:
                    synth.buses[synth.control(c)] = None if bus == -1 else bus

    def beside(self, action):
        for ident, target in self.taker.ints(2):
            node, target = self.node(ident), self.node(target)
            need(0 not in (node.id, target.id), "root")
            need(not node.holds(target), "inside itself")
            self.world.move(node, action, target, self.told)

    def n_before(self):
        self.beside(2)

    def n_after(self):
        self.beside(3)

    def inside(self, action):
        for ident, moved in self.taker.ints(2):
            group, node = self.node(ident), self.node(moved)
            need(node.id != 0, "root")
            need(group.is_group(), "not a group")
            need(not node.holds(group), "inside itself")
            self.world.move(node, action, group, self.told)

    def g_head(self):
        self.inside(0)

    def g_tail(self):
        self.inside(1)

    def n_order(self):
        t = self.taker
        action, target = t.int(), t.int()
        ids = [ident for ident, in t.ints(1, 0) if ident in self.world.nodes]
        need(0 <= action <= 3, "add action")
        target = self.judge_spot(action, target)
        last = None
        for ident in ids:
            if ident != last:
                node = self.node(ident)
                need(ident != 0, "root")
                need(not node.holds(target), "inside itself")
                self.world.move(node, action, target, self.told)
                action, target, last = 3, node, ident

    def g_freeAll(self):
        for ident, in self.taker.ints(1):
            for child in list(self.group(ident).children):
                self.world.free(child, self.told)

    def g_deepFree(self):
        for ident, in self.taker.ints(1):
            for synth in self.group(ident).synths():
                self.world.free(synth, self.told)

    def n_query(self):
        for ident, in self.taker.ints(1):
            self.say("/n_info", *self.world.place(self.node(ident)))

    def g_queryTree(self):
        t = self.taker
        for ident in t.repeat(lambda: (t.int(), t.int(0, 0))[0]):
            group = self.group(ident)
            told = [0, group.id, len(group.children)]
            for node in list(group.walk())[1:]:
                told += [node.id, len(node.children)] if node.is_group() else [node.id, -1, node.definition.name]
            self.say("/g_queryTree.reply", *told)

    def s_get(self):
        t = self.taker
        ident, asked = t.int(), t.repeat(t.name_or_number)
        synth = self.node(ident)
        need(not synth.is_group(), "not a synth")
        told = [ident]
        for c in asked:
            number = synth.control(c)
            if number is not None:
                bus = synth.buses[number]
                value = synth.values[number] if bus is None else self.world.control[bus]
                told += [c.decode("latin-1") if isinstance(c, bytes) else c, value]
        self.say("/n_set", *told)

    # Control buses.

    def judge_buses(self, bus, count=1):
        need(0 <= bus < 1024 and bus + max(count, 1) <= 1024, "bus")

    def c_set(self):
        for bus, value in self.taker.ints(2):
            self.judge_buses(bus)
            self.world.control[bus] = value

    def c_setn(self):
        t = self.taker
        for bus, values in t.repeat(lambda: (t.int(), t.run())):
            self.judge_buses(bus, len(values))
            self.world.control[bus:bus + len(values)] = values

    def c_fill(self):
        t = self.taker
        for bus, count, value in t.repeat(lambda: (t.int(), t.int(0), t.int())):
            self.judge_buses(bus, count)
            self.world.control[bus:bus + count] = [value] * count

    def c_get(self):
        told = []
        for bus, in self.taker.ints(1):
            self.judge_buses(bus)
            told += [bus, self.world.control[bus]]
        self.say("/c_set", *told)

    def asked_runs(self):
        t = self.taker
        rows = t.repeat(lambda: (t.int(), t.int(0)))
        need(sum(count for _, count in rows) <= ASKED, "arguments")
        return rows

    def c_getn(self):
        told = []
        for bus, count in self.asked_runs():
            self.judge_buses(bus, count)
            told += [bus, count, *self.world.control[bus:bus + count]]
        self.say("/c_setn", *told)

    # Buffers.

    def take_completion(self):
        """A blob at the end must be one message."""
        if self.taker.left:
            self.completion = completion_of(self.taker.take("b"))
            need(self.completion, "arguments")
        self.taker.end()

    def judge_number(self, number):
        need(0 <= number < 1024, "buffer")
        return number

    def buffer(self, number):
        need(self.judge_number(number) in self.world.buffers, "buffer")
        return self.world.buffers[number]

    def judge_samples(self, buffer, index, count=0):
        size = len(buffer.samples)
        need(index < size and index + count <= size, "sample index")

    def b_alloc(self):
        t = self.taker
        number, frames, channels = t.int(), t.int(1), 1
        if t.left and t.left[0][0] == "i":
            channels = t.int(1, 8)
        self.take_completion()
        self.judge_number(number)
        self.world.buffers.pop(number, None)
        place = self.world.least_place(frames * channels)
        need(place is not None, "pool full")
        self.world.buffers[number] = Buffer(frames, channels, place)
        self.say("/done", "/b_alloc", number)

    def b_allocRead(self):
        t = self.taker
        need(not re.fullmatch("isi?i?b?", kinds(t.left)), "file")
        number, frames, channels, samples = t.int(), t.int(1), t.int(1, 8), t.take("b")
        need(len(samples) == 4 * frames * channels, "arguments")
        self.take_completion()
        self.judge_number(number)
        self.world.buffers.pop(number, None)
        place = self.world.least_place(frames * channels)
        need(place is not None, "pool full")
        buffer = Buffer(frames, channels, place)
        buffer.samples = list(struct.unpack(f">{frames * channels}i", samples))
        self.world.buffers[number] = buffer
        self.say("/done", "/b_allocRead", number)

    def b_free(self):
        number = self.taker.int()
        self.take_completion()
        self.buffer(number)
        del self.world.buffers[number]
        self.say("/done", "/b_free", number)

    def b_zero(self):
        number = self.taker.int()
        self.take_completion()
        buffer = self.buffer(number)
        buffer.samples = [0] * len(buffer.samples)
        self.say("/done", "/b_zero", number)

    def b_set(self):
        t = self.taker
        number = t.int()
        rows = t.repeat(lambda: (t.int(0), t.int()))
        buffer = self.buffer(number)
        for index, value in rows:
            self.judge_samples(buffer, index)
            buffer.samples[index] = value

    def b_setn(self):
        t = self.taker
        number = t.int()
        rows = t.repeat(lambda: (t.int(0), t.run()))
        buffer = self.buffer(number)
        for index, values in rows:
            self.judge_samples(buffer, index, len(values))
            buffer.samples[index:index + len(values)] = values

    def b_fill(self):
        t = self.taker
        number = t.int()
        rows = t.repeat(lambda: (t.int(0), t.int(0), t.int()))
        buffer = self.buffer(number)
        for index, count, value in rows:
            self.judge_samples(buffer, index, count)
            buffer.samples[index:index + count] = [value] * count

    def b_get(self):
        t = self.taker
        number = t.int()
        indices = t.repeat(lambda: t.int(0))
        buffer, told = self.buffer(number), [number]
        for index in indices:
            self.judge_samples(buffer, index)
            told += [index, buffer.samples[index]]
        self.say("/b_set", *told)

    def b_getn(self):
        t = self.taker
        number = t.int()
        rows = t.repeat(lambda: (t.int(0), t.int(0)))
        need(sum(count for _, count in rows) <= ASKED, "arguments")
        buffer, told = self.buffer(number), [number]
        for index, count in rows:
            self.judge_samples(buffer, index, count)
            told += [index, count, *buffer.samples[index:index + count]]
        self.say("/b_setn", *told)

    def b_query(self):
        told = []
        for number, in self.taker.ints(1):
            buffer = self.world.buffers.get(self.judge_number(number))
            told += [number, buffer.frames, buffer.channels, self.world.rate] if buffer else [number, 0, 0, 0]
        self.say("/b_info", *told)

    # Definitions and the server.

    def d_recv(self):
        text = self.taker.take("b")
        self.take_completion()
        try:
            definition = definitions.read(text)
        except definitions.BadLine as bad:
            raise Failed(f"definition line {bad.line}") from None
        self.world.definitions[definition.name.encode()] = definition
        self.say("/done", "/d_recv")

    def d_free(self):
        for name in self.taker.repeat(lambda: self.taker.take("s")):
            need(self.world.definitions.pop(name, None), "no such definition")

    def sync(self):
        number = self.taker.int()
        self.taker.end()
        self.say("/synced", number)

    def status(self):
        self.taker.end()
        nodes = list(self.world.root.walk())
        synths = self.world.root.synths()
        units = sum(len(synth.definition.units) for synth in synths)
        self.say("/status.reply", 1, units, len(synths), len(nodes) - len(synths), len(self.world.definitions))

    def notify(self):
        flag = self.taker.int()
        self.taker.end()
        self.world.notify = flag != 0
        self.say("/done", "/notify", 0)

    def clearSched(self):
        self.taker.end()

    def quit(self):
        self.taker.end()
        self.say("/done", "/quit")


COMMANDS = {
    "/" + name: getattr(Commands, name)
    for name in """s_new g_new p_new n_free n_run n_set n_setn n_fill n_map n_before n_after g_head g_tail n_order g_freeAll
    g_deepFree n_query g_queryTree s_get c_set c_setn c_fill c_get c_getn b_alloc b_allocRead b_free b_zero b_set b_setn b_fill b_get b_getn
    b_query d_recv d_free sync status notify clearSched quit""".split()
}

CARRIERS = {"/b_alloc": ("iib", "iiib"), "/b_allocRead": ("iiibb",), "/b_free": ("ib",), "/b_zero": ("ib",), "/d_recv": ("bb",)}


def completion_of(blob):
    """The message that a blob spells, or None."""
    try:
        packet = osc.decode(blob)
    except osc.Fault:
        return None
    return packet if isinstance(packet, osc.Message) else None


def depth(message):
    """How deep completion messages nest in a message."""
    carriers = CARRIERS.get(message.address.decode("latin-1"), ())
    if isinstance(message.body, osc.Foreign) or kinds(message.body) not in carriers:
        return 0
    inner = completion_of(message.body[-1][1])
    return 1 + depth(inner) if inner else 0


def copied(world):
    """A copy of all that a command may change."""
    kept = [world.audio] + [synth.states for synth in world.root.synths()]
    return copy.deepcopy(world, {id(each): each for each in kept})


def command(world, message):
    """The world after a message, its replies, its completion message, and its address where it was accepted."""
    address = message.address.decode("latin-1")
    try:
        need(address in COMMANDS, "unknown command")
        need(not isinstance(message.body, osc.Foreign), "argument type")
        need(depth(message) <= DEEPEST, "arguments")
        changed = Commands(world if address == "/sync" else copied(world), message.body)
        COMMANDS[address](changed)
    except Failed as failed:
        return world, [("/fail", address, str(failed))], None, None
    return changed.world, changed.told, changed.completion, address
