"""The nodes, buses, buffers and definitions of a server, and what a block makes of them."""
import units
from definitions import ONE, UNITS
from units import FRAMES, sat


# Units on buses and buffers that read, by the begin of their names; the others write.
READERS = ("In", "PlayBuf", "BufRd")


class Failed(Exception):
    """The reason for which a command is refused."""


def need(holds, reason):
    if not holds:
        raise Failed(reason)


class Node:
    def __init__(self, ident, kind):
        self.id, self.kind, self.run = ident, kind, True
        self.parent, self.children = None, []

    def is_group(self):
        return self.kind != "synth"

    def walk(self):
        yield self
        for child in self.children:
            yield from child.walk()

    def synths(self):
        return [node for node in self.walk() if not node.is_group()]

    def holds(self, other):
        return other in self.walk()

    def running(self):
        """The nodes at and below this one that the walk reaches."""
        if self.run:
            yield self
            for child in self.children:
                yield from child.running()


class Synth(Node):
    def __init__(self, ident, definition, place):
        super().__init__(ident, "synth")
        self.definition, self.place = definition, place
        self.values = [value for _, value in definition.controls]
        self.buses = [None] * len(self.values)
        self.states = [{} for _ in definition.units]

    def control(self, c):
        """The number of a control that is given by its number or its name, or None."""
        if isinstance(c, int):
            return c if 0 <= c < len(self.values) else None
        names = [name.encode() for name, _ in self.definition.controls]
        return names.index(c) if c in names else None

    def index(self, given):
        """The value of an index input, which is a literal or an unmapped control."""
        return given[1] if given[0] == "v" else self.values[given[1]]


class Buffer:
    def __init__(self, frames, channels, place):
        self.frames, self.channels, self.place = frames, channels, place
        self.samples = [0] * (frames * channels)


class World:
    def __init__(self, rate, words):
        self.rate, self.words, self.block = rate, words, 0
        self.root = Node(0, "group")
        self.nodes = {0: self.root}
        self.audio = [(None, [0] * FRAMES) for _ in range(128)]
        self.control, self.control_block = [0] * 1024, [None] * 1024
        self.buffers, self.definitions = {}, {}
        self.clashes, self.notify, self.next_id = [], False, -2

    # Where nodes stand, and what clients are told of it.

    def place(self, node):
        if node.parent is None:
            parent, before, after = -1, -1, -1
        else:
            row = node.parent.children
            i = row.index(node)
            parent = node.parent.id
            before = row[i - 1].id if i > 0 else -1
            after = row[i + 1].id if i + 1 < len(row) else -1
        told = [node.id, parent, before, after, int(node.is_group())]
        if node.is_group():
            row = node.children
            told += [row[0].id, row[-1].id] if row else [-1, -1]
        return told

    def put(self, node, action, target):
        """Puts a node at the head of a group (0), at its tail (1), before a node (2) or after it (3)."""
        parent = target if action < 2 else target.parent
        row = parent.children
        at = [0, len(row)][action] if action < 2 else row.index(target) + action - 2
        row.insert(at, node)
        node.parent = parent

    def take_out(self, node):
        node.parent.children.remove(node)

    def move(self, node, action, target, told):
        self.take_out(node)
        self.put(node, action, target)
        self.tell(told, "/n_move", *self.place(node))

    def tell(self, told, address, *arguments):
        if self.notify:
            told.append((address, *arguments))

    def free(self, node, told):
        for each in node.walk():
            self.tell(told, "/n_end", *self.place(each))
        for each in node.walk():
            del self.nodes[each.id]
        self.take_out(node)

    def set_run(self, node, run, told):
        if node.run != run:
            node.run = run
            self.tell(told, "/n_on" if run else "/n_off", *self.place(node))

    # The pool.

    def least_place(self, length):
        """The least place of so many words in the pool that nothing stands on, or None."""
        live = [(node.place, node.definition.words(self.rate)) for node in self.root.synths()]
        live += [(buffer.place, len(buffer.samples)) for buffer in self.buffers.values()]
        place = 0
        for at, more in sorted(each for each in live if each[1] > 0):
            if at - place >= length:
                return place
            place = at + more
        return place if self.words - place >= length else None

    # A block.

    def walk(self):
        for node in self.root.running():
            if not node.is_group():
                self.run_synth(node)
        self.block += 1

    def run_synth(self, synth):
        values = [value if bus is None else self.control[bus] for value, bus in zip(synth.values, synth.buses)]
        wires = []
        for number, unit in enumerate(synth.definition.units):
            inputs = []
            for kind, given in unit.inputs:
                if kind == "w":
                    inputs.append(wires[given])
                else:
                    inputs.append([given if kind == "v" else values[given]] * FRAMES)
            clock = units.Clock(self.rate, synth.id, number)
            wires += self.run_unit(unit, synth.states[number], clock, inputs)

    def run_unit(self, unit, state, clock, inputs):
        state.pop("told", None)
        frame = units.FRAME.get(unit.name)
        if frame is None:
            return getattr(self, "unit_" + unit.name.replace(".", "_"))(unit, state, inputs)
        rows = [frame(state, clock, *row) for row in zip(*inputs)] if inputs else [frame(state, clock) for _ in range(FRAMES)]
        if unit.outputs == 0:
            return []
        return [list(wire) for wire in zip(*rows)] if unit.outputs > 1 else [rows]

    def heard(self, bus, blocks):
        number, samples = self.audio[bus] if 0 <= bus < 128 else (None, None)
        return list(samples) if number in blocks else [0] * FRAMES

    def unit_In_ar(self, unit, state, inputs):
        return [self.heard(inputs[0][0] + i, [self.block]) for i in range(unit.outputs)]

    def unit_InFeedback(self, unit, state, inputs):
        blocks = [b for b in (self.block, self.block - 1) if b >= 0]
        return [self.heard(inputs[0][0] + i, blocks) for i in range(unit.outputs)]

    def unit_In_kr(self, unit, state, inputs):
        buses = [inputs[0][0] + i for i in range(unit.outputs)]
        return [[self.control[bus] if 0 <= bus < 1024 else 0] * FRAMES for bus in buses]

    def unit_Out_ar(self, unit, state, inputs, adds=True):
        for bus, signal in enumerate(inputs[1:], inputs[0][0]):
            if 0 <= bus < 128:
                number, samples = self.audio[bus]
                if adds and number == self.block:
                    signal = [sat(a + b) for a, b in zip(samples, signal)]
                self.audio[bus] = (self.block, list(signal))
        return []

    def unit_ReplaceOut(self, unit, state, inputs):
        return self.unit_Out_ar(unit, state, inputs, False)

    def unit_Out_kr(self, unit, state, inputs):
        for bus, signal in enumerate(inputs[1:], inputs[0][0]):
            if 0 <= bus < 1024:
                before = self.control[bus] if self.control_block[bus] == self.block else 0
                self.control[bus], self.control_block[bus] = sat(before + signal[0]), self.block
        return []

    def usable(self, number, channels):
        """The buffer of a number, where it has so many channels."""
        buffer = self.buffers.get(number)
        return buffer if buffer and buffer.channels == channels else None

    def unit_PlayBuf(self, unit, state, inputs):
        buffer, outputs = self.usable(inputs[0][0], unit.outputs), []
        for row in zip(*inputs[1:]):
            at = units.play_position(state, buffer.frames if buffer else 0, buffer, *row)
            outputs.append(self.samples_at(buffer, at, unit.outputs))
        return [list(wire) for wire in zip(*outputs)]

    def samples_at(self, buffer, frame, channels):
        if buffer is None or frame is None or not 0 <= frame < buffer.frames:
            return [0] * channels
        return buffer.samples[frame * channels:(frame + 1) * channels]

    def unit_PlayBufL(self, unit, state, inputs):
        buffer, outputs = self.usable(inputs[0][0], unit.outputs), []
        for row in zip(*inputs[1:]):
            place = units.line_place(state, buffer.frames if buffer else 0, buffer, *row)
            outputs.append(self.samples_between(buffer, place, row[3], unit.outputs))
        return [list(wire) for wire in zip(*outputs)]

    def samples_between(self, buffer, place, loop, channels):
        """What lies at a place of a buffer, of which ONE is a frame."""
        if buffer is None or place is None:
            return [0] * channels
        n, f = divmod(place, ONE)
        following = n + 1 if n + 1 < buffer.frames else 0 if loop > 0 else n
        rows = [self.samples_at(buffer, frame, channels) for frame in (n, following)]
        return [units.between(a, b, f) for a, b in zip(*rows)]

    def unit_RecordBuf(self, unit, state, inputs):
        signals = inputs[4:]
        buffer = self.usable(inputs[0][0], len(signals))
        for i, row in enumerate(zip(*inputs[1:4])):
            at = units.record_position(state, buffer.frames if buffer else 0, buffer, *row)
            self.write(buffer, at, [signal[i] for signal in signals])
        return []

    def write(self, buffer, frame, values):
        if buffer is not None and frame is not None and 0 <= frame < buffer.frames:
            buffer.samples[frame * len(values):(frame + 1) * len(values)] = values

    def unit_BufRd(self, unit, state, inputs):
        buffer = self.usable(inputs[0][0], unit.outputs)
        rows = [self.samples_at(buffer, at, unit.outputs) for at in inputs[1]]
        return [list(wire) for wire in zip(*rows)]

    def unit_BufRdL(self, unit, state, inputs):
        buffer, outputs = self.usable(inputs[0][0], unit.outputs), []
        for index, scale, loop in zip(*inputs[1:]):
            place = units.index_place(buffer.frames, index, scale, loop) if buffer else None
            outputs.append(self.samples_between(buffer, place, loop, unit.outputs))
        return [list(wire) for wire in zip(*outputs)]

    def unit_BufWr(self, unit, state, inputs):
        buffer = self.usable(inputs[0][0], len(inputs) - 2)
        for i, at in enumerate(inputs[1]):
            self.write(buffer, at, [signal[i] for signal in inputs[2:]])
        return []

    def unit_BufFrames(self, unit, state, inputs):
        buffer = self.buffers.get(inputs[0][0])
        return [[buffer.frames if buffer else 0] * FRAMES]

    def settle(self):
        """What is told after a block: its triggers, and then what its ends do."""
        told, ended = [], []
        synths = [node for node in self.root.running() if not node.is_group()]
        for synth in synths:
            for state in synth.states:
                if "told" in state:
                    self.tell(told, "/tr", synth.id, *state.pop("told"))
                if state.get("done") is not None:
                    ended.append((synth, state["done"]))
                    state["done"] = None
        for synth, action in ended:
            if action == 1 and synth.id in self.nodes:
                self.set_run(synth, False, told)
            elif action == 2 and synth.id in self.nodes:
                self.free(synth, told)
        return told

    # Clashes.

    def foot(self, node):
        """What the walk reads, writes and only mixes at a node and below it."""
        reads, writes, mixes = set(), set(), set()
        for synth in node.running():
            if not synth.is_group():
                reads.update((1, bus) for bus in synth.buses if bus is not None)
                uses = [(unit.name, use) for unit in synth.definition.units for use in self.unit_uses(synth, unit)]
                for name, use in uses:
                    alone = name == "Out.ar" and sum(use == other for _, other in uses) == 1
                    (mixes if alone else reads if name.startswith(READERS) else writes).add(use)
        return reads, writes, mixes

    def unit_uses(self, synth, unit):
        """The buses, or the buffer, that a unit reads or writes."""
        if unit.name == "BufFrames" or not UNITS[unit.name][0].startswith("#"):
            return []
        number = synth.index(unit.inputs[0])
        if "Buf" in unit.name:
            return [(2, number)] if number in self.buffers else []
        kind, bound = (1, 1024) if unit.name.endswith(".kr") else (0, 128)
        channels = unit.outputs if unit.name.startswith("In") else len(unit.inputs) - 1
        return [(kind, bus) for bus in range(number, number + channels) if 0 <= bus < bound]

    def clash_of(self, group):
        feet = [self.foot(child) for child in group.children]
        for i, (reads, writes, mixes) in enumerate(feet):
            for j in range(i + 1, len(feet)):
                r, w, m = feet[j]
                shared = writes & (r | w | m) | w & (reads | mixes) | mixes & r | m & reads
                if shared:
                    kind, number = min(shared)
                    return group.id, group.children[i].id, group.children[j].id, ("audio", "control", "buffer")[kind], number
        return None

    def new_clashes(self):
        """The clashes that were not there when this was asked before."""
        found = [self.clash_of(node) for node in self.root.running() if node.kind == "parallel"]
        found = [clash for clash in found if clash]
        before, self.clashes = self.clashes, found
        return [("/p_clash", *clash) for clash in found if clash not in before]

