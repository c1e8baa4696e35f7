"""The groups and synths of a server, as it was sent commands and notified of them."""
from converter.nodes import ROOT, TAIL
from converter.osc import Message

from .stores import in_runs

OFF = 0
MOST_CONTROLS = 512
# So many synths are remembered that were asked for, some of which were refused.
MOST_ASKED = 65536


class Synth:
    """A synth: its definition, what its controls were set to, and the control buses that they follow."""

    def __init__(self, definition):
        self.definition, self.values, self.buses = definition, {}, {}

    @property
    def is_released(self):
        """Its gate has closed, so that it would never sound if it were made again."""
        return self.values.get("gate", 1) <= 0

    def set(self, control, value):
        """Sets a control, which follows no bus any more; there may be none of its name."""
        if control is not None:
            self.values[control] = value
            self.buses.pop(control, None)

    def follow(self, control, bus):
        if control is not None and bus >= 0:
            self.buses[control] = bus
        else:
            self.buses.pop(control, None)

    def messages(self, number, parent):
        """The commands that make it as it was set last."""
        sets = [each for pair in self.values.items() for each in pair]
        maps = [each for pair in self.buses.items() for each in pair]
        made = [Message("/s_new", [self.definition, number, TAIL, parent, *sets])]
        return made + ([Message("/n_map", [number, *maps])] if maps else [])


class Tree:
    """The children of each group in their order, and of each synth what it takes to make it again.

    `asked` are the synths that commands made, the latest of each id, also before the server has notified of them.
    """

    def __init__(self, definitions):
        self.definitions, self.asked, self.parallel = definitions, {}, set()
        self.clear()

    def clear(self):
        """A new server has nothing yet."""
        self.children, self.parents, self.synths, self.paused = {ROOT: []}, {}, {}, set()

    # What notifications say.

    def take_out(self, number):
        siblings = self.children.get(self.parents.pop(number, None), [])
        if number in siblings:
            siblings.remove(number)

    def put(self, number, parent, before):
        """Puts a node into a group, behind the node before it, or first."""
        siblings = self.children.setdefault(parent, [])
        at = siblings.index(before) + 1 if before in siblings else 0
        siblings.insert(at, number)
        self.parents[number] = parent

    def go(self, number, parent, before, _after, is_group, *_):
        self.put(number, parent, before)
        if is_group:
            self.children[number] = []
        elif number in self.asked:
            self.synths[number] = self.asked[number]

    def move(self, number, parent, before, *_):
        self.take_out(number)
        self.put(number, parent, before)

    def end(self, number, *_):
        self.take_out(number)
        self.children.pop(number, None)
        synth = self.synths.pop(number, None)
        if synth and self.asked.get(number) is synth:
            del self.asked[number]
        self.paused.discard(number)
        self.parallel.discard(number)

    def off(self, number, *_):
        self.paused.add(number)

    def on(self, number, *_):
        self.paused.discard(number)

    # What commands say.

    def control(self, definition, given):
        """The name of a control that is given by its name or its number, or None."""
        names = self.definitions.controls.get(definition, [])
        if isinstance(given, int):
            return names[given] if 0 <= given < len(names) else None
        return given if given in names else None

    def make(self, definition, number, _action=0, _target=ROOT, *pairs):
        made = Synth(definition)
        for given, value in zip(pairs[::2], pairs[1::2]):
            made.set(self.control(definition, given), value)
        self.asked.pop(number, None)
        self.asked[number] = made
        if len(self.asked) > MOST_ASKED:
            del self.asked[next(iter(self.asked))]

    def make_parallel(self, *triples):
        self.parallel.update(triples[::3])

    def below(self, number):
        """The synth of an id, or the synths below the group of an id."""
        if number not in self.children:
            return [self.asked[number]] if number in self.asked else []
        return [self.synths[each] for each, _ in self.in_order(number) if each in self.synths]

    def set(self, number, *pairs):
        for synth in self.below(number):
            for given, value in zip(pairs[::2], pairs[1::2]):
                synth.set(self.control(synth.definition, given), value)

    def set_runs(self, number, *arguments):
        for synth in self.below(number):
            names = self.definitions.controls.get(synth.definition, [])
            for given, values in in_runs(arguments):
                name = self.control(synth.definition, given)
                first = names.index(name) if name in names else len(names)
                for control, value in zip(names[first:], values):
                    synth.set(control, value)

    def fill(self, number, *triples):
        for given, count, value in zip(triples[::3], triples[1::3], triples[2::3]):
            self.set_runs(number, given, count, *[value] * max(0, min(count, MOST_CONTROLS)))

    def follow(self, number, *pairs):
        for synth in self.below(number):
            for given, bus in zip(pairs[::2], pairs[1::2]):
                synth.follow(self.control(synth.definition, given), bus)

    # What is made again.

    def in_order(self, top=ROOT):
        """Each node below a group with the group in which it stands, a group before what is in it."""
        waiting = [(child, top) for child in reversed(self.children.get(top, []))]
        while waiting:
            number, parent = waiting.pop()
            yield number, parent
            waiting += [(child, number) for child in reversed(self.children.get(number, []))]

    def messages(self, with_synths):
        """The commands that make the nodes again, and the ids and groups of those that are lost."""
        found, lost, there = [], [], {ROOT}
        for number, parent in self.in_order():
            made = self.made(number, parent, with_synths) if number > ROOT and parent in there else []
            if not made:
                lost.append((number, parent))
                continue
            there.add(number)
            found += made + ([Message("/n_run", [number, OFF])] if number in self.paused else [])
        return found, lost

    def made(self, number, parent, with_synths):
        """The commands that make a node again; none if it is lost."""
        if number in self.children:
            return [Message("/p_new" if number in self.parallel else "/g_new", [number, TAIL, parent])]
        synth = self.synths.get(number)
        if not with_synths or synth is None or synth.is_released or synth.definition not in self.definitions.texts:
            return []
        return synth.messages(number, parent)
