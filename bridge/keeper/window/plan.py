"""The plan of what plays, as `snova plan` reports it: what each synth uses, what clashes, and the longest chain.

docs/COMMANDS.md ("Plans") says what counts. It is worked out from the definitions and commands that the server was
sent; what units do by themselves is known as far as the server notifies of it.
"""
from collections import Counter
from typing import NamedTuple

from .snapshot import GROUP, PARALLEL, PAUSED

AUDIO, CONTROL, BUFFER = range(3)
LETTERS, KINDS = "acb", ("audio", "control", "buffer")
MOST_LANES, ONE = 4096, 1 << 24
# Of units that use buses or buffers: what they use, whether they write it, and the inputs that come before signals, or
# None if each output stands for a bus.
USES = {
    "In.ar": (AUDIO, False, None), "InFeedback": (AUDIO, False, None), "In.kr": (CONTROL, False, None),
    "Out.ar": (AUDIO, True, 1), "ReplaceOut": (AUDIO, True, 1), "Out.kr": (CONTROL, True, 1),
    "PlayBuf": (BUFFER, False, None), "PlayBufL": (BUFFER, False, None), "BufRd": (BUFFER, False, None),
    "BufRdL": (BUFFER, False, None), "RecordBuf": (BUFFER, True, None),
    "BufWr": (BUFFER, True, None),
}
BUSES = (128, 1024)


class Use(NamedTuple):
    """A unit that uses buses or a buffer: its name, the first one's number or the control that has it, and how many."""

    unit: str
    index: str
    count: int


class Text:
    """What a plan needs of a definition's text: its controls with their defaults, how many units, and what they use."""

    def __init__(self, text):
        self.controls, self.units, self.uses = {}, 0, []
        for line in text.splitlines()[2:]:
            fields = line.split()
            if fields[:1] == ["control"]:
                self.control(fields[1], fields[2])
            elif fields[:1] == ["array"] and text.startswith("snova 2"):
                for at, value in enumerate(fields[2:]):
                    self.control(fields[1] + (f".{at}" if at else ""), value)
            elif fields and fields != ["end"]:
                self.unit(fields)

    def control(self, name, value):
        self.controls[name] = literal(value)

    def unit(self, fields):
        place = fields.index("=") if "=" in fields else -1
        name, *inputs = fields[place + 1:]
        self.units += 1
        if name in USES and inputs:
            kind, _, before = USES[name]
            count = 1 if kind == BUFFER else place if before is None else len(inputs) - before
            self.uses.append(Use(name, inputs[0], count))


def literal(word):
    """The raw number of a literal."""
    try:
        return int(float(word) * ONE // 1) if "." in word else int(word)
    except ValueError:
        return 0


class Foot(NamedTuple):
    """What a node and all below it read, write, and only mix."""

    reads: set
    writes: set
    mixes: set

    def add(self, other):
        for mine, more in zip(self, other):
            mine |= more


def empty():
    return Foot(set(), set(), set())


class Node:
    """A node of the plan: its foot, and what is below it and runs."""

    def __init__(self, number, flags):
        self.number, self.flags, self.children = number, flags, []
        self.foot, self.units, self.clash, self.is_split = empty(), 0, None, False
        self.cost = None

    @property
    def is_group(self):
        return self.flags & GROUP

    def synths(self):
        waiting = [self]
        while waiting:
            node = waiting.pop()
            if not node.is_group:
                yield node
            waiting += reversed(node.children)


def foot_of(text, values, buses, buffers):
    """What a synth uses."""
    found, used = empty(), []
    for unit, index, count in text.uses:
        kind, writes, _ = USES[unit]
        first = values.get(index, text.controls[index]) if index in text.controls else literal(index)
        numbers = range(first, first + count)
        if kind == BUFFER:
            used += [(unit, writes, (kind, first))] if first in buffers else []
        else:
            used += [(unit, writes, (kind, bus)) for bus in numbers if 0 <= bus < BUSES[kind]]
    times = Counter(resource for *_, resource in used)
    for unit, writes, resource in used:
        if unit == "Out.ar" and times[resource] == 1:
            found.mixes.add(resource)
        else:
            (found.writes if writes else found.reads).add(resource)
    found.reads.update((CONTROL, bus) for bus in buses.values())
    return found


def first_pair(uses):
    """The first two of the members that use a resource of which one writes or mixes what the other mustn't meet."""
    for at, (first, how) in enumerate(uses):
        for second, other in uses[at + 1:]:
            if "w" in how + other or "m" in how and "r" in other or "r" in how and "m" in other:
                return first, second
        if not any("w" in other for _, other in uses[at + 1:]) and len({other for _, other in uses[at:]}) == 1:
            return None
    return None


def clash_of(members):
    """The first two members that clash, and about what, or None."""
    uses = {}
    for at, member in enumerate(members):
        for resources, letter in zip(member.foot, "rwm"):
            for resource in resources:
                own = uses.setdefault(resource, {})
                own[at] = own.get(at, "") + letter
    found = [(*pair, resource) for resource, how in uses.items()
             if len(how) > 1 and (pair := first_pair(list(how.items())))]
    if not found:
        return None
    first, second, resource = min(found)
    return members[first].number, members[second].number, resource


class Plan:
    """The plan of a tree: `shape` is that of the window, `synths` has of each id its definition, the values and the
    buses of its controls, `texts` the definitions, and `buffers` the numbers of those that are allocated."""

    def __init__(self, shape, synths, texts, buffers):
        self.texts, self.buffers = texts, buffers
        self.root = self.tree(shape, synths)
        self.synths = list(self.root.synths())
        self.split()
        self.weigh()
        self.cost, self.chain = self.root.cost or 0, list(self.longest())

    def tree(self, shape, synths):
        """The nodes that run."""
        root = Node(0, GROUP)
        above, self.nodes = [root], []
        for number, depth, flags in zip(shape[::3], shape[1::3], shape[2::3]):
            del above[depth:]
            parent, node = above[-1], Node(number, flags)
            runs = parent is not None and not flags & PAUSED and (node.is_group or self.fill(node, synths.get(number)))
            above.append(node if runs else None)
            if runs:
                parent.children.append(node)
                self.nodes.append((node, parent))
        for node, parent in reversed(self.nodes):
            node.clash = clash_of(node.children) if node.flags & PARALLEL else None
            parent.foot.add(node.foot)
        return root

    def fill(self, node, known):
        """Fills in what a synth uses; it answers whether its definition is known."""
        text = self.texts.get(known[0]) if known else None
        if text is None:
            return False
        node.units, node.foot = text.units, foot_of(text, known[1], known[2], self.buffers)
        return True

    def split(self):
        """Splits the parallel groups whose members don't clash, as long as there are lanes for what they mix."""
        left, waiting = MOST_LANES, [(self.root, frozenset())]
        while waiting:
            node, above = waiting.pop()
            if node.flags & PARALLEL and not node.clash:
                counts = Counter(bus for child in node.children for bus in child.foot.mixes)
                shared = {bus for bus, count in counts.items() if count > 1} - above
                taken = sum(len(shared & each.foot.mixes) for each in node.synths()) if shared else 0
                node.is_split = taken <= left
                if node.is_split:
                    left, above = left - taken, above | shared
            waiting += [(child, above) for child in reversed(node.children)]

    def weigh(self):
        """Finds what each node costs; nodes without a synth that runs cost nothing, and aren't in a chain."""
        for node in [each for each, _ in reversed(self.nodes)] + [self.root]:
            costs = [child.cost for child in node.children if child.cost is not None]
            if not node.is_group:
                node.cost = node.units
            elif costs:
                node.cost = max(costs) if node.is_split else sum(costs)

    def longest(self):
        """The synths of the longest chain."""
        waiting = [self.root]
        while waiting:
            node = waiting.pop()
            below = [child for child in node.children if child.cost is not None]
            if not node.is_group:
                yield node
            elif node.is_split and below:
                waiting.append(max(below, key=lambda child: child.cost))
            else:
                waiting += reversed(below)

    def report(self):
        """The lines of `snova plan`."""
        units = sum(each.units for each in self.synths)
        lines = [f"synths {len(self.synths)} units {units} cost {self.cost}"]
        for each in self.synths:
            reads, writes, mixes = map(listed, each.foot)
            lines.append(f"node {each.number} units {each.units} reads {reads} writes {writes} mixes {mixes}")
        lines.append("chain " + (" ".join(str(each.number) for each in self.chain) or "-"))
        return "".join(line + "\n" for line in lines)

    def clashes(self):
        """Of each parallel group whose members clash: the group, the two members, and about what."""
        waiting, found = [self.root], []
        while waiting:
            node = waiting.pop()
            if node.clash:
                first, second, resource = node.clash
                found.append([node.number, first, second, named(resource)])
            waiting += reversed(node.children)
        return found


def named(resource):
    return f"{LETTERS[resource[0]]}{resource[1]}"


def listed(resources):
    """Resources as a report has them."""
    return ",".join(map(named, sorted(resources))) or "-"
