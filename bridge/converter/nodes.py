"""Which synths and groups there are, as far as the commands that were sent and the notifications that came say."""
from .ids import Ids
from .measures import Lacking, Refused

HEAD, TAIL, BEFORE, AFTER, REPLACE = range(5)
ROOT = 0
# The ids from here on are for synths that come with the id -1: no client of sclang has them.
FIRST_CHOSEN, MOST_CHOSEN = 2**30, 2**30
MOST_LACKING = 65536


class Node:
    """A synth, with its definition, the values that its controls were given and the buses that they follow, or a group.

    `helpers` are the synths, and their control buses, by which controls follow audio buses, and `taps` what hears the
    sound for it. It has `started` once the
    server has said so. Until then an earlier node of its id may still be there.
    """

    def __init__(self, number, definition=None, values=None):
        self.number, self.parent, self.definition = number, None, definition
        self.values, self.maps, self.helpers = values or {}, {}, {}
        self.started, self.earlier, self.taps = False, None, ()

    def value_of(self, control):
        return self.values.get(control, control.default)


class Nodes:
    """Nodes by the server's ids; `ids` has those of clients. If it `hears` of what starts and ends, only that ends a
    node; else what is sent does."""

    def __init__(self, hears=False):
        self.by_id, self.hears = {ROOT: Node(ROOT)}, hears
        self.latest, self.chosen, self.made, self.lacking, self.ids = ROOT, 0, [], {}, Ids()

    def lack(self, number, definition):
        """Notes that a synth wasn't made for want of a definition, as far as so many are kept."""
        self.lacking[number] = definition
        if len(self.lacking) > MOST_LACKING:
            del self.lacking[next(iter(self.lacking))]

    def __getitem__(self, number):
        if number not in self.by_id and number in self.lacking:
            raise Lacking(self.lacking[number], f"node {number} lacks the definition {self.lacking[number]}")
        if number not in self.by_id:
            raise Refused(f"no node {self.ids.of_client(number)} was made")
        return self.by_id[number]

    def parent_at(self, number, action, target):
        """The group in which a node stands that is added or moved to a target; the root if that is inside itself."""
        if target not in self.by_id:
            return ROOT
        parent = target if action in (HEAD, TAIL) else self.by_id[target].parent
        return ROOT if self.is_below(parent, number) else parent

    def number(self, given):
        """The id of a new node: one that is chosen for -1, and for an id that the server has for another node."""
        if given == ROOT:
            raise Refused("0 is the root")
        if given != -1 and not self.ids.is_hidden(given):
            return self.ids.of_server(given)
        found = FIRST_CHOSEN + self.chosen
        self.chosen = (self.chosen + 1) % MOST_CHOSEN
        if given != -1:
            self.ids.name(given, found)
        return found

    def node(self, given):
        """The server's id of a node that a client names; -1 is the last one that was made."""
        return self.latest if given == -1 else self.ids.of_server(given)

    def add(self, node, action, target):
        """Adds a new node."""
        node.parent = self.parent_at(node.number, action, target)
        if action == REPLACE:
            self.free(target)
        if self.hears:
            node.earlier = self.by_id.get(node.number)
            self.made.append(node)
        self.by_id[node.number], self.latest = node, node.number

    def is_below(self, number, group):
        while number is not None and number != group:
            number = self.by_id[number].parent if number in self.by_id else None
        return number == group

    def below(self, number):
        """The ids of a node and of all below it."""
        if number in self.by_id and self.by_id[number].definition:
            return [number]
        return [each for each in self.by_id if self.is_below(each, number)]

    def free(self, number):
        """Follows a command that frees a node."""
        for each in [] if self.hears else self.below(number):
            if each != ROOT:
                self.forget(each)

    def free_below(self, group, synths_only):
        """Follows a command that frees what is below a group."""
        for each in [] if self.hears else self.below(group):
            if each not in (group, ROOT) and (self.by_id[each].definition or not synths_only):
                self.forget(each)

    def forget(self, number):
        self.by_id.pop(number, None)
        self.ids.forget(number)

    def move(self, number, action, target):
        if number in self.by_id and number != ROOT:
            self.by_id[number].parent = self.parent_at(number, action, target)

    def synths(self, number):
        """The synth of an id, or the synths below the group of an id."""
        found = self[number]
        below = [found] if found.definition else [self.by_id[each] for each in self.below(number)]
        return [each for each in below if each.definition]

    def has(self, node):
        """Whether a node is there, or is to come."""
        return any(each is node for each in self.versions(node.number))

    # What the server says.

    def versions(self, number):
        """The nodes of an id, the latest first."""
        node = self.by_id.get(number)
        while node:
            yield node
            node = node.earlier

    def start(self, number, parent):
        """A node has started: the first of its id that was sent."""
        waiting = [node for node in self.versions(number) if not node.started]
        if waiting:
            waiting[-1].started, waiting[-1].parent = True, parent

    def stand(self, number, parent):
        """A node has moved."""
        if number in self.by_id:
            self.by_id[number].parent = parent

    def end(self, number):
        """A node has ended: the last of its id that started. It answers the node, or None."""
        ended = [node for node in self.versions(number) if node.started]
        if not ended or number == ROOT:
            return None
        self.drop(ended[-1])
        return ended[-1]

    def renew(self, nodes):
        """Nodes that were made for a server that is gone are made for another one."""
        for node in nodes:
            node.earlier = self.by_id.get(node.number)
            self.by_id[node.number] = node
        self.made = nodes

    def settle(self, nodes):
        """The server has answered what made these nodes: those that haven't started were refused."""
        for node in nodes:
            if not node.started:
                self.drop(node)

    def drop(self, dropped):
        """Forgets a node; an earlier one of its id stays."""
        kept = [node for node in self.versions(dropped.number) if node is not dropped]
        for node, earlier in zip(kept, [*kept[1:], None]):
            node.earlier = earlier
        if kept:
            self.by_id[dropped.number] = kept[0]
        else:
            self.forget(dropped.number)
