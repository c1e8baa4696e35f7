"""What a server was sent and still counts, so that another one can be given it."""
import heapq
from typing import NamedTuple

from .stores import Buffers, Buses, Definitions, flat
from .timing import seconds_between
from .tree import Tree

# The server keeps so many bundles that wait.
MOST_WAITING = 65536


class Entry(NamedTuple):
    """What was asked for a time: who asked, what, whether failures are hushed, and the nodes that it makes."""

    tag: int
    client: object
    asked: list
    quiet: bool
    made: list

    def messages(self):
        return [message for each in self.asked for message in each.messages]

    def synths(self):
        """The ids of the synths that it makes."""
        return [message.arguments[1] for message in self.messages() if message.address == "/s_new"]


class Recall:
    """Follows what a server is sent and what it notifies of. Bundles wait here, too, until their time has passed."""

    def __init__(self, now, memory):
        """`now` gives the time as a time tag; the server has `memory` words."""
        self.now, self.waiting, self.count = now, [], 0
        # Of each synth that a bundle that waits makes, where that bundle stands: its time, and its number.
        self.makers = {}
        self.definitions, self.buffers, self.buses = Definitions(), Buffers(memory), Buses()
        self.tree = Tree(self.definitions)

    def sent(self, *given):
        """A server is sent what acts at once or at a time; what it has no place for is left out."""
        self.pass_on()
        entry = Entry(*given)
        if entry.tag <= 1:
            self.follow(entry.messages())
        elif len(self.waiting) < MOST_WAITING:
            self.count += 1
            place = seconds_between(0, entry.tag), self.count
            heapq.heappush(self.waiting, (*place, entry))
            self.makers.update((number, place) for number in entry.synths())

    def pass_on(self):
        """Follows the bundles whose time has passed, and answers how many they are."""
        count, now = 0, self.now()
        while self.waiting and seconds_between(now, self.waiting[0][-1].tag) <= 0:
            self.follow_first()
            count += 1
        return count

    def pass_to(self, number):
        """A synth started. If a bundle that waits makes it, that one has acted, and so have those before it."""
        place = None if number in self.tree.asked else self.makers.get(number)
        while place and self.waiting and self.waiting[0][:2] <= place:
            self.follow_first()

    def follow_first(self):
        """The first bundle that waits has acted."""
        *place, entry = heapq.heappop(self.waiting)
        for number in entry.synths():
            if self.makers.get(number) == tuple(place):
                del self.makers[number]
        self.follow(entry.messages())

    def follow(self, messages):
        """Messages have acted."""
        for message in messages:
            part, act = SENT.get(message.address, (None, None))
            if part:
                act(getattr(self, part), *flat(message.arguments))
            elif message.address == "/clearSched":
                self.take_waiting()

    def hear(self, message):
        """A server has sent a notification."""
        if message.address == "/n_go":
            self.pass_to(message.arguments[0])
        act = HEARD.get(message.address)
        if act:
            act(self.tree, *message.arguments)

    def take_waiting(self):
        """The bundles whose time hasn't come, the first one first. They are forgotten here."""
        found, self.waiting, self.makers = [entry for *_, entry in sorted(self.waiting)], [], {}
        return found

    def restored(self, with_synths):
        """What a new server is sent, and the ids and groups of the nodes that are lost.

        The tree starts again, since the server notifies of each node.
        """
        nodes, lost = self.tree.messages(with_synths)
        self.tree.clear()
        stores = [message for each in (self.definitions, self.buffers, self.buses) for message in each.messages()]
        return [*stores, *nodes], lost


# What each command that still counts does, and to what.
SENT = {
    "/d_recv": ("definitions", Definitions.receive), "/d_free": ("definitions", Definitions.free),
    "/b_alloc": ("buffers", Buffers.alloc), "/b_free": ("buffers", Buffers.free), "/b_zero": ("buffers", Buffers.zero),
    "/b_set": ("buffers", Buffers.set), "/b_setn": ("buffers", Buffers.set_runs), "/b_fill": ("buffers", Buffers.fill),
    "/c_set": ("buses", Buses.set), "/c_setn": ("buses", Buses.set_runs), "/c_fill": ("buses", Buses.fill),
    "/s_new": ("tree", Tree.make), "/p_new": ("tree", Tree.make_parallel), "/n_map": ("tree", Tree.follow),
    "/n_set": ("tree", Tree.set), "/n_setn": ("tree", Tree.set_runs), "/n_fill": ("tree", Tree.fill),
}
HEARD = {"/n_go": Tree.go, "/n_move": Tree.move, "/n_end": Tree.end, "/n_off": Tree.off, "/n_on": Tree.on}
