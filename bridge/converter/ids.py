"""The ids of nodes for clients, where the server's own are others: after `/s_noid`, which gives a synth another id."""
from .measures import Refused
from .osc import Message

# Those that `/s_noid` gives are -16, -24 and so on, as those of scsynth are.
STEP = 8
# What stands for no node among ids.
NONE = -1
# Of notifications and replies, the places of ids; those of a group have two more.
PLACES = {**dict.fromkeys(("/n_go", "/n_end", "/n_on", "/n_off", "/n_move", "/n_info"), (0, 1, 2, 3, 5, 6)),
          **dict.fromkeys(("/tr", "/n_set", "/n_setn"), (0,)), "/p_clash": (0, 1, 2)}


class Ids:
    """Which id the server has for one that clients use (`here`), and the other way (`there`), where the two differ."""

    def __init__(self):
        self.here, self.there, self.last = {}, {}, -STEP

    def is_hidden(self, given):
        """Whether clients use an id no longer, but the server does."""
        return given not in self.here and given in self.there

    def of_server(self, given):
        """The server's id of one that a client uses."""
        if self.is_hidden(given):
            raise Refused(f"node {given} has the id {self.there[given]} since /s_noid")
        return self.here.get(given, given)

    def of_client(self, number):
        return self.there.get(number, number)

    def name(self, given, number):
        """A node has an id for clients and another one for the server."""
        self.here[given], self.there[number] = number, given

    def release(self, given):
        """The synth that a client knows by an id gets a negative one, and the client's id is free."""
        number = self.of_server(given)
        self.forget(number)
        self.last -= STEP
        self.name(self.last, number)

    def forget(self, number):
        """Forgets a node by the server's id."""
        given = self.there.pop(number, None)
        if self.here.get(given) == number:
            del self.here[given]

    def told(self, message):
        """A message of the server as clients know its nodes."""
        if not self.there:
            return message
        if message.address == "/g_queryTree.reply":
            places = list(tree_places(message.arguments))
        else:
            places = PLACES.get(message.address, ())
        found = list(message.arguments)
        for place in places:
            if place < len(found) and found[place] != NONE:
                found[place] = self.of_client(found[place])
        return Message(message.address, found)


def tree_places(arguments):
    """The places of ids in a tree; of each synth the name follows, and its controls if the flag is 1."""
    yield 1
    at, size = 3, len(arguments)
    while at + 1 < size:
        yield at
        is_synth = arguments[at + 1] == -1
        at += 3 if is_synth else 2
        if is_synth and arguments[0] and at < size:
            at += 1 + 2 * arguments[at]
