"""What stands for `snova serve` in the tests: it answers as docs/COMMANDS.md says."""
import sounds

from converter import osc
from converter.gateway import Gateway
from converter.osc import Message


class Stand:
    """A server that gives its answers to `hear` at once. `came` is what it was sent, but for the gateway's questions.

    Synths of a definition in `short` end by themselves at once. `tree` has answers by the addresses of commands.
    """

    is_full = False

    def __init__(self, hear=None, short=()):
        self.hear, self.short, self.came, self.nodes, self.tree = hear, short, [], {}, {}

    def send(self, data):
        for message in osc.messages_of(osc.decoded(data)):
            if message.address != "/sync":
                self.came.append(message)
            for answer in self.answers(message):
                self.hear(answer)

    def answers(self, message):
        if message.address in self.tree:
            return [self.tree[message.address]]
        return ANSWERS.get(message.address, Stand.silent)(self, *message.arguments)

    def silent(self, *_):
        return []

    def sync(self, number):
        return [Message("/synced", [number])]

    def status(self):
        return [Message("/status.reply", [1, 0, 0, 1, 0])]

    def done(self, *_):
        return [Message("/done", ["/d_recv"])]

    def make(self, number, target, definition=None):
        if number in self.nodes:
            return [Message("/fail", ["/g_new" if definition is None else "/s_new", "id in use"])]
        self.nodes[number] = definition
        found = [Message("/n_go", self.place(number, target))]
        return found + (self.free(number) if definition in self.short else [])

    def place(self, number, parent):
        return [number, parent, -1, -1, *([1, -1, -1] if self.nodes[number] is None else [0])]

    def s_new(self, name, number, _action, target, *_):
        return self.make(number, target, name)

    def g_new(self, *arguments):
        return [each for at in range(0, len(arguments), 3) for each in self.make(arguments[at], arguments[at + 2])]

    def free(self, number):
        if number not in self.nodes:
            return [Message("/fail", ["/n_free", "no such node"])]
        found = [Message("/n_end", self.place(number, 0))]
        del self.nodes[number]
        return found

    def free_all(self, group):
        return [each for number in list(self.nodes) if number != group for each in self.free(number)]

    def alloc(self, number, *_):
        return [Message("/done", ["/b_alloc", number])]

    def quit(self):
        return [Message("/done", ["/quit"])]


ANSWERS = {
    "/sync": Stand.sync, "/status": Stand.status, "/d_recv": Stand.done, "/s_new": Stand.s_new, "/g_new": Stand.g_new,
    "/n_free": Stand.free, "/g_freeAll": Stand.free_all, "/b_alloc": Stand.alloc,
    "/quit": Stand.quit,
}


class Client:
    """A client that keeps what it is sent."""

    def __init__(self):
        self.got = []

    def send(self, data):
        self.got.append(data)

    def taken(self):
        """What it was sent since the last time."""
        found, self.got = self.got, []
        return found


def gateway(short=(), most=8):
    """A gateway, and what stands for its server."""
    server = Stand(short=short)
    found = Gateway(sounds.RATE, most)
    server.hear = lambda message: found.hear(osc.encoded(message))
    found.serve(server)
    return found, server
