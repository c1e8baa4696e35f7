"""What is done from the window: each act is an ordinary command, by the way that those of clients take."""
import time

from converter import osc
from converter.commands import Asked
from converter.gateway import AT_ONCE
from converter.osc import Bundle, Message

# Seconds in which the answer to a command must come, and how many may be waited for.
PATIENCE, MOST_WAITING = 5.0, 64
# So many notifications are told with an answer.
MOST_TOLD = 3
LEAST, MOST = -(2**31), 2**31 - 1


def free(node, *_):
    return [Message("/n_free", [node])]


def pause(node, *_):
    return [Message("/n_run", [node, 0])]


def run(node, *_):
    return [Message("/n_run", [node, 1])]


def all_off(*_):
    """What waits is dropped, and all synths go; groups stay."""
    return [Message("/clearSched", []), Message("/g_deepFree", [0])]


ACTS = {"free": free, "pause": pause, "run": run, "off": all_off}


def words(address, *arguments):
    """A message as it is told."""
    return " ".join([address, *(f"{each:.7g}" if isinstance(each, float) else str(each) for each in arguments)])


class Visitor:
    """Who asks from the window: it keeps what it is answered until all is."""

    def __init__(self, key, node, messages):
        """`node` is the one whose notifications are told, or None for those of all."""
        self.key, self.node, self.notices = key, node, []
        self.commands = "; ".join(words(each.address, *each.arguments) for each in messages)
        self.replies, self.is_done, self.until = [], False, time.monotonic() + PATIENCE

    def __str__(self):
        return "the window"

    def send(self, data):
        for message in osc.messages_of(osc.decoded(data)):
            if message.arguments[:1] == ["/sync"] or message.address == "/synced":
                self.is_done = True
            elif message.address == "/fail":
                self.replies.append(f"{message.arguments[0]} is refused: {message.arguments[1]}")
            else:
                self.replies.append(words(message.address, *message.arguments))

    def refuse(self, reason):
        """Nothing was asked of the server."""
        self.replies, self.is_done = [f"it is refused: {reason}"], True

    def answer(self):
        """The key of the question, whether it was done, and what is said of it; None if the answer hasn't come."""
        late = time.monotonic() > self.until
        if not self.is_done and not late:
            return None
        failed = late or any("is refused" in each for each in self.replies)
        told = ["no answer came"] if late else self.replies or ["done"]
        came = [] if failed else [words(*each) for each in self.notices]
        more = [f"and {len(came) - MOST_TOLD} more"] if len(came) > MOST_TOLD else []
        return [self.key, not failed, f"{self.commands}: {'; '.join([*told, *came[:MOST_TOLD], *more])}"]


class Acts:
    """Asks what is asked from the window."""

    def __init__(self, gateway):
        self.gateway, self.waiting = gateway, []

    def ask(self, asked):
        """Asks for something: a key, what, a node, a control and a value."""
        key, what, node, control, value = asked
        messages = self.set(node, control, value) if what == "set" else ACTS[what](node)
        visitor = Visitor(key, None if what == "off" else node, messages)
        if self.gateway.server is None:
            visitor.refuse("there is no server yet")
        elif len(self.waiting) >= MOST_WAITING:
            visitor.refuse("too much is waited for")
        else:
            self.send(visitor, messages, what == "set" and not self.is_there(node))
        self.waiting.append(visitor)

    def is_there(self, node):
        """Whether the definition of a synth came from sclang, so that its values are as there."""
        found = self.gateway.session.nodes.by_id.get(node)
        return bool(found and found.definition)

    def set(self, node, control, value):
        """A control by its number; a value of a definition that came as a text is a whole number."""
        if self.is_there(node):
            names = {number: name for name, number in self.gateway.session.nodes.by_id[node].definition.source.names}
            return [Message("/n_set", [node, names.get(control, control), value])]
        return [Message("/n_set", [node, control, min(max(round(value), LEAST), MOST)])]

    def send(self, visitor, messages, is_raw):
        """Sends messages whose first argument, if they have one, is the server's id of a node."""
        sync, of_client = Message("/sync", [0]), self.gateway.session.nodes.ids.of_client
        if is_raw:
            self.gateway.ask(AT_ONCE, visitor, [Asked(messages, None)])
            messages = []
        messages = [Message(each.address, [*map(of_client, each.arguments[:1]), *each.arguments[1:]])
                    for each in messages]
        self.gateway.take(visitor, osc.encoded(Bundle(AT_ONCE, [*messages, sync])))

    def hear(self, notices):
        """The server has notified; what comes of a node while an answer is waited for belongs to it."""
        for visitor in self.waiting:
            visitor.notices += [each for each in notices if each[1] == visitor.node or
                                visitor.node is None and each[0] == "/n_end"]

    def answers(self):
        """The answers that have come."""
        found = [(visitor, visitor.answer()) for visitor in self.waiting]
        self.waiting = [visitor for visitor, answer in found if answer is None]
        return [answer for _, answer in found if answer]
