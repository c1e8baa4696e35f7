"""What stands between programs that send to scsynth and one `snova`: who asks, who listens, and what is remembered.

Behind the commands of each packet the gateway asks for a `/sync` of its own. What the server answers before the
`/synced` of that number, except notifications, answers that packet.
"""
import sys
from collections import deque
from functools import partial
from typing import Callable, NamedTuple, Optional

from . import osc
from .audio_maps import abandoned
from .clients import Clients
from .commands import Asked
from .nodes import FIRST_CHOSEN
from .osc import Message
from .replies import back
from .session import MEMORY, Session
from .table import name_of

AT_ONCE = 1
NOTIFICATIONS = {"/n_go", "/n_end", "/n_on", "/n_off", "/n_move", "/tr", "/p_clash"}
# The reasons of refusals that aren't answers to a packet in its order.
OUT_OF_ORDER = {"queue full", "bad packet"}
# The server keeps at most 65,536 packets that wait; questions that are older than this many are lost.
MOST_WAITING, NUMBERS = 1 << 17, 1 << 31
# So many different lines are remembered, each of which is reported once.
MOST_REPORTED, LONGEST_LINE = 4096, 400


class Question(NamedTuple):
    """What the answer to a packet, or to a part of it, needs: who asked, and which nodes were made.

    It `is_own` if it acts at once, and its answer takes nothing of the server but that it has come so far. If it
    `holds`, what comes from clients waits for its answer.
    """

    client: object
    answer: Optional[Callable]
    quiet: bool
    made: list
    is_own: bool = False
    holds: bool = False


class Gateway:
    """Turns what clients send for the server, and what the server answers for clients.

    The server and a client have `send`, which takes a packet; the server `is_full` if too much waits for it. `session`
    is what the server was sent, as far as it still counts. A strict gateway `is_over` at the first refusal.

    Where a keeper stands behind it, `times` turns time tags into the server's, `recall` follows what is sent and heard,
    `ears` hear the sound, and `use` gives the last values of `/status.reply`. `scopes` show waves.
    """

    def __init__(self, rate, most_clients, strict=False, memory=MEMORY):
        self.rate, self.memory, self.clients = rate, memory, Clients(most_clients)
        self.strict, self.is_over = strict, False
        self.next, self.reported, self.waiting, self.holds = 0, set(), deque(), False
        self.times, self.recall, self.ears, self.use = lambda tag: tag, None, None, None
        self.scopes = None
        self.serve(None)

    def serve(self, server):
        """Starts with a server that has nothing yet, or with none."""
        self.session, self.quits = Session(self.rate, memory=self.memory, live=True), False
        self.session.use, self.session.ears = self.use or self.session.use, self.ears
        self.session.scopes = self.scopes
        if self.scopes:
            self.scopes.clear()
        self.go_on(server, [])

    def go_on(self, server, messages):
        """Goes on with a server that has nothing yet but is sent what counts, or with none."""
        self.server, self.questions, self.held, self.holds = server, {}, [], False
        if server:
            self.ask(AT_ONCE, None, [Asked([Message("/notify", [1]), *messages], None)])
        self.go_through()

    def lose_server(self):
        """The server is gone, and what it was sent is to be given to another one. Who waits for an answer gets none."""
        self.server = None
        for number in list(self.questions):
            question = self.questions[number]
            self.lose(number)
            if question.is_own:
                for reply in question.answer(self, question.client, []):
                    self.answer(question.client, reply)

    def ask_again(self, entry):
        """Asks a new server what the one before had no time for."""
        self.session.nodes.renew(entry.made)
        self.ask(entry.tag, entry.client, entry.asked, entry.quiet)

    # From clients.

    def take(self, client, data):
        """Takes a packet of a client, at once or after what is waited for. Whatever it is, the gateway goes on."""
        self.clients.hear(client)
        if not self.holds:
            self.take_now(client, data)
        elif len(self.waiting) < MOST_WAITING:
            self.waiting.append(partial(self.take_now, client, data))
        else:
            self.refuse(client, "packet", "the server takes nothing")

    def go_through(self):
        """Takes what has waited, as long as nothing else is waited for."""
        while self.waiting and not self.holds:
            self.waiting.popleft()()

    def take_now(self, client, data):
        try:
            self.act(client, osc.decoded(data))
        except osc.BadPacket as bad:
            self.refuse(client, "packet", str(bad))
        except Exception as fault:  # pylint: disable=broad-except
            self.report(f"dropped: a packet of {len(data)} bytes: {type(fault).__name__}: {fault}")

    def act(self, client, packet):
        """Turns a packet and sends it on; bundles inside a bundle keep their own time."""
        if isinstance(packet, Message):
            self.pass_on(client, AT_ONCE, [packet])
            return
        own = [each for each in packet.elements if isinstance(each, Message)]
        if own:
            self.pass_on(client, packet.tag, own)
        for each in packet.elements:
            if isinstance(each, osc.Bundle):
                self.act(client, each)

    def pass_on(self, client, tag, messages):
        """Turns the messages of a bundle and sends them on, those together whose failures are reported alike."""
        asked, session = [], self.session
        session.hushes, quiet = 0, not session.posts
        for message in messages:
            self.dump(message)
            if self.server is None or self.server.is_full:
                reason = "the server takes nothing" if self.server else "there is no server yet"
                self.refuse(client, name_of(message.address), reason)
                continue
            made = session.asked(message)
            if session.is_quiet != quiet:
                self.ask_in_order(tag, client, asked, quiet)
                asked, quiet = [], session.is_quiet
            asked += made
            self.report_refusals(client)
            self.quits = self.quits or name_of(message.address) == "/quit"
        self.ask_in_order(tag, client, asked, quiet)

    def ask_in_order(self, tag, client, asked, quiet, made=()):
        """Sends what is asked; what stands behind something that holds waits for its answer, if that acts at once."""
        nodes = self.session.nodes
        nodes.made = [*made, *nodes.made]
        if self.server is None:
            nodes.settle(nodes.made)
            nodes.made, asked = [], []
        at = next((at for at, each in enumerate(asked, 1) if each.holds and tag <= AT_ONCE), len(asked))
        now, later, made = ([], asked, nodes.made) if self.holds else (asked[:at], asked[at:], nodes.made)
        if later:
            nodes.made = []
            self.waiting.append(partial(self.ask_in_order, tag, client, later, quiet, made))
        self.ask(tag, client, now, quiet)

    def send(self, client, asked):
        """Sends what follows from an answer."""
        self.ask(AT_ONCE, client, asked)

    def ask(self, tag, client, asked, quiet=False):
        """Sends what is asked; what has an answer of its own is asked apart."""
        parts, plain = [], []
        made, self.session.nodes.made = self.session.nodes.made, []
        for each in asked:
            if each.answer:
                is_own, holds = tag <= AT_ONCE and not each.messages, tag <= AT_ONCE and each.holds
                self.holds = self.holds or holds
                parts.append((plain, Question(client, None, quiet, [])))
                parts.append((each.messages, Question(client, each.answer, quiet, [], is_own, holds)))
                plain = []
            else:
                plain += each.messages
        parts.append((plain, Question(client, None, quiet, made)))
        elements = []
        for messages, question in parts:
            if messages or question.answer or question.made:
                elements += [*self.encoded(client, messages), osc.encoded(self.mark(question))]
        for packet in osc.packets(self.times(tag), elements) if elements else []:
            self.server.send(packet)
        if self.recall and elements:
            self.recall.sent(tag, client, asked, quiet, made)

    def encoded(self, client, messages):
        """The bytes of messages; one that doesn't fit into a packet is refused."""
        for message in messages:
            data = osc.encoded(message)
            if len(data) <= osc.LONGEST_ELEMENT:
                yield data
            else:
                self.refuse(client, message.address,
                            f"it has {len(data)} bytes here, and a packet has at most {osc.LONGEST_PACKET}")

    def mark(self, question):
        """What is asked behind messages, so that their answers are known."""
        number, self.next = self.next, (self.next + 1) % NUMBERS
        self.questions[number] = question
        if len(self.questions) > MOST_WAITING:
            self.lose(next(iter(self.questions)))
        return Message("/sync", [number])

    def lose(self, number):
        """What was asked is never answered."""
        question = self.questions.pop(number)
        self.session.nodes.settle(question.made)
        self.let_go(question)

    def let_go(self, question):
        """What waited for the answer to a question goes on."""
        if question.holds:
            self.holds = False
            self.go_through()

    def report_refusals(self, client):
        """Reports what was refused and noted since the last time."""
        session = self.session
        for line in session.notes:
            self.report(f"note: {line}")
        for line in session.refusals:
            what, _, reason = line.partition(": ")
            self.refuse(client, what, reason)
        session.notes, session.refusals = [], []

    def refuse(self, client, what, reason):
        """Answers that something is refused: `what` is an address, and what more is known."""
        self.is_over = self.is_over or self.strict
        if not self.session.is_quiet:
            address, _, of_what = what.partition(" ")
            self.report(f"refused: {what}: {reason}")
            self.answer(client, Message("/fail", [address, f"{of_what}: {reason}" if address == "/d_recv" else reason]))

    def report(self, line):
        """Writes a line to standard error, once."""
        line = "".join(each if each.isprintable() else " " for each in line[:LONGEST_LINE]).rstrip()
        if line not in self.reported:
            print(line, file=sys.stderr, flush=True)
            self.reported = {*self.reported, line} if len(self.reported) < MOST_REPORTED else {line}

    def dump(self, message):
        """Prints what came, if it is asked for: by words (1), by hexadecimal digits (2), or both (3)."""
        code = self.session.dumps
        if code and message.address not in ("/status", 2):
            words = ", ".join(repr(each) for each in [message.address, *message.arguments])
            print(*([f"[ {words} ]"] if code & 1 else []), *([osc.encoded(message).hex(" ")] if code & 2 else []),
                  sep="\n", flush=True)

    # From the server.

    def hear(self, data):
        """Takes a packet of the server."""
        try:
            self.hear_message(osc.decoded(data))
        except Exception as fault:  # pylint: disable=broad-except
            self.report(f"dropped: an answer of {len(data)} bytes: {type(fault).__name__}: {fault}")

    def hear_message(self, message):
        if message.address in NOTIFICATIONS:
            self.notified(message)
        elif message.address == "/synced" and message.arguments[0] in self.questions:
            self.settle(message.arguments[0])
        elif message.address == "/fail" and message.arguments[1] in OUT_OF_ORDER:
            self.report(f"refused: {message.arguments[0]}: {message.arguments[1]}")
            self.notify(message)
        else:
            self.held.append(back(self.session, message))

    def settle(self, number):
        """Gives what was held to the one who asked."""
        self.reached, question = number, self.questions.pop(number)
        replies, self.held = self.held, []
        self.session.nodes.settle(question.made)
        for reply in replies:
            if reply.address == "/fail" and not question.quiet:
                self.report(f"failed: {reply.arguments[0]}: {reply.arguments[1]}")
        if question.answer:
            replies = question.answer(self, question.client, replies)
        for reply in replies:
            if reply.address != "/fail" or not question.quiet:
                self.answer(question.client, reply)
        self.let_go(question)

    def notified(self, message):
        """Follows a notification, and passes it on to all who are registered."""
        nodes, number = self.session.nodes, message.arguments[0]
        if self.recall:
            self.recall.hear(message)
        if message.address == "/n_go":
            nodes.start(number, message.arguments[1])
        elif message.address == "/n_move":
            nodes.stand(number, message.arguments[1])
        if self.ears:
            self.ears.hear(message, nodes.by_id.get(number))
        if nodes.ids.of_client(number) < FIRST_CHOSEN or message.address == "/tr":
            self.notify(back(self.session, message))
        ended = nodes.end(number) if message.address == "/n_end" else None
        if ended and ended.helpers:
            self.ask(AT_ONCE, None, [Asked(abandoned(self.session, ended), None)], quiet=True)

    def notify(self, message):
        data = osc.encoded(self.session.nodes.ids.told(message))
        for client in self.clients:
            client.send(data)

    def answer(self, client, message):
        message = self.session.nodes.ids.told(message)
        if client is not None:
            client.send(osc.encoded(message))
        if message.address == "/n_info":
            self.inform(client, message)

    def inform(self, client, message):
        """Sends where a node stands to all who are registered, too."""
        for each in self.clients:
            if each != client:
                each.send(osc.encoded(message))

    def ends(self):
        """The server has closed: what it has sent answers the first that asked. It answers whether that was wanted."""
        if self.held and self.questions:
            self.settle(next(iter(self.questions)))
        wanted = self.quits
        self.serve(None)
        return wanted

    # What answers need.

    def register(self, client, wanted):
        """Registers a client, and answers the reply."""
        if client in self.clients:
            return Message("/fail", ["/notify", "notify: already registered\n", self.clients.number(client)])
        gone = self.clients.register(client, wanted)
        if gone is not None:
            self.report(f"note: {gone} is no longer registered: {self.clients.most} clients may be, and one more came")
        return Message("/done", ["/notify", self.clients.number(client), self.clients.most])

    def leave(self, client):
        if client not in self.clients:
            return Message("/fail", ["/notify", "not registered\n"])
        self.clients.leave(client)
        return Message("/done", ["/notify"])

    def cleared(self):
        """The server has dropped what waits: what was asked before, and isn't answered, never is."""
        for number in list(self.questions):
            if (self.reached - number) % NUMBERS < NUMBERS // 2:
                self.lose(number)
