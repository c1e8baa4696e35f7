"""Turns commands for scsynth into commands for `snova`, and remembers what that takes."""
from .commands import Asked, only_failures
from .definitions import Definition
from .limits import buffer, bus
from .local import PrivateBuses
from .measures import Lacking, Refused, Slot, raw
from .nodes import Nodes
from .osc import BadPacket, Double, Message, decoded, messages_of
from .table import command_of, name_of
from .tally import Tally


# So many words the server has if nothing else is said.
MEMORY = 2**20


def named(message):
    """An address, and of what it is."""
    first = [str(each)[:40] for each in message.arguments[:1] if isinstance(each, (int, str))]
    return " ".join([name_of(message.address), *first])


def completed(data):
    """The messages that a command carries."""
    try:
        return messages_of(decoded(data)) if data else []
    except BadPacket as bad:
        raise Refused(f"what it carries is no message: {bad}") from None


class Session:
    """What was sent. One that learns settles no measures; one that follows it knows what it has learnt.

    `memory` is how many words the server has for buffers. `most_bytes` is how long a command file may be, and
    `file_bytes` how long its samples have made it. One that is `live` hears of nodes that end. `first` are commands
    that go before those of the command that is turned, also if it is refused, and `put_off` definitions that wait for
    a synth. `ears` hear the sound for the `taps` of definitions, and `scopes` show the `waves` of them, if anything
    does. `writes` are files of samples that a score asks for.
    """

    def __init__(self, rate, learns=False, learnt=None, memory=MEMORY, live=False):
        self.rate, self.learns, self.memory, self.live = rate, learns, memory, live
        self.most_bytes, self.file_bytes = None, 0
        self.built = learnt.built if learnt else {}
        self.slots = learnt.slots if learnt else {}
        self.put_off, self.first = {}, []
        self.definitions, self.variants, self.nodes, self.buffers = {}, {}, Nodes(hears=live), {}
        self.ears, self.taps, self.writes = None, {}, []
        self.scopes, self.waves = None, {}
        self.bus_values, self.followed, self.private_buses = {}, set(), PrivateBuses()
        self.refusals, self.notes = [], []
        self.tally, self.most_reasons = Tally(), 1
        self.dumps, self.posts, self.hushes = 0, True, 0
        # The use of the processor, which isn't measured here, and the rates.
        self.use = lambda: [0.0, 0.0, Double(rate), Double(rate)]

    # Measures of buses and buffers.

    def slot(self, kind, number):
        return self.slots.setdefault((kind, number), Slot())

    def connect(self, kind, number, slot):
        """Joins the measure of a bus or a buffer with a place's; it answers the commands that set the bus again."""
        mine = self.slot(kind, (bus if kind == "bus" else buffer)(number))
        before = mine.guess()
        try:
            mine.join(slot)
        except Refused as refused:
            raise Refused(f"{'control bus' if kind == 'bus' else 'buffer'} {number}: {refused}") from None
        value = self.bus_values.get(number) if kind == "bus" else None
        if value is None or mine.guess().scale == before.scale:
            return []
        return [Message("/c_set", [number, raw(value, mine.guess())])]

    def link(self, node, controls=None):
        """Connects what a synth reads and writes; with `controls`, only where they choose the bus or the buffer."""
        found = []
        for place in node.definition.graph.places:
            if controls is None or place.index in controls:
                number = place.number(node.value_of)
                found += self.connect(place.kind, number, place.slot)
                if place.changes and number in self.buffers:
                    self.buffers[number].samples = None
        return found

    def uses(self, kind, number):
        """The places of synths for a bus or a buffer."""
        for node in self.nodes.by_id.values():
            for place in node.definition.graph.places if node.definition else []:
                if place.kind == kind and place.number(node.value_of) == number:
                    yield place

    def changes(self, number):
        """Whether a synth changes the samples of a buffer."""
        return any(place.changes for place in self.uses("buffer", number))

    def let_go(self, kind, number):
        """Forgets the measure of a bus or a buffer if no synth uses it; a score knows it from its start."""
        if self.live and not any(self.uses(kind, number)):
            self.slots.pop((kind, number), None)

    # Definitions.

    def definition(self, source, known=()):
        """The definition of a SynthDef, which is turned once for what is known of the buffers that it asks for."""
        key = repr((source, known))
        if key not in self.built:
            self.built[key] = Definition(source, self.rate, known)
            self.built[key].build()
        found = self.built[key]
        if not self.learns and not found.refused and found.text is None:
            found.finish()
            self.notes += [f"{found.source.name}: {note}" for note in found.graph.notes]
        return found

    def keep(self, definition):
        """A definition came: what another one of its name was built of is forgotten."""
        name = definition.source.name
        if self.definitions.get(name) is not definition:
            self.forget(name)
        self.definitions[name] = definition

    def forget(self, name):
        """Forgets a definition and its variants, and answers them; a score may send them again."""
        self.put_off.pop(name, None)
        self.taps.pop(name, None)
        self.waves.pop(name, None)
        found = [self.definitions.pop(name)] if name in self.definitions else []
        found += [self.variants.pop(key) for key in [key for key in self.variants if key[0] == name]]
        if self.live:
            self.built = {key: each for key, each in self.built.items() if each not in found}
        return found

    # Errors.

    def error(self, mode):
        """Lets failures be reported or not: 1 and 0 from now on, -2 and -1 in this bundle."""
        if mode in (0, 1):
            self.posts = mode == 1
        elif mode in (-1, -2):
            self.hushes += 1 if mode == -1 else -1

    @property
    def is_quiet(self):
        return not self.posts or self.hushes > 0

    # All.

    def turn(self, message):
        """What is asked here for one command there, and the bytes of the message that it carries."""
        command = command_of(message.address)
        if command.refused:
            raise Refused(command.refused)
        given, completion = command.form.read(message.arguments, command.carries, self.nodes.node)
        if command.turn:
            made = command.turn(self, *given)
            return made if isinstance(made, Asked) else Asked(made, None), completion
        if command.remember:
            command.remember(self, *given)
        return Asked(command.messages(given), None), completion

    def refuse(self, message, refused):
        """Keeps why a command is refused; in a score, of those that lack a definition only how many they are."""
        if self.live or not isinstance(refused, Lacking):
            self.refusals.append(f"{named(message)}: {refused}")
        else:
            count = self.tally.lost if name_of(message.address) == "/s_new" else self.tally.left
            count[refused.definition] += 1

    def asked(self, message):
        """What is asked here for one command there and what it carries; what is refused is kept in `refusals`."""
        found, waiting = [], [message]
        while waiting:
            each, made, self.first = waiting.pop(0), [], []
            try:
                turned, completion = self.turn(each)
                made, waiting = [turned], completed(completion) + waiting
            except Refused as refused:
                self.refuse(each, refused)
            found += [Asked(self.first, only_failures), *made] if self.first else made
        return found

    def messages(self, message):
        """The commands here for one command there and what it carries."""
        return [each for made in self.asked(message) for each in made.messages]
