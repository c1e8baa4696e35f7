"""Shows in sclang the waves that synths write: takes them from their buffers some times a second."""
import time
from array import array

from .buffers import Buffer, answered, questions
from .commands import Asked
from .limits import BUFFERS
from .measures import SAMPLE, Refused
from .osc import Message
from .shared import BUFFERS as SCOPES
from .shared import FOLDER, Segment, Unshared
from .taps import value_of

# Seconds from one wave to the next, how often it is looked whether one is due, and until one that doesn't come.
PERIOD, STEP, PATIENCE = 0.04, 0.02, 1.0
AT_ONCE = 1


class Shown:
    """The waves of a synth: the scope where they are shown, the buffer with their ring, and how far that is written."""

    def __init__(self, node, scope, buffer):
        self.node, self.scope, self.buffer = node, scope, buffer
        self.number = round(value_of(node, scope.number))
        self.count = self.begin = self.frames = 0
        self.last, self.asked, self.due = -1, 0.0, 0.0

    def questions(self):
        """What asks for the last wave that is whole, as far as is known, and for the count behind it."""
        scope, found = self.scope, []
        self.frames = min(max(1, int(value_of(self.node, scope.frames))), scope.most)
        self.begin = (self.count // self.frames - 1) * self.frames
        first = self.begin % scope.ring
        end = first + self.frames
        if self.begin >= 0:
            for begin, stop in ((first, min(end, scope.ring)), (0, end - scope.ring)):
                found += questions(self.buffer, begin * scope.channels, stop * scope.channels)
        return [*found, Message("/b_get", [self.buffer, scope.ring * scope.channels])]

    def take(self, replies):
        """The samples of the wave that was asked for, if it is another one and nothing has overwritten it."""
        counts = [each.arguments[2] for each in replies if each.address == "/b_set"]
        self.count = counts[-1] + 1 if counts else 0
        samples, scope = answered(replies), self.scope
        is_whole = self.begin + self.frames <= self.count <= self.begin + scope.ring
        if not is_whole or self.begin in (-self.frames, self.last) or len(samples) != self.frames * scope.channels:
            return None
        self.last = self.begin
        return samples

    def scale(self, session, bus):
        """What stands for 1.0 in a channel, which may be that of a control bus."""
        if bus is None or value_of(self.node, bus.chooses) < 1:
            return SAMPLE.scale
        return session.slot("bus", round(value_of(self.node, bus.first)) + bus.offset).guess().scale

    def waves(self, session, samples):
        """The wave of each channel."""
        for place, bus in enumerate(self.scope.buses):
            scale = self.scale(session, bus)
            yield array("f", [each / scale for each in samples[place::self.scope.channels]])


class Scopes:
    """The waves that are shown, by their buffers, and the memory in which sclang finds them.

    There are none for the `reason`, if there is one.
    """

    def __init__(self):
        self.segment, self.reason, self.shown, self.ended = None, None, {}, []

    def open(self, port, folder=FOLDER):
        """sclang finds waves for a server at a port."""
        try:
            self.segment = Segment(port, folder)
        except Unshared as wrong:
            self.reason = str(wrong)

    def close(self):
        if self.segment:
            self.segment.close()
            self.segment, self.reason = None, "the session has ended"

    def clear(self):
        """The server is gone, with all its buffers."""
        for shown in self.shown.values():
            self.segment.free(shown.number)
        self.shown, self.ended = {}, []

    # What sessions tell.

    def take(self, session, node, scopes):
        """Pairs of a control and the buffer that a new synth gets for the waves that it shows."""
        self.end(session)
        return [each for scope, control in zip(scopes, node.definition.graph.scopes)
                for each in (control.name, self.start(session, Shown(node, scope, free_buffer(session))))]

    def start(self, session, shown):
        """Starts to show waves, and answers their buffer."""
        number, scope = shown.number, shown.scope
        if not 0 <= number < SCOPES or any(each.number == number for each in self.shown.values()):
            raise Refused(f"the scope {number} is in use" if 0 <= number < SCOPES else f"there is no scope {number}")
        try:
            self.segment.open(number, scope.most, scope.channels)
        except OSError as wrong:
            raise Refused(f"the scope {number}: {wrong.strerror}") from None
        frames = scope.ring + 1
        session.first.append(Message("/b_alloc", [shown.buffer, frames, scope.channels]))
        session.buffers[shown.buffer] = Buffer(frames, scope.channels, float(session.rate), None)
        self.shown[shown.buffer] = shown
        return shown.buffer

    def end(self, session):
        """What synths that are gone have shown isn't shown any more."""
        for shown in list(self.shown.values()):
            if not session.nodes.has(shown.node):
                self.segment.free(shown.number)
                self.ended.append(self.shown.pop(shown.buffer).buffer)

    def is_raw(self, message):
        """Whether a reply has samples of a ring."""
        return message.address in ("/b_set", "/b_setn") and message.arguments[0] in self.shown

    # What is done now and then.

    def wait(self):
        """Seconds until it is to be looked again, or None."""
        return STEP if self.shown or self.ended else None

    def look(self, gateway):
        """Frees what has ended, and asks for the waves that are due."""
        self.end(gateway.session)
        if gateway.server is None or gateway.server.is_full:
            return
        for buffer in self.ended:
            gateway.session.buffers.pop(buffer, None)
            ask(gateway, [Message("/b_free", [buffer])], lambda _replies: None)
        self.ended, now = [], time.monotonic()
        for shown in self.shown.values():
            if shown.node.started and now >= shown.due:
                shown.asked, shown.due = now, now + PATIENCE
                ask(gateway, shown.questions(), lambda replies, shown=shown: self.show(gateway, shown, replies))

    def show(self, gateway, shown, replies):
        """What was asked has come."""
        shown.due = shown.asked + PERIOD
        samples = shown.take(replies)
        if samples is None or self.shown.get(shown.buffer) is not shown:
            return
        try:
            self.segment.show(shown.number, list(shown.waves(gateway.session, samples)))
        except OSError as wrong:
            shown.due += PATIENCE
            gateway.report(f"note: the scope {shown.number}: {wrong.strerror}")


def free_buffer(session):
    """The last buffer that no client has."""
    found = next((number for number in reversed(range(BUFFERS)) if number not in session.buffers), None)
    if found is None:
        raise Refused("no buffer is left for a scope")
    return found


def ask(gateway, messages, hear):
    """Asks the server for itself; failures aren't reported."""
    def answer(_gateway, _client, replies):
        hear(replies)
        return []
    gateway.ask(AT_ONCE, None, [Asked(messages, answer)], quiet=True)
