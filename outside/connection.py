"""A connection: bytes and ticks in the order in which they come, what is sent, and the sound."""
import struct
import commands
import osc
import server

MOST_WAITING = 65536


class Connection(server.Run):
    def __init__(self, settings, base):
        super().__init__(settings, [])
        self.base, self.rate, self.kept, self.frames, self.client = base, settings["rate"], b"", 0, 0

    def time_of(self, block):
        """The time of a boundary."""
        return self.base + -(-block * (1 << 38) // self.rate)

    def put(self, messages, tag):
        """Lets an entry wait, or refuses it."""
        now = self.time_of(self.world.block)
        key = now if tag == 1 else max(tag, now)
        if len(self.waiting) >= MOST_WAITING:
            self.replies.append(("/fail", messages[0].address.decode("latin-1") if messages else "#bundle", "queue full"))
            return
        due = (key - self.base) * self.rate >> 38 if key > self.base else 0
        place = len(self.waiting)
        while place > 0 and self.waiting[place - 1].key > key:
            place -= 1
        entry = server.Entry(key, due, messages)
        entry.client = self.client
        self.waiting.insert(place, entry)

    def offer(self, packet):
        if isinstance(packet, osc.Message):
            self.put([packet], 1)
            return
        self.put([element for element in packet.elements if isinstance(element, osc.Message)], packet.tag)
        for element in packet.elements:
            if isinstance(element, osc.Bundle):
                self.offer(element)

    def take(self, data):
        """Takes bytes; it answers the size that no packet has, where one comes."""
        self.kept += data
        while len(self.kept) >= 4:
            size = struct.unpack(">i", self.kept[:4])[0]
            if size < 4 or size > osc.LONGEST or size % 4:
                return size
            if len(self.kept) - 4 < size:
                return None
            packet, self.kept, self.frames = self.kept[4:4 + size], self.kept[4 + size:], self.frames + 1
            try:
                self.offer(osc.decode(packet))
            except osc.Fault:
                self.replies.append(("/fail", "packet", "bad packet"))
        return None

    def play_events(self, events):
        """The line of its end."""
        for event in events:
            if isinstance(event, bytes):
                size = self.take(event)
                if size is not None:
                    return f"bad frame size {size}"
            else:
                for _ in range(event):
                    told = len(self.replies)
                    self.boundary(self.world.block)
                    if ("/done", "/quit") in self.replies[told:]:
                        return "quit"
                    self.block()
        return f"cut after {len(self.kept)} bytes" if self.kept else "closed"


def serve(settings, base, events):
    """The line, the sound and what is sent over a connection."""
    connection = Connection(settings, base)
    line = connection.play_events(events)
    sound = b"".join(server.pcm(sample, settings["bits"]) for sample in connection.sound)
    return line, sound, b"".join(osc.frame(osc.message(*reply)) for reply in connection.replies)


# Replies that are not told to the sender of a command: those of the first kind go to each client that asked for them.
NOTIFICATIONS = ("/n_go", "/n_end", "/n_off", "/n_on", "/n_move", "/tr")


class Session(Connection):
    """Several clients of one world. Each entry and each reply has its client."""

    def __init__(self, settings, count):
        super().__init__(settings, 0)
        self.registered = set()
        self.sent = [[] for _ in range(count)]

    def give(self):
        """Hands out the replies since it was last called."""
        for reply in self.replies:
            if reply[0] == "/p_clash":
                to = range(len(self.sent))
            elif reply[0] in NOTIFICATIONS:
                to = self.registered
            else:
                to = [self.client]
            for client in to:
                self.sent[client].append(reply)
        self.replies = []

    def act(self, message, block):
        while message:
            self.world, told, message, accepted = commands.command(self.world, message)
            self.replies += told
            self.give()
            if accepted == "/clearSched":
                self.waiting = [entry for entry in self.waiting if entry.due <= block]
            elif accepted == "/notify":
                (self.registered.add if self.world.notify else self.registered.discard)(self.client)
            self.world.notify = bool(self.registered)

    def boundary(self, block):
        while self.waiting and self.waiting[0].due <= block:
            entry = self.waiting.pop(0)
            self.client = entry.client
            for message in entry.messages:
                self.act(message, block)
        self.replies += self.world.new_clashes()
        self.give()

    def block(self):
        super().block()
        self.give()

    def offer_stream(self, client, stream):
        """Takes all that a client sends, and tells how its stream ends."""
        self.client, self.kept = client, b""
        size = self.take(stream)
        self.give()
        return f"bad frame size {size}" if size is not None else f"cut after {len(self.kept)} bytes" if self.kept else "closed"


def together(settings, numbers, streams):
    """A session of several clients, whose streams come at its begin, client 0's first: no case may depend on when they come.

    The line of its end, the sound, and what is sent, client 0's first."""
    session = Session(settings, len(streams))
    ends = [session.offer_stream(client, stream) for client, stream in enumerate(streams)]
    for _ in range(sum(numbers)):
        session.boundary(session.world.block)
        session.block()
    session.boundary(session.world.block)
    sound = b"".join(server.pcm(sample, settings["bits"]) for sample in session.sound)
    sent = b"".join(osc.frame(osc.message(*reply)) for replies in session.sent for reply in replies)
    return ", ".join(["over", f"{len(numbers) + session.frames} turns", *ends]), sound, sent
