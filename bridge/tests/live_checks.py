"""Checks of the gateway: with what stands for a server, and over sockets."""
import contextlib
import io
import random
import socket
import struct
import threading

import sounds
from expected import AFTER_HANDSHAKE, HANDSHAKE, LIVE, RELEASED, RELEASED_TREE, TREE, TREE_COMMANDS
from stand import Client, gateway

import live
from converter import osc
from converter.gateway import Gateway
from converter.osc import Bundle, Message
from converter.table import COMMANDS

SINE = sounds.DATA / "taken.scsyndef"
NOTES, AT_ONCE, DAMAGED = 100_000, 100, 20_000


def compare(what, wanted, found):
    if wanted != found:
        yield f"{what}: wanted {wanted}, got {found}"


def quietly(act):
    """Acts without a word on the standard output and error, and answers what stood there."""
    written = io.StringIO()
    with contextlib.redirect_stderr(written), contextlib.redirect_stdout(written):
        act()
    return written.getvalue()


def handshake():
    """What sclang 3.13 sends to a server that it sees for the first time is answered as scsynth 3.13 answers it."""
    opened, server = gateway()
    client, packets = Client(), osc.whole_packets((sounds.DATA / "handshake.osc").read_bytes())[0]
    quietly(lambda: [opened.take(client, data) for data in packets])
    found = [data for data in client.taken() if b"/d_recv" not in data and not data.startswith(b"/n_go")]
    yield from compare("the handshake", HANDSHAKE, found)
    made = [message for message in server.came if message.address in ("/g_new", "/notify", "/status")]
    yield from compare("what the handshake makes", AFTER_HANDSHAKE, made)


def tree():
    """A tree with the values of its controls comes as scsynth sends it."""
    opened, server = gateway()
    server.tree, client = TREE, Client()
    quietly(lambda: opened.take(client, osc.encoded(Message("/d_recv", [SINE.read_bytes()]))))
    client.taken()
    for there, wanted in TREE_COMMANDS:
        opened.take(client, osc.encoded(Message(there[0], there[1:])))
        found = [osc.decoded(data) for data in client.taken()]
        yield from compare(there, wanted, [[each.address, *each.arguments] for each in found])


def replies_of(client):
    return [osc.decoded(data) for data in client.taken()]


def clients():
    """Answers go to who asked, notifications to who is registered; who was silent longest goes when all are there."""
    opened, _ = gateway(most=2)
    first, second, third = Client(), Client(), Client()
    for at, each in enumerate((first, second)):
        opened.take(each, osc.encoded(Message("/notify", [1, at])))
        yield from compare("a client", [Message("/done", ["/notify", at, 2])], replies_of(each))
    opened.take(second, osc.encoded(Message(1, [1, 0])))
    again = Message("/fail", ["/notify", "notify: already registered\n", 1])
    yield from compare("one that comes again", [again], replies_of(second))
    opened.take(third, osc.encoded(Message("/g_new", [5, 0, 0])))
    group = Message("/n_go", [5, 0, -1, -1, 1, -1, -1])
    yield from compare("a group", [[group], [group], []], [replies_of(each) for each in (first, second, third)])
    opened.take(first, osc.encoded(Message("/sync", [9])))
    yield from compare("a sync", [[Message("/synced", [9])], []], [replies_of(each) for each in (first, second)])
    quietly(lambda: opened.take(third, osc.encoded(Message("/notify", [1, 0]))))
    yield from compare("one more", [Message("/done", ["/notify", 1, 2])], replies_of(third))
    opened.take(third, osc.encoded(Message("/n_free", [5])))
    counts = [len(each.taken()) for each in (first, second, third)]
    yield from compare("who hears of an end", [1, 0, 1], counts)


def released():
    """After /s_noid the id is free for another synth, and each is told of by its own id until it ends."""
    opened, server = gateway()
    client = Client()
    quietly(lambda: opened.take(client, osc.encoded(Message("/d_recv", [SINE.read_bytes()]))))
    opened.take(client, osc.encoded(Message("/notify", [1])))
    client.taken()
    for there, wanted in RELEASED:
        quietly(lambda: opened.take(client, osc.encoded(Message(there[0], there[1:]))))
        yield from compare(there, wanted, [[each.address, *each.arguments] for each in replies_of(client)])
        server.tree = RELEASED_TREE
    ids = opened.session.nodes.ids
    yield from compare("what is kept of ids", [{}, {}], [ids.here, ids.there])


def unasked():
    """Without a server each command is refused; one that comes is new."""
    opened, client = Gateway(sounds.RATE, 8), Client()
    found = quietly(lambda: opened.take(client, osc.encoded(Message("/sync", [1]))))
    yield from compare("no server", "refused: /sync: there is no server yet\n", found)
    yield from compare("its answer", [Message("/fail", ["/sync", "there is no server yet"])], replies_of(client))


def samples():
    """Packets of all kinds, from which the damaged ones are made."""
    arguments = [[], [1], [0, 1], [1, 0, 0], ["tone", -1, 0, 0, "freq", 220.5], [1000, "amp", 0.5, "freq", [1, "c3"]],
                 [1, 8, 2, b""], [1, 0, 3, 0.5, 1.0, -1.0], [b"/sync\0\0\0,i\0\0\0\0\0\1"],
                 [float("nan"), 1e30, -2**31]]
    found = [Message(address, each) for address in [*COMMANDS, 9, 15, 0, 70] for each in arguments
             if address not in ("/d_load", "/d_loadDir")]
    found.append(Message("/d_recv", [SINE.read_bytes()]))
    found += [Bundle(1, found[at:at + 3]) for at in range(0, len(found), 7)]
    return [osc.encoded(each) for each in [*found, Bundle(1 << 40, [Bundle(1, []), Message("/sync", [4])])]]


def damaged(random_from, data):
    """Bytes in which something is other: a byte, the end, a part that stands twice, or all."""
    found, at = bytearray(data), random_from.randrange(len(data))
    act = random_from.randrange(5)
    if act == 0:
        found[at] = random_from.randrange(256)
    elif act == 1:
        del found[at:]
    elif act == 2:
        found[at:at] = found[at:at + random_from.randrange(40)]
    elif act == 3:
        found[at:at + 4] = struct.pack(">i", random_from.choice([0, -1, 1, 2**31 - 1, -2**31, len(data)]))
    else:
        return random_from.randbytes(at)
    return bytes(found)


def nested(depth):
    """A bundle inside so many others."""
    data = b"#bundle\0" + struct.pack(">Q", 1)
    for _ in range(depth):
        data = b"#bundle\0" + struct.pack(">Q", 1) + osc.sized(data)
    return data


def damage():
    """Nothing that comes ends the gateway, and nothing of it is a fault of its own."""
    opened, _ = gateway()
    client, source, all_samples = Client(), random.Random(70), samples()
    packets = [*all_samples, b"", nested(2000), osc.encoded(Message("/g_deepFree", [[1]])),
               b"/c_set\0\0" + osc.string("," + "[" * 5000)]
    packets += [damaged(source, source.choice(all_samples)) for _ in range(DAMAGED)]

    def act():
        for data in packets:
            opened.take(client, data)
            client.taken()
    found = quietly(act)
    yield from (line for line in found.splitlines() if line.startswith("dropped"))
    for data in (b"", b"/synced\0,\0\0\0", b"/n_go\0\0\0,s\0\0a\0\0\0", b"/c_set\0\0,s\0\0a\0\0\0"):
        quietly(lambda: opened.hear(data))
    quietly(lambda: opened.take(client, osc.encoded(Bundle(1, [Message("/error", [1]), Message("/sync", [70])]))))
    yield from compare("after damage", Message("/synced", [70]), osc.decoded(client.taken()[-1]))


def night():
    """Of notes that end by themselves nothing is kept."""
    opened, server = gateway(short={"tone"})
    server.hear, client = opened.hear_message, Client()
    quietly(lambda: opened.take(client, osc.encoded(Message("/d_recv", [SINE.read_bytes()]))))
    opened.take(client, osc.encoded(Message("/g_new", [1, 0, 0])))
    for begin in range(1000, 1000 + NOTES, AT_ONCE):
        notes = [Message(9, ["tone", begin + at, 0, 1, "freq", 440]) for at in range(AT_ONCE)]
        opened.take(client, osc.encoded(Bundle(1, notes)))
        yield from compare("notes", AT_ONCE, len(server.came[-AT_ONCE:]))
        client.taken()
        server.came.clear()
    nodes = opened.session.nodes
    kept = [sorted(nodes.by_id), nodes.made, opened.questions, opened.held]
    yield from compare("what is kept", [[0, 1], [], {}, []], kept)


class Listener(threading.Thread):
    """A server with a socket: it keeps what comes but for questions of the gateway's own, and answers in a row."""

    def __init__(self, answers):
        super().__init__(daemon=True)
        self.listener, self.waiting, self.came = socket.create_server(("127.0.0.1", 0)), list(answers), []
        self.port = self.listener.getsockname()[1]

    def run(self):
        link, _ = self.listener.accept()
        kept = b""
        while self.waiting:
            found, kept = osc.whole_packets(kept + link.recv(65536))
            for message in (each for data in found for each in osc.messages_of(osc.decoded(data))):
                answer = message._replace(address="/synced") if message.address == "/sync" else self.next(message)
                link.sendall(osc.sized(osc.encoded(answer)))
        link.close()

    def next(self, message):
        if message.address == "/notify":
            return Message("/done", ["/notify", 0])
        self.came.append(message)
        return self.waiting.pop(0)


def over_sockets():
    """Over UDP and over TCP packets come turned, and replies go back turned to who asked."""
    server = Listener([answer for _, _, answer, _ in LIVE])
    server.start()
    opened = live.Live(0, server.port, Gateway(sounds.RATE, 8))
    opened.gateway.report = lambda line: None
    runs = threading.Thread(target=opened.run, daemon=True)
    runs.start()
    near = socket.socket(socket.AF_INET, socket.SOCK_DGRAM)
    near.settimeout(5)
    stream = socket.create_connection(("127.0.0.1", opened.port))
    stream.settimeout(5)
    for at, (there, _, _, wanted) in enumerate(LIVE):
        if at % 2:
            stream.sendall(osc.sized(osc.encoded(there)))
            found = osc.whole_packets(stream.recv(65536))[0][0]
        else:
            near.sendto(osc.encoded(there), ("127.0.0.1", opened.port))
            found = near.recv(65536)
        yield from compare(f"the reply to {there}", wanted, osc.decoded(found))
    runs.join(5)
    yield from compare("the end of the run", False, runs.is_alive())
    for (there, wanted, _, _), found in zip(LIVE, server.came):
        yield from compare(there, wanted, found)


CHECKS = [handshake, tree, clients, released, unasked, damage, night, over_sockets]
