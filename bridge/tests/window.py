#!/usr/bin/env python3
"""Tries the window without the program and without a browser, prints what is other than it should be, and exits with 1
then.

    python3 bridge/tests/window.py
"""
import json
import random
import re
import socket
import sys
import threading
import time
from array import array
from types import SimpleNamespace
from urllib.parse import urlencode

import sounds
from stand import Stand

import cases
import definitions as model_definitions
import plans
import texts
from converter import osc
from converter.commands import Asked
from converter.gateway import Gateway
from converter.osc import Message
from keeper.load import Load
from keeper.log import Log
from keeper.settings import settings
from keeper.window import asking
from keeper.window.feed import Feed
from keeper.window.frames import Frames, told
from keeper.window.listing import listing
from keeper.window.meters import Meters
from keeper.window.picture import Picture
from keeper.window.plan import USES, Plan, Text
from keeper.window.serving import PAGE, Serving
from keeper.window.snapshot import GROUP, PARALLEL, PAUSED
from keeper.window.watch import Tap, Watched

DAMAGED, SEED, MANY = 10000, 79, 4000
TOKEN, BAD_NAME = "secret", "<script>alert('\"')</script>"
FORM = "application/x-www-form-urlencoded"
SETTINGS = {"token": TOKEN, "channels": 2, "bits": 16, "rate": sounds.RATE}
DEFINITION = re.compile(rb"snova \d\ndef (\S+)\n(?:[^\0]*?\n)?end\n")
TEXT = b"snova 1\ndef tone\ncontrol freq 440000\ncontrol out 0\na = SinOsc freq 0\nOut.ar out a a\nend\n"


def compare(what, wanted, found):
    if wanted != found:
        yield f"{what}: wanted {wanted}, got {found}"


# The page and what it refuses.

class Served:
    """A window that is served in a thread, the keeper's end of it, and browsers."""

    def __init__(self):
        self.keeper, feed = socket.socketpair()
        self.keeper.settimeout(5)
        self.serving = Serving(feed, socket.create_server(("127.0.0.1", 0)))
        self.port = self.serving.port
        self.runs = threading.Thread(target=self.serving.run, daemon=True)
        self.keeper.sendall(told({"settings": SETTINGS}))

    def __enter__(self):
        self.runs.start()
        while not self.serving.token():
            time.sleep(0.001)
        return self

    def __exit__(self, *_):
        self.keeper.close()
        self.runs.join(5)

    def opened(self):
        link = socket.create_connection(("127.0.0.1", self.port))
        link.settimeout(5)
        return link

    def ask(self, data):
        """What bytes are answered with, until the connection is closed."""
        with self.opened() as link:
            link.sendall(data)
            return whole(link)

    def get(self, path, **lines):
        return self.ask(request("GET", path, self.port, lines))

    def do(self, fields, **lines):
        """Sends a form from the page's own origin."""
        lines = {"Origin": f"http://127.0.0.1:{self.port}", **lines}
        return self.ask(request("POST", "/do", self.port, lines, urlencode(fields).encode()))


def whole(link):
    found = b""
    try:
        while data := link.recv(65536):
            found += data
    except ConnectionResetError:
        pass
    return found


def request(method, path, port, lines, body=None):
    """The bytes of a request."""
    lines = {"Host": f"127.0.0.1:{port}", **lines}
    if body is not None:
        lines = {"Content-Type": FORM, "Content-Length": len(body), **lines}
    rows = [f"{name.replace('_', '-')}: {value}" for name, value in lines.items()]
    return "\r\n".join([f"{method} {path} HTTP/1.1", *rows, "", ""]).encode() + (body or b"")


def status(answer):
    return int(answer[9:12]) if answer.startswith(b"HTTP/1.1 ") else None


def pages():
    """Each page is there, with nothing from elsewhere, and the keeper's token is in the one that acts."""
    with Served() as served:
        for path in ("/", "/window.css", "/window.js", "/list", "/plan"):
            answer = served.get(path)
            yield from compare(f"the status of {path}", 200, status(answer))
            yield from compare(f"{path} loads from itself alone", True, b"default-src 'none'" in answer)
        yield from compare("the token", True, f'content="{TOKEN}"'.encode() in served.get("/"))
        yield from compare("by the other name", 200, status(served.get("/list", Host=f"localhost:{served.port}")))
    for path in PAGE.iterdir():
        found = set(re.findall(r"https?://[^\s\"'`]+", path.read_text())) - {"http://www.w3.org/2000/svg"}
        yield from compare(f"what {path.name} loads from elsewhere", set(), found)
    code = (PAGE / "window.js").read_text()
    found = re.findall(r"innerHTML|outerHTML|insertAdjacent|document\.write|eval\(", code)
    yield from compare("HTML of texts", [], found)


def refusals():
    """What is no request, is too long, or goes elsewhere is answered with a status and nothing else."""
    with Served() as served:
        host = f"Host: 127.0.0.1:{served.port}\r\n".encode()
        for data, wanted in [
            (b"hello\r\n\r\n", 400), (b"GET /\r\n" + host + b"\r\n", 400), (b"GET / HTTP/2\r\n" + host + b"\r\n", 400),
            (b"GET / HTTP/1.1\r\n" + host + b"no line\r\n\r\n", 400), (b"GET / HTTP/1.1\r\n" + host * 2 + b"\r\n", 400),
            (b"GET /" + b"a" * 2000 + b" HTTP/1.1\r\n\r\n", 414), (b"a" * 3000, 414),
            (b"GET / HTTP/1.1\r\n" + host + b"a: b\r\n" * 70 + b"\r\n", 431),
            (b"GET / HTTP/1.1\r\n" + host + b"a: " + b"b" * 9000, 431),
            (b"GET /other HTTP/1.1\r\n" + host + b"\r\n", 404), (b"GET /../live.py HTTP/1.1\r\n" + host + b"\r\n", 404),
            (b"PUT / HTTP/1.1\r\n" + host + b"\r\n", 405), (b"GET /do HTTP/1.1\r\n" + host + b"\r\n", 405),
            (b"POST /do HTTP/1.1\r\n" + host + b"\r\n", 411),
            (b"POST /do HTTP/1.1\r\n" + host + b"Content-Length: 9999\r\n\r\n", 413),
            (b"POST /do HTTP/1.1\r\n" + host + b"Content-Length: -1\r\n\r\n", 400),
            (b"POST /do HTTP/1.1\r\n" + host + b"Transfer-Encoding: chunked\r\n\r\n", 400),
            (b"GET / HTTP/1.1\r\n\r\n", 403), (b"GET / HTTP/1.1\r\nHost: evil.example\r\n\r\n", 403),
        ]:
            answer = served.ask(data)
            yield from compare(f"the status of {data[:40]}", wanted, status(answer))
            yield from compare(f"what {data[:40]} gets", b"", answer.partition(b"\r\n\r\n")[2])


def strangers():
    """What isn't asked from the page itself, or isn't whole, isn't done."""
    good = {"token": TOKEN, "what": "free", "node": "7"}
    with Served() as served:
        for fields, lines, wanted in [
            (good, {"Origin": "http://evil.example"}, 403), (good, {"Origin": "null"}, 403),
            (good, {"Host": "evil.example"}, 403), ({**good, "token": "other"}, {}, 403),
            ({**good, "token": ""}, {}, 403), ({**good, "token": "ö"}, {}, 403),
            ({**good, "what": "quit"}, {}, 400), ({**good, "node": "-1"}, {}, 400),
            ({**good, "node": "9" * 11}, {}, 400), ({**good, "node": "٣"}, {}, 400),
            (good, {"Content_Type": "text/plain"}, 400),
            ({**good, "what": "set", "control": "0", "value": "nan"}, {}, 400),
            ({**good, "what": "set", "control": "0", "value": "x"}, {}, 400),
            ({**good, "what": "set", "control": "none", "value": "1"}, {}, 400),
        ]:
            yield from compare(f"the status of {fields} {lines}", wanted, status(served.do(fields, **lines)))
        without = request("POST", "/do", served.port, {}, urlencode(good).encode())
        yield from compare("without an origin", 403, status(served.ask(without)))
        served.keeper.setblocking(False)
        try:
            yield f"the keeper was asked for {served.keeper.recv(4096)}"
        except BlockingIOError:
            pass


def answers():
    """What is asked goes to the keeper, and its answer to the browser, as text."""
    said = f"/n_free {BAD_NAME}: done"
    with Served() as served:
        def answer():
            (_, asked), = Frames().take(served.keeper.recv(4096))
            served.asked = asked[1:]
            served.keeper.sendall(told({"answers": [[asked[0], True, said]]}))
        for fields, wanted in [({"what": "free", "node": "7"}, ["free", 7, 0, 0]), ({"what": "off"}, ["off", 0, 0, 0]),
                               ({"what": "set", "node": "7", "control": "2", "value": "-0.5"}, ["set", 7, 2, -0.5])]:
            keeps = threading.Thread(target=answer)
            keeps.start()
            found = served.do({"token": TOKEN, **fields})
            keeps.join(5)
            yield from compare("what was asked", wanted, served.asked)
            yield from compare("the answer", {"done": True, "said": said}, json.loads(found.partition(b"\r\n\r\n")[2]))
        keeps = threading.Thread(target=answer)
        keeps.start()
        found = served.do({"token": TOKEN, "what": "off", "plain": "1"})
        keeps.join(5)
        yield from compare("by a form", (303, True), (status(found), b"Location: /list" in found))
        page = served.get("/list").decode()
        found = BAD_NAME in page, "&lt;script&gt;alert(&#x27;&quot;" in page
        yield from compare("what was said, as text", (False, True), found)


def damaged():
    """Whatever comes in place of a request, it is answered or dropped, and the window serves on."""
    chance, kept = random.Random(SEED), {200, 303, 400, 403, 404, 405, 411, 413, 414, 431}
    with Served() as served:
        good = [request("GET", path, served.port, {"Accept": "*/*"}) for path in ("/", "/list", "/window.js")]
        form = urlencode({"token": "other", "what": "set", "node": 7, "control": 1, "value": 2}).encode()
        good.append(request("POST", "/do", served.port, {"Origin": f"http://127.0.0.1:{served.port}"}, form))
        for number in range(DAMAGED):
            data = bytearray(chance.choice(good))
            for _ in range(chance.randint(1, 8)):
                at, size = chance.randrange(len(data) + 1), chance.choice((0, 1, 1, 2, 20))
                data[at:at + size] = chance.randbytes(chance.choice((0, 1, 1, 2, 300)))
            if number % 50 == 0:
                with served.opened() as link:
                    link.sendall(data)
                    link.shutdown(socket.SHUT_WR)
                    whole(link)
                continue
            try:
                found = asking.read(data)
                if found:
                    asking.check_place(found, served.port)
            except asking.Refused as refused:
                if refused.status not in kept:
                    yield f"a status of damaged bytes is {refused.status}"
        yield from compare("the page after that", 200, status(served.get("/")))
        yield from compare("connections after that", True, len(served.serving.links) < 5)


def readers():
    """A browser that stops reading is dropped, and nothing piles up for it; others go on."""
    with Served() as served:
        served.serving.stands = 0.5
        stops, reads = served.opened(), served.opened()
        for link in (stops, reads):
            link.sendall(request("GET", "/events", served.port, {}))
        while not all(link.recv(1) for link in (stops, reads)):
            pass
        events = [[0, BAD_NAME * 9000]]
        got, until = 0, time.monotonic() + 20
        while len(served.serving.links) > 1 and time.monotonic() < until:
            served.keeper.sendall(told({"events": events}))
            got += len(reads.recv(1 << 20))
            most = max((len(link.waits) for link in list(served.serving.links.values())), default=0)
            if most > 1 << 20:
                yield f"{most} bytes wait for a browser"
                break
        yield from compare("connections", 1, len(served.serving.links))
        yield from compare("the one that reads got something", True, got > 1 << 20)
        for _ in range(60):
            served.opened()
        yield from compare("no more than so many connections", True, len(served.serving.links) <= 49)


# What the keeper tells.

class Silent:
    """Stands for the sound of a keeper."""

    def __init__(self, given):
        self.settings, self.restarts, self.frames, self.hears = given, 0, SimpleNamespace(speed=48000.0), []

    def take_late(self):
        return 3, 0.002


class Kept:
    """Stands for a keeper: a gateway before what stands for the server, and the feed of its window."""

    def __init__(self):
        self.settings = settings(["window=9"])
        self.gateway = Gateway(sounds.RATE, 8)
        self.gateway.report, self.gateway.recall = lambda line: self.log.count(line), Watched(lambda: 1 << 40, 1 << 20)
        self.log, self.sound = Log(), Silent(self.settings)
        self.log.file = open("/dev/null", "w", encoding="ascii")
        self.load = Load(self.sound, self.log.report)
        self.process = SimpleNamespace(program=SimpleNamespace(pid=0), used=lambda: 0.0)
        self.load.start(self.process)
        self.server, self.restarts, self.last_restart, self.since = Stand(), 1, 5.0, 0.0
        self.answers = []
        self.server.hear = self.answers.append
        self.gateway.serve(self.server)
        self.ready = SimpleNamespace(register=lambda *_: None, unregister=lambda _: None)
        self.feed, self.frames, self.picture = Feed(self, None), Frames(), Picture()
        self.feed.link, self.end = socket.socketpair()
        self.feed.link.setblocking(False)
        self.end.setblocking(False)
        self.feed.waits, self.feed.came, self.feed.sent_late = bytearray(), Frames(), None
        self.feed.moved = time.monotonic()
        self.feed.program = SimpleNamespace(pid=0)
        self.picture.take(b"t", {"settings": SETTINGS})

    def take(self, address, *arguments):
        self.gateway.take(None, osc.encoded(Message(address, list(arguments))))
        self.hear()

    def hear(self):
        """Hears what the server has answered, which comes after what it was asked."""
        while self.answers:
            self.gateway.hear(osc.encoded(self.answers.pop(0)))

    def look(self):
        """Tells the picture what is new; it answers the seconds that this took of the keeper."""
        self.hear()
        self.feed.next_state = 0.0
        before = time.thread_time()
        self.feed.tell(time.monotonic())
        took = time.thread_time() - before
        try:
            while data := self.end.recv(1 << 20):
                for frame in self.frames.take(data):
                    self.picture.take(*frame)
        except BlockingIOError:
            pass
        return took

    def tick(self):
        """Works out the plan, as the window does now and then."""
        self.picture.next_plan = 0.0
        self.picture.tick(time.monotonic())

    def close(self):
        self.feed.link.close()
        self.end.close()
        self.log.file.close()


def shows():
    """What plays, what was refused and what was late is in the picture, and in the list as text."""
    kept = Kept()
    kept.take("/d_recv", (sounds.DATA / "taken.scsyndef").read_bytes())
    kept.gateway.recall.hear(Message("/n_go", [1, 0, -1, -1, 1, -1, -1]))
    for message in [("/p_new", 1, 0, 0), ("/s_new", "tone", 1000, 1, 1, "freq", 330.0), ("/n_run", 1000, 0),
                    ("/s_new", BAD_NAME, 1001, 0, 0), ("/n_set", 5, "freq", 1.0), ("/n_set", 5, "freq", 1.0),
                    ("/b_alloc", 3, 64, 2), ("/c_set", 5, 0.5), ("/notify", 1)]:
        kept.take(*message)
    kept.gateway.recall.hear(Message("/n_off", [1000, 1, -1, -1, 0]))
    kept.gateway.recall.hear(Message("/p_clash", [1, 1000, 1001, "audio", 16]))
    kept.load.measure()
    kept.look()
    parts, picture = kept.picture.parts, kept.picture
    yield from compare("the shape", [1, 1, GROUP | PARALLEL, 1000, 2, PAUSED], picture.shape)
    wanted = ["tone", [["out", 0.0, "whole numbers", None], ["freq", 330.0, "hertz", None],
                       ["amp", 0.25, "samples", None]]]
    yield from compare("a synth", wanted, picture.shown(1000))
    yield from compare("buffers and buses", ([[3, 64, 2]], [[5, 0.5, True]]),
                       (parts["state"]["buffers"], parts["state"]["buses"]))
    refused = [[line, count] for _, line, count in parts["refused"]]
    yield from compare("what was refused", ["/n_set 5: no node 5 was made", 2], refused[0])
    yield from compare("what was late", [3, 2.0], parts["late"][0][1:3])
    yield from compare("restarts", [1, 5.0], parts["state"]["restarts"])
    yield from compare("a clash that was told", ["/p_clash", 1, 1000, 1001, "audio", 16], parts["told_clashes"][0][1])
    page = listing(picture, TOKEN, "")
    yield from compare("names as text", (False, True), (BAD_NAME in page, "&lt;script&gt;" in page))
    kept.close()


def acts():
    """What is asked in the window goes the way of a client's commands, and what came of it is said."""
    kept = Kept()
    kept.take("/d_recv", (sounds.DATA / "taken.scsyndef").read_bytes())
    kept.take("/s_new", "tone", 1000, 0, 0)
    kept.gateway.ask(1, None, [kept_text()])
    for asked, wanted, said in [
        (["set", 1000, 1, 330.0], [("/n_set", 1000, "freq", 330000)], "/n_set 1000 freq 330: done"),
        (["set", 7, 0, 5.4], [("/n_set", 7, 0, 5)], "/n_set 7 0 5: done"),
        (["pause", 1000, 0, 0], [("/n_run", 1000, 0)], "/n_run 1000 0: done"),
        (["run", 1000, 0, 0], [("/n_run", 1000, 1)], "/n_run 1000 1: done"),
        (["free", 1000, 0, 0], [("/n_free", 1000)], "/n_free 1000: done; /n_end 1000 0 -1 -1 0"),
        (["free", 5, 0, 0], [("/n_free", 5)], "/n_free 5: /n_free is refused: no such node"),
        (["off", 0, 0, 0], [("/clearSched",), ("/g_deepFree", 0)], "/clearSched; /g_deepFree 0: done"),
    ]:
        kept.look()
        kept.server.came = []
        kept.feed.acts.ask([9, *asked])
        kept.look()
        came = [(each.address, *each.arguments) for each in kept.server.came]
        yield from compare(f"what {asked} sends", wanted, came)
        yield from compare(f"what is said of {asked}", ("refused" not in said, said), kept.picture.answers.pop(9))
    kept.gateway.lose_server()
    kept.feed.acts.ask([9, "free", 7, 0, 0])
    kept.look()
    wanted = False, "/n_free 7: it is refused: there is no server yet"
    yield from compare("without a server", wanted, kept.picture.answers[9])
    kept.close()


def kept_text():
    """A synth whose definition came as a text."""
    return Asked([Message("/d_recv", [TEXT]), Message("/s_new", ["tone", 7, 0, 0])], None)


def many():
    """Of four thousand nodes the keeper tells a little at a time, and a browser gets all of them."""
    kept, slowest, looks = Kept(), 0.0, 0
    kept.take("/d_recv", (sounds.DATA / "taken.scsyndef").read_bytes())
    for number in range(1000, 1000 + MANY):
        kept.take("/s_new", "tone", number, 0, 0)
    while looks < 60 and len(kept.picture.synths) < MANY:
        slowest, looks = max(slowest, kept.look()), looks + 1
    kept.tick()
    found, seen = kept.picture.news(0)
    yield from compare("nodes", (3 * MANY, MANY), (len(found["shape"]), len(found["synths"])))
    yield from compare("synths of the plan", MANY, found["plan"]["synths"])
    yield from compare("what is drawn of them", True, len(found["plan"]["boxes"]) < 100)
    if slowest > 0.1:
        yield f"to tell of {MANY} nodes takes the keeper {1000 * slowest:.0f} ms at once"
    kept.take("/n_set", 1007, "freq", 220.0)
    kept.look()
    yield from compare("what is new", [1007], list(kept.picture.news(seen)[0]["synths"]))
    kept.close()


def full():
    """What a window doesn't take is left out, and waits for nothing."""
    kept = Kept()
    for _ in range(2000):
        kept.feed.tap(bytes(4096))
        kept.feed.tell(time.monotonic())
    yield from compare("what waits for the window", True, len(kept.feed.waits) < 1 << 16)
    kept.feed.program = SimpleNamespace(pid=0, kill=lambda: None, wait=lambda: None)
    kept.feed.tell(time.monotonic() + 60)
    yield from compare("a window that takes nothing", None, kept.feed.link)
    kept.end.close()


# The sound and the plan.

def levels():
    """The meters have the peaks of what passed, however it is cut into pieces."""
    for bits, wide, top in ((16, 4, 32767), (24, 6, 32767)):
        tap, meters, size = Tap(wide), Meters(2, bits), bits // 8
        frames = [(1000 * (at % 7), -20000 if at == 50 else 5) for at in range(100)]
        frames[70] = (top, 0)
        values = [value << (bits - 16) for frame in frames for value in frame]
        data = b"".join(value.to_bytes(size, "little", signed=True) for value in values)
        for at in range(0, len(data), 17):
            tap(data[at:at + 17])
            meters.take(tap.take())
        yield from compare(f"peaks with {bits} bits", [[top] * 3, [20000] * 3], meters.levels(0.0))
        wanted = [[int(top * 10 ** -1.5), top, top], [int(20000 * 10 ** -1.5), 20000, 20000]]
        yield from compare("peaks after a second", wanted, meters.levels(1.0))
        yield from compare("peaks at last", [[0, 0, top], [0, 0, 20000]], meters.levels(9.0))
    tap = Tap(4)
    for _ in range(1500):
        tap(array("h", [7, -7, 7]).tobytes())
    found = array("h", tap.take())
    yield from compare("what waits at most", True, 4 * 1000 < 2 * len(found) <= 6 * 1024)


def texts_there():
    """Of each definition the window finds the controls, the units and what they use that the model does."""
    kept = (sounds.DATA / "taken.txt").read_bytes().replace(b"end\n\n", b"end\n\0").split(b"\0")
    for text in [*texts.TEXTS.values(), *(each.rstrip(b"\n") + b"\n" for each in kept)]:
        try:
            wanted = model_definitions.read(text)
        except model_definitions.BadLine:
            continue
        found, names = Text(text.decode()), [name for name, _ in wanted.controls]
        uses = [(unit.name, names[unit.inputs[0][1]] if unit.inputs[0][0] == "c" else str(unit.inputs[0][1]))
                for unit in wanted.units if unit.name in USES]
        yield from compare("controls", dict(wanted.controls), found.controls)
        yield from compare("units", len(wanted.units), found.units)
        yield from compare("uses", uses, [(use.unit, use.index) for use in found.uses])


def seen(world, known):
    """The world of the model as the window sees it."""
    shape, synths, found = [], {}, {}

    def visit(node, depth):
        for child in node.children:
            flags = (GROUP if child.is_group() else 0) | (PARALLEL if child.kind == "parallel" else 0)
            shape.extend((child.id, depth, flags | (0 if child.run else PAUSED)))
            if not child.is_group():
                names = [name for name, _ in child.definition.controls]
                buses = {name: bus for name, bus in zip(names, child.buses) if bus is not None}
                synths[child.id] = [child.definition.name, dict(zip(names, child.values)), buses]
                found[child.definition.name] = Text(known[child.definition.name].decode())
            visit(child, depth + 1)
    visit(world.root, 1)
    return shape, synths, found, set(world.buffers)


def planned():
    """The plan is the report that the model has of `snova plan`, for rows by hand, trees by chance and scripts."""
    rows = [(name, (), data) for name, data, _ in plans.ROWS]
    rows += [(f"tree {seed}", (), plans.chance_stream(seed)) for seed in range(60)] + cases.CASES[::9]
    count = 0
    for name, words, data in rows:
        known = {match[1].decode(): match[0] for match in DEFINITION.finditer(data)}
        try:
            world = plans.played(words, data).world
            plan = Plan(*seen(world, known))
        except (plans.server.Refused, KeyError):
            continue
        count += 1
        yield from compare(name, plans.report(world), plan.report())
        clashes = [world.clash_of(node) for node in world.root.running() if node.kind == "parallel"]
        wanted = [[*nodes, f"{kind[0]}{number}"] for *nodes, kind, number in filter(None, clashes)]
        yield from compare(f"clashes of {name}", wanted, plan.clashes())
    yield from compare("how many plans", True, count > 80)


# The colours.

PAIRS = [("text", "ground"), ("quiet", "ground"), ("key", "ground"), ("text", "panel"), ("quiet", "panel"),
         ("key", "panel"), ("warn", "panel"), ("bad", "panel"), ("text", "inset"), ("quiet", "inset"),
         ("text", "chosen"), ("quiet", "chosen"), ("on-key", "key"), ("on-bad", "bad"), ("key", "chosen")]


def brightness(colour):
    """The relative luminance of a colour, as WCAG has it."""
    parts = [int(colour[at:at + 2], 16) / 255 for at in (1, 3, 5)]
    red, green, blue = (part / 12.92 if part <= 0.04045 else ((part + 0.055) / 1.055) ** 2.4 for part in parts)
    return 0.2126 * red + 0.7152 * green + 0.0722 * blue


def colours():
    """Text keeps a contrast of 4.5 to 1, by day and by night."""
    blocks = re.findall(r":root \{([^}]*)\}", (PAGE / "window.css").read_text())
    yield from compare("sets of colours", 2, len(blocks))
    for block in blocks:
        found = dict(re.findall(r"--([a-z-]+): (#[0-9a-f]{6})", block))
        for front, back in PAIRS:
            dark, bright = sorted((brightness(found[front]), brightness(found[back])))
            contrast = (bright + 0.05) / (dark + 0.05)
            if contrast < 4.5:
                yield f"{front} {found[front]} on {back} {found[back]}: {contrast:.2f} to 1"


CHECKS = [pages, refusals, strangers, answers, damaged, readers, shows, acts, many, full, levels, texts_there, planned,
          colours]


def main():
    wrong = []
    for check in CHECKS:
        start = time.monotonic()
        wrong += check()
        if "-v" in sys.argv:
            print(f"{check.__name__} {time.monotonic() - start:.1f} s")
    for line in wrong:
        print(line)
    return 1 if wrong else 0


if __name__ == "__main__":
    sys.exit(main())
