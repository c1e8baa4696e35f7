"""Serves the page at a port of this machine, and tells browsers what changes."""
import hmac
import json
import math
import re
import selectors
import socket
import time
from pathlib import Path
from urllib.parse import parse_qs

from .asking import Refused, check_place, read
from .frames import Frames, told
from .listing import listing
from .picture import Picture

PAGE = Path(__file__).with_name("page")
READ, WRITE = selectors.EVENT_READ, selectors.EVENT_WRITE
# Seconds between two events, in which a request must have come, in which an answer must, and without progress.
PERIOD, COMES, ANSWERS, STANDS = 0.1, 5.0, 8.0, 10.0
# So many connections there may be at once, and so many bytes stand in one's own buffer of the system.
MOST_LINKS, BUFFER, SIZE = 48, 1 << 17, 1 << 16
NAMES = {
    200: "OK", 303: "See Other", 400: "Bad Request", 403: "Forbidden", 404: "Not Found", 405: "Method Not Allowed",
    411: "Length Required", 413: "Content Too Large", 414: "URI Too Long", 431: "Request Header Fields Too Large",
    503: "Service Unavailable", 504: "Gateway Timeout",
}
SAFE = (
    "Content-Security-Policy: default-src 'none'; script-src 'self'; style-src 'self'; connect-src 'self'; "
    "img-src 'self' data:; form-action 'self'; base-uri 'none'; frame-ancestors 'none'",
    "X-Content-Type-Options: nosniff", "Referrer-Policy: same-origin", "Cache-Control: no-store", "Connection: close",
)
HTML, PLAIN = "text/html; charset=utf-8", "text/plain; charset=utf-8"
JSON, EVENTS = "application/json", "text/event-stream"
FILES = {"/": ("window.html", HTML), "/window.css": ("window.css", "text/css; charset=utf-8"),
         "/window.js": ("window.js", "text/javascript; charset=utf-8")}
WHATS = ("free", "pause", "run", "set", "off")
MOST_ID, MOST_CONTROL = 2**31 - 1, 511


def response(status, kind="", body=b"", more=(), sized=True):
    """The bytes of an answer; without a body it is a status and nothing else."""
    lines = [f"HTTP/1.1 {status} {NAMES[status]}", *SAFE, *more]
    lines += [f"Content-Type: {kind}"] if kind else []
    lines += [f"Content-Length: {len(body)}"] if sized else []
    return "".join(line + "\r\n" for line in [*lines, ""]).encode() + body


class Link:
    """A connection of a browser: what came, what waits to be sent, and what it waits for."""

    def __init__(self, end, now):
        self.end, self.came, self.waits = end, bytearray(), bytearray()
        self.since = self.moved = now
        self.seen, self.key, self.is_plain, self.ends = None, None, False, False

    @property
    def is_stream(self):
        return self.seen is not None

    def is_stuck(self, now, stands):
        """Whether it takes nothing, or asks nothing, for too long."""
        if self.waits:
            return now - self.moved > stands
        return not self.is_stream and self.key is None and now - self.since > COMES


class Serving:
    """The window's program: what the keeper tells goes into a picture, and from there to browsers."""

    stands = STANDS

    def __init__(self, feed, listener):
        """`feed` is the connection to the keeper, and `listener` the socket at which browsers come."""
        self.feed, self.listener, self.port = feed, listener, listener.getsockname()[1]
        self.frames, self.picture, self.links, self.key, self.is_over = Frames(), Picture(), {}, 0, False
        self.said = ""
        self.ready = selectors.DefaultSelector()
        for end in (feed, listener):
            end.setblocking(False)
        self.ready.register(feed, READ, self.from_keeper)
        self.ready.register(listener, READ, self.from_listener)

    def run(self):
        """Serves until the keeper is gone."""
        ticks = time.monotonic()
        while not self.is_over:
            for key, events in self.ready.select(max(0.0, ticks - time.monotonic())):
                key.data(events)
            now = time.monotonic()
            if now >= ticks:
                ticks = max(ticks + PERIOD, now + PERIOD / 2)
                self.tick(now)

    # The keeper.

    def from_keeper(self, _events):
        try:
            data = self.feed.recv(1 << 20)
        except BlockingIOError:
            return
        except OSError:
            data = b""
        self.is_over = not data
        for kind, what in self.frames.take(data):
            self.picture.take(kind, what)

    # Browsers.

    def from_listener(self, _events):
        try:
            end, _ = self.listener.accept()
        except OSError:
            return
        end.setblocking(False)
        end.setsockopt(socket.SOL_SOCKET, socket.SO_SNDBUF, BUFFER)
        link = self.links[end] = Link(end, time.monotonic())
        self.ready.register(end, READ, lambda events: self.act(link, events))
        if len(self.links) > MOST_LINKS:
            self.answer(link, response(503))

    def act(self, link, events):
        """Reads and writes what may be."""
        if events & WRITE:
            self.write(link)
        if events & READ and link.end in self.links:
            self.read(link)

    def read(self, link):
        try:
            data = link.end.recv(SIZE)
        except BlockingIOError:
            return
        except OSError:
            data = b""
        if not data:
            self.drop(link)
        elif not link.is_stream and link.key is None and not link.ends:
            link.came += data
            self.take(link)

    def take(self, link):
        """Answers a request as soon as it is whole."""
        try:
            request = read(link.came)
            if request:
                check_place(request, self.port)
                self.route(link, request)
        except Refused as refused:
            self.answer(link, response(refused.status))

    def answer(self, link, data):
        """Sends the last that a connection gets."""
        link.ends = True
        self.send(link, data)

    def send(self, link, data):
        if not link.waits:
            link.moved = time.monotonic()
        link.waits += data
        self.write(link)

    def write(self, link):
        try:
            sent = link.end.send(link.waits) if link.waits else 0
        except BlockingIOError:
            sent = 0
        except OSError:
            self.drop(link)
            return
        if sent:
            del link.waits[:sent]
            link.moved = time.monotonic()
        if link.ends and not link.waits:
            self.drop(link)
        else:
            self.ready.modify(link.end, READ | WRITE if link.waits else READ,
                              lambda events: self.act(link, events))

    def drop(self, link):
        """Ends a connection."""
        if self.links.pop(link.end, None):
            self.ready.unregister(link.end)
            link.end.close()

    # What is asked.

    def route(self, link, request):
        """Finds what answers a request."""
        method, act = ROUTES.get(request.path, (None, None))
        if method is None:
            raise Refused(404)
        if method != request.method:
            raise Refused(405)
        act(self, link, request)

    def file(self, link, request):
        name, kind = FILES[request.path]
        data = (PAGE / name).read_bytes()
        self.answer(link, response(200, kind, data.replace(b"TOKEN", self.token().encode()) if kind == HTML else data))

    def token(self):
        return self.picture.settings.get("token", "")

    def list(self, link, _request):
        """The page for a browser without JavaScript."""
        self.answer(link, response(200, HTML, listing(self.picture, self.token(), self.said).encode()))

    def report(self, link, _request):
        """The plan as `snova plan` reports it."""
        plan = self.picture.plan
        self.answer(link, response(200, PLAIN, plan.report().encode() if plan else b""))

    def events(self, link, _request):
        """What changes, from now on."""
        link.seen = 0
        self.send(link, response(200, EVENTS, sized=False) + b"retry: 2000\n\n")

    def do(self, link, request):
        """Asks the keeper for what a browser asks."""
        fields = self.fields(request)
        given = fields.get("token", "").encode()
        if not self.token() or not hmac.compare_digest(given, self.token().encode()):
            raise Refused(403)
        asked = self.asked(fields)
        self.key += 1
        try:
            self.feed.send(told([self.key, *asked]))
        except OSError:
            raise Refused(503) from None
        link.key, link.is_plain, link.since = self.key, "plain" in fields, time.monotonic()

    @staticmethod
    def fields(request):
        """The fields of a form."""
        if request.lines.get("content-type", "").partition(";")[0].strip() != "application/x-www-form-urlencoded":
            raise Refused(400)
        try:
            found = parse_qs(request.body.decode("ascii"), keep_blank_values=True, max_num_fields=8, errors="strict")
        except ValueError:
            raise Refused(400) from None
        return {name: values[0] for name, values in found.items()}

    def asked(self, fields):
        """What is asked for: what, a node, a control by its number, and a value."""
        what = fields.get("what")
        if what not in WHATS:
            raise Refused(400)
        node = whole(fields.get("node", "0") if what == "off" else fields.get("node", ""), MOST_ID)
        if what != "set":
            return [what, node, 0, 0]
        control = fields.get("control", "")
        is_number = control.isascii() and control.isdecimal()
        number = whole(control, MOST_CONTROL) if is_number else self.number(node, control)
        return [what, node, number, finite(fields.get("value", ""))]

    def number(self, node, name):
        """The number of a control by its name."""
        names = [each[0] for each in self.picture.shown(node)[1]] if node in self.picture.synths else []
        if name not in names:
            raise Refused(400)
        return names.index(name)

    # Ten times a second.

    def tick(self, now):
        """Answers, tells browsers what is new, and drops those that take nothing."""
        self.picture.tick(now)
        made = {}
        for link in list(self.links.values()):
            if link.key is not None:
                self.settle(link, now)
            elif link.is_stream and not link.waits:
                self.tell(link, made)
            if link.is_stuck(now, self.stands):
                self.drop(link)
        self.picture.answers.clear()

    def settle(self, link, now):
        """Gives the answer to who waits for it, if it has come."""
        is_done, text = self.picture.answers.get(link.key, (None, ""))
        if is_done is None and now - link.since < ANSWERS:
            return
        link.key = None
        if is_done is None:
            self.answer(link, response(504))
            return
        self.said = text
        if link.is_plain:
            self.answer(link, response(303, more=["Location: /list"]))
        else:
            self.answer(link, response(200, JSON, json.dumps({"done": is_done, "said": text}).encode()))

    def tell(self, link, made):
        """Sends an event with all that is new for a browser; those that have seen as much get the same bytes."""
        if link.seen not in made:
            found, seen = self.picture.news(link.seen)
            data = f"data: {json.dumps(found, separators=(',', ':'))}\n\n".encode() if found else b""
            made[link.seen] = data, seen
        data, link.seen = made[link.seen]
        if data:
            self.send(link, data)


def whole(text, most):
    """A whole number from 0 to `most`."""
    if not re.fullmatch("[0-9]{1,10}", text, re.A) or int(text) > most:
        raise Refused(400)
    return int(text)


def finite(text):
    """A number with or without a point."""
    try:
        value = float(text)
    except ValueError:
        value = math.nan
    if not math.isfinite(value):
        raise Refused(400)
    return value


ROUTES = {
    **{path: ("GET", Serving.file) for path in FILES}, "/list": ("GET", Serving.list),
    "/plan": ("GET", Serving.report), "/events": ("GET", Serving.events), "/do": ("POST", Serving.do),
}
