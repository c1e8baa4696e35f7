"""What a browser asks by HTTP: one request is read, or is refused with a status."""
import re
from typing import NamedTuple

# So many bytes may the first line, all lines and a body have, and so many lines there may be.
MOST_LINE, MOST_HEAD, MOST_BODY, MOST_LINES = 1024, 8192, 2048, 64
LINE = re.compile(rb"([A-Z]{1,16}) (/[!-~]*) HTTP/1\.[01]")
FIELD = re.compile(rb"([!#$%&'*+.^_`|~0-9A-Za-z-]+):[ \t]*([\t -~\x80-\xff]*)")
# Lines that count here, which may come once.
ONCE = {"host", "origin", "content-length", "content-type", "transfer-encoding", "expect"}


class Refused(Exception):
    """A request is answered with a status and nothing else."""

    def __init__(self, status):
        super().__init__(status)
        self.status = status


class Request(NamedTuple):
    """A method, a path without its query, lines by their names in small letters, and a body."""

    method: str
    path: str
    lines: dict
    body: bytes


def lines_of(data):
    """The lines of a head behind the first one."""
    found, rows = {}, data.split(b"\r\n") if data else []
    if len(rows) > MOST_LINES:
        raise Refused(431)
    for row in rows:
        matched = FIELD.fullmatch(row)
        name = matched and matched[1].decode().lower()
        if not matched or name in ONCE and name in found:
            raise Refused(400)
        found[name] = matched[2].decode("latin-1").rstrip()
    return found


def size_of(method, lines):
    """How many bytes the body has."""
    given = lines.get("content-length", "0")
    if "transfer-encoding" in lines or "expect" in lines or not re.fullmatch("[0-9]{1,18}", given):
        raise Refused(400)
    if method == "POST" and "content-length" not in lines:
        raise Refused(411)
    if int(given) > MOST_BODY:
        raise Refused(413)
    return int(given)


def read(data):
    """The request that bytes are, or None if they are its beginning."""
    first, _, _ = data.partition(b"\r\n")
    if len(first) > MOST_LINE:
        raise Refused(414)
    head, is_whole, rest = data.partition(b"\r\n\r\n")
    if len(head) > MOST_HEAD:
        raise Refused(431)
    if not is_whole:
        return None
    first, _, others = head.partition(b"\r\n")
    matched = LINE.fullmatch(first)
    if not matched:
        raise Refused(400)
    method, target = matched[1].decode(), matched[2].decode()
    lines = lines_of(others)
    size = size_of(method, lines)
    if len(rest) < size:
        return None
    return Request(method, target.partition("?")[0], lines, bytes(rest[:size]))


def check_place(request, port):
    """Refuses what comes by another name of this machine, or from a page of another origin."""
    hosts = [name if port == 80 else f"{name}:{port}" for name in ("127.0.0.1", "localhost")]
    origin = request.lines.get("origin")
    if request.lines.get("host") not in hosts:
        raise Refused(403)
    if origin is not None and origin not in [f"http://{each}" for each in hosts]:
        raise Refused(403)
    if request.method == "POST" and origin is None:
        raise Refused(403)
