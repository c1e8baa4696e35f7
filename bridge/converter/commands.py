"""What a row of the table of commands says, and how it reads the arguments of a command."""
import math
import re
from collections import deque
from typing import Callable, NamedTuple, Optional

from .limits import buffer, bus, shown, whole
from .measures import LEAST, MOST, Refused
from .osc import Message

# So many values one command may set.
MOST_VALUES = 16384


def text(value):
    """An argument that must be a string."""
    if not isinstance(value, str):
        raise Refused(f"{shown(value)} is no name")
    return value


def number(value):
    """An argument that must be a number."""
    if not isinstance(value, (int, float)):
        raise Refused(f"{shown(value)} is no number")
    if not LEAST <= value <= MOST:
        raise Refused(f"{value:g} is too great" if math.isfinite(value) else f"{value} is no number")
    return value


def control(value):
    """A control, by its number or by its name."""
    return value if isinstance(value, str) else whole(value)


def setting(value):
    """What a control is set to: a number, the name of a bus such as `c5`, or an array of them."""
    if isinstance(value, list):
        return [each if isinstance(each, str) else number(each) for each in value]
    return value if isinstance(value, str) else number(value)


def blob(value):
    """An argument that must be bytes."""
    if not isinstance(value, bytes):
        raise Refused(f"{shown(value)} is no blob")
    return value


def count_of(value):
    """A count of values, of which one command may have so many."""
    count = whole(value)
    if not 0 <= count <= MOST_VALUES:
        raise Refused(f"a count of {count}")
    return count


# Of each word of a form: how an argument is read. A `node` is an id of a node that is there.
KINDS = {"int": whole, "node": whole, "bus": bus, "buffer": buffer, "text": text, "value": number, "control": control,
         "setting": setting, "blob": blob, "count": count_of}


def run_of(rest):
    """A count and so many values."""
    count = count_of(rest.popleft()) if rest else -1
    if not 0 <= count <= len(rest):
        raise Refused("its arguments don't come in runs")
    return [number(rest.popleft()) for _ in range(count)]


def argument(kind, rest, node):
    """Takes an argument of a kind off the arguments that are left; `node` reads the id of one."""
    if kind == "run":
        return run_of(rest)
    if not rest:
        raise Refused("its arguments don't come in groups")
    found = KINDS[kind](rest.popleft())
    return node(found) if kind == "node" else found


class Form:
    """The arguments of a command: words such as `int`, `channels:int=1`, and at the end `(control setting)..`.

    A word is a kind, or a name and a kind; with a default it may be left out, and so may all after it. What stands in
    parentheses comes in groups, as often as it is there.
    """

    def __init__(self, text_of_form):
        words, _, groups = text_of_form.partition("(")
        self.words = [re.fullmatch(r"(?:\w+:)?(\w+)(?:=(-?\d+))?", word).groups() for word in words.split()]
        self.group = groups.removesuffix(")..").split()

    def read(self, arguments, carries=False, node=int):
        """The arguments read, with ids of nodes by `node`, and the completion message behind them, or no bytes."""
        rest, found = deque(arguments), []
        for kind, default in self.words:
            if default is not None and (not rest or carries and isinstance(rest[0], bytes)):
                found.append(int(default))
            elif rest:
                found.append(argument(kind, rest, node))
            else:
                raise Refused("it has too few arguments")
        completion = carried(rest, bool(self.group)) if carries else b""
        if self.group:
            found.append(self.groups(rest, node))
        elif rest:
            raise Refused("it has too many arguments")
        return found, completion

    def groups(self, rest, node):
        """The groups that come; those of one word are plain. sclang writes one 0 where it has none."""
        found = []
        if len(rest) == 1 and rest[0] == 0 and len(self.group) > 1:
            rest.pop()
        while rest:
            each = [argument(kind, rest, node) for kind in self.group]
            found.append(tuple(each) if len(each) > 1 else each[0])
        return found


def carried(rest, grouped):
    """Takes the completion message off the end; sclang writes 0 where it has none, but not behind groups."""
    if rest and isinstance(rest[-1], bytes):
        return rest.pop()
    if len(rest) == 1 and rest[0] == 0 and not grouped:
        rest.pop()
    return b""


class Asked(NamedTuple):
    """Commands here whose replies become others: `answer` makes them, of the gateway, the client and the replies.

    If it `holds`, the answer sends more, and what comes after it waits until then.
    """

    messages: list
    answer: Callable
    holds: bool = False


class Command(NamedTuple):
    """A command of the Server Command Reference, its number there, and what is done with it here.

    `turn` makes the commands here, or what is `Asked`: it takes the session and the arguments as `form` reads them.
    Without it the command goes on with the same arguments. `remember` takes the same, and notes what the command
    leaves. A command that `carries` may have a completion message. One that is `refused` is answered with a reason.
    """

    address: str
    number: Optional[int]
    form: Form = Form("")
    turn: Optional[Callable] = None
    remember: Optional[Callable] = None
    carries: bool = False
    apart: bool = False
    refused: Optional[str] = None

    def messages(self, given):
        """The same command here; if its groups go `apart`, one for each, so that one that fails leaves the others."""
        groups = [[each] for each in given[-1]] if self.apart else [given]
        return [Message(self.address, list(flat(group))) for group in groups]


def flat(given):
    """Arguments as they were read, one after the other."""
    for each in given:
        if isinstance(each, (tuple, list)):
            yield from flat(each)
        else:
            yield each


def only_failures(_gateway, _client, replies):
    """What answers commands of which a client knows nothing."""
    return [each for each in replies if each.address == "/fail"]


def done_as(address, *arguments):
    """What answers a command that is made of others here: one /done, or the first /fail."""
    def answer(_gateway, _client, replies):
        failed = [each.arguments[1] for each in replies if each.address == "/fail"]
        reply = Message("/done", [address, *arguments])
        return [Message("/fail", [address, failed[0], *arguments]) if failed else reply]
    return answer


def same(address, number_there, form="", remember=None, carries=False):
    """A command that is the same here."""
    return Command(address, number_there, Form(form), None, remember, carries)


def each_same(address, number_there, form, remember=None):
    """A command that is the same here, once for each of its groups."""
    return Command(address, number_there, Form(form), None, remember, apart=True)


def turned(address, number_there, form, turn, carries=False):
    """A command that is made of others here."""
    return Command(address, number_there, Form(form), turn, None, carries)


def left_out(address, number_there, reason):
    """A command that is refused."""
    return Command(address, number_there, refused=reason)
