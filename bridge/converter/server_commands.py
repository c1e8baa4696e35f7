"""The table of commands on definitions and on the server itself."""
from glob import glob
from pathlib import Path

from . import scgf
from .commands import Asked, done_as, left_out, same, turned
from .measures import Refused
from .osc import Message
from .scopes import shown
from .taps import heard

# What /version answers: the program, its version, and nothing of a source tree.
VERSION = ["snova", 0, 1, ".0", "", ""]

# sclang sends some hundred definitions of its own to each server, which are seldom needed.
SYSTEM = "system_"


# Definitions.

def received(session, data):
    """The commands here for the definitions of a file."""
    try:
        sources = scgf.read(data)
    except scgf.BadFile as bad:
        raise Refused(f"it is no SynthDef file: {bad}") from None
    messages = []
    for source in sources:
        session.put_off.pop(source.name, None)
        if session.live and source.name.startswith(SYSTEM):
            session.put_off[source.name] = source
        else:
            messages += accepted(session, source)
    return messages


def accepted(session, source):
    """The commands here for a definition."""
    taps, scopes, unheard = [], [], []
    if session.live:
        source, taps, unheard = heard(session, source)
        source, scopes, unshown = shown(session, source)
        unheard += unshown
    found = session.definition(source)
    found.reasons = [*unheard, *(each for each in found.reasons if each not in unheard)]
    other = twin(session, found)
    reasons = found.reasons or ([other] if other else [])
    session.tally.definition(source.name, bool(reasons))
    session.refusals += [f"/d_recv {source.name}: {each}" for each in reasons[:session.most_reasons]]
    if not other:
        session.keep(found)
        session.taps[source.name], session.waves[source.name] = taps, scopes
    return [Message("/d_recv", [found.text.encode()])] if found.text and not reasons else []


def await_definition(session, name):
    """Sends a definition first that was put off, and that a synth needs now."""
    source = session.put_off.pop(name, None)
    if source:
        session.first += accepted(session, source)


def twin(session, definition):
    """Why a definition is refused that would have the name of another one here, or None."""
    for other in [*session.definitions.values(), *session.variants.values()]:
        if other.name == definition.name and other.source.name != definition.source.name:
            return f"{other.source.name} is called {other.name} here, as it would be"
    return None


def d_recv(session, data):
    refused = len(session.refusals)
    messages = received(session, data)
    return Asked(messages, done_as("/d_recv")) if messages or len(session.refusals) == refused else []


def loaded(session, address, paths):
    """The definitions of files; a path that can't be read is refused."""
    messages = []
    for path in paths:
        try:
            messages += received(session, Path(path).read_bytes())
        except OSError as wrong:
            raise Refused(f"{path}: {wrong.strerror}") from None
    return Asked(messages, done_as(address)) if messages else []


def d_load(session, path):
    return loaded(session, "/d_load", sorted(glob(path)) or [path])


def d_load_dir(session, path):
    if not Path(path).is_dir():
        raise Refused(f"{path} is no folder")
    return loaded(session, "/d_loadDir", sorted(Path(path).glob("*.scsyndef")))


def d_free(session, names):
    """Names that no definition has are ignored, as scsynth does."""
    known = [name for name in names if name in session.definitions or name in session.put_off]
    here = [each.name for name in known for each in session.forget(name) if not each.refused]

    def answer(gateway, _client, replies):
        for name in known:
            gateway.notify(Message("/d_removed", [name]))
        return replies
    return Asked([Message("/d_free", here)] if here else [], answer)


def d_free_all(session):
    return d_free(session, [*session.definitions, *session.put_off])


# The server.

def notify(session, flag, wanted):
    """The gateway keeps who is registered; a score asks the server."""
    def answer(gateway, client, _replies):
        return [gateway.register(client, wanted) if flag else gateway.leave(client)]
    return Asked([], answer) if session.live else [Message("/notify", [flag])]


def clear_sched(_session):
    def answer(gateway, _client, replies):
        gateway.cleared()
        return replies
    return Asked([Message("/clearSched", [])], answer)


def sync(session, number):
    """What is asked through the gateway is answered in its order, so that nothing must be sent for it."""
    def answer(_gateway, _client, _replies):
        return [Message("/synced", [number])]
    return Asked([], answer) if session.live else [Message("/sync", [number])]


def version(_session):
    return Asked([], lambda _gateway, _client, _replies: [Message("/version.reply", VERSION)])


def dump_osc(session, code):
    session.dumps = code
    return []


def error(session, mode):
    session.error(mode)
    return []


def nothing(_session):
    """Of a command that has no effect on sound."""
    return []


SERVER = [
    turned("/notify", 1, "flag:int=0 client:int=-1", notify),
    same("/status", 2),
    same("/quit", 3),
    left_out("/cmd", 4, "there are no plug-ins whose commands it could send"),
    turned("/d_recv", 5, "blob", d_recv, carries=True),
    turned("/d_load", 6, "path:text", d_load, carries=True),
    turned("/d_loadDir", 7, "path:text", d_load_dir, carries=True),
    turned("/d_freeAll", 8, "", d_free_all),
    turned("/dumpOSC", 39, "code:int=1", dump_osc),
    turned("/clearSched", 51, "", clear_sched),
    turned("/sync", 52, "int=0", sync),
    turned("/d_free", 53, "(text)..", d_free),
    turned("/error", 58, "mode:int=1", error),
    turned("/version", 64, "", version),
    turned("/none", 0, "", nothing),
    turned("/nrt_end", None, "", nothing),
]
