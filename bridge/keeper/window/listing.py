"""The page without JavaScript: all that is known as lists, which one reloads, and a form."""
import math
import time
from html import escape

from .meters import FULL
from .snapshot import GROUP, PARALLEL, PAUSED


def decibels(peak):
    """A peak in decibels of the greatest sample."""
    return f"{20 * math.log10(peak / FULL):.1f} dB" if peak else "silent"


def at(seconds):
    return time.strftime("%H:%M:%S", time.localtime(seconds))


def cell(what, kind):
    """A cell of a table; the kind has its attributes."""
    return f"<{kind}>{escape(str(what))}</{kind.partition(' ')[0]}>"


def row(first, *others):
    return "<tr>" + cell(first, "th scope=row") + "".join(cell(each, "td") for each in others) + "</tr>"


def table(heads, rows, none):
    """A table, or a line that says that there is nothing."""
    if not rows:
        return f"<p>{escape(none)}</p>"
    head = "".join(cell(each, "th scope=col") for each in heads)
    return f"<table><thead><tr>{head}</tr></thead><tbody>{''.join(row(*each) for each in rows)}</tbody></table>"


def control(name, value, _measure, bus):
    """A control as a text."""
    number = "–" if value is None else f"{value:g}" if isinstance(value, float) else value
    return f"{name} {number}" + (f" (follows {bus})" if bus else "")


def node(picture, number, depth, flags):
    """An item of the list of nodes."""
    if flags & GROUP:
        text = f"{number} {'parallel group' if flags & PARALLEL else 'group'}"
    elif number in picture.synths:
        name, controls = picture.shown(number)
        text = f"{number} {name}: " + ", ".join(control(*each) for each in controls)
    else:
        text = f"{number} synth"
    text += " (paused)" if flags & PAUSED else ""
    return f'<li class="depth{min(depth, 8)}">{escape(text)}</li>'


def nodes(picture):
    shape = picture.shape
    items = [node(picture, *each) for each in zip(shape[::3], shape[1::3], shape[2::3])]
    return f"<ul class=nodes>{''.join(items)}</ul>" if items else "<p>Nothing plays.</p>"


def form(token):
    """A form for each thing that can be done."""
    hidden = f'<input type=hidden name=token value="{escape(token)}"><input type=hidden name=plain value=1>'
    choices = "".join(f'<option value={what}>{text}</option>' for what, text in (
        ("free", "free it"), ("pause", "pause it"), ("run", "let it run"), ("set", "set a control")))
    return (f'<form method=post action=/do>{hidden}<p><label>Node <input name=node inputmode=numeric required></label> '
            f'<label>What <select name=what>{choices}</select></label> <label>Control <input name=control></label> '
            '<label>Value <input name=value></label> <button>Do it</button></p></form>'
            f'<form method=post action=/do>{hidden}<input type=hidden name=what value=off>'
            '<p><button class=off>All off</button></p></form>')


def meters(picture):
    levels = picture.parts.get("meters") or []
    rows = [(number, *map(decibels, peaks)) for number, peaks in enumerate(levels)]
    return table(("Channel", "Now", "Peak", "Greatest"), rows, "There is no sound yet.")


def session(picture):
    """What is known of the server."""
    state = picture.parts.get("state")
    if not state:
        return "<p>The keeper has said nothing yet.</p>"
    restarts, last = state["restarts"]
    memory = state["memory"]
    rows = [
        ("Server", "plays" if state["plays"] else "is being started"),
        ("Restarts", f"{restarts}" + (f", the last one at {at(last)}" if last else "")),
        ("Restarts of the player", state["players"][0]),
        ("Load", f"{state['load'][0]:.0f} %, at most {state['load'][1]:.0f} % in the last minute"),
        ("Late blocks", f"{state['late'][0]}, the worst one by {state['late'][1]:.1f} ms"),
        ("Memory", f"server {memory['server'] >> 20} MiB, keeper {memory['keeper'] >> 20} MiB, window "
                   f"{memory['window'] >> 20} MiB; buffers {memory['words']} of {memory['most']} words"),
        ("Bundles that wait", state["waiting"]),
    ]
    return table(("What", "How much"), rows, "")


def plan(picture):
    """The plan as a text."""
    found = picture.parts.get("plan")
    if not found:
        return "<p>There is no plan yet.</p>"
    chain = " ".join(map(str, found["chain"]))
    lines = [f"{found['synths']} synths with {found['units']} units; the longest chain has {found['cost']}: {chain}"]
    lines += [f"In parallel group {group} members {first} and {second} clash on {what}"
              for group, first, second, what in found["clashes"]]
    return "".join(f"<p>{escape(each)}</p>" for each in lines)


def used(picture):
    rows = [(name, *(f"{count}: {' '.join(map(str, ids))}" if count else "–" for count, ids in users))
            for name, *users in picture.parts.get("users", [])]
    return table(("Bus or buffer", "Written by", "Mixed by", "Read by"), rows, "None is in use.")


def lines(picture):
    refused = [(at(now), what, count) for now, what, count in picture.parts.get("refused", [])]
    return table(("Last", "What was refused", "Times"), refused, "Nothing was refused.")


def happened(picture):
    return table(("When", "What"), [(at(now), line) for now, line in picture.parts.get("events", [])], "Nothing yet.")


def clients(picture):
    state = picture.parts.get("state", {"clients": []})
    return table(("Number", "Client"), state["clients"], "None is registered.")


SECTIONS = [
    ("Levels", meters), ("Session", session), ("Nodes", nodes), ("Plan", plan), ("Buses and buffers", used),
    ("Clients", clients), ("Refused commands", lines), ("What happened", happened),
]


def listing(picture, token, said):
    """The page."""
    parts = [f"<h2>{title}</h2>{make(picture)}" for title, make in SECTIONS]
    answer = f'<p role=status class=said>{escape(said)}</p>' if said else ""
    head = ('<!doctype html><html lang=en><meta charset=utf-8><title>snova: the session as a list</title>'
            '<meta name=viewport content="width=device-width"><link rel=icon href="data:,">'
            '<link rel=stylesheet href=/window.css>')
    return (f'{head}<body class=list><main><h1>snova</h1><p>{at(time.time())}. <a href=/list>Reload</a>, or see '
            f'<a href=/>the page that follows the session</a>.</p>{answer}<h2>Do something</h2>{form(token)}'
            f'{"".join(parts)}</main>')
