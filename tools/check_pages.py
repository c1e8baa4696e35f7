#!/usr/bin/env python3
"""Compares docs/UNITS.md and docs/COMMANDS.md with the code, says each difference, and exits with 1 if there is one.

    python3 tools/check_pages.py

Of units: their names, inputs and outputs, which inputs are numbers of buses or buffers and which literals, the words of state and the
done action. Of commands: their addresses, which arguments each takes and which it refuses, the reasons of `/fail` in their order, and
whether the line of each is a text of one packet that the code takes.
"""
import itertools
import re
import sys
from pathlib import Path

from lib import specs as reading
from lib.specs import Con, Int, Specs, Stuck, Thunk, World, apply, forced, listed, thunk

ROOT = Path(__file__).resolve().parent.parent
sys.path.append(str(ROOT / "outside"))

import osc  # noqa: E402
import scores  # noqa: E402

UNITS, COMMANDS = ROOT / "docs/UNITS.md", ROOT / "docs/COMMANDS.md"
WRONG = []
# The place of a move is never in a synth, if the node goes just before or after its target.
NEVER = {"/n_before": {"not a group"}, "/n_after": {"not a group"}}
BEFORE_ALL = {"unknown command", "argument type", "arguments"}
SAMPLES = {"int": Int(1), "string": "a", "blob": "b"}
KINDS = {"i": "int", "s": "string", "b": "blob"}


def wrong(text):
    WRONG.append(text)


def compare(what, page, code):
    if page != code:
        wrong(f"{what}: the page says {page}, the code {code}")


# ---- units

def rows_of_page(text):
    """The rows of the tables of units: name, inputs, outputs, words."""
    for line in text.splitlines():
        cells = [cell.strip() for cell in line.strip("|").split("|")]
        if line.startswith("|") and len(cells) == 5 and cells[0] not in ("Unit", "---"):
            yield cells[:4]


def unit_of_page(inputs, outputs, words):
    """What a row of the page says, in the form of `unit_of_code`."""
    marks, signals, bank, done = [], 0, None, None
    for name, mark, measure in re.findall(r"`([a-z0-9]+)([#!]?|\.\.)`([^,|]*)", inputs):
        if mark == "..":
            signals = 8
        elif mark == "#":
            marks.append("Index")
            bank = measure.strip().removesuffix(" bus")
        elif mark == "!":
            marks.append("Longest" if measure.strip() == "ms" else "Constant")
            done = len(marks) - 1 if measure.strip() == "done action" else done
        else:
            marks.append("Signal")
    return {"inputs": marks, "signals": signals, "outputs": outputs, "words": words, "bank": bank, "done": done}


def units_of_code():
    table = (ROOT / "crates/sn_def/src/table.rt").read_text()
    step = r"\w+!\(\s*(?:\w+(?:\(\d\))?,\s*)?"
    row = re.compile(rf'((?:{step})*)row!\(\w+ b"([^"]+)" \[([^\]]*)\] => (\d), (\w+)(?:\((\d+)\))?\)')
    for more, name, marks, outputs, words, count in row.findall(table):
        marks = [mark for mark in marks.split(", ") if mark]
        use = re.search(r"(reading|writing)!\(\s*(\w+)", more)
        done = re.search(r"Input\((\d)", more)
        yield name, {
            "inputs": marks, "signals": 8 if use and use[1] == "writing" else 0,
            "outputs": "1 to 8" if use and use[1] == "reading" else outputs,
            "words": count or {"Delay": "D + 2", "Comb": "E + 2", "DampedComb": "E + 3"}[words],
            "bank": use[2].lower() if use else "buffer" if "Index" in marks else None, "done": int(done[1]) if done else None,
        }


def check_units():
    page = [(cells[0], unit_of_page(*cells[1:])) for cells in rows_of_page(UNITS.read_text())]
    code = dict(units_of_code())
    kinds = re.findall(r"^    (\w+),$", (ROOT / "crates/sn_def/src/kind.rt").read_text(), re.M)
    compare("how many units there are", len(code), len(kinds))
    compare("the units", sorted(name for name, _ in page), sorted(code))
    for name, unit in page:
        for what, said in unit.items():
            compare(f"{name}, {what}", said, code.get(name, {}).get(what))
    return len(page)


# ---- commands

def words_of_page(text):
    """Kinds and range of each word of a form."""
    words = {}
    for names, kinds, scope in re.findall(r"^\| ([a-z ]+) \| ((?:int|string|blob)[a-z ]*?) \|([^|]*)\|", text, re.M):
        for name in names.split():
            bounds = re.match(r"(-?\d+) (?:or more|to (\d+))", scope.strip())
            least, most = (int(bounds.group(1)), bounds.group(2)) if bounds else (None, None)
            words[name] = (kinds.split(" or "), least, None if most is None else int(most))
    return words


def commands_of_page(text):
    """Of each form of a command its words, its line and its reasons."""
    for address, form, body in re.findall(r"^### `(/\w+)`(.*)\n((?:(?!#).*\n)*)", text, re.M):
        line = re.search(r"^- Line: `(.*)`$", body, re.M)
        refused = re.search(r"^- Refused: (.*(?:\n  .*)*)$", body, re.M)
        yield address, form.split(), line and line.group(1), re.findall(r"`([^`]+)`", refused.group(1)) if refused else []


def parts(form):
    """A form as a list of words, ("some", form), ("maybe", form) and ("values",)."""
    text = re.sub(r"([()\[\]])", r" \1 ", " ".join(form)).split()
    found = []
    while text:
        word = text.pop(0)
        if word in "([":
            inner, depth = [], 1
            while True:
                each = text.pop(0)
                depth += (each in ("(", "[")) - (each in (")", "]"))
                if depth == 0:
                    break
                inner.append(each)
            if word == "(":
                text.pop(0)
            found.append(("some" if word == "(" else "maybe", parts(inner)))
        elif word == "..":
            found.append(("some", [found.pop()]))
        elif word == "value..":
            found.append(("values",))
        elif word.endswith(".."):
            found.append(("some", [word[:-2]]))
        else:
            found.append(word)
    return found


def spelled(form, least=1):
    """Lists of words that a form allows, with at most two repetitions; a count is 1, and so it has one value."""
    if not form:
        return [[]]
    first, rest = form[0], spelled(form[1:], least)
    if first == ("values",):
        heads = [["value"]]
    elif isinstance(first, str):
        heads = [[first]]
    else:
        once = spelled(first[1])
        more = [[]] if first[0] == "maybe" or least == 0 else []
        heads = more + once + ([a + b for a in once for b in once] if first[0] == "some" else [])
    return [head + more for head in heads for more in rest]


def fitted(names, given):
    """Arguments with 4 bytes of samples for each channel of each frame."""
    if "samples" not in names:
        return given
    at, value = names.index("samples"), {name: value for name, (_, value) in zip(names, given)}
    return (*given[:at], ("blob", "s" * (4 * max(0, value["frames"].of * value["channels"].of))), *given[at + 1:])


def arguments_of(form, words, least=1):
    """Arguments that a form allows, as pairs of a kind and a value; with `least` 0 also without repetitions."""
    for names in spelled(form, least):
        for kinds in itertools.product(*(words[name][0] for name in names)):
            yield fitted(names, tuple((kind, least_of(name, words) if kind == "int" else SAMPLES[kind]) for kind, name in zip(kinds, names)))


def least_of(name, words):
    kinds, least, most = words[name]
    return Int(1) if most is None or most >= 1 else Int(most)


def others(given):
    """Arguments one step beside: one of another kind, one less, one more."""
    for at, (kind, _) in enumerate(given):
        for other in SAMPLES:
            if other != kind:
                yield (*given[:at], (other, SAMPLES[other]), *given[at + 1:])
        yield (*given[:at], *given[at + 1:])
    for kind, value in SAMPLES.items():
        yield (*given, (kind, value))


def bounds_of(form, words):
    """Arguments with one word at an end of its range or beside it, and whether they are allowed."""
    for names in spelled(form):
        for at, name in enumerate(names):
            kinds, least, most = words[name]
            values = [(least, True), (least - 1, False)] if least is not None else []
            values += [(most, True), (most + 1, False)] if most is not None else []
            for value, allowed in values:
                if name == "count" and value == 0 and names[at + 1:at + 2] == ["value"] and ("values",) in flat(form):
                    continue
                plain = [(words[each][0][0], least_of(each, words)) for each in names]
                plain = [(kind, of if kind == "int" else SAMPLES[kind]) for kind, of in plain]
                yield fitted(names, (*plain[:at], ("int", Int(value)), *plain[at + 1:])), allowed


def flat(form):
    for part in form:
        if isinstance(part, tuple) and len(part) == 2:
            yield from flat(part[1])
        else:
            yield part


def plain_message(blob):
    """What each blob is taken for: a message that carries nothing."""
    return Con("Ok", [thunk(Con("message", [thunk({"address": thunk("/x"), "body": thunk(Con("bare"))})]))])


class Code:
    """The rows of commands as specs/ of `sn_world` define them."""

    def __init__(self):
        self.specs = Specs(ROOT, {"read": plain_message})
        self.module = self.specs.module("sn_world", "Commands")
        self.called = self.specs.module("sn_world", "Addresses")
        failing = (ROOT / "crates/sn_reply/specs/Failing.antt").read_text()
        self.texts = dict(re.findall(r'^reason_text \(?Reasons\.(\w+)(?: line\))? = (?:codes "([^"]+)"|definition_line line)', failing, re.M))
        self.texts["DefinitionLine"] = "definition line N"

    def addresses(self):
        return re.findall(r'codes "(/\w+)"', self.called.clauses["every_command"][0])

    def command(self, address):
        """The row of a command, and how it is applied."""
        for finder, row in (("node_command_of", "node_row"), ("server_command_of", "whole_row")):
            found = apply(self.called.value(finder), thunk(address))
            if found.name == "Some":
                return forced(found.args[0]), row
        raise KeyError(address)

    def accepts(self, address, given):
        """Whether arguments are those of a command: all but those that are refused as `arguments`."""
        command, row = self.command(address)
        arguments = listed([Con({"int": "int", "string": "string", "blob": "blob"}[kind], [thunk(value)]) for kind, value in given])
        try:
            run = apply(apply(self.module.value(row), thunk(command)), thunk(0))
            answer = apply(apply(run, thunk(arguments)), thunk(World()))
            return not (isinstance(answer, Con) and answer.name == "Err" and forced(answer.args[0]).name == "Arguments")
        except Stuck:
            return True

    def reasons(self, address):
        """The texts of the reasons against a command, in their order, but for those that are judged before all."""
        command, row = self.command(address)
        names, seen = [], set()
        for clause in self.module.clauses["node_row" if row == "node_row" else "server_row"]:
            if re.match(rf"\w+ \(?\w+\.{command.name}[ )=]", clause):
                words = reading.tokens(clause.partition(" = ")[2])
                follows = words[2] if len(words) > 2 and words[1] == "." else None
                reading.cite(self.module, words[0], follows, set(), names, seen)
        texts = [self.texts[name] for name in dict.fromkeys(names)]
        return [text for text in texts if text not in BEFORE_ALL | NEVER.get(address, set())]


def shown(given):
    return " ".join(str(value.of) if isinstance(value, Int) else kind for kind, value in given) or "no arguments"


def check_line(code, address, line):
    stream, count = scores.scored(f"{line}\n".encode())
    if stream is None or count != 1:
        wrong(f"{address}: its line is no text of one packet")
        return
    message = osc.packets_of(stream)[0]
    given = [(KINDS[tag], Int(value) if tag == "i" else value.decode("latin-1")) for tag, value in message.body]
    if message.address.decode() != address or not code.accepts(address, given):
        wrong(f"{address}: the code refuses its line")


def check_command(code, words, address, forms, lines, reasons):
    """A command, which may have several forms."""
    compare(f"{address}, reasons", reasons, code.reasons(address))
    for line in lines:
        check_line(code, address, line)
    forms = [parts(form) for form in forms]
    allowed = [given for form in forms for given in arguments_of(form, words)]
    kinds = {tuple(kind for kind, _ in given) for given in allowed}
    for given in allowed:
        if not code.accepts(address, given):
            wrong(f"{address} {shown(given)}: the page allows it, the code refuses it")
    near = [each for one in allowed for each in others(one)] + [given for form in forms for given in arguments_of(form, words, 0)]
    for given in {tuple(kind for kind, _ in each): each for each in near}.values():
        if tuple(kind for kind, _ in given) not in kinds and code.accepts(address, given) and not any(is_longer(form, given) for form in forms):
            wrong(f"{address} {shown(given)}: the code takes it, the page doesn't say so")
    for given, fits in [each for form in forms for each in bounds_of(form, words)]:
        if code.accepts(address, given) != fits:
            wrong(f"{address} {shown(given)}: the page {'allows' if fits else 'refuses'} it, the code doesn't")


def is_longer(form, given):
    """Whether arguments may be a third repetition, which isn't spelled out."""
    return any(isinstance(part, tuple) and part[0] == "some" for part in all_parts(form)) and len(given) > most_of(form)


def all_parts(form):
    for part in form:
        yield part
        if isinstance(part, tuple) and len(part) == 2:
            yield from all_parts(part[1])


def most_of(form):
    return max(len(names) for names in spelled(form))


def check_commands():
    text = COMMANDS.read_text()
    code, words = Code(), words_of_page(text)
    page = {}
    for address, form, line, reasons in commands_of_page(text):
        forms, lines, all_reasons = page.setdefault(address, ([], [], []))
        forms.append(form)
        lines += [line] if line or not lines else []
        all_reasons += [reason for reason in reasons if reason not in all_reasons]
    compare("the commands", sorted(page), sorted(code.addresses()))
    for address, found in page.items():
        check_command(code, words, address, *found)
    variants = re.findall(r"^    (\w+)(?:\(u32\))?,$", (ROOT / "crates/sn_reply/src/reason.rt").read_text(), re.M)
    listed_reasons = re.findall(r"^\| `([^`]+)` \| ", text[text.index("## All reasons"):], re.M)
    compare("all reasons", sorted(listed_reasons), sorted(code.texts.get(name) for name in variants))
    for path in sorted(ROOT.glob("crates/sn_*/specs/*.antt")):
        for address in re.findall(r'codes "(/[\w.]+)"', path.read_text()):
            if f"`{address}`" not in text:
                wrong(f"{address} of {path.relative_to(ROOT)} isn't on the page of commands")
    return len(page)


def main():
    units, commands = check_units(), check_commands()
    for line in WRONG:
        print(line)
    if WRONG:
        return 1
    print(f"{units} units and {commands} commands are as the code has them")
    return 0


if __name__ == "__main__":
    sys.exit(main())
