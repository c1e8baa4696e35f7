"""What the window knows of a session, and what of it is new for a browser."""
import time

from ..stores import MOST_DEFINITIONS
from .drawing import drawing, users
from .frames import SOUND
from .meters import Meters
from .plan import Plan, Text

# A plan is made again when something changed, but not before so many times as long as the last one took.
REST, LEAST_REST = 8.0, 0.5
MOST_NOTICES, MOST_USERS = 12, 256


class Picture:
    """What the keeper told. Each part has the number of the last change; nodes have one each."""

    def __init__(self):
        self.settings, self.meters = {}, None
        self.shape, self.synths, self.texts, self.answers = [], {}, {}, {}
        self.parts, self.changes, self.change = {}, {}, 1
        self.plan, self.is_new, self.next_plan = None, False, 0.0
        self.notices = []

    def put(self, part, what):
        """A part of the picture has changed."""
        self.change += 1
        self.parts[part], self.changes[part] = what, self.change

    # What the keeper tells.

    def take(self, kind, what):
        """Takes a frame of the keeper."""
        if kind == SOUND:
            self.meters.take(what)
            return
        for part, told in what.items():
            act = PARTS.get(part)
            if act:
                act(self, told)
            else:
                self.put(part, told)

    def set_up(self, settings):
        self.settings, self.meters = settings, Meters(settings["channels"], settings["bits"])
        self.put("settings", settings)

    def know_texts(self, texts):
        for name, text in texts.items():
            self.texts.pop(name, None)
            self.texts[name] = Text(text)
        for name in list(self.texts)[:-MOST_DEFINITIONS]:
            del self.texts[name]
        self.is_new = True

    def know_shape(self, shape):
        """The tree has changed; what is no longer there is forgotten."""
        self.shape, there = shape, set(shape[::3])
        self.synths = {number: known for number, known in self.synths.items() if number in there}
        self.is_new = True
        self.put("shape", shape)

    def know_synths(self, synths):
        self.change += 1
        for number, known in synths.items():
            self.synths.pop(int(number), None)
            self.synths[int(number)] = [*known, self.change]
        self.is_new = True

    def know_state(self, state):
        """Buffers count in the plan."""
        self.is_new = self.is_new or state["buffers"] != self.parts.get("state", state)["buffers"]
        self.put("state", state)

    def know_answers(self, answers):
        self.answers.update((key, (is_done, text)) for key, is_done, text in answers)

    def know_notices(self, notices):
        clashes = [each for each in notices if each[0] == "/p_clash"]
        self.notices = [*self.notices, *([time.time(), each] for each in clashes)][-MOST_NOTICES:]
        if clashes:
            self.put("told_clashes", self.notices)

    # What browsers are told.

    def tick(self, now):
        """Brings up to date what is worked out here."""
        levels = self.meters.levels(now) if self.meters else None
        if levels != self.parts.get("meters"):
            self.put("meters", levels)
        if self.is_new and now >= self.next_plan:
            self.is_new = False
            self.make_plan()
            took = time.monotonic() - now
            self.next_plan = now + max(LEAST_REST, REST * took)

    def make_plan(self):
        buffers = {number for number, *_ in self.parts.get("state", {}).get("buffers", [])}
        self.plan = Plan(self.shape, self.synths, self.texts, buffers)
        drawn, used = drawing(self.plan), users(self.plan)
        for part, found in ("plan", drawn), ("users", used[:MOST_USERS]):
            if self.parts.get(part) != found:
                self.put(part, found)

    def shown(self, number):
        """A synth as it is shown: its definition, and the name, the value, the measure and the bus of each control."""
        name, values, buses, there, _ = self.synths[number]
        if there:
            return there
        known = self.texts.get(name)
        defaults = known.controls if known else {}
        return [name, [[control, values.get(control, default), "", f"c{buses[control]}" if control in buses else None]
                       for control, default in defaults.items()]]

    def news(self, seen):
        """What changed after a change, and the number of the last one."""
        found = {part: what for part, what in self.parts.items() if self.changes[part] > seen}
        synths = {}
        for number in reversed(self.synths):
            if self.synths[number][-1] <= seen:
                break
            synths[number] = self.shown(number)
        if synths:
            found["synths"] = synths
        return found, self.change


PARTS = {
    "settings": Picture.set_up, "state": Picture.know_state, "texts": Picture.know_texts, "shape": Picture.know_shape,
    "synths": Picture.know_synths, "answers": Picture.know_answers, "notices": Picture.know_notices,
}
