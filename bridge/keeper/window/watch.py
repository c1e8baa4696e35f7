"""What the keeper notes for its window, so that it must look only at what changed."""
from collections import deque

from ..recall import Recall

NODES = {"/n_go", "/n_move", "/n_end", "/n_on", "/n_off"}
SETS = {"/n_set", "/n_setn", "/n_fill", "/n_map"}
DEFINITIONS = {"/d_recv", "/d_free"}
# So many pieces of sound and so many lines of the log may wait; of more the window hears nothing.
MOST_PIECES, MOST_LINES, MOST_NOTICES = 1024, 256, 64
# So many characters of a line are shown.
LONGEST = 300


class Watched(Recall):
    """A recall that notes which nodes were touched, whether the tree or the definitions changed, and what the server
    notified of."""

    def __init__(self, *given):
        self.notices = deque(maxlen=MOST_NOTICES)
        self.forget()
        super().__init__(*given)

    def forget(self):
        """Nothing has been seen yet: all there is counts as new."""
        self.touched, self.is_moved, self.is_defined = {0}, True, True

    def hear(self, message):
        super().hear(message)
        if message.address in NODES:
            self.touched.add(message.arguments[0])
            self.is_moved = True
        if message.address != "/tr":
            self.notices.append([message.address, *message.arguments])

    def follow(self, messages):
        super().follow(messages)
        for message in messages:
            if message.address in SETS:
                self.touched.add(message.arguments[0])
            elif message.address in DEFINITIONS:
                self.is_defined = True

    def restored(self, with_synths):
        found = super().restored(with_synths)
        self.forget()
        return found

    def take_touched(self, most):
        """Ids of synths that were touched or are below groups that were, at most so many; they are forgotten."""
        found = []
        while self.touched and len(found) < most:
            number = self.touched.pop()
            if number in self.tree.synths:
                found.append(number)
            elif number in self.tree.children:
                self.touched.update(each for each, _ in self.tree.in_order(number) if each in self.tree.synths)
        return found


class Tap:
    """Hears the sound as it passes, in the thread that hands it over, which never waits for it. What it hears comes
    out in whole frames."""

    def __init__(self, wide):
        self.wide, self.pieces = wide, deque()
        self.start()

    def start(self):
        """The sound starts at a frame."""
        self.count, self.wanted, self.rest = 0, 0, b""
        self.pieces.clear()

    def __call__(self, data):
        """Hears a piece of sound. It is lost for the window if too much waits there."""
        if len(self.pieces) < MOST_PIECES:
            self.pieces.append((self.count, data))
        self.count += len(data)

    def take(self):
        """What was heard since the last time, in whole frames; a frame of which a part was lost isn't there."""
        found = bytearray(self.rest)
        while self.pieces:
            begin, data = self.pieces.popleft()
            end = begin + len(data)
            if begin != self.wanted:
                del found[len(found) - len(found) % self.wide:]
                data = data[-begin % self.wide:]
            found += data
            self.wanted = end
        whole = len(found) - len(found) % self.wide
        self.rest = bytes(found[whole:])
        return bytes(found[:whole])


class Lines:
    """The lines of the log that the window shows: what happened, and what was refused and how often."""

    def __init__(self, most_events=40, most_refused=40):
        self.came, self.most_refused = deque(maxlen=MOST_LINES), most_refused
        self.events, self.refused = deque(maxlen=most_events), {}

    def __call__(self, now, line):
        """Hears a line, in any thread."""
        self.came.append((now, line[:LONGEST]))

    def sort(self):
        """Sorts the lines that came, and answers whether any did."""
        any_came = bool(self.came)
        while self.came:
            now, line = self.came.popleft()
            kind, is_kind, what = line.partition(": ")
            if is_kind and kind in ("refused", "failed", "dropped"):
                count = self.refused.pop(what, (0, 0))[1] + 1
                self.refused[what] = now, count
                if len(self.refused) > self.most_refused:
                    del self.refused[next(iter(self.refused))]
            else:
                self.events.append((now, line))
        return any_came

    def lists(self):
        """The events, and what was refused with its last time and how often, the last ones first."""
        refused = [[now, what, count] for what, (now, count) in reversed(self.refused.items())]
        return list(reversed(self.events)), refused
