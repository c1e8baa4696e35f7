"""How much of a score plays: what `convert.py` reports at its end."""
from collections import Counter

# So many names stand in a line.
MOST_NAMES = 6


def several(names):
    """Names in a row, as far as they fit on a line."""
    over = len(names) - MOST_NAMES
    shown = names if over <= 0 else [*names[:MOST_NAMES], f"{over} more"]
    return " and ".join(filter(None, [", ".join(shown[:-1]), *shown[-1:]])) or "nothing"


def counted(count, word):
    return f"{count} {word}{'' if count == 1 else 's'}"


class Tally:
    """The notes that were asked for, those that play, and the definitions.

    `lost` are the notes that lack a definition, and `left` the other commands on nodes that weren't made for that.
    """

    def __init__(self):
        self.asked, self.played = 0, 0
        self.came, self.refused = set(), set()
        self.lost, self.left = Counter(), Counter()

    def definition(self, name, is_refused):
        """A definition came."""
        self.came.add(name)
        (self.refused.add if is_refused else self.refused.discard)(name)

    def needing(self, name):
        """What a definition is needed for that doesn't play, in brackets."""
        needs = [counted(count, word) for count, word in
                 ((self.lost[name], "note"), (self.left[name], "other command")) if count]
        verb = "needs" if self.lost[name] + self.left[name] == 1 else "need"
        return f" ({' and '.join(needs)} {verb} it)" if needs else ""

    def absent(self):
        """The names of definitions that notes need and that didn't come."""
        return [name for name in self.lost if name not in self.refused]

    def missing(self):
        """A line for each of them."""
        return [f"/s_new {name}: the definition {name} didn't come{self.needing(name)}" for name in self.absent()]

    def line(self, differing):
        """All in a line; `differing` are the names of what will sound otherwise."""
        count = len(self.refused)
        return (f"{self.played} of {self.asked} notes play, {count} of {len(self.came)} definitions "
                f"{'is' if count == 1 else 'are'} refused, and {several(differing)} will sound otherwise")
