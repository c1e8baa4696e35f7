"""The table of commands that ask about nodes."""
from .commands import Asked, each_same, left_out, same, turned
from .node_commands import numbered
from .osc import Message


class Tree:
    """What stands below a group: a reply to /g_queryTree, and the values of the synths in it."""

    def __init__(self, session, reply, values):
        self.session, self.values = session, values
        self.group, self.children, *self.rest = reply.arguments[1:]

    def nodes(self):
        """Each node in the order of the walk: how deep it stands, its id, and how many children or which definition."""
        rest, open_groups = iter(self.rest), [self.children]
        for number in rest:
            while open_groups and open_groups[-1] == 0:
                open_groups.pop()
            if open_groups:
                open_groups[-1] -= 1
            depth, count = len(open_groups), next(rest)
            if count == -1:
                yield depth, number, next(rest)
            else:
                open_groups.append(count)
                yield depth, number, count

    def controls(self, number):
        """Of a synth the names of its controls, or their numbers, and their values or the buses that they follow."""
        node = self.session.nodes.by_id.get(number)
        if node is None or node.definition is None:
            return []
        names = {at: name for name, at in node.definition.source.names}
        found = []
        for at, control in enumerate(node.definition.controls):
            value = self.values.get((number, at))
            if value is not None:
                found.append((names.get(at, at), node.maps.get(control, value)))
        return found

    def reply(self):
        """The reply to /g_queryTree with the flag 1."""
        found = [1, self.group, self.children]
        for _, number, what in self.nodes():
            found += [number, what] if isinstance(what, int) else [number, -1, what]
            if not isinstance(what, int):
                pairs = self.controls(number)
                found += [len(pairs), *(each for pair in pairs for each in pair)]
        return Message("/g_queryTree.reply", found)

    def text(self, with_controls):
        """The lines that scsynth prints for /g_dumpTree."""
        client = self.session.nodes.ids.of_client
        yield f"NODE TREE Group {client(self.group)}"
        for depth, number, what in self.nodes():
            yield "   " * depth + f"{client(number)} " + ("group" if isinstance(what, int) else what)
            pairs = self.controls(number) if with_controls and not isinstance(what, int) else []
            if pairs:
                values = [(name, f"{value:g}" if isinstance(value, float) else value) for name, value in pairs]
                shown = (f"{name}: {value}" if isinstance(name, str) else value for name, value in values)
                yield "   " * depth + "  " + " ".join(shown)


def questions(session, group):
    """What asks for the tree of a group, with the values of all controls in it."""
    below = [synth for synth in session.nodes.synths(group) if synth.definition.controls]
    asked = [Message("/s_get", [synth.number, *range(len(synth.definition.controls))]) for synth in below]
    return [Message("/g_queryTree", [group, 0]), *asked]


def trees(session, replies):
    """The trees in replies, and the failures among them."""
    values = {(each.arguments[0], at): value for each in replies if each.address == "/n_set"
              for at, value in zip(each.arguments[1::2], each.arguments[2::2])}
    found = [Tree(session, each, values) for each in replies if each.address == "/g_queryTree.reply"]
    return found, [each for each in replies if each.address == "/fail" and each.arguments[0] != "/s_get"]


def g_query_tree(session, pairs):
    if not any(flag for _, flag in pairs):
        return [Message("/g_queryTree", [group, 0]) for group, _ in pairs]

    def answer(_gateway, _client, replies):
        found, others = trees(session, replies)
        plain = {group for group, flag in pairs if not flag}
        return [*(Message("/g_queryTree.reply", [0, tree.group, tree.children, *tree.rest]) if tree.group in plain
                  else tree.reply() for tree in found), *others]
    return Asked([each for group, _ in pairs for each in questions(session, group)], answer)


def g_dump_tree(session, pairs):
    flags = dict(pairs)

    def answer(_gateway, _client, replies):
        found, others = trees(session, replies)
        for tree in found:
            print(*tree.text(flags.get(tree.group)), sep="\n", flush=True)
        return others
    return Asked([each for group, _ in pairs for each in questions(session, group)], answer)


def s_getn(session, number, pairs):
    """Asks for each control of a run by its number."""
    synths = session.nodes.synths(number)[:1]
    runs = [(given, [numbered(synths, given, offset) for offset in range(count)]) for given, count in pairs]
    asked = [at for _, run in runs for at in run if at is not None]

    def answer(_gateway, _client, replies):
        found = []
        for reply in replies:
            values = dict(zip(reply.arguments[1::2], reply.arguments[2::2]))
            got = [(given, [values[at] for at in run if at in values]) for given, run in runs]
            parts = [each for given, run in got for each in (given, len(run), *run)]
            found.append(Message("/n_setn", [number, *parts]) if reply.address == "/n_set" else reply)
        return found
    return Asked([Message("/s_get", [number, *asked])], answer)


QUERIES = [
    left_out("/n_trace", 10, "the values inside a synth can't be asked for here"),
    same("/s_get", 44, "node (control).."),
    turned("/s_getn", 45, "node (control count)..", s_getn),
    each_same("/n_query", 46, "(node).."),
    turned("/g_dumpTree", 56, "(node int)..", g_dump_tree),
    turned("/g_queryTree", 57, "(node int)..", g_query_tree),
]
