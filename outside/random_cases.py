"""Streams by chance: nodes, controls, buses, buffers, units, texts at fault, bytes at fault, and members with lanes. A seed gives one stream."""
import random
import osc
from cases import at, stream, tagged
from definitions import UNITS
from server import entries_of
from texts import HEARD, TEXTS, definition

NAMES = ["dc", "wide", "mix", "ear", "swap", "link", "two", "ticks", "gone", "player", "stereo", "recorder", "reader", "writer", "between", "table", "hush", "ramp", "r0", "r1"]
VALUES = [0, 1, -1, 2, 3, 7, 63, 64, 65, 1000, -1000, 440000, 3000000, -5000000, 1 << 22, 1 << 23, 1 << 24, -(1 << 24), 3 << 24, 1 << 30, -(1 << 30), (1 << 31) - 1, -(1 << 31)]
CONTROLS = ["out", "amp", "in", "a", "b", "c", "freq", "gone", "still", "buf", "step", "trig", "start", "loop", "scale", "run", "x", "dur", "c0", "i0", "none", 0, 1, 2, 3, 9, -1]


class Chance(random.Random):
    def value(self):
        return self.choice(VALUES) if self.random() < 0.7 else self.randint(-70000, 70000)

    def bus(self):
        return self.choice([0, 0, 1, 1, 2, 16, 16, 17, 126, 127, 128, -1, 1023, 1024]) if self.random() < 0.8 else self.randint(0, 20)

    def small_bus(self):
        return self.choice([0, 1, 2, 3, 16, 1022, 1023]) if self.random() < 0.93 else self.choice([-1, -2, 1024, 1 << 30])

    def node(self):
        return self.randint(1, 11) if self.random() < 0.9 else self.choice([0, -1, -2, -3, 99])

    def new_id(self):
        return self.randint(1, 11) if self.random() < 0.8 else -1

    def group(self):
        return self.choice([0, 0, 1, 2, 3]) if self.random() < 0.9 else self.node()

    def action(self):
        return self.choice([0, 1, 1, 0, 1, 2, 3, 4]) if self.random() < 0.97 else self.choice([-1, 5])

    def flag(self):
        return self.choice([0, 1, 1, 1, -5])

    def control(self):
        return self.choice(CONTROLS)

    def count(self):
        return self.choice([0, 1, 2, 3, 5, 9]) if self.random() < 0.95 else self.choice([-1, 1025, 8193])

    def index(self):
        return self.choice([0, 1, 2, 5, 7, 9, 11, 39]) if self.random() < 0.95 else self.choice([-1, 4000])

    def buffer(self):
        return self.randint(0, 3) if self.random() < 0.95 else self.choice([-1, 1023, 1024])

    def run(self):
        values = [self.value() for _ in range(self.choice([0, 1, 2, 3, 5]))]
        return [len(values), *values]

    def name(self):
        return self.choice(NAMES)

    def control_value(self, name):
        return self.bus() if name in ("out", "in", "i0") else self.buffer() if name == "buf" else self.value()


# What stands behind an address: letters for calls of Chance, and what is repeated behind a |.
ROWS = {
    "/g_new": "|new_id action group", "/p_new": "|new_id action group", "/n_free": "|node", "/n_run": "|node flag",
    "/n_setn": "node|control run", "/n_fill": "node|control count value", "/n_map": "node|control small_bus", "/n_before": "|node node",
    "/n_after": "|node node", "/g_head": "|group node", "/g_tail": "|group node", "/n_order": "action group|node", "/g_freeAll": "|group",
    "/g_deepFree": "|group", "/n_query": "|node", "/s_get": "node|control", "/c_set": "|small_bus value", "/c_setn": "|small_bus run",
    "/c_fill": "|small_bus count value", "/c_get": "|small_bus", "/c_getn": "|small_bus count", "/b_free": "buffer", "/b_zero": "buffer",
    "/b_set": "buffer|index value", "/b_setn": "buffer|index run", "/b_fill": "buffer|index count value", "/b_get": "buffer|index",
    "/b_getn": "buffer|index count", "/b_query": "|buffer", "/d_free": "|name", "/sync": "value", "/status": "", "/notify": "flag",
}
OFTEN = ["/s_new"] * 20 + ["/n_set"] * 10 + ["/b_alloc"] * 3 + ["/g_queryTree"] * 2 + ["/n_map", "/g_new", "/p_new", "/p_new"] * 3


def given(chance, names):
    values = []
    for name in names.split():
        value = getattr(chance, name)()
        values += value if isinstance(value, list) else [value]
    return values


def pairs(chance):
    rows = [(c, chance.control_value(c)) for c in (chance.control() for _ in range(chance.choice([0, 1, 2, 3])))]
    return [value for row in rows for value in row]


def random_command(chance):
    address = chance.choice(OFTEN + list(ROWS))
    if address == "/s_new":
        return (address, chance.name(), chance.new_id(), chance.action(), chance.group(), *pairs(chance))
    if address == "/n_set":
        return (address, chance.node() if chance.random() < 0.8 else 0, *(pairs(chance) or ["a", 1]))
    if address == "/b_alloc":
        return (address, chance.buffer(), chance.choice([1, 5, 40, 64, 70]), *chance.choice([[], [1], [1], [2], [3]]), *completion(chance))
    if address == "/g_queryTree":
        return (address, chance.group(), 0)
    fixed, _, more = ROWS[address].partition("|")
    repeated = [given(chance, more) for _ in range(chance.choice([1, 1, 1, 2, 3]))] if more else []
    return (address, *given(chance, fixed), *[value for row in repeated for value in row])


def completion(chance):
    return [osc.message(*random_message(chance))] if chance.random() < 0.3 else []


def random_message(chance):
    message = random_command(chance)
    if message[0] in ("/b_free", "/b_zero"):
        message = (*message, *completion(chance))
    if chance.random() < 0.03:
        message = spoiled(chance, list(message))
    return message


def spoiled(chance, message):
    at = chance.randrange(1, len(message) + 1)
    message[at:at + chance.randint(0, 1)] = chance.choice([[], [7], ["a"], [b"/a\0\0"]])
    return tuple(message)


def literal(chance):
    if chance.random() < 0.5:
        return str(chance.value())
    return f"{chance.choice(['', '-'])}{chance.choice([0, 0, 0, 1, 2, 127])}.{chance.randint(0, 99999999)}"


def input_of(chance, kind, wires):
    if kind == "#":
        return chance.choice(["i0", "0", "1", "16", "2", "3"])
    if kind == "!":
        return chance.choice(["0", "1", "2", "3"])
    if wires and chance.random() < 0.6:
        return chance.choice(wires)
    return chance.choice(["c0", "c1"]) if chance.random() < 0.3 else literal(chance)


def random_text(chance, name):
    lines = ["snova 1", f"def {name}", "control i0 0", f"control c0 {literal(chance)}", f"control c1 {chance.value()}"]
    wires = []
    for _ in range(chance.randint(1, 12)):
        unit = chance.choice(list(UNITS))
        kinds, count = UNITS[unit]
        outputs = [f"w{len(wires) + i}" for i in range(chance.choice([1, 1, 2, 3]) if count == "+" else count)]
        if kinds.endswith("+"):
            kinds = kinds[:-1] + "s" * chance.choice([1, 1, 2, 3])
        inputs = [input_of(chance, kind, wires) for kind in kinds]
        lines.append(" ".join(outputs + ["="] * bool(outputs) + [unit] + inputs))
        wires += outputs
    for bus, wire in enumerate(chance.sample(wires, min(len(wires), 2))):
        lines.append(f"Out.ar {bus} {wire}")
    return ("\n".join(lines + ["end"]) + "\n").encode()


def faulty_text(chance):
    text = bytearray(chance.choice([random_text(chance, "bad"), *HEARD.values(), *TEXTS.values()]))
    for _ in range(chance.randint(1, 2)):
        at = chance.randrange(len(text))
        text[at:at + chance.randint(0, 2)] = chance.choice([b"", b" ", b"\n", b"0", b"-", b".", b"=", b"a", b"\xff", b"1.5", b"end\n"])
    return bytes(text)


def play(chance):
    elements = [("/notify", 1), ("/g_new", 1, 0, 0, 2, 0, 0), ("/p_new", 3, 1, 0)]
    elements += [("/d_recv", TEXTS[name]) for name in NAMES[:-2]] + [("/d_recv", random_text(chance, name)) for name in NAMES[-2:]]
    elements += [("/b_alloc", n, chance.choice([9, 64, 70]), chance.choice([1, 1, 2])) for n in range(2)]
    elements += [("/s_new", chance.name(), n, chance.randint(0, 1), chance.choice([0, 1, 2, 3, 3]), *pairs(chance)) for n in range(4, 12)]
    elements += [tagged(0, *[random_message(chance) for _ in range(chance.randint(3, 12))])]
    for block in range(1, chance.randint(3, 8)):
        messages = [random_message(chance) for _ in range(chance.randint(0, 8))]
        later = at(block + chance.randint(0, 2), *[random_message(chance) for _ in range(chance.randint(0, 2))])
        elements.append(at(block, *messages, *([later] if chance.random() < 0.3 else [])))
    if chance.random() < 0.05:
        elements.append(at(2, ("/clearSched",)))
    return stream(*elements, at(block + 1, ("/g_queryTree", 0, 0)))


def spoil_bytes(chance, data):
    data = bytearray(data)
    for _ in range(chance.randint(1, 3)):
        at = chance.randrange(len(data))
        if chance.random() < 0.7:
            data[at] = chance.choice([0, 1, 4, 8, 12, 44, 47, 98, 105, 115, 255, data[at] ^ 1])
        else:
            del data[at:at + chance.choice([1, 2, 4, 8])]
    return bytes(data)


def is_short(data):
    try:
        return all(entry.due < 50 for packet in osc.packets_of(data) for entry in entries_of(packet, 96000))
    except osc.Fault:
        return True


def packets(chance):
    inner = [random_message(chance) for _ in range(chance.randint(1, 4))]
    tag = chance.choice([0, 1, 2, 5, 1 << 20])
    data = stream(*inner, tagged(tag, *inner, tagged(chance.choice([0, 1, tag, tag + 1]), *inner)), *inner)
    spoiled = spoil_bytes(chance, data)
    return spoiled if is_short(spoiled) else data


def random_case(seed):
    chance = Chance(seed)
    kind = chance.choice(["play"] * 6 + ["packets"] * 3 + ["texts"])
    words = (f"rate={chance.choice([44100, 48000, 48000, 96000])}", f"channels={chance.randint(1, 3)}", f"bits={chance.choice([16, 24, 24])}", f"workers={chance.choice([1, 4, 16])}", "memory=65536")
    if kind == "play":
        return f"random {seed}", words, play(chance)
    if kind == "packets":
        return f"random {seed}, bytes at fault", words, packets(chance)
    return f"random {seed}, texts at fault", words, stream(*[("/d_recv", faulty_text(chance)) for _ in range(40)], ("/status",))


# Members with lanes: a plan for several workers has lanes if the synths that run have 128 units or more together, the first ten of each not counted.

def heavy(name, source, count, *controls):
    """A definition of 30 units whose last `count` add one wire to as many buses."""
    wires = ["amp", *[f"m{i}" for i in range(30)]]
    ones = [f"{wire} = Mul {before} 1.0" for before, wire in zip(wires, wires[1:])][:30 - count - len(source)]
    return definition(name, *controls, *(source or ["control amp 0"]), *ones, *[f"Out.ar {bus} m{len(ones) - 1}" for bus in ("out", "other")[:count]])


HEAVY = {"one": heavy("one", [], 1, "control out 0"), "both": heavy("both", [], 2, "control out 0", "control other 1"),
         "hears": heavy("hears", ["amp = In.ar in"], 1, "control in 20", "control out 0")}
LANED_BUSES = [0, 0, 0, 1, 1, 2, 16, 17]


def heavy_synth(chance, ident, group):
    name = chance.choice(["one"] * 8 + ["both"] * 3 + ["hears"])
    amp = chance.choice((-1, 1)) * chance.randrange(1 << 24, 1 << 31)
    pairs = {"one": ["amp", amp], "both": ["other", chance.choice(LANED_BUSES), "amp", amp], "hears": ["in", chance.choice([18, 18, 19, 19, 16])]}[name]
    return ("/s_new", name, ident, 1, group, "out", chance.choice(LANED_BUSES), *pairs)


def change(chance, idents, groups):
    """A command that may change which members have lanes."""
    ident = chance.choice(idents)
    return chance.choice([("/n_set", ident, "out", chance.choice(LANED_BUSES)), ("/n_set", ident, "amp", chance.randrange(-1 << 31, 1 << 31)), ("/n_run", ident, chance.randint(0, 1)),
                          ("/n_run", chance.choice(groups), chance.choice((0, 1, 1))), ("/n_before", ident, chance.choice(idents)), ("/g_tail", chance.choice(groups), ident),
                          ("/n_free", ident), heavy_synth(chance, ident, chance.choice(groups))])


def laned_case(seed):
    chance = Chance(f"lanes {seed}")
    groups, elements = [0], [("/d_recv", text) for text in HEAVY.values()]
    for ident in range(1, chance.randint(2, 8)):
        elements.append((chance.choice(("/p_new", "/p_new", "/p_new", "/g_new")), ident, 1, chance.choice(groups)))
        groups.append(ident)
    idents = list(range(100, 100 + chance.randint(8, 40)))
    elements += [heavy_synth(chance, ident, chance.choice(groups[1:])) for ident in idents]
    last = chance.randint(2, 6)
    for block in range(1, last):
        elements.append(at(block, *[change(chance, idents, groups) for _ in range(chance.randint(0, 4))]))
    words = ("channels=3", "bits=24", f"workers={chance.choice([2, 3, 4, 8, 16])}", "memory=65536")
    return f"members with lanes {seed}", words, stream(tagged(0, *elements[:len(groups) + 2]), *elements[len(groups) + 2:], at(last))
