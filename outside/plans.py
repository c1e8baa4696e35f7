#!/usr/bin/env python3
"""Reports of plans by the model, rows worked by hand, and random streams: python3 plans.py [SNOVA].

Without a program the rows and the longest chains are tried by the model alone: of random trees no chain of synths that can't run beside
each other costs more than the one that is told, over all such chains. With one it is run on all of them too."""
import collections
import itertools
import os
import random
import subprocess
import sys
import tempfile

import cases
import random_cases
import server
from cases import at, recv, stream, tagged
from texts import TEXTS

LETTERS = "acb"


MOST_LANES = 4096


def split_groups(world):
    """The groups whose members may run beside each other. They are taken in walk order: of each whose members don't clash, every synth below it
    takes a lane for each bus that it mixes, if two of the members mix it and it is so in no split group above; if there are lanes for all."""
    split, left = set(), MOST_LANES

    def visit(node, above):
        nonlocal left
        if not node.run or not node.is_group():
            return
        if node.kind == "parallel" and not world.clash_of(node):
            counts = collections.Counter(bus for child in node.children for bus in world.foot(child)[2])
            shared = {bus for bus, count in counts.items() if count > 1} - above
            taken = sum(len(shared & set(world.foot(synth)[2])) for synth in node.running() if not synth.is_group())
            if taken <= left:
                left -= taken
                split.add(node.id)
                above = above | shared
        for child in node.children:
            visit(child, above)

    visit(world.root, frozenset())
    return split


def weight(node, split):
    """What a node costs, and the chain that costs as much, or None where no synth runs."""
    if not node.run:
        return None
    if not node.is_group():
        return len(node.definition.units), [node.id]
    members = [found for found in (weight(child, split) for child in node.children) if found]
    if not members:
        return None
    if node.id in split:
        return max(members, key=lambda member: member[0])
    return sum(cost for cost, _ in members), [ident for _, chain in members for ident in chain]


def listed(resources):
    return ",".join(f"{LETTERS[kind]}{number}" for kind, number in sorted(resources)) or "-"


def report(world):
    """The lines of a world."""
    synths = [node for node in world.root.running() if not node.is_group()]
    cost, chain = weight(world.root, split_groups(world)) or (0, [])
    units = sum(len(synth.definition.units) for synth in synths)
    lines = [f"synths {len(synths)} units {units} cost {cost}"]
    for synth in synths:
        reads, writes, mixes = (listed(used) for used in world.foot(synth))
        lines.append(f"node {synth.id} units {len(synth.definition.units)} reads {reads} writes {writes} mixes {mixes}")
    lines.append("chain " + (" ".join(str(ident) for ident in chain) or "-"))
    return "".join(line + "\n" for line in lines)


def played(words, data):
    settings = server.settings_of(words)
    run = server.Run(settings, server.accepted(settings, data))
    run.play()
    return run


def model(words, data):
    """The line, the status and the report of a stream."""
    try:
        run = played(words, data)
    except server.Refused as refused:
        return refused.line, refused.status, ""
    return f"done {run.last} blocks", 0, report(run.world)


# All chains, for small trees.

def may_meet(split, a, b):
    """Whether two synths may run at the same time: the lowest group that holds both is split."""
    above = []
    node = a
    while node:
        above.append(node)
        node = node.parent
    node = b
    while node not in above:
        node = node.parent
    return node.id in split


def greatest(world):
    """The greatest cost of synths of which no two may run at the same time."""
    synths = [node for node in world.root.running() if not node.is_group()]
    split = split_groups(world)
    meets = {(a.id, b.id) for a, b in itertools.permutations(synths, 2) if may_meet(split, a, b)}
    best = 0
    for size in range(len(synths) + 1):
        for some in itertools.combinations(synths, size):
            if all((a.id, b.id) not in meets for a, b in itertools.combinations(some, 2)):
                best = max(best, sum(len(synth.definition.units) for synth in some))
    return best


# Rows by hand.

def out(bus):
    return f"snova 1\ndef out{bus}\nOut.ar {bus} 0.5\nend\n".encode()


def copies(name, source, bus, more=0):
    extra = "".join(f"m{i} = Mul s 0.5\n" for i in range(more))
    return f"snova 1\ndef {name}\ns = In.ar {source}\n{extra}Out.ar {bus} s\nend\n".encode()


def new(name, ident, action, target):
    return "/s_new", name, ident, action, target


EMPTY = "synths 0 units 0 cost 0\nchain -\n"
TWO = [("/d_recv", out(0)), ("/d_recv", out(1)), ("/d_recv", copies("long", 9, 2, 2))]
ROWS = [
    ("an empty stream", stream(), EMPTY),
    ("groups alone", stream(("/g_new", 1, 0, 0), ("/p_new", 2, 0, 1)), EMPTY),
    ("two in a row", stream(*TWO, new("out0", 10, 1, 0), new("out1", 11, 1, 0)),
     "synths 2 units 2 cost 2\nnode 10 units 1 reads - writes - mixes a0\nnode 11 units 1 reads - writes - mixes a1\nchain 10 11\n"),
    ("two beside each other, the first of equals", stream(*TWO, ("/p_new", 1, 0, 0), new("out0", 10, 1, 1), new("out1", 11, 1, 1)),
     "synths 2 units 2 cost 1\nnode 10 units 1 reads - writes - mixes a0\nnode 11 units 1 reads - writes - mixes a1\nchain 10\n"),
    ("two that mix one bus", stream(*TWO, ("/p_new", 1, 0, 0), new("out0", 10, 1, 1), new("out0", 11, 1, 1)),
     "synths 2 units 2 cost 1\nnode 10 units 1 reads - writes - mixes a0\nnode 11 units 1 reads - writes - mixes a0\nchain 10\n"),
    ("two that clash", stream(*TWO, ("/d_recv", copies("read0", 0, 3)), ("/p_new", 1, 0, 0), new("out0", 10, 1, 1), new("read0", 11, 1, 1)),
     "synths 2 units 3 cost 3\nnode 10 units 1 reads - writes - mixes a0\nnode 11 units 2 reads a0 writes - mixes a3\nchain 10 11\n"),
    ("one bus read and written", stream(("/d_recv", copies("wide", 4, 4, 5)), new("wide", 10, 1, 0)),
     "synths 1 units 7 cost 7\nnode 10 units 7 reads a4 writes a4 mixes -\nchain 10\n"),
    ("the longer member", stream(*TWO, ("/p_new", 1, 0, 0), new("out0", 10, 1, 1), new("long", 11, 1, 1), new("out1", 12, 1, 0)),
     "synths 3 units 6 cost 5\nnode 10 units 1 reads - writes - mixes a0\nnode 11 units 4 reads a9 writes - mixes a2\n"
     "node 12 units 1 reads - writes - mixes a1\nchain 11 12\n"),
    ("a paused member", stream(*TWO, ("/p_new", 1, 0, 0), new("out0", 10, 1, 1), new("long", 11, 1, 1), ("/n_run", 11, 0)),
     "synths 1 units 1 cost 1\nnode 10 units 1 reads - writes - mixes a0\nchain 10\n"),
    ("a mapped control", stream(("/d_recv", TEXTS["dc"]), new("dc", 10, 1, 0), ("/n_map", 10, "amp", 7)),
     "synths 1 units 1 cost 1\nnode 10 units 1 reads c7 writes - mixes a0\nchain 10\n"),
    ("four tones beside each other, and one that hears the first, at time 0",
     stream(tagged(0, *recv("tone", "mix"), ("/p_new", 1, 0, 0), *[new("tone", 10 + i, 1, 1) + ("out", 16 + i) for i in range(4)], new("mix", 20, 1, 0)), tagged(1 << 32)),
     "synths 5 units 11 cost 5\n" + "".join(f"node {10 + i} units 2 reads - writes - mixes a{16 + i}\n" for i in range(4))
     + "node 20 units 3 reads a16 writes - mixes a0\nchain 10 20\n"),
    ("three that mix one bus, each onto its lane, and one that hears them, at time 0",
     stream(tagged(0, *recv("dc", "mix"), ("/p_new", 1, 0, 0), *[new("dc", 10 + i, 1, 1) + ("out", 16, "amp", amp) for i, amp in enumerate((1677721600, 1677721600, -1677721600))],
                   new("mix", 20, 1, 0)), tagged(11453247)),
     "synths 4 units 6 cost 4\n" + "".join(f"node {10 + i} units 1 reads - writes - mixes a16\n" for i in range(3))
     + "node 20 units 3 reads a16 writes - mixes a0\nchain 10 20\n"),
    ("three tones beside each other, at time 0",
     stream(tagged(0, *recv("tone"), ("/p_new", 1, 0, 0), *[new("tone", 10 + i, 1, 1) + ("out", 16 + i) for i in range(3)]), tagged(1 << 32)),
     "synths 3 units 6 cost 2\n" + "".join(f"node {10 + i} units 2 reads - writes - mixes a{16 + i}\n" for i in range(3)) + "chain 10\n"),
    ("the last boundary acts", stream(*TWO, new("out0", 10, 1, 0), at(1, new("out1", 11, 1, 0))),
     "synths 2 units 2 cost 2\nnode 10 units 1 reads - writes - mixes a0\nnode 11 units 1 reads - writes - mixes a1\nchain 10 11\n"),
]
TREES = 60
BAD_WORDS = [("plan", 1), ("plan a", 2), ("plan rate=1 a b", 1), ("plan bits=16 bits=16 a b", 2), ("plan x a b", 1)]


# Trees by chance.

def chance_stream(seed):
    """Groups of both kinds and synths in them, some paused."""
    chance = random.Random(seed)
    elements = [*TWO, ("/d_recv", copies("read0", 0, 3)), ("/d_recv", copies("wide", 4, 4, 5))]
    groups, nodes = [0], []
    for ident in range(1, chance.randint(2, 13)):
        target = chance.choice(groups)
        if len(nodes) > 9 or chance.random() < 0.4:
            elements.append((chance.choice(("/g_new", "/p_new", "/p_new")), ident, chance.randint(0, 1), target))
            groups.append(ident)
        else:
            elements.append(new(chance.choice(("out0", "out1", "long", "read0", "wide")), ident, chance.randint(0, 1), target))
            nodes.append(ident)
    elements += [("/n_run", ident, 0) for ident in nodes if chance.random() < 0.1]
    return stream(*elements)


def program(binary, words, data, folder):
    """The line, the status and the report of a stream by the program: none where it wrote none."""
    paths = [os.path.join(folder, name) for name in ("commands", "report")]
    for path, content in zip(paths, (data, b"")):
        with open(path, "wb") as file:
            file.write(content)
    done = subprocess.run([*binary, "plan", *words, *paths], capture_output=True, timeout=600)
    with open(paths[1]) as file:
        return done.stdout.decode().rstrip("\n"), done.returncode, file.read()


def model_differences():
    """Lines that say where the model differs from the rows and from all chains."""
    found = [f"{name}\n  by hand {wanted!r}, model {model((), data)[2]!r}" for name, data, wanted in ROWS if model((), data)[2] != wanted]
    for seed in range(TREES):
        world = played((), chance_stream(seed)).world
        told = (weight(world.root, split_groups(world)) or (0, []))[0]
        if told != greatest(world):
            found.append(f"tree {seed}: all chains {greatest(world)}, model {told}")
    return found


def differences(binary):
    """Lines that say where the program and the model differ."""
    streams = [(name, (), data) for name, data, _ in ROWS]
    streams += [(f"tree {seed}", (), chance_stream(seed)) for seed in range(100)]
    streams += cases.CASES + [random_cases.random_case(seed) for seed in range(1, 101)]
    found = []
    with tempfile.TemporaryDirectory() as folder:
        for name, words, data in streams:
            expected, told = model(words, data), program(binary, words, data, folder)
            if expected != told:
                found.append(f"{name}\n  model {expected}, program {told}")
    for words, index in BAD_WORDS:
        done = subprocess.run([*binary, *words.split()], capture_output=True, timeout=600)
        if (done.stdout.decode(), done.returncode) != (f"bad word {index}\n", 2):
            found.append(f"{words}: program {done.stdout.decode()!r}, {done.returncode}")
    return found, len(streams)


def main():
    found = model_differences()
    if sys.argv[1:]:
        more, count = differences([os.path.abspath(word) if os.path.exists(word) else word for word in sys.argv[1].split()])
        found += more
        print(f"{count} streams were planned")
    print(*found, f"{len(ROWS)} rows and {TREES} trees, {len(found)} with a difference", sep="\n")
    return 1 if found else 0


if __name__ == "__main__":
    sys.exit(main())
