"""Streams that ask for much in few bytes, for snova alone. gen.py writes them, and hostile.py measures them."""
import os

from osc import at, bundle, frame, msg

FULL = 16777216  # bytes that a stream may have
PACKET = 65536  # bytes that a packet may have
NODES = 4000
GREATEST_POOL = 16777216
VOICE = b"snova 1\ndef voice\ncontrol freq 440000\ncontrol out 16\na = SinOsc freq 0\nOut.ar out a\nend\n"
LONG_NAME = "n" * 31
LONG = VOICE.replace(b"voice", LONG_NAME.encode())
CONTROLS = 512
ARRAYS = "".join(f"array v{i}{' 0' * 64}\n" for i in range(CONTROLS // 64))
BANK = f"snova 2\ndef bank\n{ARRAYS}a = SinOsc v0 0\nOut.ar 16 a\nend\n".encode()
MINUTE = b"snova 1\ndef minute\na = DelayN 0 60000 0\nOut.ar 16 a\nend\n"
MINUTE_WORDS = 2880002  # at 48,000 frames a second
SPREAD = ("snova 1\ndef spread\na = SinOsc 440000 0\n" + "Out.ar 16 a a a a a a a a\n" * 255 + "end\n").encode()
ASKED = 12900  # numbers that a message has room for
TURNS = 10  # blocks at which a node is paused or runs again


class Dear:
    """A stream: what stands at its begin, and what is then repeated as often as there is room for or as it says.

    `touched` is how many things one repetition must touch, and `thing` what these are. It lasts so many blocks.
    """

    def __init__(self, name, what, first, again, thing, touched, times=None, memory=None, blocks=0):
        self.name, self.what, self.first, self.again, self.thing, self.blocks = name, what, first, again, thing, blocks
        self.times = times or (FULL - len(first)) // len(again)
        self.touched = touched * self.times
        self.words = [] if memory is None else [f"memory={memory}"]

    def write(self, folder):
        with open(os.path.join(folder, f"{self.name}.sn.osc"), "wb") as file:
            file.write(self.first + self.again * self.times)


def messages(*rows):
    return b"".join(frame(msg(*row)) for row in rows)


def bundles(tag, rows, size=100):
    """Rows as messages, so many in a bundle."""
    return b"".join(frame(bundle(tag, *[msg(*row) for row in rows[i:i + size]])) for i in range(0, len(rows), size))


def synths(name, target, count=NODES):
    return bundles(0, [("/s_new", name, 1000 + i, 1, target) for i in range(count)])


def voices(target):
    """A definition, and its synths."""
    return messages(("/d_recv", VOICE), ("/g_new", 1, 0, 0)) + synths("voice", target)


def ids(count):
    """So many ids of voices, each far from the one before."""
    return [1000 + i * 7 % NODES for i in range(count)]


def nested_groups():
    groups = [word for i in range(4095) for word in (1 + i, 0, i)]
    return Dear("nested_groups", "4,095 groups are made, each inside the one before, and freed", b"", messages(("/g_new", *groups), ("/n_free", 1)), "group", 4095)


def one_tag():
    entry = frame(bundle(2, *[msg("/c_set", 3, 5)] * 9))
    return Dear("one_tag_full", "65,536 bundles of nine messages wait at one tag", b"", entry, "message", 9, 65536)


def short_messages():
    return Dear("short_messages", "messages of eight bytes, each with a reply of 48", b"", frame(b"/status\0"), "message", 1)


def empty_bundles():
    return Dear("empty_bundles", "bundles without a message wait at one tag", b"", frame(bundle(2)), "bundle", 1)


def nested_bundles():
    """Each of eight bundles, seven of them inside others, has as many messages as there is room for."""
    row = frame(msg("/c_set", 3, 5))
    count = (PACKET - 8 * 20) // 8 // len(row)
    packet = b""
    for _ in range(8):
        packet = bundle(2, *[msg("/c_set", 3, 5)] * count) + (frame(packet) if packet else b"")
    return Dear("nested_bundles", "packets of bundles that are nested 7 deep and full", b"", frame(packet), "message", 8 * count)


def undone_groups():
    groups = [word for i in range(4094) for word in (1 + i, 1, 0)]
    return Dear("undone_groups", "4,094 groups are made in one message and undone, since its last id is in use", b"", messages(("/g_new", *groups, 1, 0, 0)), "group", 4094)


def row():
    again = messages(("/n_order", 0, 0, *ids(ASKED)))
    return Dear("row", f"{ASKED:,} times one of {NODES:,} synths is moved by a message", voices(0), again, "move", ASKED, 20)


def row_told():
    first = voices(0) + messages(("/notify", 1))
    return Dear("row_told", f"{ASKED:,} times one of {NODES:,} synths is moved by a message, and each move is told", first, messages(("/n_order", 0, 0, *ids(ASKED))), "move", ASKED, 20)


def moves_told():
    moves = [word for i in range(6500) for word in (1000 + i * 7 % NODES, 1000 + (i * 7 + 2000) % NODES)]
    first = voices(0) + messages(("/notify", 1))
    what = "6,500 times a synth is moved before another one by a message, and each move is told"
    return Dear("moves_told", what, first, messages(("/n_before", *moves)), "move", 6500, 20)


def run_again():
    flags = [word for i in range(3250) for flag in (0, 1) for word in (1000 + i * 7 % NODES, flag)]
    first = voices(0) + messages(("/notify", 1))
    what = "3,250 times a synth is paused and run again by a message, and told of twice"
    return Dear("run_again", what, first, messages(("/n_run", *flags)), "flag", 6500, 100)


def to_voices(name, what, words):
    """Messages whose repetitions are for one control, or one list of controls, of a group of synths."""
    return Dear(name, f"{what} in each message to a group of {NODES:,} synths", voices(1), messages(words), "synth of a message", NODES)


def set_again():
    values = [word for i in range(6500) for word in (0, 100000 + i)]
    return to_voices("set_again", "6,500 values for one control", ("/n_set", 1, *values))


def setn_again():
    runs = [word for i in range(3200) for word in (0, 2, 100000 + i, 16)]
    return to_voices("setn_again", "3,200 runs of values for the same two controls", ("/n_setn", 1, *runs))


def fill_again():
    fills = [word for i in range(4300) for word in (0, 2, i % 16)]
    return to_voices("fill_again", "4,300 fills of the same two controls", ("/n_fill", 1, *fills))


def map_again():
    mappings = [word for i in range(6500) for word in (0, i % 1024)]
    return to_voices("map_again", "6,500 mappings of one control", ("/n_map", 1, *mappings))


def names_again():
    values = [word for i in range(1700) for word in (f"{'c' * 28}{i % 1000:03}", i)]
    return to_voices("names_again", "1,700 values for names that are none of their controls", ("/n_set", 1, *values))


def fill_runs():
    fills = [word for i in range(4300) for word in (i // CONTROLS, CONTROLS - i % CONTROLS, i)]
    first = messages(("/d_recv", BANK), ("/g_new", 1, 0, 0)) + synths("bank", 1)
    what = f"4,300 fills of up to {CONTROLS} controls, each shorter than the one before or from another control on, in a message to a group of {NODES:,} synths"
    return Dear("fill_runs", what, first, messages(("/n_fill", 1, *fills)), "control", CONTROLS * NODES, 1)


def fill_buses():
    again = messages(("/c_fill", *[word for i in range(4300) for word in (0, 1024, i)]))
    return Dear("fill_buses", "4,300 fills of all 1,024 buses in each message", b"", again, "bus of a fill", 4300 * 1024)


def free_none():
    groups = [word for i in range(4095) for word in (1 + i, 0, 0)]
    again = messages(("/g_deepFree", *[0] * ASKED))
    what = f"the synths below 4,095 groups, of which there are none, are freed {ASKED:,} times by a message"
    return Dear("free_none", what, messages(("/g_new", *groups)), again, "group named", ASKED, 10)


def set_root():
    return Dear("set_root", f"one control of all {NODES:,} synths is set by each of 20,000 messages", voices(0), messages(("/n_set", 0, 0, 5)), "synth of a message", NODES, 20000)


def ask_nodes():
    what = f"messages that ask for {ASKED:,} nodes each, with replies of {40 * ASKED:,} bytes"
    return Dear("ask_nodes", what, voices(0), messages(("/n_query", *ids(ASKED))), "node told", ASKED, 200)


def ask_controls():
    again = messages(("/s_get", 1000, *[0] * ASKED))
    what = f"messages that ask for {ASKED:,} controls each, with replies of 129,000 bytes"
    return Dear("ask_controls", what, voices(0), again, "control told", ASKED, 200)


def great_replies():
    first = messages(("/d_recv", LONG)) + synths(LONG_NAME, 0)
    what = f"each message asks nine times for the tree of {NODES:,} synths of a long name, with replies of 1.5 MiB"
    return Dear("great_replies", what, first, messages(("/g_queryTree", *[0, 0] * 9)), "node told", 9 * NODES, 150)


def long_replies():
    return Dear("long_replies", "messages that ask for 13,000 buffers each, with replies of 260,000 bytes", b"", messages(("/b_query", *range(1000), *[5] * 12000)), "buffer asked for", 13000)


def trees():
    return Dear("trees", f"4,096 times the whole tree of {NODES:,} synths is asked for in one packet", voices(0), messages(("/g_queryTree", *[0, 0] * 4096)), "node told", 4096 * NODES, 1)


def turns(node):
    """A node is paused, and runs again, at one block after the other."""
    return b"".join(frame(bundle(at(block), msg("/n_run", node, block % 2))) for block in range(TURNS))


def paused_great():
    first = messages(("/d_recv", SPREAD), ("/d_recv", VOICE), ("/g_new", 1, 0, 0), ("/n_run", 1, 0), ("/p_new", 2, 0, 0))
    first += synths("spread", 1) + bundles(0, [("/s_new", "voice", 3 + i, 1, 2) for i in range(2)])
    what = f"beside {NODES:,} synths of 255 outputs in a group that is paused, a voice is paused or runs again at {TURNS} blocks"
    return Dear("paused_great", what, first, turns(3), "node of a block", TURNS * NODES, 1, blocks=TURNS - 1)


def nested_parallel():
    groups = [word for i in range(2047) for word in (1 + i, 0, i)]
    first = messages(("/d_recv", VOICE), ("/p_new", *groups)) + bundles(0, [("/s_new", "voice", 10000 + i, 1, 1 + i) for i in range(2047)])
    what = f"of 2,047 parallel groups, each inside the one before and with a voice, the innermost is paused or runs again at {TURNS} blocks"
    return Dear("nested_parallel", what, first, turns(2047), "node of a block", TURNS * 4094, 1, blocks=TURNS - 1)


def definitions():
    return Dear("definitions", "definitions of the greatest size, each in the place of the one before", b"", messages(("/d_recv", greatest())), "byte", len(greatest()))


def greatest():
    """A definition of 128 controls and 256 units with two wires each, of the longest names, which are told apart by their ends."""
    controls = [f"{'c' * 28}{i:03}" for i in range(128)]
    wires = [f"{'w' * 28}{i:03}" for i in range(512)]
    lines = ["snova 1", "def great", *[f"control {name} -2147483648" for name in controls]]
    for i in range(0, 512, 2):
        before = (controls + wires[:i])[-3:]
        lines.append(f"{wires[i]} {wires[i + 1]} = Pan2 {' '.join(before)}")
    return ("\n".join(lines) + "\nend\n").encode()


def great_synths():
    first = messages(("/d_recv", greatest()))
    return Dear("great_synths", "synths of the greatest definition are made and freed", first, messages(("/s_new", "great", 1000, 0, 0), ("/n_free", 1000)), "unit", 256, 100000)


def great_states():
    again = messages(("/s_new", "minute", 1000, 0, 0), ("/n_free", 1000))
    return Dear("great_states", "synths with a delay line of a minute are made and freed", messages(("/d_recv", MINUTE)), again, "word", MINUTE_WORDS, 20, GREATEST_POOL)


def buffers_in_turn():
    first = bundles(0, [("/b_alloc", i, 64) for i in range(1024)])
    again = messages(*[row for i in range(1023, 0, -2) for row in (("/b_free", i), ("/b_alloc", i, 64))])
    return Dear("buffers_in_turn", "1,024 buffers fill the pool, and one after the other is freed and made again", first, again, "buffer", 512, memory=65536)


def whole_pool(name, what, times, *words):
    """A buffer of the greatest pool, and a message that touches all its samples, so many times."""
    first = messages(("/b_alloc", 0, GREATEST_POOL))
    return Dear(name, f"a buffer of the whole greatest pool is {what}", first, messages(words), "sample", GREATEST_POOL, times, GREATEST_POOL)


def alloc_pool():
    return whole_pool("alloc_pool", "made again 20 times", 20, "/b_alloc", 0, GREATEST_POOL)


def zero_pool():
    return whole_pool("zero_pool", "zeroed 20 times", 20, "/b_zero", 0)


def fill_pool():
    return whole_pool("fill_pool", "filled 20 times", 20, "/b_fill", 0, 0, GREATEST_POOL, 5)


def fill_pool_again():
    return whole_pool("fill_pool_again", "filled 20 times by one message", 1, "/b_fill", 0, *[0, GREATEST_POOL, 5] * 20)


def ask_pool():
    first = messages(("/b_alloc", 0, 8192))
    return Dear("ask_samples", "messages that ask for 8,192 samples each, with replies of 41,000 bytes", first, messages(("/b_getn", 0, 0, 8192)), "sample", 8192, 4000)


def all_dear():
    nodes = [nested_groups, undone_groups, row, row_told, moves_told, run_again, free_none, great_synths, great_states]
    waiting = [one_tag, short_messages, empty_bundles, nested_bundles]
    controls = [set_again, setn_again, fill_again, map_again, names_again, fill_runs, set_root]
    replies = [long_replies, great_replies, trees, ask_nodes, ask_controls, ask_pool]
    pool = [definitions, buffers_in_turn, alloc_pool, zero_pool, fill_pool, fill_pool_again, fill_buses]
    plans = [paused_great, nested_parallel]
    return [make() for make in nodes + plans + waiting + controls + replies + pool]
