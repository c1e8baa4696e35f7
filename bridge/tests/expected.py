"""What the bridge must make of what sclang wrote, worked out by hand from docs/ and SuperCollider's help."""
from pathlib import Path
import sys

sys.path.insert(0, str(Path(__file__).resolve().parent.parent))

from converter.osc import Bundle, Message  # noqa: E402

ONE = 1 << 24

# Of each definition of data/refused.scsyndef, why it is refused.
REFUSED = {
    "lowpass": "MoogFF.ar: there is no such unit here",
    "meets": "Out.ar: hertz and samples meet",
    "slowly": "OnePole.kr: it counts blocks at control rate, and all units count frames here",
    "divides": "BinaryOpUGen.ar /: division by a signal isn't there",
    "nextbus": "Out.ar: the number of a bus or a buffer must be a constant or a control, and is worked out",
    "loops": "EnvGen.ar: an envelope that loops takes some time, which is a constant",
    "halves": "PlayBuf.ar: its rate isn't whole, and whether it loops isn't a constant",
    "loud": "control amp: 300 is too great for samples, which are below 128 here",
    "bent": "EnvGen.kr: an exponential segment goes from a level to one of the same sign, neither of them 0",
    # A done action from 16 on does nothing there, so that this one is taken.
    "ended": "snova 1\ndef ended\nw1 = Line 0.0 1.0 1000 0\nend\n",
}

# What brings an audio bus to a control bus, for a control that follows it.
FOLLOWS = b"""snova 1
def _follows_audio
control from 0
control to 0
control factor 0
heard = In.ar from
scaled = Mul heard factor
Out.kr to scaled
end
"""

# Commands in a row, and what is sent for each, or why it is refused, after the definitions of data/taken.scsyndef.
COMMANDS = [
    (["/g_new", 1, 0, 0], [["/g_new", 1, 0, 0]]),
    (["/s_new", "tone", 1000, 0, 1, "freq", 220.5, "amp", 0.5, "out", 16],
     [["/s_new", "tone", 1000, 0, 1, "freq", 220500, "amp", ONE // 2, "out", 16]]),
    (["/s_new", "nobody", 1001, 0, 1], "/s_new nobody: the definition nobody didn't come"),
    (["/s_new", "a-chord", -1, 0, 1, "freqs", [110.0, 220.0]],
     [["/s_new", "a_chord", 1 << 30, 0, 1, "freqs", 110000, 1, 220000]]),
    (["/s_new", "tone", 1002, 1, 1, 2, 0.25], [["/s_new", "tone", 1002, 1, 1, 2, ONE // 4]]),
    (["/n_set", 1000, "freq", 330, "nothing", 1], [["/n_set", 1000, "freq", 330000]]),
    (["/n_set", 1, "amp", 0.125], [["/n_set", 1, "amp", ONE // 8]]),
    (["/n_set", 1000, "amp", 128.0], "/n_set 1000: 128 is too great for samples, which are below 128 here"),
    (["/n_set", 1000, "out", 0.5], "/n_set 1000: 0.5 isn't whole, as whole numbers are here"),
    (["/n_set", 7, "amp", 0.5], "/n_set 7: no node 7 was made"),
    (["/n_setn", 1000, "freq", 2, 100.0, 0.5], [["/n_set", 1000, "freq", 100000, 2, ONE // 2]]),
    (["/n_fill", 1000, "freq", 1, 50.0], [["/n_set", 1000, "freq", 50000]]),
    (["/c_set", 3, 0.5, 4, 440.0], [["/c_set", 3, ONE // 2, 4, 440000]]),
    (["/n_map", 1000, "freq", 3, "amp", -1], [["/c_set", 3, 500], ["/n_map", 1000, "freq", 3, "amp", -1]]),
    (["/c_set", 3, 441.0], [["/c_set", 3, 441000]]),
    (["/n_map", 1002, "amp", 3], "/n_map 1002: control bus 3: hertz and samples meet"),
    (["/n_mapn", 1002, "freq", 20, 1], [["/n_map", 1002, "freq", 20]]),
    (["/n_set", 1002, "freq", "c4"], [["/n_map", 1002, "freq", 4]]),
    (["/c_setn", 3, 2, 1.0, 2.0], [["/c_setn", 3, 2, 1000, 2000]]),
    (["/c_fill", 30, 2, 0.5], [["/c_setn", 30, 2, ONE // 2, ONE // 2]]),
    (["/b_alloc", 1, 512, 2, b""], [["/b_alloc", 1, 512, 2]]),
    (["/b_alloc", 2, 8, 1, b"/b_zero\0,i\0\0\0\0\0\2"], [["/b_alloc", 2, 8, 1], ["/b_zero", 2]]),
    (["/b_setn", 2, 0, 3, 0.5, -1.0, 1], [["/b_setn", 2, 0, 3, ONE // 2, -ONE, ONE]]),
    (["/b_setn", 2, 0, 3, 0.5], "/b_setn 2: its arguments don't come in runs"),
    (["/c_fill", 0, -1, 0.5], "/c_fill 0: a count of -1"),
    (["/b_fill", 2, 3, 5, 0.25], [["/b_fill", 2, 3, 5, ONE // 4]]),
    (["/b_set", 2, 1, 2.0], [["/b_set", 2, 1, 2 * ONE]]),
    (["/s_new", "counts", 1003, 3, 1000.0], [["/s_new", "counts", 1003, 3, 1000]]),
    (["/n_free", 1000], [["/n_free", 1000]]),
    (["/d_free", "a-chord"], [["/d_free", "a_chord"]]),
    (["/b_close", 1], []),
    (["/b_write", 1, "/tmp/none", "wav", "int16", 0, 0, 1],
     "/b_write 1: a file is recorded only if live.py starts snova itself (docs/INSTALLATION.md)"),
    (["/s_newargs", "tone", 1010, 0, 1, "freq", 2, 330.0, 0.5],
     [["/s_new", "tone", 1010, 0, 1, "freq", 330000, 2, ONE // 2]]),
    (["/dumpOSC", 1], []),
    ([9, "tone", 1004, 0, 1, "freq", 220.5], [["/s_new", "tone", 1004, 0, 1, "freq", 220500]]),
    ([15, 1004, "freq", 110], [["/n_set", 1004, "freq", 110000]]),
    ([11, 1004], [["/n_free", 1004]]),
    ([9, "tone", 1005, 0, 1, 0], [["/s_new", "tone", 1005, 0, 1]]),
    (["/n_mapan", 1005, "amp", 20, 1],
     [["/d_recv", FOLLOWS], ["/s_new", "_follows_audio", (1 << 30) + 1, 2, 1005, "from", 20, "to", 1023, "factor", ONE],
      ["/n_map", 1005, "amp", 1023]]),
    (["/n_set", 1005, "amp", "a21"],
     [["/n_set", (1 << 30) + 1, "from", 21], ["/n_map", 1005, "amp", 1023]]),
    (["/n_mapa", 1005, "amp", 128],
     "/n_mapa 1005: there is no audio bus 128: there are 128 here; set s.options.numAudioBusChannels = 128"),
    (["/s_new", "tone", 1006, 0, 1, "out", 127],
     "/s_new tone: there is no audio bus 128: there are 128 here; set s.options.numAudioBusChannels = 128"),
    (["/c_set", 1024, 1], "/c_set 1024: there is no control bus 1024: there are 1024 here; set "
     "s.options.numControlBusChannels = 1024"),
    (["/b_alloc", 1024, 1],
     "/b_alloc 1024: there is no buffer 1024: there are 1024 here; set s.options.numBuffers = 1024"),
    (["/g_new", 8, 0, 0, 9, 1, 8], [["/g_new", 8, 0, 0], ["/g_new", 9, 1, 8]]),
    (["/n_free", 9, 8], [["/n_free", 9], ["/n_free", 8]]),
    ([28, 3, 8, 1, 0], [["/b_alloc", 3, 8, 1]]),
    ([28, 3, 8, b"\0\0\0/,i\0\0\0\0\0\3"], [["/b_alloc", 3, 8, 1], ["/b_query", 3]]),
    ([300, 1], "300 1: there is no such command"),
    (["/s_noid", 1002, 4711], []),
    (["/n_set", 1002, "amp", 0.5], "/n_set 1002: node 1002 has the id -16 since /s_noid"),
    (["/n_free", -16], [["/n_free", 1002]]),
    (["/s_new", "tone", 1002, 0, 1], [["/s_new", "tone", (1 << 30) + 2, 0, 1]]),
    (["/n_set", 1002, "amp", 0.5], [["/n_set", (1 << 30) + 2, "amp", ONE // 2]]),
    (["/s_noid", -1, 1], []),
    (["/s_new", "tone", 1002, 0, 1], [["/s_new", "tone", (1 << 30) + 3, 0, 1]]),
    (["/n_run", 1002, 0, -24, 1], [["/n_run", (1 << 30) + 3, 0], ["/n_run", (1 << 30) + 2, 1]]),
    (["/g_deepFree", [1]], "/g_deepFree: an array is no number"),
    (["/n_free", 1e20], "/n_free: 1e+20 doesn't fit into 32 bits"),
    (["/n_set", 1002, "amp", float("nan")], "/n_set 1002: nan is no number"),
]

# The commands of the Server Command Reference in the order of their numbers, after that of no command.
NUMBERED = """none notify status quit cmd d_recv d_load d_loadDir d_freeAll s_new n_trace n_free n_run n_cmd n_map n_set
    n_setn n_fill n_before n_after u_cmd g_new g_head g_tail g_freeAll c_set c_setn c_fill b_alloc b_allocRead b_read
    b_write b_free b_close b_zero b_set b_setn b_fill b_gen dumpOSC c_get c_getn b_get b_getn s_get s_getn n_query
    b_query n_mapn s_noid g_deepFree clearSched sync d_free b_allocReadChannel b_readChannel g_dumpTree g_queryTree
    error s_newargs n_mapa n_mapan n_order p_new version""".split()

# Messages that sclang 3.13 writes, `[9, "default", 1000, 0, 1, \freq, 440]` for one, and what they say.
BY_NUMBER = [
    (b"\0\0\0\t,siiisi\0default\0\0\0\3\xe8\0\0\0\0\0\0\0\1freq\0\0\0\0\0\0\1\xb8",
     Message(9, ["default", 1000, 0, 1, "freq", 440])),
    (b"\0\0\0\x0f,isf\0\0\0\0\0\0\3\xe8freq\0\0\0\0C\\\x80\0", Message(15, [1000, "freq", 220.5])),
    (b"\0\0\1,,i\0\0\0\0\0\1", Message(300, [1])),
]

# Replies after these commands.
REPLIES = [
    (["/n_set", 1002, "freq", 440000, 2, ONE // 4], ["/n_set", 1002, "freq", 440.0, 2, 0.25]),
    (["/c_set", 3, 441000, 30, ONE], ["/c_set", 3, 441.0, 30, 1.0]),
    (["/c_setn", 3, 2, 1000, 2000], ["/c_setn", 3, 2, 1.0, 2.0]),
    (["/b_set", 2, 1, ONE], ["/b_set", 2, 1, 1.0]),
    (["/b_setn", 2, 0, 2, ONE, -ONE], ["/b_setn", 2, 0, 2, 1.0, -1.0]),
    (["/tr", 1003, 3, 5], ["/tr", 1003, 3, 5.0]),
    (["/b_info", 1, 512, 2, 48000], ["/b_info", 1, 512, 2, 48000.0]),
    (["/status.reply", 1, 2, 3, 4, 5], ["/status.reply", 1, 2, 3, 4, 5, 0.0, 0.0, 48000.0, 48000.0]),
    (["/n_go", 1000, 1, -1, -1, 0], ["/n_go", 1000, 1, -1, -1, 0]),
]

# Over sockets: what is sent, what comes, the answer, and what comes back.
LIVE = [
    (Message("/c_get", [5]), Message("/c_get", [5]),
     Message("/c_set", [5, ONE // 4]), Message("/c_set", [5, 0.25])),
    (Bundle(1 << 40, [Message("/c_get", [5])]), Message("/c_get", [5]),
     Message("/c_set", [5, ONE // 2]), Message("/c_set", [5, 0.5])),
    (Bundle(1, [Bundle(9, [Message(25, [6, 1])])]), Message("/c_set", [6, ONE]),
     Message("/fail", ["/c_set", "bus"]), Message("/fail", ["/c_set", "bus"])),
    (Message("/quit", []), Message("/quit", []), Message("/done", ["/quit"]), Message("/done", ["/quit"])),
]

# What scsynth 3.13 answers, started with `-l 8`, when sclang sees it for the first time: to /status, /notify and the
# /syncs. The counts and the use of the processor are those of what stands for the server.
COUNTS = b"\0\0\0\1" + bytes(8) + b"\0\0\0\1" + bytes(4)
STATUS = b"/status.reply\0\0\0,iiiiiffdd\0\0" + COUNTS + bytes(8) + b"@\xe7p\0\0\0\0\0" * 2
HANDSHAKE = [
    STATUS, b"/done\0\0\0,sii\0\0\0\0/notify\0\0\0\0\0\0\0\0\x08",
    *(b"/synced\0,i\0\0\0\0\3" + bytes([0xE8 + number]) for number in (1, 2, 3, 4)), STATUS,
]
# What comes for it: notifications are asked for once, and each client has a group.
AFTER_HANDSHAKE = [
    Message("/notify", [1]), Message("/status", []),
    *(Message("/g_new", [(client << 26) + 1, 0, 0]) for client in range(8)), Message("/status", []),
]

# What a server answers, by its commands, when a synth is in group 1.
TREE = {
    "/g_queryTree": Message("/g_queryTree.reply", [0, 0, 1, 1, 1, 1000, -1, "a_chord"]),
    "/s_get": Message("/n_set", [1000, 0, 110000, 1, 220000, 2, 300000]),
}
# What is asked of it, in the form of scsynth 3.13: a control that follows a bus, and the second one of an array.
TREE_COMMANDS = [
    (["/g_new", 1, 0, 0], []),
    ([9, "a-chord", 1000, 0, 1, "freqs", [110, 220]], []),
    (["/n_map", 1000, 2, 4], []),
    (["/g_queryTree", 0, 1],
     [["/g_queryTree.reply", 1, 0, 1, 1, 1, 1000, -1, "a-chord", 3, "freqs", 110.0, 1, 220.0, 2, "c4"]]),
    ([57, 0, 0], [["/g_queryTree.reply", 0, 0, 1, 1, 1, 1000, -1, "a-chord"]]),
    ([45, 1000, "freqs", 2, 2, 1], [["/n_setn", 1000, "freqs", 2, 110.0, 220.0, 2, 1, 300.0]]),
]

# What a client sends that gives an id back, and what it is told; and the server's tree after the second synth.
RELEASED_TREE = {"/g_queryTree": Message("/g_queryTree.reply", [0, 0, 2, 1 << 30, -1, "tone", 1000, -1, "tone"]),
                 "/n_query": Message("/n_info", [1 << 30, 0, -1, 1000, 0])}
RELEASED = [
    (["/s_new", "tone", 1000, 0, 0], [["/n_go", 1000, 0, -1, -1, 0]]),
    (["/s_noid", 1000], []),
    (["/n_set", 1000, "amp", 0.5], [["/fail", "/n_set", "node 1000 has the id -16 since /s_noid"]]),
    (["/s_new", "tone", 1000, 0, 0], [["/n_go", 1000, 0, -1, -1, 0]]),
    (["/s_new", "tone", 1000, 0, 0], [["/fail", "/s_new", "id in use"]]),
    (["/g_queryTree", 0, 0], [["/g_queryTree.reply", 0, 0, 2, 1000, -1, "tone", -16, -1, "tone"]]),
    (["/n_query", 1000], [["/n_info", 1000, 0, -1, -16, 0]]),
    (["/n_free", -16], [["/n_end", -16, 0, -1, -1, 0]]),
    (["/n_free", 1000], [["/n_end", 1000, 0, -1, -1, 0]]),
    (["/s_new", "tone", 1000, 0, 0], [["/n_go", 1000, 0, -1, -1, 0]]),
]

# Scores whose begin is compared with that of scsynth, and how far they may lie apart in decibels. What has a sine in
# it is bound by the formula of the sine here; an envelope there begins a frame after its begin.
SOUNDS = {
    "sine": -56, "phase": -55, "bells": -50, "vibrato": -55, "saw": -60, "pulse": -60, "triangle": -60, "onepole": -60,
    "lag": -60, "integrator": -60, "delay": -60, "sos": -60, "decay": -60, "impulse": -60, "line": -60, "xline": -60,
    "pan": -60, "perc": -55, "shapes": -30, "again": -35, "loop": -40, "turns": -55, "waves": -80, "limited": -15,
    "filters": -60, "rings": -30, "allpass": -80, "around": -55, "whole": -80, "power": -80, "held": -80,
    "triggers": -50,
}
# The same of what takes units that the server has got last. A frequency that moves at control rate stands still there
# for a block, and what jumps does so a frame later.
FURTHER_SOUNDS = {
    "sweeps": -38, "resonances": -30, "quotients": -47, "exponents": -80, "bent": -85, "followers": -30, "limits": -17,
    "harmonics": -20, "between": -70, "echoes": -64, "string": -24, "room": -50, "hall": -22, "sums": -75, "ladder": -30,
    "blips": -55, "edges": -39, "reading": -70, "played": -20, "tables": -75,
    "asked": -80, "lasting": -80,
}
