"""The table of cases: for each a name, the settings, and the stream that is rendered.

A message is a tuple of its address and its arguments; at(block, ..) is a bundle due at a boundary, and tagged(tag, ..) one with a tag."""
import struct
import osc
from texts import BAD, EDGES, GOOD, HEARD, READS, TEXTS, definition, shown

CASES = []


def packet(element):
    return osc.message(*element) if isinstance(element, tuple) else element


def tagged(tag, *elements):
    return osc.bundle(tag, *map(packet, elements))


def at(block, *elements, rate=48000):
    """A bundle with the least tag that is due at a boundary."""
    return tagged(-(-block * (1 << 38) // rate), *elements)


def stream(*elements):
    return b"".join(osc.frame(packet(element)) for element in elements)


def case(name, *elements, words=()):
    CASES.append((name, tuple(words), stream(*elements)))


def raw(name, data, words=()):
    CASES.append((name, tuple(words), data))


def recv(*names):
    return [("/d_recv", TEXTS[name]) for name in names]


MONO = ("channels=1", "bits=24")
SYNC = osc.message("/sync", 1)


def bytes_of(text):
    return bytes.fromhex(text.replace(" ", ""))


# Packets that are refused, each behind two good ones.
BAD_PACKETS = {
    "P2": "41000000", "P2 null": "00000000", "P3": "2f616263", "P3 tags": "2f610000 2c696969", "P3 text": "2f610000 2c730000 61616161",
    "P4": "2f610001 2c000000", "P4 tags": "2f610000 2c000100", "P4 text": "2f610000 2c730000 61000001", "P4 blob": "2f610000 2c620000 00000001 01000001",
    "P5": "2f610000 69000000", "P5 empty": "2f610000 00000000", "P5 before P4": "2f610000 69000001", "P3 before P5": "2f610000 69696969",
    "P4 before P5": "2f610001 69000000", "P6": "2f610000 2c690000", "P6 second": "2f610000 2c696900 00000001", "P6 text": "2f610000 2c730000", "P6 blob": "2f610000 2c620000",
    "P7": "2f610000 2c000000 00000000", "P7 int": "2f610000 2c690000 00000001 00000002", "P8": "2f610000 2c620000 00000005 01020304",
    "P8 negative": "2f610000 2c620000 ffffffff 01020304", "P8 least": "2f610000 2c620000 80000000", "P9": "2362756e646c6500 0000000000000001 00000006 2f610000",
    "P9 small": "2362756e646c6500 0000000000000001 00000000", "P9 negative": "2362756e646c6500 0000000000000001 fffffffc 2f610000",
    "P9 long": "2362756e646c6500 0000000000000001 00000008 2f610000", "P10": "23627500", "P10 short": "2362756e646c6500 00000000",
    "P10 name": "2362756e646c6501 0000000000000001", "P10 null": "23000000 00000000 00000000 00000000",
    "fault in an element": "2362756e646c6500 0000000000000001 00000004 2f610000 00000008 2f610000 2c690000",
    "first of two faults": "2362756e646c6500 0000000000000001 00000004 41000000 00000006",
    "P10 inside": "2362756e646c6500 0000000000000001 00000008 2362756e 646c6500", "foreign is not read": "2f610000 2c660000 00",
}
for name, text in BAD_PACKETS.items():
    data = osc.padded(bytes_of(text))
    raw("packet " + name, stream(SYNC, at(3, SYNC), data, SYNC))


def nested(tags, inner=SYNC):
    for tag in reversed(tags):
        inner = tagged(tag, inner)
    return inner


case("packet P11", nested([9, 5]))
case("packet P11 below a tag of 1", nested([9, 1, 8]))
case("packet P11 at the same tag", nested([9, 9, 1, 10]))
case("packet P11 is no fault below arrival", nested([1, 0, 0, 1, 5]))
case("packet 0 counts as itself", nested([0, 0, 1, 1]))
case("packet 2 then 0", nested([2, 0]))
case("packet 8 deep", nested([1] * 8))
case("packet 9 deep, P12", nested([1] * 9))
case("packet P12 before P11", nested([9] * 8 + [5]))
case("packet P10 before P12", nested([9] * 8, osc.padded(b"#bundle")))
case("packet at P12, elements before", nested([1] * 8, tagged(1)))
raw("stream of a cut size", stream(SYNC) + b"\0\0\0")
raw("stream of a cut packet", stream(SYNC, SYNC)[:-1])
raw("stream of a size alone", stream(SYNC) + b"\0\0\0\x04")
for size in (0, 1, 2, 3, 5, 6, 7, -4, -1, 65537, 65540, 2147483644, -2147483648):
    raw(f"stream of size {size}", stream(SYNC) + struct.pack(">i", size) + SYNC)
raw("stream: a bad size before a cut", struct.pack(">i", 65540))
raw("stream: a fault before a cut", stream(bytes_of("41000000"), SYNC)[:-1])
raw("stream: a cut packet that begins badly", struct.pack(">i", 8) + b"A\0\0\0")
case("a packet of 65,536 bytes", ("/b_zero", bytes(65536 - 16)), ("/sync", 3))
raw("a stream of 16,777,216 bytes", stream(("/b_zero", bytes(65536 - 20))) * 256)
raw("a stream of 16,777,217 bytes", stream(("/b_zero", bytes(65536 - 20))) * 256 + b"\0")
raw("too long a stream that is bad", b"\0" * 16777217)
for tag in ((1 << 64) - 1, 1 << 63):
    case(f"too long a sound, tag {tag}", SYNC, tagged(tag))
case("too long a sound by a nested bundle", tagged(1, nested([1, (1 << 64) - 1])))
case("too long a sound of eight channels", tagged(8006400291985), words=("rate=96000", "channels=8", "bits=24"))

# Time and order.
case("many late messages, due at once", tagged(0, *[("/c_set", i % 7, i) for i in range(900)], *[("/c_get", *range(7))] * 3))
case("a long late bundle of groups", ("/notify", 1), tagged(0, *[("/g_new", i, i % 4, 0 if i % 4 < 2 else i - 1) for i in range(1, 400)]), ("/g_queryTree", 0, 0))
case("keys of one boundary act in the order of their tags", tagged(5, ("/sync", 5)), tagged(3, ("/sync", 3)), tagged(1, ("/sync", 1)), tagged(0, ("/sync", 0)), ("/sync", -1), tagged(2, ("/sync", 2)))
case("equal keys act in the order of arrival", *[tagged(7, ("/sync", i)) for i in range(40)])
case("inner bundles act by their own tags", tagged(0, ("/sync", 1), at(2, ("/sync", 2), at(3, ("/sync", 3)), ("/sync", 4)), tagged(1, ("/sync", 5)), at(1, ("/sync", 6)), ("/sync", 7)), at(2, ("/sync", 8)))
case("inner bundles are numbered as they are read", tagged(4, tagged(4, ("/sync", 1), tagged(4, ("/sync", 2)), ("/sync", 3)), tagged(1, ("/sync", 4)), ("/sync", 5)), tagged(4, ("/sync", 6)))
case("an inner tag of 1 is that around it", at(2, ("/c_set", 0, 5), tagged(1, ("/c_get", 0))), at(1, ("/c_get", 0)), tagged(1, tagged(1, ("/c_get", 0))))
case("the boundary that a tag falls into", *[tagged(tag, ("/sync", tag % 1000)) for tag in (5726623, 5726624, 11453246, 11453247, 17179869, 17179870)], ("/notify", 1))
case("the boundary at 44,100", *[at(b, ("/sync", b), rate=44100) for b in range(12)], *[tagged(-(-b * (1 << 38) // 44100) - 1, ("/sync", -b)) for b in range(1, 12)], words=("rate=44100",))
case("empty bundles", tagged(1), at(2), at(1, tagged(1), at(3)))
case("/clearSched drops what is due later", at(1, ("/sync", 1), ("/clearSched",), ("/sync", 2)), at(1, ("/sync", 3)), at(2, ("/sync", 4)), at(5))
case("/clearSched at each of two boundaries", ("/clearSched",), at(0, ("/sync", 1)), at(1, ("/sync", 2)))
case("/quit with other messages", at(1, ("/sync", 1), ("/quit",), ("/sync", 2)), at(1, ("/quit",), ("/quit", 1)), at(2, ("/sync", 3)))
case("/quit and a clash", *recv("dc"), ("/p_new", 1, 0, 0), ("/s_new", "dc", 10, 1, 1), ("/quit",), ("/s_new", "dc", 11, 1, 1), at(2, ("/n_free", 10)))

# Each reply.
ASK = [("/g_new", 5, 1, 0), ("/p_new", 6, 1, 5), ("/s_new", "dc", 10, 1, 6, "amp", -7), ("/s_new", "two", 11, 0, 5), ("/g_new", 7, 3, 6)]
case("/n_go, /n_info and /g_queryTree.reply", ("/notify", 7), *recv("dc", "two"), *ASK, ("/n_query", 0, 5, 6, 7, 10, 11), ("/g_queryTree", 0, 0, 5, 0, 6, 0, 7, 0))
case("/n_end, /n_on, /n_off, /n_move", *recv("dc", "two"), *ASK, ("/notify", 1), ("/n_run", 5, 0, 10, 0, 10, 0, 5, 9, 0, 0), ("/n_before", 6, 11), ("/n_after", 6, 7, 11, 6), ("/g_head", 0, 7, 7, 10), ("/g_tail", 6, 11, 5, 6), ("/n_order", 1, 0, 5, 7), ("/n_free", 11, 7), ("/g_freeAll", 0))
case("/n_off of the root, which is silent then", *recv("dc"), ("/notify", 1), ("/s_new", "dc", 10, 1, 0, "amp", 8000000), ("/n_run", 0, 0), at(1, ("/n_run", 0, 1)), at(2), words=MONO)
case("/tr", *recv("ticks"), ("/notify", 1), ("/s_new", "ticks", -1, 0, 0), ("/s_new", "ticks", 10, 1, 0, "freq", 500000, "id", -1), at(4, ("/n_set", 0, "id", -2147483648)), at(5))
case("/n_set", *recv("dc", "two"), *ASK, ("/s_get", 11, 2, "c", "a", 1, 3, -1, "d"), ("/n_map", 11, "a", 1023, 1, 0), ("/c_set", 1023, -2147483648), ("/s_get", 11, "a", "b", 0), ("/s_get", 10, "out", "amp"))
case("/c_set and /c_setn", ("/c_setn", 0, 3, 1, -2, 3, 1021, 3, 7, 8, 9), ("/c_fill", 5, 2, -1, 1023, 1, 2147483647), ("/c_get", 1023, 0, 0, 6), ("/c_getn", 0, 8, 1020, 4, 9, 0))
case("/b_set, /b_setn and /b_info", ("/b_alloc", 3, 4, 2), ("/b_set", 3, 7, 1, 0, -2147483648), ("/b_setn", 3, 2, 2, 5, 6, 7, 0), ("/b_fill", 3, 4, 3, -1), ("/b_get", 3, 7, 0, 3), ("/b_getn", 3, 0, 8, 7, 0), ("/b_query", 3, 4, 0, 1023, 3), ("/b_zero", 3), ("/b_getn", 3, 0, 8), ("/b_free", 3), ("/b_query", 3), words=("rate=96000",))
case("/status.reply", ("/status",), *recv("dc", "two", "nothing"), *ASK, ("/s_new", "nothing", 12, 0, 0), ("/n_run", 5, 0), ("/status",), ("/d_recv", TEXTS["dc"]), ("/d_free", "two", "nothing"), ("/status",), ("/n_free", 6), ("/status",))
case("/done and /synced", ("/sync", -2147483648), ("/notify", 1), ("/notify", 0), ("/notify", -1), ("/quit",), *recv("dc"), ("/b_alloc", 0, 1), ("/b_zero", 0), ("/b_free", 0))
case("/fail of long addresses", ("/" + "x" * 3000,), ("/a",), ("/",), ("/s_newx", "a"), ("/S_NEW",), ("/n_go", 1), ("/done", "/quit"))
case("commands that are left out", *[("/" + name, 1) for name in "d_load d_loadDir b_gen b_write b_read b_readChannel b_allocReadChannel b_close cmd u_cmd n_trace dumpOSC error s_noid s_getn n_mapn n_mapa n_mapan g_dumpTree version".split()])


def foreign(address, tags, rest=b""):
    return osc.string(address) + osc.string("," + tags) + rest


case("tags that are not read", foreign("/sync", "f", b"\0\0\0\0"), foreign("/none", "f"), foreign("/sync", "iT", b"\0\0\0\1"), foreign("/c_set", "iid", bytes(12)), foreign("/quit", "N"), osc.string("/sync"), osc.string("/quit"), osc.string("/status"), osc.string("/c_get"))

# Who may be -1, add actions, and what is in the way.
case("ids of -1", ("/notify", 1), *recv("dc"), ("/g_new", -1, 0, 0, -1, 1, 0, -1, 9, 0), ("/g_new", -1, 0, 0, -1, 0, -2), ("/s_new", "dc", -1, 1, -2), ("/p_new", -1, 4, -2), ("/s_new", "none", -1, 0, 0), ("/s_new", "dc", -1, 4, -5), ("/g_new", -2, 0, 0), ("/n_query", -6, -2))
case("add actions 0 to 4", ("/notify", 1), *recv("dc"), ("/g_new", 5, 0, 0, 6, 1, 0, 7, 2, 6, 8, 3, 5, 9, 4, 7), ("/s_new", "dc", 10, 0, 9), ("/s_new", "dc", 11, 1, 9), ("/s_new", "dc", 12, 2, 11), ("/s_new", "dc", 13, 3, 10), ("/s_new", "dc", 14, 4, 12), ("/s_new", "dc", 15, 4, 9), ("/p_new", 9, 4, 15, 10, 0, 9, 11, 4, 9), ("/g_queryTree", 0, 0))
ORDER = [("/s_new", "none", 0, 9, 99), ("/s_new", "dc", 0, 9, 99), ("/s_new", "dc", 5, 9, 99), ("/s_new", "dc", 20, 9, 99), ("/s_new", "dc", 20, -1, 0), ("/s_new", "dc", 20, 0, 99), ("/s_new", "dc", 20, 1, 10), ("/s_new", "dc", 20, 2, 0), ("/s_new", "dc", 20, 3, 0), ("/s_new", "dc", 20, 4, 0), ("/s_new", "dc", -2, 0, 0), ("/s_new", "dc", 20, 0), ("/s_new", "dc", 20, 0, 0, "amp"), ("/s_new", 20, 20, 0, 0), ("/s_new", "dc", 20, 0, 0, "amp", "amp"), ("/s_new", "dc", 20, 0, 0, b"amp", 1)]
case("the order of reasons of /s_new", *recv("dc"), ("/g_new", 5, 0, 0), ("/s_new", "dc", 10, 0, 0), *ORDER, ("/g_queryTree", 0, 0))
case("the order of reasons of moves", *recv("dc"), ("/g_new", 5, 0, 0, 6, 0, 5), ("/s_new", "dc", 10, 0, 0), ("/n_before", 9, 0), ("/n_before", 0, 9), ("/n_before", 0, 0), ("/n_before", 5, 5), ("/n_before", 5, 6), ("/n_after", 6, 0), ("/g_head", 9, 0), ("/g_head", 10, 0), ("/g_head", 10, 10), ("/g_head", 0, 0), ("/g_head", 5, 5), ("/g_tail", 6, 5), ("/g_tail", 10, 5), ("/n_before", 5), ("/g_head", 5, 6, 6), ("/g_head", 5, "6"), ("/n_after", 6, 10, 10, 6, 5, 6, 0, 9), ("/g_queryTree", 0, 0))
case("repetitions are judged in what the earlier ones left", ("/g_new", 5, 0, 0, 6, 0, 5), ("/n_free", 5, 6), ("/n_free", 6, 5, 5), ("/n_free", 6, 5), ("/g_queryTree", 0, 0), ("/c_set", 0, 1, 1024, 1), ("/c_get", 0), ("/g_head", 0, 1, 0, 2))
case("what is against queries", *recv("dc"), ("/s_new", "dc", 10, 0, 0), ("/g_queryTree", 10, 0), ("/g_queryTree", 9, 0), ("/g_queryTree", 9, 1), ("/g_queryTree", 0, 0, 10, 0), ("/s_get", 0, 1), ("/s_get", 9, 1), ("/s_get", 10), ("/s_get", 10, b""), ("/n_query",), ("/n_query", 0, 9), ("/n_query", "a"))
case("elements of arrays", *recv("bank", "outs"), ("/s_new", "bank", 9, 0, 0, "amp.2", 5), ("/s_get", 9, "amp", 1, "amp.2", 3, "amp.0", "amp.3"), ("/n_setn", 9, "amp.1", 4, 1, 2, 3, 4), ("/n_fill", 9, "amp.2", 600, 8), ("/s_get", 9, 0, 1, 2, 3), ("/n_map", 9, "amp.1", 7, "out", 4), ("/n_map", 9, "amp.1", 7), ("/c_set", 7, 8388608), ("/s_new", "outs", 10, 1, 0, "out.2", 0), ("/n_map", 10, "out", 3), ("/n_map", 10, "out.1", 3), at(1, ("/n_set", 9, "out", 0, "amp.1", 4194304)), at(2, ("/n_setn", 10, "out.1", 2, 0, 1)), at(3, ("/s_get", 10, "out", "out.1", 3)), words=MONO)
case("what is against controls", *recv("dc", "two"), *ASK, ("/n_set", 99, "a", 1), ("/n_set", 11), ("/n_set", 11, "a"), ("/n_set", 11, "a", "b"), ("/n_set", 0, "a", 3, "out", 9, 7, 7), ("/n_setn", 11, "a", 2, 1), ("/n_setn", 11, 1, 2, 4, 5, "b", 0), ("/n_setn", 11, "c", -1), ("/n_fill", 11, 0, 2, 6, 2, 99, 8, -1, 3, 3), ("/n_fill", 11, 0, -1, 5), ("/s_get", 11, 0, 1, 2), ("/n_map", 99, "a", 1024), ("/n_map", 11, "a", 1024), ("/n_map", 11, "a", -2), ("/n_map", 0, "out", 1024), ("/n_map", 0, "out", 3), ("/n_map", 0, "out", -1), ("/n_map", 0, "a", 1, 0, 2), ("/n_map", 5, 0, 2), ("/s_get", 11, "a"), ("/n_map", 5, "none", 2, 55, 3), ("/n_map", 11, "a", "b"))
case("what is against buses", ("/c_set", -1, 1), ("/c_set", 1024, 1), ("/c_set", 0), ("/c_setn", 1023, 2, 1, 1), ("/c_setn", 1024, 0), ("/c_setn", -1, 0), ("/c_setn", 0, -1), ("/c_setn", 0, 2, 1), ("/c_fill", 0, 1025, 1), ("/c_fill", 1023, 2147483647, 1), ("/c_fill", 0, -1, 1), ("/c_fill", 1024, 0, 5), ("/c_get",), ("/c_get", 1024), ("/c_getn", 0, 8193), ("/c_getn", 0, 1025), ("/c_getn", 1000, 25), ("/c_getn", 2000, 4096, 0, 4097), ("/c_getn", *[0, 1024] * 8, 1, 0), ("/c_getn", 0, -1))
case("reasons of /n_order", *recv("dc"), ("/g_new", 5, 1, 0, 6, 1, 0, 7, 1, 6), ("/s_new", "dc", 10, 1, 0), ("/notify", 1), ("/n_order", 4, 99), ("/n_order", 0, 99), ("/n_order", 0, 10), ("/n_order", 2, 0), ("/n_order", 2, 10, 10, 0), ("/n_order", 0, 5, 6, 5, 0), ("/n_order", 0, 7, 6), ("/n_order", 1, 0, 99, 5, 99, 5, 6), ("/n_order", 2, 7, 10, 5, 10), ("/n_order", 3, 5, 6, 6, 7, 99, 7), ("/n_order", 0, 0, "a"), ("/g_queryTree", 0, 0))
case("an address by itself where arguments are optional", *recv("dc"), osc.string("/s_new"), ("/s_new", "dc", 9, 0, 0), ("/n_order", 0, 0), ("/n_free",), ("/d_free",), ("/d_free", "dc", "dc"), ("/d_free", 1), ("/s_new", "dc", 12, 0, 0), ("/d_free", "dc"), ("/s_new", "dc", 13, 0, 0))

# Completion messages.


def carried(depth, inner=("/sync", 7)):
    for i in range(depth):
        inner = ("/b_alloc", i, 1, osc.message(*inner))
    return inner


for depth in range(1, 11):
    case(f"completion messages {depth} deep", carried(depth), ("/b_query", *range(10)))
case("completion messages 8 and 9 deep by bad ranges", carried(8, ("/b_free", -1, SYNC)), carried(7, ("/b_free", -1, SYNC)), carried(8, ("/b_free", -1, SYNC + SYNC)), carried(8, ("/b_free", "a", SYNC)), carried(8, ("/d_recv", b"", SYNC)), carried(8, ("/b_alloc", 1, 1, 1, SYNC)), carried(8, ("/b_query", 1, SYNC)))
case("each command that carries one", ("/b_alloc", 1, 2, 3, osc.message("/b_query", 1)), ("/b_alloc", 2, 2, osc.message("/b_query", 2)), ("/b_zero", 1, osc.message("/b_free", 1, osc.message("/b_query", 1))), ("/d_recv", TEXTS["dc"], osc.message("/s_new", "dc", 9, 0, 0)), ("/d_recv", BAD["name"], SYNC), ("/b_free", 5, SYNC), ("/b_free", 2, osc.message("/b_free", 2)), ("/b_zero", 2, b""), ("/b_zero", 2, tagged(1, SYNC)), ("/b_zero", 2, SYNC[:-4]), ("/b_alloc", 4, 4, foreign("/sync", "f", b"")), ("/b_alloc", 4, 4, osc.message("/none")), ("/sync", 1, SYNC), ("/b_alloc", 5, SYNC), ("/b_alloc", 5, 1, 1, 1, SYNC), ("/b_alloc", 5, 1, SYNC, SYNC))
SAMPLES = struct.pack(">6i", 7, -1, 2147483647, -2147483648, 0, 8388608)
case("a buffer of samples", ("/b_allocRead", 3, 3, 2, SAMPLES), ("/b_getn", 3, 0, 6), ("/b_query", 3), ("/b_allocRead", 3, 6, 1, SAMPLES, osc.message("/b_get", 3, 5)), ("/b_allocRead", 1, 1, 1, SAMPLES[:4], SYNC + SYNC))
case("reasons of /b_allocRead", ("/b_allocRead",), ("/b_allocRead", 0), ("/b_allocRead", 0, "a.wav"), ("/b_allocRead", 0, "a.wav", 1), ("/b_allocRead", 0, "a.wav", -1, 2), ("/b_allocRead", 0, "a.wav", 1, 2, SYNC), ("/b_allocRead", 9999, "a.wav", SYNC + SYNC), ("/b_allocRead", 0, "a.wav", 1, 2, 3), ("/b_allocRead", 0, "a.wav", SYNC, SYNC), ("/b_allocRead", "a.wav", 0), ("/b_allocRead", 0, 3, 2, SAMPLES[:20]), ("/b_allocRead", 0, 3, 2, SAMPLES + SAMPLES[:4]), ("/b_allocRead", 0, 0, 2, b""), ("/b_allocRead", 0, 1, 9, SAMPLES + SAMPLES[:12]), ("/b_allocRead", 0, 6, SAMPLES), ("/b_allocRead", -1, 3, 2, SAMPLES), ("/b_allocRead", 1024, 6, 1, SAMPLES), ("/b_query", 0))
case("a file's name with a completion doesn't count", carried(7, ("/b_allocRead", 0, "a.wav", SYNC)), carried(8, ("/b_allocRead", 0, "a.wav", SYNC)), carried(8, ("/b_allocRead", 0, 1, 1, SAMPLES[:4], SYNC)), carried(7, ("/b_allocRead", 0, 1, 1, SAMPLES[:4], SYNC)))
case("a completion that is /clearSched or /quit", ("/b_alloc", 0, 1, osc.message("/clearSched")), ("/b_alloc", 1, 1, osc.message("/quit")), ("/sync", 1), at(1, ("/sync", 2)))

# Buffers by commands.
case("reasons of buffers", ("/b_alloc", -1, 1), ("/b_alloc", 1024, 1), ("/b_alloc", 0, 0), ("/b_alloc", 0, 1, 0), ("/b_alloc", 0, 1, 9), ("/b_alloc", 0), ("/b_alloc", "0", 1), ("/b_alloc", 0, 1, "1"), ("/b_alloc", 1024, 0), ("/b_free", -1), ("/b_free", 5), ("/b_zero", 1024), ("/b_set", 5, 0, 1), ("/b_set", 5, -1, 1), ("/b_set", 0), ("/b_setn", 5, 0, 1), ("/b_getn", 5, 0, 8193), ("/b_query", -1), ("/b_query", 1024), ("/b_query",), ("/b_alloc", 0, 3, 2), ("/b_set", 0, 5, 1, 6, 1), ("/b_setn", 0, 4, 2, 1, 1, 5, 2, 1, 1), ("/b_setn", 0, 6, 0), ("/b_setn", 0, 5, 0), ("/b_fill", 0, 0, 7, 1), ("/b_fill", 0, 2147483647, 2147483647, 1), ("/b_get", 0, 6), ("/b_get", 0, -1), ("/b_getn", 0, 6, 0), ("/b_getn", 0, 0, 6), ("/b_getn", 0, 5, 1, 5, 2), ("/b_get", 0))
case("the pool gives the least place", ("/b_alloc", 0, 30000), ("/b_alloc", 1, 20000), ("/b_alloc", 2, 15536), ("/b_alloc", 3, 1), ("/b_free", 1), ("/b_alloc", 3, 20001), ("/b_alloc", 3, 20000), ("/b_free", 0), ("/b_free", 3), ("/b_alloc", 1, 25001, 2), ("/b_alloc", 1, 6250, 8), ("/b_alloc", 2, 15537), ("/b_alloc", 2, 15536), ("/b_query", 0, 1, 2, 3), words=("memory=65536",))
case("synths take words of the pool", ("/d_recv", HEARD["CombN"]), ("/b_alloc", 0, 65536 - 99), ("/s_new", "unit", 9, 0, 0), ("/b_alloc", 0, 65536 - 100), ("/s_new", "unit", 9, 0, 0), ("/b_alloc", 0, 65536 - 98), ("/s_new", "unit", 10, 0, 0), ("/s_new", "unit", 10, 4, 9), ("/b_alloc", 1, 1), ("/n_free", 10), ("/b_alloc", 1, 1), words=("memory=65536",))
case("a definition stays with its synths", *recv("dc"), ("/s_new", "dc", 9, 0, 0, "amp", 4000000), ("/d_recv", TEXTS["wide"].replace(b"wide", b"dc")), ("/s_new", "dc", 10, 0, 0), ("/s_get", 9, "amp", 0, 1, 2), ("/s_get", 10, "amp", 0, 1, 2), ("/g_queryTree", 0, 0), at(2, ("/d_free", "dc")), at(3), words=MONO)

# Sound.
case("eight channels of one Out", *recv("wide"), ("/s_new", "wide", 9, 0, 0), at(2, ("/n_set", 9, "out", 3)), at(3, ("/n_set", 9, "out", -5, "a", -41943040)), at(4, ("/n_set", 9, "out", 127)), at(5, ("/n_set", 9, "out", 128)), at(6), words=("channels=8", "rate=96000"))
for bits in (16, 24):
    sums = [("/s_new", "dc", 10 + i, 1, 0, "amp", amp) for i, amp in enumerate([2147483647, 2147483647, -2147483648, 5, -2147483648, -2147483648, -9])]
    case(f"sums saturate at each synth, {bits} bits", *recv("dc", "mix"), *sums, ("/s_new", "mix", 30, 1, 0, "in", 0, "out", 1), *[at(b, ("/n_free", 9 + b), ("/n_query", 0)) for b in range(1, 8)], words=(f"bits={bits}",))
    edges = [16777215, 16777216, -16777216, -16777217, 511, 512, -1, -512, -513, 2147483647, -2147483648, 1, 0]
    case(f"samples become bytes, {bits} bits", *recv("dc"), ("/s_new", "dc", 9, 1, 0), *[at(b, ("/n_set", 9, "amp", amp)) for b, amp in enumerate(edges)], at(len(edges)), words=("channels=1", f"bits={bits}"))
case("a bus is replaced", *recv("dc", "swap"), ("/s_new", "dc", 9, 1, 0, "amp", 300), ("/s_new", "swap", 10, 1, 0, "amp", 500), ("/s_new", "dc", 11, 1, 0, "amp", 40), at(1, ("/n_before", 10, 9)), at(2, ("/n_set", 10, "out", 127)), at(3, ("/n_free", 10)), at(4), words=("bits=24",))
case("buses are heard across synths and blocks", *recv("dc", "mix", "ear"), ("/s_new", "ear", 9, 1, 0), ("/s_new", "mix", 10, 1, 0), ("/s_new", "dc", 11, 1, 0, "out", 16, "amp", 16777216), at(2, ("/n_before", 11, 10)), at(3, ("/n_run", 11, 0)), at(5, ("/n_run", 11, 1)), at(6, ("/n_set", 11, "out", 17)), at(8), words=MONO)
MAPS = [at(1, ("/n_map", 9, "a", 100)), at(2, ("/c_set", 100, 3000)), at(3, ("/n_map", 9, "b", 101), ("/c_set", 101, -500)), at(4, ("/c_set", 100, 10, 101, 20)), at(5, ("/n_map", 9, "a", 101)), at(6, ("/n_set", 9, "b", 77)), at(7, ("/n_map", 9, "a", -1)), at(8, ("/n_map", 9, 0, 1023, 1, 1023, 2, 100), ("/c_set", 1023, 1000000)), at(9, ("/n_fill", 9, 0, 2, 6)), at(10, ("/n_setn", 9, "c", 1, 8)), at(11, ("/s_get", 9, 0, 1, 2))]
case("controls follow buses over blocks", *recv("two"), ("/s_new", "two", 9, 0, 0, "a", 40, "b", 2), *MAPS, words=("bits=24",))
case("Out.kr drives mapped controls", *recv("two", "link", "twice"), ("/s_new", "two", 9, 0, 0), ("/n_map", 9, "a", 1, "b", 2), ("/s_new", "link", 10, 1, 0, "in", 0, "out", 1, "add", 5), ("/c_set", 0, 100, 1, 7, 2, 9), at(2, ("/s_new", "link", 11, 1, 0, "in", 1, "out", 2), ("/s_new", "link", 12, 1, 0, "out", 2)), at(3, ("/n_before", 11, 9), ("/c_set", 1, 1000)), at(4, ("/s_new", "twice", 13, 1, 0, "out", 1)), at(5, ("/n_set", 13, "out", 1023)), at(6, ("/n_free", 10, 11)), at(7, ("/c_get", 0, 1, 2, 3, 1023)), words=("bits=24",))
case("Out.kr past the last bus", *recv("twice", "link"), ("/s_new", "twice", 9, 0, 0, "out", 1023), ("/s_new", "link", 10, 0, 0, "out", -1), ("/s_new", "link", 11, 0, 0, "in", 1024, "out", 1024), at(1, ("/c_get", 1023, 0)))
case("paused groups", *recv("dc"), ("/g_new", 5, 1, 0, 6, 1, 5), ("/s_new", "dc", 10, 1, 6, "amp", 1000), ("/s_new", "dc", 11, 1, 5, "amp", 300), ("/s_new", "dc", 12, 1, 0, "amp", 20), at(1, ("/n_run", 6, 0)), at(2, ("/n_run", 5, 0)), at(3, ("/n_run", 6, 1, 10, 0)), at(4, ("/n_run", 5, 1)), at(5, ("/n_run", 10, 1, 12, 0)), at(6, ("/n_after", 10, 12)), at(7), words=MONO)
case("a synth that was paused goes on where it stood", ("/d_recv", HEARD["LFSaw"]), ("/s_new", "unit", 9, 0, 0), at(1, ("/n_run", 9, 0)), at(3, ("/n_run", 9, 1)), at(4), words=MONO)
for name, text in HEARD.items():
    node = 987654 if "oise" in name else 9
    case(f"unit {name}", ("/d_recv", text), ("/b_alloc", 5, 14, 3), ("/s_new", "unit", node, 0, 0), at(3), words=MONO)
for rate in (44100, 96000):
    for name in ("LFSaw", "Impulse", "Line", "Linen", "Lag", "DelayN", "CombN", "SinOsc", "Sine", "Saw", "SVF", "LagUD", "Trig", "Blip", "PinkNoise", "DelayL", "CombL", "CombL_allpass", "CombL_damped"):
        case(f"unit {name} at {rate}", ("/d_recv", HEARD[name]), ("/s_new", "unit", 9, 0, 0), at(4, rate=rate), words=MONO + (f"rate={rate}",))
for name, lines in EDGES.items():
    for rate in (44100, 48000, 96000):
        case(f"edge: {name} at {rate}", ("/d_recv", shown("unit", *lines)), ("/s_new", "unit", 9, 0, 0), at(6, rate=rate), words=("channels=1", "bits=24", f"rate={rate}"))
case("SVF has three outputs", ("/d_recv", definition("unit", "l b = SVF 0 0 0")), ("/s_new", "unit", 9, 0, 0))

case("CombL has two outputs", ("/d_recv", definition("unit", "l = CombL 0 0 0 0 0")), ("/s_new", "unit", 9, 0, 0))
case("pink noise after its count of 65536", ("/d_recv", HEARD["PinkNoise"]), ("/s_new", "unit", 987654, 0, 0), at(1026), words=MONO)

# Buffers that sound.
READ_BUFFERS = [("/b_alloc", 1, 1), ("/b_set", 1, 0, -7000001), ("/b_alloc", 2, 7), ("/b_setn", 2, 0, 7, 1000, -2000001, 16777216, -2147483648, 2147483647, -16777216, 333333),
                ("/b_alloc", 3, 5, 2), ("/b_setn", 3, 0, 10, *range(-5000000, 5000000, 1000001))]
for name, lines in READS.items():
    case(f"read: {name}", ("/notify", 1), *READ_BUFFERS, ("/d_recv", shown("unit", *lines)), ("/s_new", "unit", 9, 0, 0), at(4), words=MONO)
SLIDE = [at(1, ("/n_set", 10, "trig", 1, "start", 4)), at(2, ("/n_set", 10, "trig", 0, "step", -20000000)), at(3, ("/n_set", 10, "loop", 1)), at(4, ("/n_set", 10, "trig", 1, "start", 1000, "step", 2147483647)), at(5, ("/b_free", 0), ("/n_set", 10, "trig", 0)), at(6, ("/n_set", 10, "trig", 1, "start", 2)), at(7, ("/b_alloc", 0, 9), ("/b_setn", 0, 0, 9, *range(10, 100, 10))), at(8, ("/b_alloc", 0, 9, 2)), at(9, ("/b_alloc", 0, 2), ("/n_set", 10, "step", 1, "loop", 0)), at(10)]
case("a buffer is played between its frames, from many places", ("/b_alloc", 0, 200), ("/b_setn", 0, 0, 200, *range(0, 20000, 100)), *recv("between", "dc"), ("/notify", 1), ("/s_new", "between", 10, 1, 0, "loop", 1, "start", 190), ("/s_new", "between", 11, 1, 0, "step", 3 << 24, "start", 3), *SLIDE, words=MONO)
case("a table is read between its frames", ("/b_alloc", 0, 5, 2), ("/b_setn", 0, 0, 10, *range(1000, 1000001, 111000)), *recv("table"), ("/s_new", "table", 9, 0, 0), at(1, ("/n_set", 9, "scale", -3000000)), at(2, ("/n_set", 9, "loop", 0)), at(3, ("/n_set", 9, "buf", 1)), at(4, ("/n_set", 9, "buf", 0, "scale", 2147483647)), at(5), words=("bits=24",))
case("members read one buffer between its frames", *recv("between", "table", "writer"), ("/b_alloc", 0, 6), ("/p_new", 1, 0, 0), ("/s_new", "between", 10, 1, 1, "loop", 1), ("/s_new", "table", 11, 1, 1), at(1, ("/s_new", "writer", 12, 1, 1)), at(2, ("/n_free", 12)), at(3), words=MONO)
case("a buffer is recorded, played and counted", ("/b_alloc", 0, 70), *recv("recorder", "player", "frames"), ("/notify", 1), ("/s_new", "recorder", 9, 1, 0), ("/s_new", "player", 10, 1, 0), ("/s_new", "frames", 11, 1, 0, "buf", 0), at(3, ("/b_getn", 0, 0, 70)), at(4), words=MONO)
PLAY = [at(1, ("/n_set", 10, "trig", 1, "start", 4)), at(2, ("/n_set", 10, "trig", 0, "step", -3)), at(3, ("/n_set", 10, "loop", 1)), at(4, ("/n_set", 10, "trig", 1, "start", 1000, "step", 2147483647)), at(5, ("/b_free", 0)), at(6, ("/b_alloc", 0, 9), ("/b_setn", 0, 0, 9, *range(10, 100, 10))), at(7, ("/b_alloc", 0, 9, 2)), at(8)]
case("a buffer is played from many places", ("/b_alloc", 0, 200), ("/b_setn", 0, 0, 200, *range(0, 20000, 100)), *recv("player", "dc"), ("/notify", 1), ("/s_new", "player", 10, 1, 0, "loop", 1, "start", 190), ("/s_new", "player", 11, 1, 0, "step", 3, "start", 3), *PLAY, words=MONO)
case("a buffer of two channels", ("/b_alloc", 0, 5, 2), ("/b_setn", 0, 0, 10, *range(1000, 11000, 1000)), *recv("stereo", "player"), ("/s_new", "stereo", 9, 0, 0), ("/s_new", "player", 10, 0, 0), at(1, ("/n_set", 9, "step", -2)), at(2, ("/n_set", 9, "loop", 0)), at(3, ("/n_set", 9, "buf", 1)), at(4), words=("bits=24",))
case("a recorder that ends, goes round, and is given a greater buffer", ("/b_alloc", 0, 100), ("/b_alloc", 1, 30), *recv("recorder"), ("/notify", 1), ("/s_new", "recorder", 9, 0, 0), ("/s_new", "recorder", 10, 0, 0, "buf", 1, "loop", 1), at(1, ("/b_getn", 1, 0, 30), ("/n_set", 10, "run", 0)), at(2, ("/b_getn", 0, 0, 100), ("/n_query", 9)))
case("frames by their numbers", ("/b_alloc", 0, 6), *recv("writer", "reader"), ("/s_new", "writer", 9, 1, 0), ("/s_new", "reader", 10, 1, 0), at(1, ("/b_getn", 0, 0, 6), ("/n_set", 9, "buf", 3)), at(2, ("/b_alloc", 0, 6, 2)), at(3), words=MONO)

# Triggers and ends.
case("ends at the last and the first frame of a block", ("/notify", 1), *recv("ramp"), *[("/s_new", "ramp", 10 + ms, 1, 0, "dur", ms) for ms in (0, 1, 2, 3, 4, 5, 20)], *[at(b, ("/g_queryTree", 0, 0)) for b in range(1, 17)], words=("rate=96000",))
case("done actions", ("/notify", 1), *recv("ramp", "gone", "hush"), ("/d_recv", TEXTS["ramp"].replace(b"dur 2", b"dur 1").replace(b"ramp", b"rest")), ("/s_new", "rest", 9, 1, 0), ("/s_new", "gone", 10, 1, 0), ("/s_new", "gone", 11, 1, 0), ("/s_new", "hush", 12, 1, 0, "x", 16777216), at(1, ("/n_set", 10, "still", 1), ("/n_run", 9, 1)), at(2, ("/n_set", 0, "gone", 1, "x", 1)), at(3, ("/n_run", 10, 1, 9, 1)), at(6, ("/g_queryTree", 0, 0)), words=MONO)
case("nobody is told who does not ask", *recv("ticks", "ramp"), ("/s_new", "ticks", 9, 0, 0), ("/s_new", "ramp", 10, 0, 0), at(1, ("/notify", 1)), at(2, ("/notify", 0)), at(3, ("/g_queryTree", 0, 0)))

# Parallel groups.
CLASH = [at(1, ("/sync", 1)), at(2, ("/n_set", 11, "out", 17)), at(3, ("/n_set", 12, "out", 17)), at(4, ("/n_set", 12, "out", 18), ("/n_set", 11, "out", 16)), at(5, ("/n_before", 11, 10)), at(6, ("/n_before", 12, 11)), at(7, ("/n_run", 11, 0)), at(8, ("/n_run", 11, 1)), at(9, ("/n_run", 1, 0)), at(10, ("/n_run", 1, 1)), at(11, ("/n_free", 11)), at(12, ("/s_new", "dc", 11, 1, 1, "out", 16))]
case("a clash is told once, and again once one value changed", *recv("dc"), ("/p_new", 1, 0, 0), *[("/s_new", "dc", 10 + i, 1, 1, "out", 16 + i // 2, "amp", 100 << i) for i in range(4)], *CLASH, words=MONO)
case("a clash of each kind", *recv("dc", "wide", "link", "two", "player", "recorder", "writer", "reader", "ear", "swap", "frames"), ("/b_alloc", 0, 10), ("/p_new", 1, 0, 0, 2, 0, 0, 3, 0, 0, 4, 0, 0, 5, 0, 0, 6, 0, 0, 7, 0, 0), ("/s_new", "wide", 10, 1, 1, "out", 120), ("/s_new", "wide", 11, 1, 1, "out", 124), ("/s_new", "ear", 12, 1, 2), ("/s_new", "swap", 13, 1, 2, "out", 15), ("/s_new", "link", 14, 1, 3, "in", 3, "out", 4), ("/s_new", "link", 15, 1, 3, "in", 4, "out", 5), ("/s_new", "two", 16, 1, 4), ("/n_map", 16, "c", 9), ("/s_new", "link", 17, 1, 4, "out", 9), ("/s_new", "frames", 18, 1, 5), ("/s_new", "recorder", 19, 1, 5), ("/s_new", "player", 20, 1, 5), ("/s_new", "player", 21, 1, 6, "buf", 1), ("/s_new", "recorder", 22, 1, 6, "buf", 1), ("/s_new", "reader", 23, 1, 7), ("/s_new", "reader", 24, 1, 7), at(1, ("/b_alloc", 1, 10, 2)), at(2, ("/b_free", 0), ("/n_map", 16, "c", -1)))
case("parallel groups in groups", *recv("dc"), ("/p_new", 1, 0, 0), ("/g_new", 2, 1, 1), ("/p_new", 3, 1, 2, 4, 1, 1), *[("/s_new", "dc", 10 + i, 1, 3 + i % 2, "out", 10 + i // 4) for i in range(8)], ("/s_new", "dc", 20, 1, 2, "out", 11), at(1, ("/n_run", 4, 0)), at(2, ("/n_run", 2, 0, 4, 1)), at(3, ("/n_run", 2, 1), ("/g_head", 0, 4)), at(4, ("/g_deepFree", 1)))
case("two members that read, and buses that no bus is", *recv("mix", "dc", "wide"), ("/p_new", 1, 0, 0), ("/s_new", "mix", 10, 1, 1, "out", -1), ("/s_new", "mix", 11, 1, 1, "out", -1), ("/s_new", "dc", 12, 1, 1, "out", 128), ("/s_new", "dc", 13, 1, 1, "out", 128), ("/s_new", "wide", 14, 1, 1, "out", -7), ("/s_new", "wide", 15, 1, 1, "out", 127), at(1, ("/n_set", 15, "out", -7)), at(2))
case("eight members clash in order", *recv("dc", "mix"), ("/p_new", 1, 0, 0), *[("/s_new", "dc" if i % 3 else "mix", 20 - i, 0, 1, "out", 16 + i % 5) for i in range(12)], *[at(b, ("/n_set", 9 + b, "out", 16 + b % 3)) for b in range(1, 11)], at(11), words=MONO)

# Definition texts.
for name, text in BAD.items():
    case(f"a bad text: {name}", ("/d_recv", text), ("/status",))
for name, text in GOOD.items():
    case(f"a text: {name}", ("/d_recv", text), ("/status",))
case("a text that is no blob", ("/d_recv", "text"), ("/d_recv",), ("/d_recv", 1), ("/d_recv", TEXTS["dc"], "a"), ("/d_recv", TEXTS["dc"], SYNC, SYNC))
