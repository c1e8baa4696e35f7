"""Command lines that are refused, with what is printed; and connections that are served."""
import time
import osc
from cases import SYNC, bytes_of, packet, recv, stream

# Words behind the program's name, and the index of the first bad one.
BAD_WORDS = [
    ([], 0), (["rend", "a", "b", "c"], 0), (["render"], 1), (["render", "a"], 2), (["render", "a", "b"], 3), (["render", "rate=44000", "a", "b", "c"], 1),
    (["render", "bits=16", "bits=24", "a", "b", "c"], 2), (["render", "bits", "a", "b", "c"], 1), (["render", "bits=", "a", "b", "c"], 1), (["render", "bits=016", "a", "b", "c"], 1),
    (["render", "bits=+16", "a", "b", "c"], 1), (["render", "Bits=16", "a", "b", "c"], 1), (["render", "=16", "a", "b", "c"], 1), (["render", "bits=16=16", "a", "b", "c"], 1),
    (["render", "channels=0", "a", "b", "c"], 1), (["render", "channels=9", "a", "b", "c"], 1), (["render", "channels=8", "workers=17", "a", "b", "c"], 2), (["render", "workers=0", "a", "b", "c"], 1),
    (["render", "memory=65535", "a", "b", "c"], 1), (["render", "memory=16777217", "a", "b", "c"], 1), (["render", "memory=65536", "rate=18446744073709600000", "a", "b", "c"], 2), (["render", "rate=99999999999999999999999", "a", "b", "c"], 1),
    (["serve", "clients=0", "5000", "a"], 1), (["serve", "clients=5", "5000", "a"], 1), (["serve", "clients=2", "rate=48000", "clients=2", "5000", "a"], 3), (["serve", "clients=2", "0", "a"], 2), (["render", "clients=2", "a", "b", "c"], 1), (["drill", "clients=2"], 1),
    (["serve", "pace=drum", "5000", "a"], 1), (["serve", "pace=1", "5000", "a"], 1), (["serve", "pace=sound", "pace=clock", "5000", "a"], 2), (["render", "pace=sound", "a", "b", "c"], 1),
    (["render", "rate=48000", "x", "bits=16", "a", "b", "c"], 2), (["render", "bits=16", "rate=48000"], 3), (["render", " bits=16", "a", "b", "c"], 1), (["render", "bits=24 ", "a", "b", "c"], 1),
]

HOUR = 3600 << 32  # of a time tag
NOW = int((time.time() + 2208988800) * (1 << 32))  # as a time tag

# What is sent over a connection that is then closed; the replies; the line and the status.
CONNECTIONS = [
    ("a number", stream(("/sync", 7)), [("/synced", 7)], "closed", 0),
    ("nothing", b"", [], "closed", 0),
    ("late bundles act in the order of arrival", stream(*[osc.bundle(tag, osc.message("/sync", tag)) for tag in (900, 5, 0, 1, 77)]), [("/synced", tag) for tag in (900, 5, 0, 1, 77)], "closed", 0),
    ("a late bundle and what is inside it", stream(osc.bundle(9, SYNC, osc.bundle(1, osc.message("/sync", 2)), osc.message("/sync", 3))), [("/synced", 1), ("/synced", 3), ("/synced", 2)], "closed", 0),
    ("a bundle of an hour ago acts, and one in an hour waits", stream(osc.bundle(NOW + HOUR, SYNC), osc.bundle(NOW - HOUR, osc.message("/sync", 2))), [("/synced", 2)], "closed", 0),
    ("packets at fault are told and skipped", stream(bytes_of("41000000"), bytes_of("23627500"), bytes_of("2f610001"), ("/none",)), [("/fail", "packet", "bad packet")] * 3 + [("/fail", "/none", "unknown command")], "closed", 0),
    ("a bad size", stream(bytes_of("41000000")) + bytes_of("00000006 00000000"), [("/fail", "packet", "bad packet")], "bad frame size 6", 11),
    ("a negative size", stream(bytes_of("41000000")) + bytes_of("fffffffc"), [("/fail", "packet", "bad packet")], "bad frame size -4", 11),
    ("too great a size", bytes_of("00010004"), [], "bad frame size 65540", 11),
    ("a cut size", stream(("/sync", 1)) + b"\0\0", [("/synced", 1)], "cut after 2 bytes", 10),
    ("a cut frame", stream(("/sync", 1), ("/sync", 2))[:-3], [("/synced", 1)], "cut after 17 bytes", 10),
    ("a quit and what stands behind it", stream(osc.bundle(1, *map(packet, [("/sync", 1), ("/quit",), ("/sync", 2)]))), [("/synced", 1), ("/done", "/quit"), ("/synced", 2)], "quit", 0),
    ("a quit and a clash", stream(osc.bundle(1, *map(packet, [*recv("dc", "swap"), ("/p_new", 1, 0, 0), ("/quit",), ("/s_new", "dc", 10, 1, 1), ("/s_new", "swap", 11, 1, 1)]))), [("/done", "/d_recv"), ("/done", "/d_recv"), ("/done", "/quit"), ("/p_clash", 1, 10, 11, "audio", 0)], "quit", 0),
    ("a quit that is carried", stream(("/b_alloc", 0, 1, osc.message("/quit"))), [("/done", "/b_alloc", 0), ("/done", "/quit")], "quit", 0),
    ("a quit with an argument is none", stream(("/quit", 1)), [("/fail", "/quit", "arguments")], "closed", 0),
]
