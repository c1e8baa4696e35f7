"""The settings of a session that is kept: words `key=value`, or lines of a file."""
from types import SimpleNamespace
from typing import Any, Callable, NamedTuple

from .sinks import PIPE


class BadSetting(Exception):
    """A setting is none; the text says why."""


class Key(NamedTuple):
    """How a value is read, its default, and what it sets."""

    read: Callable
    default: Any
    says: str


def number(least, most):
    def read(text):
        if not text.isdigit() or not least <= int(text) <= most:
            raise BadSetting(f"it is a whole number from {least} to {most}")
        return int(text)
    return read


def one_of(*words):
    def read(text):
        if text not in words:
            raise BadSetting(f"it is one of {', '.join(map(str, words))}")
        return type(words[0])(text)
    return read


def text(given):
    return given


KEYS = {
    "port": Key(number(1, 65535), 57110, "where clients send to, over UDP and TCP"),
    "snova": Key(text, "crates/snova/out/snova", "the program"),
    "rate": Key(lambda given: int(one_of("44100", "48000", "96000")(given)), 48000, "frames a second"),
    "channels": Key(number(1, 8), 2, "channels of the sound"),
    "bits": Key(lambda given: int(one_of("16", "24")(given)), 16, "bits of a sample"),
    "workers": Key(number(1, 16), 4, "threads at most"),
    "memory": Key(number(65536, 16777216), 1048576, "words for states and buffers"),
    "latency": Key(number(1, 10000), 40, "milliseconds of sound on the way to the player, at least two pipes"),
    "player": Key(text, "", "a command that plays what comes in at its standard input; without one the sound is lost"),
    "file": Key(text, "", "a file for the sound if there is no player, as PCM without a header"),
    "priority": Key(number(0, 99), 0, "the priority (SCHED_FIFO) of the server; 0 is that of other programs"),
    "synths": Key(one_of("keep", "drop"), "keep", "whether synths are made again when the server is started again"),
    "clients": Key(number(1, 16), 8, "how many clients may be registered for notifications"),
    "score": Key(text, "", "a command file that is played first"),
    "window": Key(number(0, 65535), 0, "a port of this machine for a page that shows the session"),
    "log": Key(text, "", "a file for what happens, a line an event; without one it is the standard error"),
}


def put(found, line):
    """Reads one setting."""
    key, is_set, value = line.partition("=")
    key, value = key.strip(), value.strip()
    if not is_set or key not in KEYS:
        raise BadSetting(f"{line}: there is no such setting; there are {', '.join(KEYS)}")
    try:
        found[key] = KEYS[key].read(value)
    except BadSetting as bad:
        raise BadSetting(f"{key}={value}: {bad}") from None


def from_file(path):
    """The settings of a file: a line for each; empty lines and those that start with # say nothing."""
    with open(path, encoding="utf-8") as file:
        lines = [line.strip() for line in file]
    return [line for line in lines if line and not line.startswith("#")]


def settings(words):
    """What words choose: each is `key=value`, or the path of a file of settings; the last word on a key counts."""
    found = {key: each.default for key, each in KEYS.items()}
    for word in words:
        try:
            for line in [word] if "=" in word else from_file(word):
                put(found, line)
        except OSError as wrong:
            raise BadSetting(f"{word}: {wrong.strerror}") from None
    made = SimpleNamespace(**found)
    made.wide = made.channels * made.bits // 8
    made.store = max(0, made.latency * made.rate // 1000 * made.wide - 2 * PIPE)
    return made


def usage():
    """A line for each key."""
    return "\n".join(f"  {key:<9} {each.says} ({each.default or 'none'})" for key, each in KEYS.items())
