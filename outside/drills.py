"""The drill: its stream by its seed, its line by the model, and a comparison with a built program: python3 drills.py SNOVA

It prints each difference and exits with 1 if there is one.
"""
import re
import subprocess
import sys

import osc
import server

VOICE = b"""snova 1
def voice
control freq 440000
control out 16
a = SinOsc freq 0
e = Line 0.25 0 500 2
m = Mul a e
Out.ar out m
end
"""
MIX8 = b"""snova 1
def mix8
a b c d e f g h = In.ar 16
i = Add a b
j = Add c d
k = Add e f
l = Add g h
m = Add i j
n = Add k l
o = Add m n
Out.ar 0 o o
end
"""
NUMBERS = {"seed": range(2 ** 32), "blocks": range(1, 20001)}

# rows whose lines were worked by hand, as far as they are here
ROWS = {
    "seed=1 blocks=1": r"drill blocks 1 sound 300 replies 48 sum 2003",
    "seed=1 blocks=64 workers=1": r"drill blocks 64 sound 16428 replies \d+ sum \d+",
}
DRILLS = [
    "blocks=1", "seed=1 blocks=1", "seed=1 blocks=64 workers=1", "workers=8 blocks=64", "blocks=8 seed=2", "blocks=9 seed=2", "blocks=16", "blocks=17", "seed=0 blocks=40",
    "seed=4294967295 blocks=100 rate=44100", "rate=96000 channels=8 bits=24 blocks=200 seed=77", "channels=1 blocks=333 workers=2", "seed=12345 blocks=1000 workers=3",
]
# no word but these, and the index of the first bad one
BAD_DRILLS = [
    ("blocks=20001", 1), ("blocks=0", 1), ("seed=4294967296", 1), ("seed=01", 1), ("seed=", 1), ("seed", 1), ("seed=1 blocks=2 seed=1", 3), ("blocks=2 rate=44101", 2),
    ("workers=17", 1), ("blocks=1 out", 2), ("Seed=1", 1), ("seed=-1", 1),
]


def at(block, rate):
    """The tag of a boundary: its time from 0, rounded up."""
    return -(-(block << 38) // rate)


def drawn(seed):
    """Upper halves of a linear congruential generator."""
    number = seed
    while True:
        number = (number * 1664525 + 1013904223) % 2 ** 32
        yield number >> 16


def note(x, y):
    freq = 100000 + 10 * y
    if x % 4 == 3:
        return osc.message("/n_set", 1, "freq", freq)
    return osc.message("/s_new", "voice", -1, 1, 1, "freq", freq, "out", 16 + x // 4 % 8)


def stream(seed, blocks, rate):
    draws = drawn(seed)
    opening = [osc.message("/d_recv", VOICE), osc.message("/d_recv", MIX8), osc.message("/p_new", 1, 0, 0), osc.message("/s_new", "mix8", 2, 1, 0)]
    packets = [osc.bundle(0, *opening)]
    packets += [osc.bundle(at(block, rate), note(next(draws), next(draws))) for block in range(8, blocks, 8)]
    packets += [osc.bundle(at(blocks, rate))]
    return b"".join(map(osc.frame, packets))


def line(words):
    """The line of a drill by words that are good."""
    numbers = {"seed": 1, "blocks": 1000}
    numbers.update((key, int(value)) for key, value in (word.split("=") for word in words) if key in NUMBERS)
    settings = [word for word in words if word.split("=")[0] not in NUMBERS]
    given = stream(numbers["seed"], numbers["blocks"], server.settings_of(settings)["rate"])
    ending, status, sound, replies = server.run(settings, given)
    assert (ending, status) == (f"done {numbers['blocks']} blocks", 0)
    return f"drill blocks {numbers['blocks']} sound {len(sound)} replies {len(replies)} sum {sum(sound) % 2 ** 32}"


def program(binary, words):
    done = subprocess.run([*binary, "drill", *words], capture_output=True, timeout=600)
    return done.stdout.decode(), done.returncode


def differences(binary):
    """Lines that say where the program and the model differ."""
    found = []
    for words in DRILLS:
        expected, told = (line(words.split()) + "\n", 0), program(binary, words.split())
        if expected != told or not re.fullmatch(ROWS.get(words, ".*"), told[0].rstrip("\n")):
            found.append(f"drill {words}\n  model {expected}, program {told}")
    for words, index in BAD_DRILLS:
        expected, told = (f"bad word {index}\n", 2), program(binary, words.split())
        if expected != told:
            found.append(f"drill {words}\n  model {expected}, program {told}")
    with open("/dev/full", "wb") as full:
        status = subprocess.run([*binary, "drill", "blocks=1"], stdout=full, stderr=subprocess.DEVNULL, timeout=600).returncode
    if status != 7:
        found.append(f"drill onto a device that is full: status {status}")
    return found


def main():
    found = differences(sys.argv[1].split())
    print(*found, f"{len(DRILLS) + len(BAD_DRILLS) + 1} drills, {len(found)} with a difference", sep="\n")
    return 1 if found else 0


if __name__ == "__main__":
    sys.exit(main())
