"""Measures `/b_allocRead` of a WAV file of 10,000,000 frames of one channel and 16 bits.

    python3 shelf.py SNOVA WORKDIR [ROUNDS]

SNOVA is the built program. WORKDIR is made, takes about 20 MB, and may be thrown away afterwards. A run with the file and one with a
`/b_alloc` of as many frames are done ROUNDS (5) times. It prints the medians of the seconds that passed and of those that a processor
spent, and the greatest memory, which for the latter is that of the pool and little else.
"""
import os
import statistics
import struct
import subprocess
import sys
import time

from osc import frame, msg

FRAMES = 10_000_000
WORDS = ["render", "memory=16777216"]
COMMANDS = {"a file": msg("/b_allocRead", 0, "long.wav"), "zeros": msg("/b_alloc", 0, FRAMES, 1)}


def lay_out(folder):
    os.makedirs(folder, exist_ok=True)
    size = 2 * FRAMES
    head = b"RIFF" + struct.pack("<I", 36 + size) + b"WAVEfmt " + struct.pack("<IHHIIHH", 16, 1, 1, 48000, 96000, 2, 16) + b"data" + struct.pack("<I", size)
    with open(f"{folder}/long.wav", "wb") as file:
        file.write(head)
        file.write(struct.pack("<1000h", *range(1000)) * (FRAMES // 1000))
    for name, command in COMMANDS.items():
        with open(f"{folder}/{name}", "wb") as file:
            file.write(frame(command))


def run(snova, folder, name):
    began = time.monotonic()
    child = subprocess.Popen([snova, *WORDS, name, "sound", "replies"], cwd=folder, stdout=subprocess.DEVNULL)
    _, status, used = os.wait4(child.pid, 0)
    child.returncode = status
    if status:
        sys.exit(f"{name}: wait status {status}")
    return time.monotonic() - began, used.ru_utime + used.ru_stime, used.ru_maxrss


def main():
    snova, folder = os.path.abspath(sys.argv[1]), os.path.abspath(sys.argv[2])
    rounds = int(sys.argv[3]) if len(sys.argv) > 3 else 5
    lay_out(folder)
    print("| Buffer | seconds | of a processor | memory |\n|---|---|---|---|")
    for name in COMMANDS:
        took = [run(snova, folder, name) for _ in range(rounds)]
        middle = [statistics.median(it[which] for it in took) for which in range(2)]
        print(f"| {name} | {middle[0]:.2f} | {middle[1]:.2f} | {max(it[2] for it in took) / 1024:.0f} MiB |")


main()
