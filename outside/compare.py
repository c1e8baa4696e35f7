"""Runs a binary on all cases, and compares each with the model: python3 compare.py BINARY [-k WORD] [--random N] [--lanes N] [--damage N] [--texts N] [--connections N] [--seed N]."""
import argparse
import itertools
import os
import pathlib
import subprocess
import sys
import tempfile
import time
import connection
import files
import osc
import scores
import server
import serving
import shelf
from cases import CASES
from damage import damaged_case, damaged_connection, damaged_text
from random_cases import laned_case, random_case
from words import BAD_WORDS, CONNECTIONS


SINCE_1900 = 2208988800  # seconds of the clock's epoch since that of time tags
FEWEST_BLOCKS = 6  # of a session over which damaged bytes come, if its connection isn't ended by a bad size
CLOSINGS = {"closed": 0, "cut": 10, "bad": 11}


def program_run(binary, words, stream, folder):
    """The line, the status, the sound and the replies of a rendering into files that were empty."""
    paths = [os.path.join(folder, name) for name in ("commands", "sound", "replies")]
    for path, content in zip(paths, (stream, b"", b"")):
        with open(path, "wb") as file:
            file.write(content)
    try:
        done = subprocess.run([*binary, "render", *words, *paths], capture_output=True, timeout=600)
    except subprocess.TimeoutExpired:
        return "no end within 600 seconds", None, None, None
    sound, replies = (open(path, "rb").read() for path in paths[1:])
    return done.stdout.decode().rstrip("\n"), done.returncode, sound, replies


def told(replies):
    """Replies as lines, for whoever reads a difference."""
    try:
        return [" ".join([p.address.decode("latin-1"), *(str(v) for _, v in p.body)]) for p in osc.packets_of(replies)]
    except osc.Fault as fault:
        return [str(fault), replies.hex()]


def first_difference(a, b):
    return next((i for i, (x, y) in enumerate(zip(a, b)) if x != y), min(len(a), len(b)))


def differences(model, program):
    """Lines that say where the two differ."""
    lines = []
    if model[:2] != program[:2]:
        lines.append(f"  ends: model {model[:2]}, program {program[:2]}")
    if model[2] != program[2]:
        at = first_difference(model[2], program[2] or b"")
        lines.append(f"  sound: {len(model[2])} and {len(program[2] or b'')} bytes, byte {at}: model {model[2][at:at + 12].hex()}, program {(program[2] or b'')[at:at + 12].hex()}")
    if model[3] != program[3]:
        ours, theirs = told(model[3]), told(program[3] or b"")
        at = first_difference(ours, theirs)
        lines.append(f"  reply {at}: model {ours[at:at + 3]}, program {theirs[at:at + 3]}")
    return lines


def is_converted(binary, seed, folder):
    """Whether a damaged text is scored and a damaged stream is dumped as they should be."""
    _, _, stream = damaged_case(seed)
    try:
        osc.packets_of(stream)
    except osc.Fault:
        same = scores.compare_bad_stream(binary, folder, stream)
    else:
        same = scores.compare_stream(binary, folder, f"damaged {seed}", stream)
    return scores.compare_text(binary, folder, damaged_text(seed)) and bool(same)


def connection_differences(binary, seed, folder):
    """The name of a session over which damaged bytes come, and lines that say where the model and the program differ."""
    name, words, data = damaged_connection(seed)
    settings, base = server.settings_of(words), int(time.time() + SINCE_1900) << 32
    block = settings["channels"] * settings["bits"] // 8 * 64
    program = serving.paced(binary, words, data, FEWEST_BLOCKS * block, folder)
    line, sound, replies = connection.serve(settings, base, [1, data, len(program[2]) // block - 1])
    return name, differences((line, CLOSINGS[line.split()[0]], sound, replies), program)


def main():
    parser = argparse.ArgumentParser()
    parser.add_argument("binary", help="the program, with words before it where a loader runs it")
    parser.add_argument("-k", default="", help="only cases whose name has this word")
    parser.add_argument("--random", type=int, default=0, help="so many random streams beside the table")
    parser.add_argument("--lanes", type=int, default=0, help="so many streams of members with lanes beside the table")
    parser.add_argument("--damage", type=int, default=0, help="so many damaged streams beside the table")
    parser.add_argument("--texts", type=int, default=0, help="so many damaged texts that are scored, and damaged streams that are dumped")
    parser.add_argument("--connections", type=int, default=0, help="so many connections over which damaged packets and streams come")
    parser.add_argument("--seed", type=int, default=1, help="the first random or damaged stream or text")
    given = parser.parse_args()
    # Some runs have a folder of their own.
    binary = [os.path.abspath(word) if os.path.exists(word) else word for word in given.binary.split()]
    seeds = range(given.seed, given.seed + max(given.random, given.lanes, given.damage))
    drawn = (make(seed) for make, count in ((random_case, given.random), (laned_case, given.lanes), (damaged_case, given.damage)) for seed in seeds[:count])
    count = wrong = 0
    with tempfile.TemporaryDirectory() as folder:
        for name, words, stream in itertools.chain(CASES, drawn):
            if given.k not in name:
                continue
            count += 1
            found = differences(server.run(words, stream), program_run(binary, words, stream, folder))
            if found:
                wrong += 1
                print(name, *found, sep="\n", flush=True)
        for seed in range(given.seed, given.seed + given.texts):
            wrong += not is_converted(given.binary, seed, pathlib.Path(folder))
        if given.texts:
            print(f"{given.texts} texts and as many streams were converted")
        for seed in range(given.seed, given.seed + given.connections):
            count += 1
            name, found = connection_differences(binary, seed, folder)
            if found:
                wrong += 1
                print(name, *found, sep="\n", flush=True)
        shelf.lay_out(folder)
        shelves = [case for case in shelf.SHELF_CASES if given.k in case[0]]
        for name, stream in shelves:
            found = differences(shelf.model([], stream), shelf.program_run(binary, [], stream, folder))
            if found:
                wrong += 1
                print(name, *found, sep="\n", flush=True)
        if not given.k:
            found = serving.differences(binary, folder, BAD_WORDS, CONNECTIONS)
            print(*found, sep="\n", flush=True)
            print(f"{len(BAD_WORDS)} command lines and {len(CONNECTIONS)} connections, {len(found)} with a difference")
            wrong += len(found)
            found, runs = files.differences(binary, folder)
            print(*found, sep="\n", flush=True)
            print(f"{runs} runs over files, {len(found)} with a difference")
            wrong += len(found)
    print(f"{count + len(shelves)} cases, {wrong} with a difference")
    return 1 if wrong else 0


if __name__ == "__main__":
    sys.exit(main())
