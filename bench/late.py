"""Measures how late the blocks of a live connection come.

    python3 late.py SNOVA WORKDIR [SECONDS [WORKERS ..]]

For each number of workers (1 2 4) the program SNOVA serves a connection on a free port, over which the nodes of the workload groups_8x125
of gen.py are made, and writes its sound into a pipe, from which SECONDS (60) are read: once with no further command, and once with ten
`/s_new` of a short note sent at each block. A block is due 64 / 48,000 seconds after the one before; the block that came earliest, compared
with the others, is taken to be on time. It prints how many blocks came after the next one was due, within how many milliseconds of their
time 99.9 % came, and the greatest lateness.
"""
import os
import subprocess
import sys
import threading
import time

import gen
from live import connect, free_port
from osc import frame, msg

BLOCK = 64 / 48000
BYTES = 64 * 2 * 2
NOTE = b"snova 1\ndef note\na = SinOsc 660000 0\ne = Line 0.001 0 5 2\nm = Mul a e\nOut.ar 0 m m\nend\n"


def nodes():
    """The workload's packets but the last, which ends it."""
    return b"".join(gen.voices_in_groups("groups").parts[1][:-1])


def arrivals(path, seconds, times):
    """Puts for each block the time at which it was read."""
    left = 0
    with open(path, "rb", buffering=0) as pipe:
        while len(times) * BLOCK < seconds and (data := pipe.read(1 << 16)):
            left += len(data)
            times += [time.perf_counter()] * (left // BYTES)
            left %= BYTES
        while pipe.read(1 << 16):
            pass


def send_notes(connection, until):
    """Ten notes at each block."""
    notes, sent, begin = frame(msg("/s_new", "note", -1, 0, 0)) * 10, 0, time.perf_counter()
    connection.sendall(frame(msg("/d_recv", NOTE)))
    while not until.wait(max(0.0, begin + sent * BLOCK - time.perf_counter())):
        try:
            connection.sendall(notes)
        except TimeoutError:
            raise SystemExit("the server takes no more notes") from None
        sent += 1


def drain(connection):
    """Takes the replies."""
    try:
        while connection.recv(1 << 16):
            pass
    except OSError:
        pass


def run(snova, folder, workers, seconds, has_notes):
    """The milliseconds by which the blocks after the first second were late."""
    pipe, port, times, until = os.path.join(folder, "pipe"), free_port(), [], threading.Event()
    if not os.path.exists(pipe):
        os.mkfifo(pipe)
    reader = threading.Thread(target=arrivals, args=(pipe, seconds + 1, times))
    reader.start()
    program = subprocess.Popen([snova, "serve", f"workers={workers}", str(port), pipe], stdout=subprocess.DEVNULL)
    connection = connect(port)
    threading.Thread(target=drain, args=(connection,), daemon=True).start()
    connection.sendall(nodes())
    sender = threading.Thread(target=send_notes, args=(connection, until))
    if has_notes:
        sender.start()
    while len(times) * BLOCK < seconds + 1:
        time.sleep(0.05)
    until.set()
    if has_notes:
        sender.join()
    connection.sendall(frame(msg("/quit")))
    program.wait(timeout=60)
    reader.join()
    ahead = [at - k * BLOCK for k, at in enumerate(times)][int(1 / BLOCK):]
    return sorted(1000 * (at - min(ahead)) for at in ahead)


def main():
    snova, folder = os.path.abspath(sys.argv[1]), sys.argv[2]
    seconds = float(sys.argv[3]) if len(sys.argv) > 3 else 60
    os.makedirs(folder, exist_ok=True)
    print("| Workers | Commands | blocks | after the next was due | 99.9 % within, ms | greatest, ms |\n|---|---|---|---|---|---|")
    for workers in sys.argv[4:] or ["1", "2", "4"]:
        for has_notes in (False, True):
            late = run(snova, folder, workers, seconds, has_notes)
            behind = sum(it > 1000 * BLOCK for it in late)
            what = "ten `/s_new` a block" if has_notes else "none"
            print(f"| {workers} | {what} | {len(late)} | {behind} | {late[int(0.999 * (len(late) - 1))]:.2f} | {late[-1]:.1f} |", flush=True)


if __name__ == "__main__":
    main()
