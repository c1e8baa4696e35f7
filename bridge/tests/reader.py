"""A player that keeps what it takes, and when it took it: python3 reader.py SPEED PATH."""
import os
import sys
import time

RATE, WIDE, BLOCK = 48000, 4, 64


def read(speed, path):
    """Takes frames from the standard input as they are due."""
    start, taken = time.monotonic(), 0
    with open(f"{path}.{os.getpid()}.pcm", "wb") as kept, open(f"{path}.{os.getpid()}.times", "w") as times:
        while True:
            due = int((time.monotonic() - start) * RATE * speed) * WIDE - taken
            if due < BLOCK * WIDE:
                time.sleep(0.002)
                continue
            data = os.read(0, min(due, 4096))
            if not data:
                return
            kept.write(data)
            kept.flush()
            taken += len(data)
            print(time.monotonic(), taken // WIDE, file=times, flush=True)


read(float(sys.argv[1]), sys.argv[2])
