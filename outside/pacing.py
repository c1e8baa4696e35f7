"""A session whose blocks come at the pace of what takes the sound: python3 pacing.py SNOVA. It prints what is other than it should be.

The sound goes into a pipe that holds 16 blocks. When they stand in it, no further block comes and no command is answered until the pipe is
read; and a file, which never makes anybody wait, is refused.
"""
import array
import fcntl
import os
import socket
import subprocess
import sys
import tempfile
import termios
import threading
import time

import osc
import serving

# A block of two channels of 16 bits, and how many of them the pipe holds.
BLOCK, HELD = 256, 16
SYNC = osc.frame(osc.message("/sync", 7))
SYNCED = osc.frame(osc.message("/synced", 7))


def waiting(pipe):
    """How many bytes stand in a pipe."""
    count = array.array("i", [0])
    fcntl.ioctl(pipe, termios.FIONREAD, count)
    return count[0]


def filled(pipe):
    """How many bytes stand in a pipe once it is full and the session waits for it, or after ten seconds."""
    for _ in range(200):
        if waiting(pipe) == BLOCK * HELD:
            break
        time.sleep(0.05)
    time.sleep(0.3)
    return waiting(pipe)


def hears(link, seconds):
    """What comes over a connection first, or nothing after so many seconds."""
    link.settimeout(seconds)
    try:
        return link.recv(65536)
    except (TimeoutError, socket.timeout):
        return b""


def drained(pipe, links):
    """Reads a pipe until each connection was closed by the other end."""
    for link in links:
        link.shutdown(socket.SHUT_WR)
    while os.read(pipe, 65536):
        pass


def paced(snova, clients, folder):
    """What came of a session, and what should come."""
    port, path = serving.free_port(), os.path.join(folder, f"pipe{clients}")
    os.mkfifo(path)
    pipe = os.open(path, os.O_RDONLY | os.O_NONBLOCK)
    fcntl.fcntl(pipe, fcntl.F_SETPIPE_SZ, BLOCK * HELD)
    program = subprocess.Popen([snova, "serve", "pace=sound", f"clients={clients}", str(port), path], stdout=subprocess.PIPE)
    links = [serving.connected(port) for _ in range(clients)]
    os.set_blocking(pipe, True)
    found = [filled(pipe)]
    links[0].sendall(SYNC)
    found += [hears(links[0], 0.5), waiting(pipe)]
    os.read(pipe, BLOCK * HELD)
    found += [hears(links[0], 20), filled(pipe)]
    ending = threading.Timer(60, program.kill)
    ending.start()
    drained(pipe, links)
    found.append(program.wait(timeout=60))
    ending.cancel()
    os.close(pipe)
    return found, [BLOCK * HELD, b"", BLOCK * HELD, SYNCED, BLOCK * HELD, 0]


def into_file(snova, folder):
    """What comes of a sound that goes into a file, and what should come."""
    path = os.path.join(folder, "sound")
    with open(path, "wb") as file:
        file.write(b"kept")
    done = subprocess.run([snova, "serve", "pace=sound", str(serving.free_port()), path], capture_output=True, timeout=60)
    with open(path, "rb") as file:
        return [done.stdout, done.returncode, path.encode() in done.stderr, file.read()], [b"cannot open\n", 9, True, b"kept"]


def main():
    snova, wrong = sys.argv[1], 0
    with tempfile.TemporaryDirectory() as folder:
        trials = {"one client": lambda: paced(snova, 1, folder), "two clients": lambda: paced(snova, 2, folder), "a file": lambda: into_file(snova, folder)}
        for name, trial in trials.items():
            came, wanted = trial()
            if came != wanted:
                wrong += 1
                print(f"{name}: came {came}, wanted {wanted}")
    print(f"pacing: {len(trials)} sessions, {wrong} other than they should be")
    return 1 if wrong else 0


if __name__ == "__main__":
    sys.exit(main())
