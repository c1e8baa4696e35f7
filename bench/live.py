"""Measures a live connection to snova over loopback: round trips of `/c_get`, and pairs of `/c_set` and `/c_get`.

    python3 live.py SNOVA [ROUND_TRIPS [PAIRS [CLIENTS]]]

SNOVA is the built program, which is started on a free port, or the port of one that listens. ROUND_TRIPS (2000) times a `/c_get` is sent at
a random moment once the last one was answered. Then PAIRS (200000) pairs are sent, 1,000 at a time, of which at most 4,000 are not
answered yet. It prints the median, the 99th percentile and the greatest of the round trips, and the pairs that are answered in a second.
CLIENTS (1) connections are served at once; each does the round trips at the same time as the others, and the first sends the pairs.
"""
import random
import socket
import statistics
import subprocess
import sys
import threading
import time

from osc import frame, msg

CHUNK = 1000
AT_ONCE = 4


def free_port():
    with socket.socket() as s:
        s.bind(("127.0.0.1", 0))
        return s.getsockname()[1]


def connect(port):
    """A connection, once the program listens."""
    until = time.monotonic() + 10
    while True:
        try:
            connection = socket.create_connection(("127.0.0.1", port))
        except ConnectionRefusedError:
            if time.monotonic() > until:
                raise
            time.sleep(0.05)
            continue
        connection.setsockopt(socket.IPPROTO_TCP, socket.TCP_NODELAY, 1)
        connection.settimeout(10)
        return connection


def exactly(connection, count):
    data = b""
    while len(data) < count:
        piece = connection.recv(count - len(data))
        if not piece:
            raise SystemExit("the connection was closed")
        data += piece
    return data


def round_trips(connection, count):
    """Seconds from each `/c_get` to its answer."""
    asked, answered = frame(msg("/c_get", 3)), frame(msg("/c_set", 3, 0))
    taken = []
    for _ in range(count):
        time.sleep(random.uniform(0, 0.004))
        begin = time.perf_counter()
        connection.sendall(asked)
        answer = exactly(connection, len(answered))
        taken.append(time.perf_counter() - begin)
        if answer != answered:
            raise SystemExit(f"another answer: {answer}")
    return taken


def all_round_trips(connections, count):
    """The seconds of all connections together, in order."""
    taken = []
    threads = [threading.Thread(target=lambda link=link: taken.extend(round_trips(link, count))) for link in connections]
    for thread in threads:
        thread.start()
    for thread in threads:
        thread.join()
    if len(taken) != count * len(connections):
        raise SystemExit("a connection failed")
    return sorted(taken)


def pairs(connection, count):
    """Seconds for so many pairs."""
    chunks = count // CHUNK
    pair = frame(msg("/c_set", 3, 5)) + frame(msg("/c_get", 3))
    answers = frame(msg("/c_set", 3, 5)) * CHUNK
    room = threading.Semaphore(AT_ONCE)

    def read():
        for _ in range(chunks):
            if exactly(connection, len(answers)) != answers:
                raise SystemExit("another answer")
            room.release()

    reader = threading.Thread(target=read)
    begin = time.perf_counter()
    reader.start()
    for _ in range(chunks):
        room.acquire()
        connection.sendall(pair * CHUNK)
    reader.join()
    return time.perf_counter() - begin


def main():
    snova = sys.argv[1]
    trips = int(sys.argv[2]) if len(sys.argv) > 2 else 2000
    count = int(sys.argv[3]) if len(sys.argv) > 3 else 200000
    clients = int(sys.argv[4]) if len(sys.argv) > 4 else 1
    program = None
    port = int(snova) if snova.isdigit() else free_port()
    if not snova.isdigit():
        program = subprocess.Popen([snova, "serve", f"clients={clients}", str(port), "/dev/null"], stdout=subprocess.PIPE, text=True)
    connections = [connect(port) for _ in range(clients)]
    taken = all_round_trips(connections, trips)
    seconds = pairs(connections[0], count)
    connections[0].sendall(frame(msg("/quit")))
    exactly(connections[0], len(frame(msg("/done", "/quit"))))
    for connection in connections:
        connection.close()
    if program and program.communicate(timeout=10)[0] != "quit\n":
        raise SystemExit("the program did not end by /quit")
    milliseconds = [1000 * t for t in taken]
    print(f"round trip of /c_get: median {statistics.median(milliseconds):.2f} ms, "
          f"99 % within {milliseconds[int(0.99 * (len(taken) - 1))]:.2f} ms, greatest {milliseconds[-1]:.2f} ms")
    print(f"pairs of /c_set and /c_get: {count / seconds:.0f} a second")


if __name__ == "__main__":
    main()
