"""Runs a binary on command lines that are refused, and serves connections by it."""
import array
import contextlib
import fcntl
import os
import selectors
import socket
import subprocess
import termios
import time
import osc


def refused(binary, words, folder):
    """The line and the status of words that are refused; nothing may be opened."""
    done = subprocess.run([*binary, *words], capture_output=True, timeout=300, cwd=folder)
    return done.stdout.decode().rstrip("\n"), done.returncode


def free_port():
    with socket.socket() as listener:
        listener.bind(("127.0.0.1", 0))
        return listener.getsockname()[1]


def connected(port):
    for _ in range(600):
        try:
            return socket.create_connection(("127.0.0.1", port))
        except ConnectionRefusedError:
            time.sleep(0.05)
    raise TimeoutError("nothing listens")


def received(link, length):
    """What comes, up to a length or the end."""
    data = b""
    while len(data) < length:
        try:
            piece = link.recv(65536)
        except (ConnectionResetError, TimeoutError):
            break
        if not piece:
            break
        data += piece
    return data


def served(binary, data, wanted, folder):
    """The replies, the line and the status of a connection over which bytes come, and whether its sound is made of whole blocks."""
    port, sound = free_port(), os.path.join(folder, "served")
    program = subprocess.Popen([*binary, "serve", "memory=65536", str(port), sound], stdout=subprocess.PIPE)
    link = connected(port)
    link.settimeout(60)
    if data:
        link.sendall(data)
    got = received(link, len(wanted))
    try:
        link.shutdown(socket.SHUT_WR)
    except OSError:
        pass
    got += received(link, 1 << 30)
    link.close()
    line = program.communicate(timeout=60)[0].decode().rstrip("\n")
    return got, line, program.returncode, os.path.getsize(sound) % 256 == 0


def sent_before(port, data):
    """A connection over which all bytes came before it is taken: what was sent is acknowledged."""
    link, left = connected(port), array.array("i", [1])
    link.sendall(data)
    while left[0]:
        fcntl.ioctl(link, termios.TIOCOUTQ, left)
    return link


def heard(pipe, link, least):
    """All that comes through a pipe and over a connection, or None where nothing comes for a minute. Nothing more is
    sent once so many bytes came through the pipe."""
    parts = {pipe: bytearray(), link: bytearray()}
    with selectors.DefaultSelector() as selector:
        for one in parts:
            selector.register(one, selectors.EVENT_READ)
        while selector.get_map():
            ready = selector.select(60)
            if not ready:
                return None
            for key, _ in ready:
                piece = os.read(key.fd, 4096)
                parts[key.fileobj] += piece
                if not piece:
                    selector.unregister(key.fileobj)
            if least is not None and len(parts[pipe]) >= least:
                least = link.shutdown(socket.SHUT_WR)
    return bytes(parts[pipe]), bytes(parts[link])


def paced(binary, words, data, least, folder):
    """The line, the status, the sound and the replies of a session at the pace of a pipe, which has at least so many
    bytes of sound unless a bad size ends it. All data comes between its first and its second block.

    The port is bound before the sound is opened, which waits for a reader of the pipe, and then a connection is taken.
    So all data is there when the session starts, and it is short enough to be read at once."""
    port, path = free_port(), os.path.join(folder, "paced")
    if not os.path.exists(path):
        os.mkfifo(path)
    command = [*binary, "serve", "pace=sound", *words, str(port), path]
    program = subprocess.Popen(command, stdout=subprocess.PIPE)
    with sent_before(port, data) as link:
        pipe = os.open(path, os.O_RDONLY | os.O_NONBLOCK)
        with contextlib.suppress(OSError):
            fcntl.fcntl(pipe, fcntl.F_SETPIPE_SZ, 4096)
        came = heard(pipe, link, least)
        os.close(pipe)
    if came is None:
        program.kill()
    line = program.communicate(timeout=60)[0].decode().rstrip("\n")
    return line, program.returncode, *(came or (b"", b""))


def differences(binary, folder, bad_words, connections):
    """Lines for each command line and each connection that does not go as it should."""
    lines, empty = [], os.path.join(folder, "refused")
    os.mkdir(empty)
    for words, index in bad_words:
        found = refused(binary, words, empty)
        if found != (f"bad word {index}", 2):
            lines.append(f"words {words}: wanted {index}, program {found}")
    if os.listdir(empty):
        lines.append(f"words that are refused made {os.listdir(empty)}")
    for name, data, replies, line, status in connections:
        wanted = b"".join(osc.frame(osc.message(*reply)) for reply in replies)
        found = served(binary, data, wanted, folder)
        if found != (wanted, line, status, True):
            lines.append(f"connection: {name}: wanted {(wanted, line, status)}, program {found}")
    return lines
