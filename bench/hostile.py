"""Renders streams that ask for much in few bytes, and prints what each took for one thing that it touches.

    python3 hostile.py SNOVA WORKDIR [NAME..]

SNOVA is the built program. The streams are those of dear.py, which `gen.py WORKDIR dear` writes, about 300 MB of them; they may be thrown away
afterwards. Each is rendered once by one worker, or only those of the NAMEs. The table has the seconds that a processor spent, the greatest
memory, how many things the stream must touch and the nanoseconds for one of them, the start of the program among them. It fails if
a command is refused, or if a stream takes longer than ten minutes.
"""
import mmap
import os
import signal
import subprocess
import sys

from dear import all_dear

REFUSED = b"/fail\0\0\0"
MOST_SECONDS = 600


def rendered(snova, folder, dear):
    """The seconds of a processor, and the greatest memory in MiB."""
    stream = f"{dear.name}.sn.osc"
    child = subprocess.Popen([snova, "render", "workers=1", *dear.words, stream, "sound", "replies"], cwd=folder, stdout=subprocess.PIPE,
                             preexec_fn=lambda: signal.alarm(MOST_SECONDS))
    line = child.stdout.read()
    _, status, used = os.wait4(child.pid, 0)
    child.returncode = os.waitstatus_to_exitcode(status)
    if line != b"done %d blocks\n" % dear.blocks:
        sys.exit(f"{dear.name}: {line}, status {child.returncode}")
    return used.ru_utime + used.ru_stime, used.ru_maxrss // 1024


def has_refused(folder):
    with open(f"{folder}/replies", "rb") as file:
        return os.path.getsize(file.name) > 0 and mmap.mmap(file.fileno(), 0, access=mmap.ACCESS_READ).find(REFUSED) >= 0


def main():
    if len(sys.argv) < 3:
        sys.exit(__doc__)
    snova, folder, names = os.path.abspath(sys.argv[1]), os.path.abspath(sys.argv[2]), sys.argv[3:]
    os.makedirs(folder, exist_ok=True)
    print("| Stream | bytes | seconds | memory | touched | ns for one |\n|---|---|---|---|---|---|")
    for dear in all_dear():
        if names and dear.name not in names:
            continue
        if not os.path.exists(f"{folder}/{dear.name}.sn.osc"):
            dear.write(folder)
        seconds, memory = rendered(snova, folder, dear)
        if has_refused(folder) and not dear.name.startswith("undone"):
            sys.exit(f"{dear.name}: a command was refused")
        size = os.path.getsize(f"{folder}/{dear.name}.sn.osc")
        print(f"| `{dear.name}`: {dear.what} | {size:,} | {seconds:.2f} | {memory} MiB | {dear.touched:,} times a {dear.thing} | {1e9 * seconds / dear.touched:.1f} |", flush=True)


main()
