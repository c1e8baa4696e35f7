"""Makes texts of nearly 16,777,216 bytes, lets snova make their streams, and dumps nearly as many bytes; prints what each took.

    python3 score.py SNOVA WORKDIR [ROUNDS]

SNOVA is the built program. WORKDIR is made, takes about 100 MB, and may be thrown away afterwards. Each conversion is done
ROUNDS (5) times; the table has the medians of the seconds that passed and of those that a processor spent, and the greatest memory.
"""
import os
import statistics
import subprocess
import sys
import time

MOST = 16777216
# Of each text the lines that are repeated; of a dump the text whose stream is dumped.
TEXTS = {
    "score": {
        "messages of two ints": "".join(f"/c_set {i % 1024} {i * 1000}\n" for i in range(1000)),
        "bundles of ten messages": "".join("[ 2 0\n" + "".join(f"/c_set {i * 10 + k} {i}\n" for k in range(10)) + "]\n" for i in range(100)),
        "blobs of 32,000 bytes": f"/b_setn 0 #{'0f' * 32000}\n",
        "strings of 1,000 bytes that are not printed": '/d_free "' + "\\xff" * 1000 + '"\n',
    },
    "dump": {
        "messages of two ints": "".join(f"/c_set {i % 1024} {i * 1000}\n" for i in range(1000)),
        "blobs of 32,000 bytes": f"/b_setn 0 #{'0f' * 32000}\n",
        "strings of 1,000 bytes that are not printed": '/d_free "' + "\\xff" * 1000 + '"\n',
    },
}


def run(snova, folder, word, given, made):
    began = time.monotonic()
    child = subprocess.Popen([snova, word, given, made], cwd=folder, stdout=subprocess.DEVNULL)
    _, status, used = os.wait4(child.pid, 0)
    child.returncode = status
    if status:
        sys.exit(f"{word} {given}: wait status {status}")
    return time.monotonic() - began, used.ru_utime + used.ru_stime, used.ru_maxrss


def given(snova, folder, word, lines):
    """The file that is converted: a text, or the stream of one, of nearly as many bytes as there may be."""
    with open(f"{folder}/text", "w", encoding="ascii") as file:
        file.write(lines)
    run(snova, folder, "score", "text", "stream")
    once = len(lines) if word == "score" else os.path.getsize(f"{folder}/stream")
    name = "text" if word == "score" else "stream"
    with open(f"{folder}/{name}", "rb") as file:
        part = file.read()
    with open(f"{folder}/given", "wb") as file:
        file.write(part * (MOST // once))
    return os.path.getsize(f"{folder}/given")


def main():
    snova, folder = os.path.abspath(sys.argv[1]), os.path.abspath(sys.argv[2])
    rounds = int(sys.argv[3]) if len(sys.argv) > 3 else 5
    os.makedirs(folder, exist_ok=True)
    print("| Conversion | bytes | seconds | of a processor | memory |\n|---|---|---|---|---|")
    for word, texts in TEXTS.items():
        for what, lines in texts.items():
            size = given(snova, folder, word, lines)
            took = [run(snova, folder, word, "given", "made") for _ in range(rounds)]
            middle = [statistics.median(it[which] for it in took) for which in range(2)]
            memory = max(it[2] for it in took) / 1024
            print(f"| `{word}`, {what} | {size} | {middle[0]:.2f} | {middle[1]:.2f} | {memory:.0f} MiB |")


main()
