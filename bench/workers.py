"""Renders each piece by one worker and by several, in turn, and prints the seconds that passed.

    python3 workers.py SNOVA WORKDIR [ROUNDS [WORKERS ..]]

The pieces are the examples, which examples/make.py writes, and the workloads of gen.py whose notes come and go or whose members are many and
light (WORKDIR has them, or they are made). The least of ROUNDS (5) renderings counts for each number of WORKERS (1 4); the last column is
the time by the last number over that by the first. Run it by `taskset -c 0,1` to see two processors.
"""
import os
import subprocess
import sys
import time

HERE = os.path.dirname(os.path.abspath(__file__))
EXAMPLES = os.path.join(HERE, "..", "examples")
WORKLOADS = ("drill", "notes_64", "members_parallel", "members_wide", "members_wide_set", "groups_flag_turned", "lanes_8x32")


def examples():
    """The examples as streams, by their names."""
    made = subprocess.run([sys.executable, os.path.join(EXAMPLES, "make.py")], check=True, capture_output=True, text=True)
    return {os.path.basename(path).removesuffix(".osc"): path for path in made.stdout.splitlines()}


def seconds(snova, folder, path, workers):
    words = [snova, "render", f"workers={workers}", path, os.path.join(folder, "sound"), os.path.join(folder, "replies")]
    began = time.monotonic()
    subprocess.run(words, check=True, cwd=EXAMPLES, stdout=subprocess.DEVNULL)
    return time.monotonic() - began


def main():
    snova, folder = os.path.abspath(sys.argv[1]), os.path.abspath(sys.argv[2])
    rounds = int(sys.argv[3]) if len(sys.argv) > 3 else 5
    crews = sys.argv[4:] or ["1", "4"]
    if not os.path.exists(f"{folder}/members_wide_set.sn.osc"):
        subprocess.run([sys.executable, f"{HERE}/gen.py", folder], check=True)
    pieces = examples()
    pieces |= {name: f"{folder}/{name}.sn.osc" for name in WORKLOADS}
    print("| Piece | " + " | ".join(f"{n} workers" if n != "1" else "1 worker" for n in crews) + " | ratio |")
    print("|---" * (2 + len(crews)) + "|")
    for name, path in pieces.items():
        took = {n: [] for n in crews}
        for _ in range(rounds):
            for n in crews:
                took[n].append(seconds(snova, folder, path, n))
        least = [min(took[n]) for n in crews]
        print(f"| {name} | " + " | ".join(f"{it:.3f}" for it in least) + f" | {least[-1] / least[0]:.2f} |", flush=True)


if __name__ == "__main__":
    main()
