#!/usr/bin/python3
"""Measures how many times as fast several workers render as one, and draws it.

    /usr/bin/python3 bench/speedup.py SNOVA WORKDIR PICTURE.png [ROUNDS [MOST]]

SNOVA is the built program. WORKDIR has the workloads (run.py or gen.py makes them). For each number of workers up to MOST
(4) a workload is rendered by one worker, by so many, and by so many programs of one worker side by side, right after one
another, ROUNDS (5) times. The throughput of the latter is what the machine gives. The medians of the rounds are drawn. It
needs matplotlib, as examples/show.py does.
"""
import os
import subprocess
import sys
import time
from statistics import median

import matplotlib

matplotlib.use("Agg")
import matplotlib.pyplot as plot  # noqa: E402

WORKLOADS = {
    "groups_8x125": "eight groups of 125 voices, a bus each",
    "lanes_8x32": "eight groups of 32 voices of twelve units, one bus",
}


def seconds(snova, folder, name, side_by_side, workers):
    began = time.monotonic()
    started = [
        subprocess.Popen(
            [snova, "render", f"workers={workers}", f"{name}.sn.osc", f"sound{number}", f"replies{number}"],
            cwd=folder, stdout=subprocess.DEVNULL,
        )
        for number in range(side_by_side)
    ]
    if any([it.wait() for it in started]):
        sys.exit(f"{name} by {workers} workers failed")
    return time.monotonic() - began


def measured(snova, folder, name, rounds, most):
    """How many times as fast as one worker so many are, how many times its throughput the machine gives, and its seconds."""
    ones, crew, gives = [], {1: [1.0]}, {1: [1.0]}
    for _ in range(rounds):
        for n in range(2, most + 1):
            one = seconds(snova, folder, name, 1, 1)
            ones.append(one)
            crew.setdefault(n, []).append(one / seconds(snova, folder, name, 1, n))
            gives.setdefault(n, []).append(n * one / seconds(snova, folder, name, n, 1))
    return [median(crew[n]) for n in crew], [median(gives[n]) for n in gives], median(ones)


def main():
    if len(sys.argv) < 4:
        raise SystemExit(__doc__.strip())
    snova, folder, picture = os.path.abspath(sys.argv[1]), sys.argv[2], sys.argv[3]
    rounds = int(sys.argv[4]) if len(sys.argv) > 4 else 5
    most = int(sys.argv[5]) if len(sys.argv) > 5 else 4
    counts = list(range(1, most + 1))
    figure, places = plot.subplots(1, len(WORKLOADS), sharey=True, figsize=(8, 3.2))
    for place, (name, label) in zip(places, WORKLOADS.items()):
        crew, gives, one = measured(snova, folder, name, rounds, most)
        place.plot(counts, gives, "o--", color="gray", label="what the machine gives")
        place.plot(counts, crew, "o-", label="snova")
        place.set_title(label, fontsize=8)
        place.set_xlabel("workers")
        place.set_xticks(counts)
        place.grid(alpha=0.3)
        told = ", ".join(f"{n}: {a:.2f} of {b:.2f}" for n, a, b in zip(counts, crew, gives))
        print(f"{name}: one worker {one:.2f} s; times as fast {told}")
    places[0].set_ylim(bottom=0)
    places[0].set_ylabel("times as fast as one worker")
    places[0].legend(fontsize=8)
    figure.tight_layout()
    figure.savefig(picture, dpi=80)


if __name__ == "__main__":
    main()
