"""Reads WAV files that sox, libsndfile and scsynth write, by a given snova, and compares each sample with what sox reads from the file.

    python3 recordings.py PROGRAM

It needs Debian's sox, sndfile-programs and supercollider-server. The files have 16 and 24 bits, 1 to 8 channels, short and long headers,
odd sizes, and chunks before and after the samples.
"""
import pathlib
import struct
import subprocess
import sys
import tempfile

import osc
from cases import stream

BENCH = pathlib.Path(__file__).resolve().parent.parent / "bench"
FRAMES = 301
SOX = ["sox", "-V1", "-R"]


def sox_files(folder):
    """Noise in files of sox: of both widths, with each number of channels, with either header."""
    for bits in (16, 24):
        for channels in range(1, 9):
            for kind in ("wav", "wavpcm"):
                name = f"sox_{bits}_{channels}_{kind}.wav"
                form = ["-r", str((8000, 44100, 48000)[channels % 3]), "-b", str(bits), "-c", str(channels), "-t", kind]
                subprocess.run([*SOX, "-n", *form, name, "synth", f"{FRAMES}s", "whitenoise"], cwd=folder, check=True)
                yield name


def named_files(folder):
    """Files of libsndfile that have a list with a title after their samples."""
    for channels in range(1, 9):
        name = f"named_{channels}.wav"
        words = ["sndfile-metadata-set", "--str-title", "odd" * channels, f"sox_24_{channels}_wav.wav", name]
        subprocess.run(words, cwd=folder, check=True, stdout=subprocess.DEVNULL)
        yield name


def scsynth_files(folder):
    """Three voices in files of scsynth."""
    voices = f"import gen; gen.voices('three', 3, 'tone', blocks=20).write({str(folder)!r}, ('sc',))"
    subprocess.run([sys.executable, "-c", voices], cwd=BENCH, check=True)
    for bits in (16, 24):
        for channels in range(1, 9):
            name = f"scsynth_{bits}_{channels}.wav"
            words = ["scsynth", "-V", "-2", "-i", "0", "-o", str(channels), "-N", "three.sc.osc", "_", name, "48000", "WAV", f"int{bits}"]
            subprocess.run(words, cwd=folder, check=True, stdout=subprocess.DEVNULL)
            yield name


def heard(folder, name):
    """The channels and the samples of a file, in Q8.24, as sox reads them."""
    channels = int(subprocess.run(["soxi", "-c", name], cwd=folder, check=True, capture_output=True).stdout)
    data = subprocess.run([*SOX, name, "-t", "s32", "-L", "-"], cwd=folder, check=True, capture_output=True).stdout
    return channels, [sample >> 7 for sample, in struct.iter_unpack("<i", data)]


def told(program, folder, name, count):
    """The replies to a file that is read and asked for."""
    asked = [("/b_getn", 0, first, min(1000, count - first)) for first in range(0, count, 1000)]
    (folder / "commands").write_bytes(stream(("/b_allocRead", 0, name), *asked))
    subprocess.run([program, "render", "commands", "sound", "replies"], cwd=folder, check=True, stdout=subprocess.DEVNULL)
    return (folder / "replies").read_bytes()


def wanted(samples):
    parts = [("/b_setn", 0, first, len(part), *part) for first in range(0, len(samples), 1000) for part in [samples[first:first + 1000]]]
    return stream(("/done", "/b_allocRead", 0), *parts)


def main():
    program = str(pathlib.Path(sys.argv[1]).resolve())
    count = wrong = 0
    with tempfile.TemporaryDirectory() as path:
        folder = pathlib.Path(path)
        for name in [*sox_files(folder), *named_files(folder), *scsynth_files(folder)]:
            channels, samples = heard(folder, name)
            count += 1
            if not any(samples) or told(program, folder, name, len(samples)) != wanted(samples):
                wrong += 1
                print(f"{name}: {channels} channels, {len(samples)} samples: not as sox reads it")
    print(f"{count} files, {wrong} with a difference")
    return 1 if wrong else 0


if __name__ == "__main__":
    sys.exit(main())
