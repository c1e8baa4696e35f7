#!/usr/bin/python3
"""Draws the wave and the spectrogram of each channel of a sound, and tells its length and its peaks.

    /usr/bin/python3 examples/show.py SOUND.wav [PICTURE.png]

The picture is written beside the sound if no path is given. It needs numpy and matplotlib. Debian's python3-numpy and
python3-matplotlib have them, for Debian's own Python.
"""
import sys
import wave

try:
    import matplotlib
    import numpy
except ImportError as missing:
    raise SystemExit(f"{sys.executable} has no {missing.name}; /usr/bin/python3 has it with Debian's python3-{missing.name}") from None

matplotlib.use("Agg")
import matplotlib.pyplot as plot  # noqa: E402


def samples_of(path):
    """The rate, and the samples of each channel from -1.0 to 1.0, of a WAV file of 16 or 24 bits."""
    with wave.open(path) as sound:
        rate, channels, size = sound.getframerate(), sound.getnchannels(), sound.getsampwidth()
        data = numpy.frombuffer(sound.readframes(sound.getnframes()), numpy.uint8).reshape(-1, size)
    wide = numpy.zeros((len(data), 4), numpy.uint8)
    wide[:, 4 - size:] = data
    return rate, wide.view("<i4").reshape(-1, channels).T / 2**31


def draw(path, picture):
    rate, channels = samples_of(path)
    figure, places = plot.subplots(2 * len(channels), 1, sharex=True, figsize=(8, 2.4 * len(channels)), squeeze=False)
    for number, samples in enumerate(channels):
        above, below = places[2 * number][0], places[2 * number + 1][0]
        above.plot(numpy.arange(len(samples)) / rate, samples, linewidth=0.3)
        above.set_ylim(-1, 1)
        above.set_ylabel(f"channel {number}")
        with numpy.errstate(divide="ignore"):
            below.specgram(samples, NFFT=2048, Fs=rate, noverlap=1024, vmin=-140, cmap="magma")
        below.set_facecolor("black")
        below.set_ylim(0, 8000)
        below.set_ylabel("Hz")
        print(f"channel {number}: {len(samples) / rate:.3f} s, peak {abs(samples).max():.3f}")
    places[-1][0].set_xlabel("seconds")
    figure.tight_layout()
    figure.savefig(picture, dpi=64)


def main():
    if len(sys.argv) not in (2, 3):
        raise SystemExit(__doc__.strip())
    path = sys.argv[1]
    draw(path, sys.argv[2] if sys.argv[2:] else path.removesuffix(".wav") + ".png")


if __name__ == "__main__":
    main()
