"""How loud each channel is: the greatest sample of the last moment, the one that is held, and the greatest of all."""
import sys
from array import array

# A held peak stays for so many seconds, and what is shown now falls by so many decibels a second.
HOLDS, FALLS = 2.0, 30.0
FULL = 1 << 15


def whole_numbers(data, bits):
    """Samples with 16 bits, of sound with 16 or 24: the two greater bytes of each."""
    if bits == 24:
        greater = bytearray(len(data) // 3 * 2)
        greater[::2], greater[1::2] = data[1::3], data[2::3]
        data = greater
    found = array("h", bytes(data))
    if sys.byteorder == "big":
        found.byteswap()
    return found


class Meters:
    """The peaks of the channels, as parts of 32,768."""

    def __init__(self, channels, bits):
        self.bits, self.now, self.held, self.most = bits, [0] * channels, [0] * channels, [0] * channels
        self.shown, self.since, self.last = [0] * channels, [0.0] * channels, 0.0

    def take(self, data):
        """Hears whole frames."""
        samples, channels = whole_numbers(data, self.bits), len(self.now)
        for channel in range(channels):
            own = samples[channel::channels]
            if own:
                self.now[channel] = max(self.now[channel], max(own), -min(own))

    def levels(self, now):
        """Of each channel the peak since the last time, or what was shown and falls, the held one, and the greatest of
        all."""
        found, falls = [], 10 ** (-FALLS * (now - self.last) / 20)
        self.last, self.shown = now, [max(peak, int(before * falls)) for peak, before in zip(self.now, self.shown)]
        for channel, peak in enumerate(self.shown):
            if peak >= self.held[channel] or now - self.since[channel] > HOLDS:
                self.held[channel], self.since[channel] = peak, now
            self.most[channel] = max(self.most[channel], peak)
            found.append([peak, self.held[channel], self.most[channel]])
        self.now = [0] * len(self.now)
        return found
