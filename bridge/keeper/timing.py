"""The time of the player, which is the clock of a session: how many frames it took by when, and the server's time."""
import math

# Seconds after which what was counted is forgotten by two thirds: of where the player is, and of how fast it is.
PLACE, SPEED = 0.7, 6.0
# Seconds in which a player that was started fills what it keeps, and says nothing of its speed.
SETTLES = 0.5
# How much the nominal rate weighs after that, in seconds squared.
TRUST = 0.02
# Time tags count 2^-32 seconds from 1900, and their seconds start again every 2^32.
SECOND, TO_1970, ROUND = 1 << 32, 2208988800, 1 << 64


def tag_of(seconds):
    """Seconds since 1970 as a time tag."""
    return round((seconds + TO_1970) * SECOND) % ROUND


def seconds_between(early, late):
    """The seconds from one time tag to another that is at most 68 years away."""
    ahead = (late - early) % ROUND
    return (ahead - ROUND if ahead >= ROUND // 2 else ahead) / SECOND


class Mean:
    """Means of times and of frames in which what came last counts most, and how they go together."""

    def __init__(self, memory, now, frames, speed):
        self.memory, self.weight, self.last = memory, 1.0, now
        self.time, self.frames = now, float(frames)
        self.spread, self.product = TRUST, TRUST * speed

    def note(self, now, frames):
        kept = math.exp((self.last - now) / self.memory)
        self.weight, self.last = self.weight * kept + 1, now
        away, ahead = now - self.time, frames - self.frames
        self.time += away / self.weight
        self.frames += ahead / self.weight
        self.spread = self.spread * kept + away * (now - self.time)
        self.product = self.product * kept + ahead * (now - self.time)

    def slope(self):
        return self.product / self.spread


class Frames:
    """How many frames the player took, as a line through what was counted: a player takes some at a time, and never
    quite so many a second as the rate says."""

    def __init__(self, rate, now):
        self.rate, self.speed = rate, float(rate)
        self.start(now, 0)

    def start(self, now, frames):
        """The player starts again; how fast it is stays known."""
        self.place, self.pace = Mean(PLACE, now, frames, self.speed), None
        self.settled = now + SETTLES

    def note(self, now, frames):
        """So many frames were taken by now."""
        self.place.note(now, frames)
        if now < self.settled:
            return
        if self.pace is None:
            self.place, self.pace = Mean(PLACE, now, frames, self.speed), Mean(SPEED, now, frames, self.speed)
            return
        self.pace.note(now, frames)
        self.speed = min(max(self.pace.slope(), self.rate / 2), self.rate * 2)

    def at(self, now):
        """How many frames will have been taken at a time."""
        return self.place.frames + (now - self.place.time) * self.speed


class ServerTime:
    """Which time of the server a time of a client is: that of the frame which the player takes then."""

    def __init__(self, rate, start):
        """`start` is the time of the server's block 0, as a time tag."""
        self.rate, self.first = rate, start

    def tag_at(self, frame):
        """The time tag at which the server makes a frame."""
        return (self.first + round(frame * SECOND / self.rate)) % ROUND

    def turned(self, tag, wall, now, frames):
        """A client's time tag as one of the server. `wall` is the time tag of the moment `now` of the monotonic clock,
        by which `frames` counts."""
        if tag <= 1:
            return tag
        return max(self.tag_at(max(frames.at(now + seconds_between(wall, tag)), 0.0)), 2)
