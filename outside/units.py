"""What each unit makes of its inputs, frame by frame."""
from definitions import LEAST, MOST, ONE, frames_of

FRAMES = 64


def sat(x):
    return max(LEAST, min(MOST, x))


def mul(a, b):
    return sat(a * b >> 24)


def signed(q):
    q %= 1 << 32
    return q - (1 << 32) if q >> 31 else q


def sine(p):
    h = p % (1 << 31) >> 15
    q = h * (65536 - h)
    value = 16 * q * ONE // (5 * (1 << 32) - 4 * q)
    return -value if p >> 31 else value


def step_of(freq, rate):
    return (freq * (1 << 32) // (1000 * rate)) % (1 << 32)


def span(seconds, rate):
    """A time in seconds in parts of a frame, of which ONE is a frame."""
    return max(0, seconds) * rate


def frame_and_part(p):
    """The whole frames of a place, and the part after them: none within 1/256 of a frame of a whole number."""
    n, g = divmod(p + (1 << 16), ONE)
    return n, 0 if g < 1 << 17 else g - (1 << 16)


class Clock:
    """What a unit knows of its synth and its block."""

    def __init__(self, rate, node, unit):
        self.rate, self.node, self.unit = rate, node, unit


def rises(s, key, x):
    before = s.get(key, 0)
    s[key] = x
    return x > 0 and before <= 0


def phase(s, freq, offset, clock):
    p = s.get("p", 0)
    s["p"] = (p + step_of(freq, clock.rate)) % (1 << 32)
    return (p + offset) % (1 << 32)


def sin_osc(s, clock, freq, offset):
    return sine(phase(s, freq, offset, clock))


def arc(u):
    """The sine of an angle, of which 2^31 is a quarter turn, times 2^62."""
    t = u * u >> 32
    h = 324873
    for coefficient in (10036036, 171131830, 1387196425, 3373259406):
        h = coefficient - (t * h >> 30)
    return min(1 << 62, u * h)


def wave(m):
    """The sine of any angle, of which 2^33 is a turn, times 2^62."""
    r = m % (1 << 33)
    h = r % (1 << 32)
    height = arc(min(h, (1 << 32) - h))
    return height if r < 1 << 32 else -height


def fine_sine(s, clock, freq, offset):
    w = wave(2 * phase(s, freq, offset, clock))
    return w >> 38 if w >= 0 else -(-w >> 38)


def lf_saw(s, clock, freq, offset):
    return signed(phase(s, freq, offset, clock)) >> 7


def rounded(z, m):
    """How far a rounded step is from its end, z / m frames after its middle."""
    if z >= 2 * m:
        return 0
    t = z * ONE // m
    if t < ONE:
        a = t * t >> 24
        return (12 * ONE - 16 * t + 8 * (t * a >> 24) - 3 * (a * a >> 24)) // 24
    a = (2 * ONE - t) ** 2 >> 24
    return a * a // (24 * ONE)


def saw(s, clock, freq, offset):
    g = step_of(freq, clock.rate)
    m = min(g, (1 << 32) - g)
    d = (phase(s, freq, offset, clock) + (1 << 31)) % (1 << 32)
    return sat((d - (1 << 31)) // 128 + 2 * (rounded(d, m) - rounded((1 << 32) - d, m)))


def blip(s, clock, freq, harmonics, offset):
    """The sum of the cosines of the first harmonics, over their number."""
    g = step_of(freq, clock.rate)
    n = max(1, min(harmonics, (1 << 31) // max(1, min(g, (1 << 32) - g))))
    q = phase(s, freq, offset, clock)
    d = arc(min(q, (1 << 32) - q))
    if d == 0:
        return ONE
    return sat((wave((2 * n + 1) * q) * ONE // d - ONE) // (2 * n))


def lf_pulse(s, clock, freq, offset, width):
    return ONE if phase(s, freq, offset, clock) >> 8 < width else 0


def lf_tri(s, clock, freq, offset):
    q = phase(s, freq, offset, clock)
    if q < 1 << 30:
        return q >> 6
    if q < 3 << 30:
        return ((1 << 31) - q) >> 6
    return (q - (1 << 32)) >> 6


def impulse(s, clock, freq):
    due = s.get("due", True)
    p = s.get("p", 0) + step_of(freq, clock.rate)
    s["p"], s["due"] = p % (1 << 32), p >> 32 > 0
    return ONE if due else 0


def drawn(s, clock):
    """The next number of a generator of noise, from -2^31 to 2^31 - 1."""
    r = s.get("r", (clock.node * 2654435761 + clock.unit) % (1 << 32))
    s["r"] = (r * 1664525 + 1013904223) % (1 << 32)
    return signed(s["r"])


def white_noise(s, clock):
    return drawn(s, clock) >> 7


def pink_noise(s, clock):
    """The sum of 16 dice, of which one is thrown at each frame, and of a number that is drawn at each."""
    dice = s.setdefault("dice", [0] * 16)
    s["count"] = (s.get("count", 0) + 1) % (1 << 16)
    j = next(j for j in range(16) if s["count"] >> j & 1 or j == 15)
    before, dice[j] = dice[j], drawn(s, clock) >> 11
    s["total"] = sat(s.get("total", 0) + dice[j] - before)
    return sat(s["total"] + (drawn(s, clock) >> 11))


def phasor(s, clock, trig, step, start, end, reset):
    x = s.get("x", start)
    if rises(s, "trig", trig):
        x = reset
    x = start + (x - start) % (end - start) if end > start else start
    s["x"] = sat(x + step)
    return x


def line(s, clock, start, end, dur, done):
    if "k" not in s:
        s.update(k=0, start=start, end=end, n=frames_of(dur, clock.rate))
    k, n = s["k"], s["n"]
    s["k"] += 1
    if k < n:
        return s["start"] + (s["end"] - s["start"]) * k // n
    ends(s, done)
    return s["end"]


def linen(s, clock, gate, attack, level, release, done):
    stage = s.get("stage", "waits")
    if stage == "waits" and gate > 0:
        s.update(stage="held", k=0, n=frames_of(attack, clock.rate), level=level, out=0)
    elif stage == "held" and gate <= 0:
        s.update(stage="let go", k=0, n=frames_of(release, clock.rate), f=s["out"])
    elif stage == "waits":
        return 0
    k, n = s["k"], s["n"]
    s["k"] += 1
    if s["stage"] == "held":
        s["out"] = s["level"] * k // n if k < n else s["level"]
        return s["out"]
    if k < n:
        return s["f"] * (n - k) // n
    ends(s, done)
    return 0


def ends(s, action):
    if "done" not in s:
        s["done"] = action


def clip(x, low, high):
    return min(max(x, low), high)


def pan2(s, clock, x, pos, level):
    r = (clip(pos, -ONE, ONE) + ONE) // 2
    v = mul(x, level)
    return mul(v, ONE - r), mul(v, r)


def damped(last, x, c):
    c = clip(c, -ONE, ONE)
    return sat((ONE - abs(c)) * x + c * last >> 24)


def one_pole(s, clock, x, c):
    s["y"] = damped(s.get("y", 0), x, c)
    return s["y"]


def lag(s, clock, x, time):
    y = s.get("y", x)
    s["y"] = y + (x - y) // max(1, frames_of(time, clock.rate))
    return s["y"]


def lag_ud(s, clock, x, up, down):
    z = x << 16
    d = s.get("s", z) - z
    c = clip(up if d < 0 else down, 0, ONE)
    s["s"] = z + (c * d >> 24)
    return sat(s["s"] >> 16)


def integrator(s, clock, x, c):
    s["y"] = sat(x + (c * s.get("y", 0) >> 24))
    return s["y"]


def delay1(s, clock, x):
    y = s.get("x", 0)
    s["x"] = x
    return y


def delay_n(s, clock, x, longest, time):
    n = min(frames_of(time, clock.rate), frames_of(longest, clock.rate))
    past = s.setdefault("past", [])
    past.append(x)
    return past[-1 - n] if n < len(past) else 0


def comb_n(s, clock, x, longest, time, c):
    n = min(max(1, frames_of(time, clock.rate)), max(1, frames_of(longest, clock.rate)))
    past = s.setdefault("past", [])
    y = past[-n] if n <= len(past) else 0
    past.append(sat(x + (c * y >> 24)))
    return y


def between(a, b, f):
    """The sample at the part f of the way from a to b."""
    return a + ((b - a) * f >> 24)


def ago(past, n):
    """What was appended n frames ago, where the last one was appended 0 frames ago; 0 before the first."""
    return past[-1 - n] if n < len(past) else 0


def delay_l(s, clock, x, longest, time):
    n, f = frame_and_part(min(span(time, clock.rate), frames_of(longest, clock.rate) * ONE))
    past = s.setdefault("past", [])
    past.append(x)
    return between(ago(past, n), ago(past, n + 1), f)


def comb_l(s, clock, x, longest, time, c, damp):
    """The comb and the allpass."""
    longest_span = max(1, frames_of(longest, clock.rate)) * ONE
    n, f = frame_and_part(max(ONE, min(span(time, clock.rate), longest_span)))
    past = s.setdefault("past", [])
    y = between(ago(past, n - 1), ago(past, n), f)
    s["last"] = damped(s.get("last", 0), y, damp)
    past.append(sat(x + (c * s["last"] >> 24)))
    return y, sat(y - (c * past[-1] >> 24))


def sos(s, clock, x, a0, a1, a2, b1, b2):
    x1, x2, y1, y2 = s.get("past", (0, 0, 0, 0))
    y = sat(a0 * x + a1 * x1 + a2 * x2 + b1 * y1 + b2 * y2 >> 24)
    s["past"] = (x, x1, y, y1)
    return y


def svf(s, clock, x, freq, rq):
    """The state-variable filter: low, band and high."""
    i1, i2 = s.get("i", (0, 0))
    h = max(0, min(1 << 30, freq * (1 << 31) // (1000 * clock.rate)))
    sine, cosine = arc(2 * h) >> 31, arc((1 << 31) - 2 * h) >> 31
    k = max(0, rq)
    r = (1 << 61) // ((1 << 30) + 1 + (k * (sine * cosine >> 31) >> 25))
    a1, a2, a3 = cosine * cosine * r >> 53, sine * cosine * r >> 53, sine * sine * r >> 53
    v3 = x * 65536 - i2
    v1, v2 = a1 * i1 + a2 * v3 >> 40, i2 + (a2 * i1 + a3 * v3 >> 40)
    s["i"] = clip(2 * v1 - i1, -1 << 54, 1 << 54), clip(2 * v2 - i2, -1 << 54, 1 << 54)
    return sat(v2 >> 16), sat(v1 >> 16), sat(x * 65536 - v2 - (k * v1 >> 24) >> 16)


def latch(s, clock, x, trig):
    if rises(s, "trig", trig):
        s["y"] = x
    return s.get("y", 0)


def gate_of(s, clock, x, trig):
    if trig > 0:
        s["y"] = x
    return s.get("y", 0)


def pulse_count(s, clock, trig, reset):
    up, back = rises(s, "trig", trig), rises(s, "reset", reset)
    if back:
        s["y"] = 0
    elif up:
        s["y"] = min(s.get("y", 0) + 1, MOST)
    return s.get("y", 0)


def stepper(s, clock, trig, reset, low, high, step, to):
    v = s.get("v", to)
    up, back = rises(s, "trig", trig), rises(s, "reset", reset)
    if back:
        v = to
    elif up:
        v = low + (v + step - low) % (high - low + 1) if high >= low else low
    s["v"] = v
    return v


def trig_of(s, clock, trig, time):
    left = s.get("left", 0)
    rose = rises(s, "trig", trig)
    if left > 0:
        left -= 1
    if left == 0:
        s["value"] = 0
        if rose:
            left, s["value"] = max(1, frame_and_part(span(time, clock.rate))[0]), trig
    s["left"] = left
    return s["value"]


def send_trig(s, clock, trig, ident, value):
    if rises(s, "trig", trig) and "told" not in s:
        s["told"] = (ident, value)


def detect_silence(s, clock, x, amp, time, done):
    if abs(x) >= amp:
        s["count"] = 0
    elif "count" in s:
        s["count"] += 1
    if s.get("count", 0) >= max(1, frames_of(time, clock.rate)):
        ends(s, done)
    return ONE if "done" in s else 0


def free_self(s, clock, x):
    if x > 0:
        ends(s, 2)


def pause_self(s, clock, x):
    if x > 0:
        ends(s, 1)


def div(a, b):
    if b == 0:
        return MOST if a > 0 else LEAST if a < 0 else 0
    return sat(a * ONE // b)


def mod(a, b):
    return a - b * (a // b) if b else 0


def exp2(x):
    n, f = x // ONE, x % ONE
    if n >= 7 or n <= -25:
        return MOST if n > 0 else 0
    h = 59689807
    for c in (341972226, 2660285941, 15251367701, 66033785798, 190530805471, 1 << 38):
        h = c + (f * h >> 24)
    return h >> (14 - n)


def log2(x):
    if x <= 0:
        return LEAST
    e = x.bit_length() - 1
    u = (x << 30 - e) - (1 << 30)
    h = 23944225
    for c in (146096444, 418890942, 783600322, 1149166213, 1528342713, 2062659376, 3097977664, 6196323683):
        h = c - (u * h >> 30)
    return (e - 24) * ONE + (u * h >> 38)


def plain(f):
    return lambda s, clock, *inputs: f(*inputs)


FRAME = {
    "SinOsc": sin_osc, "Sine": fine_sine, "LFSaw": lf_saw, "Saw": saw, "Blip": blip, "LFPulse": lf_pulse,
    "LFTri": lf_tri, "Impulse": impulse, "WhiteNoise": white_noise, "PinkNoise": pink_noise,
    "Phasor": phasor, "Line": line, "Linen": linen, "Add": plain(lambda a, b: sat(a + b)),
    "Sub": plain(lambda a, b: sat(a - b)), "Mul": plain(mul), "MulAdd": plain(lambda x, m, a: sat((x * m >> 24) + a)),
    "Neg": plain(lambda x: sat(-x)), "Abs": plain(lambda x: sat(abs(x))), "Min": plain(min), "Max": plain(max),
    "Clip": plain(clip), "Gt": plain(lambda a, b: ONE if a > b else 0), "Lt": plain(lambda a, b: ONE if a < b else 0),
    "Pan2": pan2, "Div": plain(div), "Mod": plain(mod), "Exp2": plain(exp2), "Log2": plain(log2),
    "OnePole": one_pole, "Lag": lag, "LagUD": lag_ud,
    "Integrator": integrator, "Delay1": delay1, "DelayN": delay_n, "DelayL": delay_l, "CombN": comb_n, "CombL": comb_l,
    "SOS": sos, "SVF": svf, "Latch": latch, "Gate": gate_of, "PulseCount": pulse_count, "Stepper": stepper,
    "Trig": trig_of,
    "SendTrig": send_trig, "DetectSilence": detect_silence, "FreeSelf": free_self, "PauseSelf": pause_self,
}


def play_position(s, frames, usable, step, trig, start, loop, done):
    """The frame that PlayBuf gives, or None."""
    s.setdefault("pos", start)
    rose = rises(s, "trig", trig)
    if not usable:
        return None
    pos, given = start if rose else s["pos"], None
    if not 0 <= pos < frames and loop > 0:
        pos %= frames
    if 0 <= pos < frames:
        given = pos
    else:
        ends(s, done)
    s["pos"] = sat(pos + step)
    return given


def line_place(s, frames, usable, step, trig, start, loop, done):
    """The place that PlayBufL reads, of which ONE is a frame, or None."""
    s.setdefault("place", start * ONE)
    rose = rises(s, "trig", trig)
    if not usable:
        return None
    place, given = start * ONE if rose else s["place"], None
    if not 0 <= place < frames * ONE and loop > 0:
        place %= frames * ONE
    if 0 <= place < frames * ONE:
        given = place
    else:
        ends(s, done)
    s["place"] = clip(place + step, -1 << 62, 1 << 62)
    return given


def index_place(frames, index, scale, loop):
    """The place that BufRdL reads."""
    if loop > 0:
        return index * scale % (frames * ONE)
    return clip(index * scale, 0, (frames - 1) * ONE)


def record_position(s, frames, usable, run, loop, done):
    """The frame that RecordBuf writes, or None."""
    pos = s.setdefault("pos", 0)
    if not usable or run <= 0 or pos >= frames:
        return None
    s["pos"] = pos + 1
    if s["pos"] == frames:
        if loop > 0:
            s["pos"] = 0
        else:
            ends(s, done)
    return pos
