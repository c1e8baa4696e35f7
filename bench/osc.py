"""OSC 1.0 and its frames, and the definitions of the workloads: as SCgf version 2 for scsynth, as text for snova.

Standard library only.
"""
import struct


def pad(b):
    return b + b"\0" * (-len(b) % 4)


def ostr(text):
    return pad((text if isinstance(text, bytes) else text.encode()) + b"\0")


def msg(address, *args):
    tags, data = ",", b""
    for x in args:
        if isinstance(x, float):
            tags += "f"
            data += struct.pack(">f", x)
        elif isinstance(x, int):
            tags += "i"
            data += struct.pack(">i", x)
        elif isinstance(x, str):
            tags += "s"
            data += ostr(x)
        else:
            tags += "b"
            data += struct.pack(">i", len(x)) + pad(bytes(x))
    return ostr(address) + ostr(tags) + data


def bundle(tag, *elements):
    return b"#bundle\0" + struct.pack(">Q", tag) + b"".join(frame(e) for e in elements)


def frame(packet):
    return struct.pack(">i", len(packet)) + packet


def decode(b):
    """Messages of a packet as (address, [args]) in order; bundles are flattened."""
    if b[:8] == b"#bundle\0":
        out, at = [], 16
        while at < len(b):
            n = struct.unpack(">i", b[at:at + 4])[0]
            out += decode(b[at + 4:at + 4 + n])
            at += 4 + n
        return out

    def cut(at):
        end = b.index(b"\0", at)
        return b[at:end].decode("latin1"), at + (end - at) // 4 * 4 + 4
    address, at = cut(0)
    if at >= len(b):
        return [(address, [])]
    tags, at = cut(at)
    args = []
    for t in tags[1:]:
        if t == "i":
            args.append(struct.unpack(">i", b[at:at + 4])[0]); at += 4
        elif t == "f":
            args.append(struct.unpack(">f", b[at:at + 4])[0]); at += 4
        elif t == "d":
            args.append(struct.unpack(">d", b[at:at + 8])[0]); at += 8
        elif t == "s":
            s, at = cut(at); args.append(s)
        elif t == "b":
            n = struct.unpack(">i", b[at:at + 4])[0]
            args.append(b[at + 4:at + 4 + n]); at += 4 + n + (-n % 4)
    return [(address, args)]


def at(block, rate=48000):
    """The least tag that is due at a block (64 frames), counted from base 0."""
    return -(-block * 2 ** 38 // rate)


# ---- SCgf version 2 -------------------------------------------------------

SCALAR, CONTROL, AUDIO = 0, 1, 2
ADD, SUB, MUL = 0, 1, 2  # special index of BinaryOpUGen


def pstr(text):
    return bytes([len(text)]) + text.encode()


class Def:
    """Builds one synth definition. An input is a float, or (ugen, output)."""

    def __init__(self, name, **controls):
        self.name, self.consts, self.ugens = name, [], []
        self.names, self.values = list(controls), [float(v) for v in controls.values()]
        if controls:
            self.ctl = self.ugen("Control", CONTROL, [], len(controls))

    def __getitem__(self, control):
        return (self.ctl, self.names.index(control))

    def ugen(self, kind, rate, inputs, outputs=1, special=0):
        spec = []
        for x in inputs:
            if isinstance(x, tuple):
                spec.append(x)
            else:
                if float(x) not in self.consts:
                    self.consts.append(float(x))
                spec.append((-1, self.consts.index(float(x))))
        self.ugens.append((kind, rate, spec, outputs, special))
        return len(self.ugens) - 1

    def sig(self, *a, **k):
        return (self.ugen(*a, **k), 0)

    def body(self):
        b = pstr(self.name)
        b += struct.pack(">i", len(self.consts)) + b"".join(struct.pack(">f", c) for c in self.consts)
        b += struct.pack(">i", len(self.values)) + b"".join(struct.pack(">f", c) for c in self.values)
        b += struct.pack(">i", len(self.names))
        for i, n in enumerate(self.names):
            b += pstr(n) + struct.pack(">i", i)
        b += struct.pack(">i", len(self.ugens))
        for kind, rate, spec, outputs, special in self.ugens:
            b += pstr(kind) + struct.pack(">biih", rate, len(spec), outputs, special)
            b += b"".join(struct.pack(">ii", *s) for s in spec)
            b += bytes([rate]) * outputs
        return b + struct.pack(">h", 0)

    def scgf(self):
        return b"SCgf" + struct.pack(">ih", 2, 1) + self.body()


def sc_defs():
    """The definitions of the workloads, as SCgf bytes."""
    out = {}
    # tone: SinOsc -> Out
    d = Def("tone", freq=440, out=0)
    a = d.sig("SinOsc", AUDIO, [d["freq"], 0.0])
    d.ugen("Out", AUDIO, [d["out"], a], 0)
    out["tone"] = d.scgf()
    # toneline: SinOsc * Line -> Out
    d = Def("toneline", freq=440, out=0, dur=10)
    a = d.sig("SinOsc", AUDIO, [d["freq"], 0.0])
    e = d.sig("Line", AUDIO, [0.01, 0.0, d["dur"], 0.0])
    m = d.sig("BinaryOpUGen", AUDIO, [a, e], special=MUL)
    d.ugen("Out", AUDIO, [d["out"], m], 0)
    out["toneline"] = d.scgf()
    # quiet: SinOsc * 0.001 -> Out
    d = Def("quiet", freq=440, out=0)
    a = d.sig("SinOsc", AUDIO, [d["freq"], 0.0])
    m = d.sig("BinaryOpUGen", AUDIO, [a, 0.0009765625], special=MUL)
    d.ugen("Out", AUDIO, [d["out"], m], 0)
    out["quiet"] = d.scgf()
    # rich: three oscillators through two filters, with a tremolo and an envelope
    d = Def("rich", freq=440, out=0)
    a = d.sig("SinOsc", AUDIO, [d["freq"], 0.0])
    b = d.sig("LFSaw", AUDIO, [d["freq"], 0.0])
    c = d.sig("LFTri", AUDIO, [d["freq"], 0.0])
    s = d.sig("BinaryOpUGen", AUDIO, [d.sig("BinaryOpUGen", AUDIO, [a, b], special=ADD), c], special=ADD)
    f = d.sig("OnePole", AUDIO, [s, 0.5])
    e = d.sig("Line", AUDIO, [0.001, 0.0, 60.0, 0.0])
    m = d.sig("BinaryOpUGen", AUDIO, [f, e], special=MUL)
    v = d.sig("SinOsc", AUDIO, [5.0, 0.0])
    t = d.sig("BinaryOpUGen", AUDIO, [m, v], special=MUL)
    o = d.sig("OnePole", AUDIO, [t, 0.25])
    d.ugen("Out", AUDIO, [d["out"], o], 0)
    out["rich"] = d.scgf()
    # step: a control's value onto a control bus
    d = Def("step", value=1, out=0)
    d.ugen("Out", CONTROL, [d["out"], d["value"]], 0)
    out["step"] = d.scgf()
    # voice and mix8: the two definitions of the drill
    d = Def("voice", freq=440, out=16)
    a = d.sig("SinOsc", AUDIO, [d["freq"], 0.0])
    e = d.sig("Line", AUDIO, [0.25, 0.0, 0.5, 2.0])
    m = d.sig("BinaryOpUGen", AUDIO, [a, e], special=MUL)
    d.ugen("Out", AUDIO, [d["out"], m], 0)
    out["voice"] = d.scgf()
    d = Def("mix8")
    n = d.ugen("In", AUDIO, [16.0], 8)
    s = [(n, k) for k in range(8)]
    while len(s) > 1:
        s = [d.sig("BinaryOpUGen", AUDIO, [s[k], s[k + 1]], special=ADD) for k in range(0, len(s), 2)]
    d.ugen("Out", AUDIO, [0.0, s[0], s[0]], 0)
    out["mix8"] = d.scgf()
    return out


def snova_defs():
    """The same definitions as texts."""
    return {name: f"snova 1\ndef {name}\n{text}end\n".encode() for name, text in {
        "tone": "control freq 440000\ncontrol out 0\n"
                "a = SinOsc freq 0\nOut.ar out a\n",
        "toneline": "control freq 440000\ncontrol out 0\ncontrol dur 10000\n"
                    "a = SinOsc freq 0\ne = Line 0.01 0 dur 0\nm = Mul a e\nOut.ar out m\n",
        "quiet": "control freq 440000\ncontrol out 0\n"
                 "a = SinOsc freq 0\nm = Mul a 16384\nOut.ar out m\n",
        "rich": "control freq 440000\ncontrol out 0\n"
                "a = SinOsc freq 0\nb = LFSaw freq 0\nc = LFTri freq 0\nd = Add a b\ns = Add d c\nf = OnePole s 0.5\n"
                "e = Line 0.001 0 60000 0\nm = Mul f e\nv = SinOsc 5000 0\nt = Mul m v\no = OnePole t 0.25\nOut.ar out o\n",
        "step": "control value 1\ncontrol out 0\nOut.kr out value\n",
        "voice": "control freq 440000\ncontrol out 16\n"
                 "a = SinOsc freq 0\ne = Line 0.25 0 500 2\nm = Mul a e\nOut.ar out m\n",
        "mix8": "a b c d e f g h = In.ar 16\ni = Add a b\nj = Add c d\n"
                "k = Add e f\nl = Add g h\nm = Add i j\nn = Add k l\no = Add m n\nOut.ar 0 o o\n",
    }.items()}
