"""Definition texts that the cases send."""


def definition(name, *lines, version=1):
    return ("\n".join([f"snova {version}", "def " + name, *lines, "end"]) + "\n").encode()


def shown(name, *lines, wire="y"):
    """A definition whose last wire is heard on bus 0."""
    return definition(name, *lines, f"Out.ar 0 {wire}")


TEXTS = {
    "dc": definition("dc", "control out 0", "control amp 0", "Out.ar out amp"),
    "wide": definition("wide", "control out 0", "control a 1.0", "control b 0.5", "Out.ar out a b 0.25 -0.25 a b 0.125 -0.5"),
    "mix": definition("mix", "control in 16", "control out 0", "x = In.ar in", "y = Mul x 131072", "Out.ar out y"),
    "ear": definition("ear", "control in 16", "x = InFeedback in", "Out.ar 0 x"),
    "swap": definition("swap", "control out 0", "control amp 0", "ReplaceOut out amp amp"),
    "tone": definition("tone", "control freq 440000", "control out 0", "a = SinOsc freq 0", "Out.ar out a"),
    "ramp": definition("ramp", "control dur 1", "control done 2", "a = Line -0.5 1.0 dur 2", "Out.ar 0 a"),
    "link": definition("link", "control in 0", "control out 0", "control add 0", "a = In.kr in", "b = Add a add", "Out.kr out b"),
    "twice": definition("twice", "control out 0", "Out.kr out 1 2", "Out.kr out 2147483647 -2147483648"),
    "two": definition("two", "control a 0", "control b 0", "control c 7", "x = Add a b", "Out.ar 0 x c"),
    "ticks": definition("ticks", "control freq 750000", "control id 5", "a = Impulse freq", "SendTrig a id freq", "SendTrig a 1 id"),
    "gone": definition("gone", "control gone 0", "control still 0", "FreeSelf gone", "PauseSelf still", "Out.ar 0 0.5"),
    "player": definition("player", "control buf 0", "control step 1", "control trig 0", "control start 0", "control loop 0",
                         "a = PlayBuf buf step trig start loop 2", "Out.ar 0 a"),
    "stereo": definition("stereo", "control buf 0", "control step 1", "control loop 1",
                         "a b = PlayBuf buf step 0 0 loop 0", "Out.ar 0 a b"),
    "recorder": definition("recorder", "control buf 0", "control run 1", "control loop 0", "p = Phasor 0 3 0 1000 0",
                           "RecordBuf buf run loop 2 p"),
    "reader": definition("reader", "control buf 0", "p = Phasor 0 1 -2 9 0", "a = BufRd buf p", "Out.ar 0 a"),
    "writer": definition("writer", "control buf 0", "p = Phasor 0 1 -2 9 0", "v = Mul p 1.5", "BufWr buf p v"),
    "frames": definition("frames", "control buf 0", "n = BufFrames buf", "Out.ar 0 n"),
    "hush": definition("hush", "control x 0", "a = DetectSilence x 0.25 2 2", "Out.ar 0 a"),
    "between": definition("between", "control buf 0", "control step 0.75", "control trig 0", "control start 0", "control loop 0",
                          "a = PlayBufL buf step trig start loop 2", "Out.ar 0 a"),
    "table": definition("table", "control buf 0", "control scale 1.0", "control loop 1", "p = Phasor 0 1 -9 99 0", "a b = BufRdL buf p scale loop", "Out.ar 0 a b"),
    "nothing": definition("nothing"),
    "bank": definition("bank", "array amp 0.5 0.25 0", "control out 0", "a = SinOsc 440000 0", "m = Mul a amp.1", "Out.ar out m", version=2),
    "outs": definition("outs", "control amp 0.5", "array out 0 1 2", "Out.ar out.1 amp", "Out.ar out.2 amp", version=2),
}

PULSE = "g = LFPulse 3000000 0 8388608"
SWEEP = "w = LFSaw 1000000 0"
# A wire e that goes from one end of 32 bits to the other.
ENDS = ["p = LFPulse 3000000 0 0.5", "q = MulAdd p 127.99999999 -64.0", "r = Add q q", "e = MulAdd p 1 r"]
# One unit each, heard by 24 bits on bus 0.
UNITS = {
    "LFSaw": ["y = LFSaw 12345678 1000000000"], "LFSaw_down": ["y = LFSaw -12345678 -1"],
    "Saw": ["y = Saw 12345678 1000000000"], "Saw_down": ["y = Saw -12345678 -1"], "Saw_still": ["y = Saw 0 2147483647"],
    "Saw_fast": ["y = Saw 23999000 0"], "Saw_swept": ["f = LFTri 3000000 0", "y = Saw f 0"],
    "Blip": ["y = Blip 440000 20 0"], "Blip_down": ["y = Blip -440000 2147483647 1000000000"], "Blip_still": [SWEEP, "v = Mul w 127.99999999", "y = Blip 0 9 v"],
    "Blip_least": ["n = Phasor 0 1 -70 70 0", "y = Blip 300000 n 0"], "Blip_swept": ["f = LFTri 3000000 0", "n = Phasor 0 999999 -5 90000000 0", "y = Blip f n 0"],
    "Blip_fast": ["y = Blip 29999000 3 -2147483648"],
    "LFPulse": ["y = LFPulse 5000000 -1000 0.3"], "LFTri": ["y = LFTri 777777 0"], "Impulse": ["y = Impulse 7000000"],
    "Impulse_down": ["y = Impulse -7000000"], "Impulse_still": ["y = Impulse 0"], "WhiteNoise": ["y = WhiteNoise"],
    "PinkNoise": ["y = PinkNoise"], "pink_noise_3": ["a = PinkNoise", "b = PinkNoise", "y = Sub a b"],
    "noise_3": ["a = WhiteNoise", "b = WhiteNoise", "y = Sub a b"],
    "Phasor": [PULSE, "y = Phasor g 700 -5000 9000 77777"], "Phasor_back": [PULSE, "y = Phasor g -700 -5000 9000 -77777"],
    "Phasor_empty": [PULSE, "y = Phasor g 5 99 99 7"], "Phasor_far": ["y = Phasor 0 2000000000 -2147483648 2147483647 0"],
    "Line": ["y = Line 1.0 -0.3 2 0"], "Line_none": ["y = Line 1.0 -0.3 0 0"], "Line_late": ["y = Line 1.0 -0.3 -5 0"],
    "Linen": ["g = Phasor 0 -1 -60 60 0", "y = Linen g 1 1.0 1 0"], "Linen_step": [PULSE, "y = Linen g 0 0.7 0 0"],
    "Linen_short": ["g = Phasor 0 -1 -110 20 0", "y = Linen g 2 -1.0 1 0"],
    "Add": [SWEEP, "y = Add w 127.9"], "Sub": [SWEEP, "y = Sub w 127.9"], "Mul": [SWEEP, "y = Mul w w"],
    "Mul_far": [SWEEP, "y = Mul w -128.0"], "MulAdd": [SWEEP, "y = MulAdd w 0.333 -7"], "MulAdd_far": [SWEEP, "y = MulAdd w 127.5 127.5"],
    "Neg": ["y = Neg -2147483648"], "Abs": ["y = Abs -2147483648"], "Abs_saw": [SWEEP, "y = Abs w"],
    "Min": [SWEEP, "y = Min w 0.1"], "Max": [SWEEP, "y = Max w 0.1"], "Clip": [SWEEP, "y = Clip w -0.25 0.5"],
    "Clip_turned": [SWEEP, "y = Clip w 0.5 -0.25"], "Gt": [SWEEP, "y = Gt w 0"], "Lt": [SWEEP, "y = Lt w 0"], "Gt_same": ["y = Gt 5 5"],
    "Pan2": [SWEEP, "y b = Pan2 0.8 w 0.9"], "Pan2_right": [SWEEP, "b y = Pan2 0.8 w 0.9"], "Pan2_out": ["y b = Pan2 0.8 3.5 -0.9"],
    "Div": [SWEEP, "y = Div w 0.3"], "Div_below": [SWEEP, "y = Div w -0.3"], "Div_sweep": [SWEEP, "y = Div 0.3 w"], "Div_none": [SWEEP, "y = Div w 0"],
    "Mod": [SWEEP, "y = Mod w 0.3"], "Mod_below": [SWEEP, "y = Mod w -0.3"], "Mod_sweep": [SWEEP, "y = Mod 0.9 w"], "Mod_none": [SWEEP, "y = Mod w 0"],
    "Exp2": [SWEEP, "y = Exp2 w"], "Exp2_far": [SWEEP, "v = Mul w 30.0", "y = Exp2 v"], "Exp2_ends": [SWEEP, "v = Mul w 127.99999999", "y = Exp2 v"],
    "Log2": [SWEEP, "y = Log2 w"], "Log2_near": [SWEEP, "v = Mul w 2", "y = Log2 v"], "Log2_far": [SWEEP, "v = Mul w 127.99999999", "y = Log2 v"],
    "Exp2_noise": ["n = WhiteNoise", "v = Mul n 30.0", "y = Exp2 v"], "Log2_noise": ["n = WhiteNoise", "v = Mul n 100.0", "y = Log2 v"],
    "OnePole": [PULSE, "y = OnePole g 0.9"], "OnePole_down": [PULSE, "y = OnePole g -0.9"], "OnePole_far": [PULSE, "y = OnePole g 5.0"],
    "LagUD": [PULSE, "y = LagUD g 0.9 0.99"], "LagUD_same": [SWEEP, "y = LagUD w 0 1.0"], "LagUD_far": [SWEEP, "f = Mul w 128.0", "y = LagUD f -1 1.5"],
    "LagUD_ends": ["t = LFPulse 3000000 0 0.5", "f = MulAdd t -256.0 127.99999999", "y = LagUD f 0.5 0.25"],
    "Lag": [PULSE, "y = Lag g 1"], "Lag_none": [PULSE, "y = Lag g -1"], "Integrator": [PULSE, "y = Integrator g 0.99"],
    "Integrator_far": ["y = Integrator 9.0 1.5"], "Integrator_down": ["y = Integrator -9.0 1.0"], "Delay1": [SWEEP, "y = Delay1 w"],
    "DelayN": [SWEEP, "y = DelayN w 2 1"], "DelayN_none": [SWEEP, "y = DelayN w 0 5"], "DelayN_sweep": ["t = Phasor 0 1 -4 9 0", SWEEP, "y = DelayN w 2 t"],
    "DelayL": [SWEEP, "y = DelayL w 2 500"], "DelayL_none": [SWEEP, "y = DelayL w 0 5000"], "DelayL_sweep": ["t = Phasor 0 101 -4000 29000 0", SWEEP, "y = DelayL w 1 t"],
    "DelayL_far": [*ENDS, "n = WhiteNoise", "t = Mul n 0.002", "y = DelayL e 1 t"],
    "CombL": [PULSE, "y b = CombL g 2 500 -0.7 0"], "CombL_allpass": [PULSE, "b y = CombL g 2 500 0.7 0"], "CombL_damped": [PULSE, "y b = CombL g 1 2000 0.99 0.4"],
    "CombL_none": [PULSE, "y b = CombL g 0 0 0.7 -0.4"], "CombL_far": ["y b = CombL 20.0 1 7000 2.0 0"], "CombL_far_allpass": [SWEEP, "f = Mul w 127.0", "b y = CombL f 1 1000 -127.0 -1.5"],
    "CombL_swept": ["t = Phasor 0 101 -4000 29000 0", "d = LFTri 900000 0", "c = LFTri 700000 0", "e = Mul d 1.5", SWEEP, "y b = CombL w 1 t c e"],
    "CombN": [PULSE, "y = CombN g 2 1 -0.7"], "CombN_none": [PULSE, "y = CombN g 0 0 0.7"], "CombN_far": ["y = CombN 20.0 1 1 2.0"],
    "SOS": [PULSE, "y = SOS g 0.4 -0.2 0.1 0.6 -0.3"], "SOS_far": [PULSE, "y = SOS g 100.0 100.0 100.0 1.5 1.5"],
    "SVF": [PULSE, "y b h = SVF g 1000000 1.41421356"], "SVF_band": [SWEEP, "r = Phasor 0 99 -50000 16777216 0", "l y h = SVF w 3000000 r"],
    "SVF_high": [PULSE, "f = Phasor 0 999999 -5000000 30000000 0", "l b y = SVF g f 0.5"], "SVF_far": [PULSE, "l y h = SVF 127.9 750000 0"],
    "Latch": [SWEEP, PULSE, "y = Latch w g"], "Latch_first": ["y = Latch 0.7 1"], "Gate": [SWEEP, PULSE, "y = Gate w g"],
    "PulseCount": [PULSE, "r = Impulse 400000", "y = PulseCount g r"], "PulseCount_once": ["y = PulseCount 1 0"],
    "Trig": [SWEEP, PULSE, "h = Mul g w", "y = Trig h 3000"], "Trig_frame": [PULSE, "y = Trig g -1"], "Trig_long": ["x = Impulse 1500000", "y = Trig x 0.002"],
    "Trig_again": ["x = Impulse 12000000", "y = Trig x 3145"], "Trig_never": [SWEEP, "y = Trig w 127.9"],
    "Stepper": [PULSE, "r = Impulse 400000", "y = Stepper g r -3 11 4 100"], "Stepper_back": [PULSE, "y = Stepper g 0 -3 11 -4 0"],
    "Stepper_empty": [PULSE, "y = Stepper g 0 5 4 1 9"], "DetectSilence": [PULSE, "y = DetectSilence g 0.5 0 0"],
    "DetectSilence_long": ["x = Line 1.0 0 1 0", "y = DetectSilence x 0.5 1 0"], "BufFrames": ["y = BufFrames 5"],
    "Sine": ["y = Sine 440000 0"], "Sine_turned": [SWEEP, "y = Sine -3000000 w"],
    "SinOsc": ["y = SinOsc 440000 0"], "SinOsc_turned": ["y = SinOsc -3000000 1073741824"],
}
HEARD = {name: shown("unit", *lines) for name, lines in UNITS.items()}

# Texts at fault.
HEAD = ["snova 1", "def bad"]
BAD = {
    "empty": b"", "cut": b"snova 1\ndef a\nend", "no end": b"snova 1\ndef a\n", "behind": b"snova 1\ndef a\nend\nend\n", "cut behind": b"snova 1\ndef a\nend\n ",
    "version": b"snova 3\ndef a\nend\n", "name": b"snova 1\ndef 1a\nend\n", "kept name": b"snova 1\ndef end\nend\n",
    "long name": b"snova 1\ndef " + b"a" * 32 + b"\nend\n", "two spaces": b"snova 1\ndef a\ncontrol  x 1\nend\n",
    "space at end": b"snova 1\ndef a \nend\n", "empty line": b"snova 1\ndef a\n\nend\n", "return": b"snova 1\r\ndef a\r\nend\r\n",
}
BAD_LINES = {
    "control twice": ["control a 1", "control a 2"], "control number": ["control a 01"], "control range": ["control a 2147483648"],
    "control -0": ["control a -0"], "control fraction": ["control a 128.0"], "control digits": ["control a 0.123456789"],
    "control late": ["a = WhiteNoise", "control b 1"], "control of a wire": ["a = WhiteNoise", "b = Neg a", "a = Neg b"],
    "unit": ["a = Sinosc 0 0"], "no outputs": ["SinOsc 0 0"], "outputs": ["a b = SinOsc 0 0"], "output of none": ["a = Out.ar 0 0"],
    "inputs": ["a = SinOsc 0"], "more inputs": ["a = SinOsc 0 0 0"], "itself": ["a = Neg a"], "later": ["a = Neg b", "b = WhiteNoise"],
    "index": ["a = WhiteNoise", "b = In.ar a"], "constant": ["control d 2", "a = Line 0 1 1 d"], "longest": ["a = DelayN 0 60001 0"],
    "shortest": ["a = CombN 0 -1 0 0"], "no signals": ["Out.ar 0"], "nine signals": ["Out.ar 0 1 2 3 4 5 6 7 8 9"],
    "nine outputs": ["a b c d e f g h i = In.ar 0"], "nothing before": ["= WhiteNoise"], "nothing behind": ["a ="], "control as a wire": ["control = SinOsc 1 2"],
    "end as a wire": ["end = WhiteNoise"], "one name twice": ["a a = In.ar 0"], "129 controls": [f"control c{i} 0" for i in range(129)],
    "257 units": [f"w{i} = WhiteNoise" for i in range(257)], "513 wires": [" ".join(f"w{8 * k + j}" for j in range(8)) + " = In.ar 0" for k in range(64)] + ["x = WhiteNoise"],
}
BAD.update((name, definition("bad", *lines)) for name, lines in BAD_LINES.items())
ZEROS = " 0" * 64
BAD_ARRAYS = {
    "array without a literal": ["array a"], "array of no name": ["array = SinOsc 1 2"], "array late": ["a = WhiteNoise", "array b 1"], "array with two spaces": ["array a  1"],
    "65 elements": ["array a 0" + ZEROS], "513 controls": [f"array a{k}{ZEROS}" for k in range(8)] + ["control b 0"],
    "513 elements": [f"array a{k}{ZEROS}" for k in range(7)] + ["array b" + " 0" * 63, "array c 0 0"], "array kept": ["array array 1"], "array twice": ["control a 1", "array a 2"],
    "array dotted": ["array a.1 2"], "array number": ["array a 1 x 2"], "element 0": ["array a 1 2", "b = Neg a.0"], "element past": ["array a 1 2", "b = Neg a.2"],
    "element 01": ["array a 1 2", "b = Neg a.01"], "element as a wire": ["array a 1 2", "a.1 = WhiteNoise"], "element of an element": ["array a 1 2", "b = Neg a.1.1"],
    "element constant": ["array d 2 2", "a = Line 0 1 1 d.1"], "array as a wire": ["a array = In.ar 0"],
}
BAD.update((name, definition("bad", *lines, version=2)) for name, lines in BAD_ARRAYS.items())
BAD["array in version 1"] = definition("bad", "array a 1 2")
BAD["129 controls in version 1"] = definition("bad", *[f"control c{i} 0" for i in range(129)])
BAD["name array in version 2"] = definition("array", version=2)
GOOD = {
    "128 controls": definition("good", *[f"control c{i} {i}" for i in range(128)]),
    "256 units": definition("good", *[f"w{i} = WhiteNoise" for i in range(256)]),
    "512 wires": definition("good", *BAD_LINES["513 wires"][:64]),
    "names": definition("Go_od9", "control array 1", "control SinOsc -0.00000001", "control Out 127.99999999", "_ = SinOsc SinOsc array"),
    "64 elements": definition("good", "array a" + ZEROS, "b = Neg a.63", version=2),
    "512 controls": definition("good", *[f"control c{i} {i}" for i in range(512)], version=2),
    "512 elements": definition("good", *[f"array {'a' * 31 if k == 7 else f'a{k}'}{ZEROS}" for k in range(8)], "b = Neg " + "a" * 31 + ".63", version=2),
    "version 2": definition("good", "control a 1", "array b 2 3 4", "control c 5", "array d 6", "e = MulAdd a b.2 d", version=2),
    "name of 31": definition("a" * 31), "edges": definition("good", "control a -2147483648", "control b 2147483647", "control c -128.0", "a0 = DelayN a 60000 b"),
}

# Units at their edges: the lines before the output, whose last wire is y.
EDGES = {
    "SVF with rq below 0": ["g = LFPulse 3000000 0 0.5", "l b y = SVF g 1000000 -0.5"],
    "SVF above half of the rate": ["g = LFPulse 3000000 0 0.5", "y b h = SVF g 30000000 0.5"],
    "SVF driven to its bounds": ["p = LFPulse 23000000 0 0.5", "a = MulAdd p 127.5 -63.75", "x = Add a a",
                                 "l b h = SVF x 23000000 0", "y = Mul l 131072"],
    "LagUD between two samples": ["x = Impulse 0", "y = LagUD x 0 0.99"],
    "LagUD with factors that move": ["x = LFPulse 900000 0 0.5", "f = LFTri 700000 0", "y = LagUD x f 0.9"],
    "Saw at half of a turn": ["y = Saw 0 -2147483648"],
    "Saw above half of the rate": ["y = Saw 25000000 0"],
    "Trig just below a frame's edge": ["t = Impulse 300000", "y = Trig t 94720"],
    "Trig just above a frame's edge": ["t = Impulse 900000", "y = Trig t 18873"],
    "Trig over the end of a block": ["t = Impulse 700000", "y = Trig t 23069"],
    "Trig with a time that moves": ["t = Impulse 6000000", "m = LFTri 700000 0", "s = Mul m 0.001", "y = Trig t s"],
    "Exp2 of a fraction below 0": ["x = Exp2 -0.5", "y = Mul x 0.5"],
    "Log2 just below 1.0": ["y = Log2 16777215"],
    "Blip of no harmonics": ["y = Blip 750000 0 0"],
    "Blip of fewer than none": ["y = Blip 750000 -2147483648 0"],
    "Blip just above half of the rate over its harmonics": ["n = LFPulse 2000000 0 0.5", "f = MulAdd n 0.00001 479999", "y = Blip f 2147483647 0"],
    "Blip at the ends of its inputs": [*ENDS, "y = Blip e e e"],
    "Blip next to the start of a turn": ["p = Phasor 0 1 -5 5 0", "y = Blip 0 2147483647 p"],
    "DelayL just below a frame's edge": ["x = Impulse 700000", "y = DelayL x 6 94719"],
    "DelayL at a frame's edge": ["x = Impulse 700000", "y = DelayL x 6 94720"],
    "DelayL just below the end of a frame": ["x = Impulse 700000", "y = DelayL x 6 36351"],
    "DelayL at the end of a frame": ["x = Impulse 700000", "y = DelayL x 6 36352"],
    "DelayL at frames' edges of 96,000": ["x = Impulse 700000", "a = DelayL x 6 47360", "b = DelayL x 6 47359", "c = DelayL x 6 18176", "d = DelayL x 6 18175",
                                          "e = MulAdd b 0.5 a", "f = MulAdd c 0.25 e", "y = MulAdd d 0.125 f"],
    "DelayL between the ends of 32 bits": [*ENDS, "y = DelayL e 1 174"],
    "DelayL of a time below 0 and of the greatest": [*ENDS, "x = LFSaw 440000 0", "y = DelayL x 1 e"],
    "CombL with a factor beyond 1.0": ["x = Impulse 700000", "y z = CombL x 1 1049 -1.5 0"],
    "CombL whose damping moves beyond 1.0": ["x = LFSaw 700000 0", "d = LFTri 500000 0", "e = Mul d 2.5", "y z = CombL x 1 4000 0.9 e"],
    "CombL's allpass between two frames": ["x = Impulse 700000", "z y = CombL x 1 524 0.7 0.2"],
    "CombL of no time": ["x = Impulse 700000", "y z = CombL x 0 -127.0 0.9 0"],
    "CombL at the ends of its inputs": [*ENDS, "z y = CombL e 1 e e e"],
    "CombL of the least damping and factor": ["x = LFSaw 700000 0", "y z = CombL x 1 500 -128.0 -128.0"],
}

# Lines that read the buffers of READ_BUFFERS, each with the last wire y.
INDEX = "i = Phasor 0 1 -9 40 0"
READS = {
    "BufRdL by halves": [INDEX, "y = BufRdL 2 i 8388608 0"],
    "BufRdL by halves, round": [INDEX, "y = BufRdL 2 i 8388608 1"],
    "BufRdL by thirds of a frame": [INDEX, "y = BufRdL 2 i -5592405 1"],
    "BufRdL of a wave": ["n = BufFrames 2", "w = LFSaw 440000 0", "y = BufRdL 2 w n 1"],
    "BufRdL held at the ends of a table": ["n = BufFrames 2", "w = LFSaw 440000 0", "v = Mul w 2.0", "y = BufRdL 2 v n -1"],
    "BufRdL by noise": ["a = WhiteNoise", "b = WhiteNoise", "c = Mul a 127.0", "d = Mul b 127.0", "y = BufRdL 2 c d 1"],
    "BufRdL by noise, held": ["a = WhiteNoise", "b = WhiteNoise", "y = BufRdL 2 a b 0"],
    "BufRdL at the ends of its inputs": [*ENDS, "y = BufRdL 2 e e e"],
    "BufRdL of one frame": [INDEX, "y = BufRdL 1 i 8388608 1"],
    "BufRdL of one frame, held": [INDEX, "y = BufRdL 1 i 8388608 0"],
    "BufRdL of two channels": [INDEX, "b y = BufRdL 3 i 3333333 1"],
    "BufRdL of other channels": [INDEX, "y b = BufRdL 2 i 3333333 1"],
    "BufRdL of no buffer": [INDEX, "y = BufRdL 9 i 8388608 1"],
    "BufRdL of a number below 0": [INDEX, "y = BufRdL -1 i 8388608 1"],
    "BufRdL with a loop that moves": [INDEX, "l = LFPulse 5000000 0 0.5", "y = BufRdL 2 i 6000000 l"],
    "PlayBufL at its pitch": ["y = PlayBufL 2 1.0 0 0 1 0"],
    "PlayBufL a little slower": ["y = PlayBufL 2 0.99 0 0 1 0"],
    "PlayBufL once": ["y = PlayBufL 2 0.3 0 2 0 2"],
    "PlayBufL backwards": ["y = PlayBufL 2 -1.37 0 5 1 0"],
    "PlayBufL backwards, once": ["y = PlayBufL 2 -0.37 0 5 0 1"],
    "PlayBufL by the greatest step": ["y = PlayBufL 2 2147483647 0 0 1 0"],
    "PlayBufL by the least step": ["y = PlayBufL 2 -2147483648 0 2147483647 1 0"],
    "PlayBufL by a step of 0": ["y = PlayBufL 2 0 0 3 0 0"],
    "PlayBufL from before the first frame": ["y = PlayBufL 2 0.75 0 -2 0 2"],
    "PlayBufL from the least start": ["y = PlayBufL 2 0.75 0 -2147483648 1 0"],
    "PlayBufL with rises": ["t = Impulse 3000000", "s = Phasor 0 1 -3 12 0", "y = PlayBufL 2 0.4 t s 1 0"],
    "PlayBufL with rises, once": ["t = Impulse 3000000", "s = Phasor 0 1 -3 12 0", "y = PlayBufL 2 0.4 t s 0 0"],
    "PlayBufL swept": ["w = LFTri 900000 0", "v = Mul w 3.0", "y = PlayBufL 2 v 0 0 1 0"],
    "PlayBufL that leaves and comes back": ["w = LFTri 3000000 0", "v = Mul w 3.0", "y = PlayBufL 2 v 0 4 0 0"],
    "PlayBufL with a loop that moves": ["l = LFPulse 2000000 0 0.5", "y = PlayBufL 2 0.7 0 0 l 0"],
    "PlayBufL of one frame": ["y = PlayBufL 1 0.3 0 0 1 0"],
    "PlayBufL of one frame, once": ["y = PlayBufL 1 0.3 0 0 0 2"],
    "PlayBufL of two channels": ["b y = PlayBufL 3 0.7 0 0 1 0"],
    "PlayBufL of other channels": ["y = PlayBufL 3 0.7 0 0 1 2"],
    "PlayBufL of no buffer": ["y = PlayBufL 9 0.7 0 0 1 2"],
}
