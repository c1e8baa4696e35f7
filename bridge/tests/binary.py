"""Writes definitions as sclang did before it had counts of 32 bits."""
import struct


def text(name):
    return bytes([len(name)]) + name.encode("latin-1")


def version_1(source):
    """A SynthDef file of version 1, whose counts have 16 bits."""
    constants = sorted({each for unit in source.units for each in unit.inputs if isinstance(each, float)})
    data = b"SCgf" + struct.pack(">ih", 1, 1) + text(source.name)
    data += struct.pack(f">h{len(constants)}f", len(constants), *constants)
    data += struct.pack(f">h{len(source.controls)}f", len(source.controls), *source.controls)
    data += struct.pack(">h", len(source.names))
    data += b"".join(text(name) + struct.pack(">h", at) for name, at in source.names)
    data += struct.pack(">h", len(source.units))
    for unit in source.units:
        data += text(unit.name) + struct.pack(">bhhh", unit.rate, len(unit.inputs), unit.outputs, unit.special)
        pairs = [(-1, constants.index(each)) if isinstance(each, float) else each for each in unit.inputs]
        data += b"".join(struct.pack(">hh", *pair) for pair in pairs) + bytes([unit.rate]) * unit.outputs
    return data + struct.pack(">h", 0)
