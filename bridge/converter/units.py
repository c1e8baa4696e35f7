"""The units of SuperCollider that are converted: the tables of all files with rows, joined."""
from . import arithmetic, buses, delays, dynamics, ends, envelopes, filters, followers, generators, lines, local
from . import logarithms, mouse, noises, numbers, panning, playing, random_numbers, ratios, saws, sections, swept
from . import between, demand, harmonics, hilbert, ladders, reading, rooms, tables, triggers, vibrato
from .further import has

# Those of units that the server has got last come first.
TABLES = [swept.UNITS, swept.BY_SECTIONS, triggers.FURTHER, *(file.UNITS for file in (
    between, rooms, reading, harmonics, ladders, vibrato, followers, dynamics, logarithms, ratios, saws, generators,
    noises, random_numbers, envelopes, lines, arithmetic, panning, filters, sections, hilbert, delays, triggers, buses,
    playing, tables, local, mouse, numbers, ends, demand))]
ROWS = {}
for table in TABLES:
    for each, row in table.items():
        ROWS.setdefault(each, []).append(row)


def row_of(name):
    """The row of a unit: the first one whose units are here; None if there is none."""
    return next((row for row in ROWS.get(name, []) if has(*row.needs)), None)


def converted():
    """The names of the units that are converted."""
    return {name for name in ROWS if row_of(name)}
