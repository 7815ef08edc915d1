"""The figures and totals in kilograms as doubles: the bits of each, as the program that runs them prints it.

A whole number divided by a whole number is the double nearest to the quotient in Python, however it is worked out.
"""

import struct

from arithmetic import CUTS
from cases import edge_files, every_pig_house, every_yard, examples, lines_of
from farmfile import RECORD_END
from farms import file_of
from inputs import CATTLE, KINDS_WITH_A_YARD
from listing import EXCRETION, GRAZING, HOUSING_AMMONIA, INTO_HOUSING, PIG_GASES, PIG_HOUSING, YARD
from model import figures
from reading import Refused, read_farm
from totals import TOTALS, totals
from values import GRAMS_A_KILOGRAM

SECTIONS = (EXCRETION, YARD, GRAZING, INTO_HOUSING, HOUSING_AMMONIA, PIG_HOUSING, PIG_GASES)
# Each name once: the ammonia of a house stands in two of the sections.
SHOWN = list(dict.fromkeys(name for _, names in SECTIONS for name in names))

# All on pasture, and no TAN at first: what remains of it is -51 kg, -50.994 kg and -51 g.
BELOW_ZERO = [
    ("10", "200", "0", "0", "not_available", "solid_floor", "0", "365", "24"),
    ("10", "199.98", "0", "0", "not_available", "solid_floor", "0", "365", "24"),
    ("1", "2", "0", "0", "not_available", "solid_floor", "0", "365", "24"),
]


def bits(grams):
    (pattern,) = struct.unpack("<Q", struct.pack("<d", grams / GRAMS_A_KILOGRAM))
    return f"{pattern}{RECORD_END}"


def doubles(file):
    """A line for each figure of each herd, then for each total; of a refused file the totals of no herds."""
    try:
        herds = read_farm(file)
    except Refused:
        herds = []
    worked = [figures(herd, CUTS) for herd in herds]
    farm = totals(worked)
    grams = [its.get(name, 0) for its in worked for name in SHOWN] + [farm[name] for name in TOTALS]
    return "".join(map(bits, grams)).encode("ascii")


def every_file():
    for kind in KINDS_WITH_A_YARD:
        yield file_of([line for i, given in enumerate(BELOW_ZERO) for line in lines_of(kind, f"Below {i}", given)])
    yield from examples()
    yield from edge_files()
    yield from every_yard(CATTLE)
    yield from every_pig_house()
