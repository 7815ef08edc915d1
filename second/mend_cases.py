"""The files that mending is tried on: every short mix of the bytes that matter, damaged farms, and throws."""

import itertools

import damage
from farms import FIRST_KINDS, FarmDice, farm_file
from mend import CR, LF, MARK, QUOTE

SEED = 20221106
PARTS = (b"a", CR, LF, QUOTE)
LONGEST_MIX = 5
FARMS = 60
SPOILT_FARMS = 60
RANDOM_MIXES = 600
LONGEST_RANDOM_MIX = 60

# One line for each thing that the request names, and what stands next to it.
NAMED = (
    b"",
    MARK,
    MARK + MARK,
    MARK + MARK + MARK + b"a\n",
    MARK[:1],
    MARK[:2],
    MARK[:2] + b"a" + MARK[2:],
    b"a" + MARK,
    LF + MARK,
    MARK + LF,
    MARK + CR,
    MARK + CR + LF,
    MARK + QUOTE + LF + QUOTE + LF,
    MARK + b"a,b\nc,d\n",
    MARK + MARK + b"a,b\r\nc,d\n",
    b"a,b\nc,d\n",
    b"a,b\r\nc,d\r\n",
    b"a,b\r\r\nc\n\n\r\n",
    b'"a\nb",c\n"d\r\ne"\r\n',
    b'"a""\nb",c\n',
    b'a"b\nc\n',
    b'"open\nto the end\n',
    b'"\n"\n"\n"\n',
    b"\xff\n\x00\n\xef\xbb\n",
)


def mixes():
    for length in range(1, LONGEST_MIX + 1):
        for parts in itertools.product(PARTS, repeat=length):
            yield b"".join(parts)


def damaged(file, dice):
    """A farm file as a spreadsheet would write it, or partly so."""
    bare = b"".join(
        line.replace(CR + LF, LF) if dice.below(4) else line for line in file.splitlines(keepends=True)
    )
    return MARK + bare if dice.below(2) else bare


def random_mix(dice):
    parts = (*PARTS, *PARTS, b",", CR + LF, MARK, MARK[:2], b"\xff")
    return b"".join(dice.pick(parts) for _ in range(dice.below(LONGEST_RANDOM_MIX)))


def every_file():
    """All files of the pack, in order."""
    dice = FarmDice(SEED, FIRST_KINDS)
    yield from NAMED
    yield from mixes()
    for _ in range(FARMS):
        yield damaged(farm_file(dice), dice)
    for _ in range(SPOILT_FARMS):
        yield damaged(damage.random_file(dice), dice)
    for _ in range(RANDOM_MIXES):
        yield random_mix(dice)
