"""Request W12: farm files that are read into lent arrays, and what the program that runs them prints.

Each file is read into an array of 512 entries and into one of 3, where every entry is the filler before. For either
array there are five lines: the answer; the number of herds, 0 for a refusal; how many entries are the filler still; a
checksum of all others, each with its place; and the ammonia of the herds as a farm's record, in kilograms.
"""

import cases
import damage
from cooperative_cases import HERDS_BEFORE, lean_herds, of_size, shortest_herds
from farmfile import RECORD_END
from farms import FarmDice, file_of
from inputs import KINDS, STANDARD, Number, Signed
from lent import farm_totals, read_into
from listing import kilograms, refusal
from reading import COOPERATIVE, LONGEST_LABEL, Limits, Refused
from values import OUTDOOR

SEED = 20230930
SHORT = 3
LENGTHS = (COOPERATIVE.herds, SHORT)
FAULTS_AFTER_MANY_HERDS = (2, 8, damage.MISSING)
PAST_THE_SHORT_ARRAY_FILES = 8
RANDOM_FILES = 8
BAD_FILE = b"H,1\r\n"

# What an entry holds before; nothing that is read from a file.
FILLER = "filler"
AMMONIA = "nh3_nlivestock"

# The checksum is a remainder of a prime, and each number more multiplies it.
PRIME = 2**32 - 5
FACTOR = 65599

# A herd's record has this many slots: one for each input of its kind, in the order of the list; those behind say
# nothing. What a slot holds is two numbers, its form and its size.
SLOTS = max(len(kind.inputs) for kind in KINDS)
NOTHING, THE_WORD = (0, 0), (1, 0)
PLAIN, FROM_0_ON, BELOW_0 = 2, 3, 4


def checksum(numbers):
    total = 0
    for number in numbers:
        total = (total * FACTOR + number) % PRIME
    return total


def names_in_order(names):
    """A list of names as its page in 001 has it: 2.62 has Outdoor behind the houses."""
    return sorted(names, key=OUTDOOR.__eq__)


def place_of(name, names):
    """The place of a name in its list; a number stands for itself, and for no name."""
    return name if isinstance(name, int) else names_in_order(names).index(name)


def slot(listed, value):
    """A number counts in units of its last decimal."""
    if value == STANDARD:
        return THE_WORD
    if not isinstance(listed.values, Number):
        return PLAIN, place_of(value, listed.values.names)
    units = int(value * 10**listed.values.decimals)
    if units < 0:
        return BELOW_0, -units
    return (FROM_0_ON if isinstance(listed.values, Signed) else PLAIN), units


def numbers_of(herd):
    """Its label, which takes 16 bytes with 0 behind those in use, its kind and its slots, as numbers."""
    label = herd.label.encode("latin-1")
    yield len(label)
    yield from label[:LONGEST_LABEL].ljust(LONGEST_LABEL, b"\0")
    yield KINDS.index(herd.kind)
    slots = [
        slot(listed, herd.given[listed.name]) if listed.name in herd.given else NOTHING for listed in herd.kind.inputs
    ]
    for form, size in slots + [NOTHING] * (SLOTS - len(slots)):
        yield form
        yield size


def entries_sum(array):
    """The checksum of all entries that are not the filler."""
    touched = [(place, herd) for place, herd in enumerate(array) if herd is not FILLER]
    return checksum(number for place, herd in touched for number in (place, *numbers_of(herd)))


def lines_for(file, length):
    array = [FILLER] * length
    try:
        count, answer = read_into(file, array), f"accepted{RECORD_END}"
    except Refused as refused:
        count, answer = 0, refusal(refused.number, refused.record)
    ammonia = kilograms(farm_totals(array, count)[AMMONIA])
    shown = (count, array.count(FILLER), entries_sum(array), ammonia)
    return answer + "".join(f"{each}{RECORD_END}" for each in shown)


def output(file):
    """What the program prints for a file."""
    return "".join(lines_for(file, length) for length in LENGTHS).encode("ascii")


def few_herds(dice):
    """From no herd to one more than the short array takes; three, and behind them a bad record or the first herd's."""
    for herds in range(SHORT + 2):
        yield file_of(lean_herds(dice, herds))
    lines = lean_herds(dice, SHORT)
    yield file_of(lines) + BAD_FILE
    yield file_of(lines + lines[:1])


def past_the_short_array(dice):
    """One record opens a herd too many for it, and often has another fault as well."""
    for _ in range(PAST_THE_SHORT_ARRAY_FILES):
        yield damage.file_past_the_last_herd(dice, Limits(COOPERATIVE.bytes, SHORT))


def at_the_limits(dice):
    """512 herds in 262,144 bytes, the same in a byte more, and 513 herds."""
    lines = lean_herds(dice, COOPERATIVE.herds)
    yield of_size(lines, COOPERATIVE.bytes)
    yield of_size(lines, COOPERATIVE.bytes + 1)
    yield file_of(shortest_herds(COOPERATIVE.herds + 1))


def faults_after_many_herds(dice):
    for number in FAULTS_AFTER_MANY_HERDS:
        last, line = damage.lines_with_spot(dice, 2)
        damage.put_fault(dice, last, line, number)
        yield file_of(shortest_herds(HERDS_BEFORE) + last)


def every_file():
    """All files, in order."""
    dice = FarmDice(SEED)
    yield BAD_FILE
    yield from few_herds(dice)
    yield from past_the_short_array(dice)
    yield from cases.examples()
    for _ in range(RANDOM_FILES):
        yield damage.random_file(dice)
    yield cases.COOPERATIVE_EXAMPLE.read_bytes()
    yield from faults_after_many_herds(dice)
    yield from at_the_limits(dice)
