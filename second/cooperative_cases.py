"""The fixed list of farm files that cross the limits of standard input and those of a cooperative (request W12).

Each comes with the limits that it is read by. Most of a large file is kept short, so that a farm of 512 herds fits in
what may be read: labels are numbers and most values have a single digit.
"""

import itertools

import cases
import damage
from farmfile import RECORD_END
from farms import FarmDice, file_of, line_for, text_for, written
from faults import breaking_end
from inputs import KINDS, ROUGHAGE, Number
from reading import COOPERATIVE, STANDARD_INPUT

SEED = 20230909
HERDS_BEFORE = 300
PAST_THE_LAST_HERD_FILES = 8
RANDOM_FILES = 120
LEAN_ONE_IN = 8


def lean_text(dice, kind, listed):
    """A short text for an input, now and then any."""
    if dice.one_in(LEAN_ONE_IN):
        return text_for(dice, kind, listed)
    if isinstance(listed.values, Number):
        return str(dice.between(1, 9))
    return min(listed.values.names, key=len)


def lean_herd(dice, label, kind):
    return [line_for(kind, label, listed, lean_text(dice, kind, listed)) for listed in kind.inputs]


def lean_herds(dice, count):
    """Whole herds, of each kind in turn."""
    kinds = itertools.cycle(KINDS)
    return [line for i in range(count) for line in lean_herd(dice, str(i), next(kinds))]


def shortest_herds(count):
    """Whole herds that take the fewest bytes."""
    texts = ("wapiti", "7", "9", "8", "6", "5", "3")
    return [line for i in range(count) for line in cases.lines_of(ROUGHAGE, str(i), texts)]


def opened_herds(labels):
    """A record of each herd: enough to open it."""
    return [line_for(ROUGHAGE, label, ROUGHAGE.inputs[1], "7") for label in labels]


def of_size(lines, size):
    """The lines in exactly so many bytes: as many fields in quotes as it takes, and for an odd byte a digit more."""
    missing = size - len(file_of(lines))
    if missing % 2:
        animals = next(line for line in lines if line.name == "animals" and len(line.text) == 1)
        animals.text += "0"
    quotes = itertools.repeat(True, missing // 2)
    return file_of(lines, lambda: next(quotes, False))


def at_both_limits(dice):
    """512 herds in 262,144 bytes; with the last byte wrong; the same herds in a byte more; 513 herds."""
    lines = lean_herds(dice, COOPERATIVE.herds)
    full = of_size(lines, COOPERATIVE.bytes)
    yield full
    yield full[:-1] + b"\r"
    yield of_size(lines, COOPERATIVE.bytes + 1)
    yield file_of(shortest_herds(COOPERATIVE.herds + 1))


# One number of each length, in its shortest form.
BY_LENGTH = ("9", "19", "199", "19.9", "19.99", "19.999", "199.999")


def clean_file(size):
    """512 herds as they are written (request W5), in exactly so many bytes: numbers get longer until it is full."""
    texts = ("wapiti", "7", BY_LENGTH[0], "18", "6", "5", "3")
    lines = [line for i in range(COOPERATIVE.herds) for line in cases.lines_of(ROUGHAGE, f"{i:012}", texts)]
    missing = size - len(file_of(lines))
    for line in lines:
        if line.name == "inp_n_excretion":
            more = min(missing, len(BY_LENGTH) - 1)
            line.text, missing = BY_LENGTH[more], missing - more
    return file_of(lines)


def without_last_end():
    """Files that lack the last CRLF, so that what is written of them comes to the limit, or a byte or two past it."""
    for size in range(COOPERATIVE.bytes, COOPERATIVE.bytes + 3):
        yield clean_file(size).removesuffix(RECORD_END.encode())


def past_the_last_herd(dice):
    for herds in (COOPERATIVE.herds, COOPERATIVE.herds + 1):
        yield written(dice, damage.short_herds(dice, herds))
    for _ in range(PAST_THE_LAST_HERD_FILES):
        yield damage.file_past_the_last_herd(dice, COOPERATIVE)


def near_labels():
    """As many herds as may be, with labels of the same letters, and one of them again."""
    letters = map("".join, itertools.permutations("abcdef"))
    labels = list(itertools.islice(letters, COOPERATIVE.herds))
    yield file_of(opened_herds(labels))
    for again in (0, HERDS_BEFORE, COOPERATIVE.herds - 2):
        yield file_of(opened_herds([*labels, labels[again]]))


def faults_after_many_herds(dice):
    """Each refusal, given to a record of the last herd after 300 good ones."""
    for number in (*damage.FAULTS, damage.MISSING):
        last, line = damage.lines_with_spot(dice, 2)
        damage.put_fault(dice, last, line, number)
        yield file_of(shortest_herds(HERDS_BEFORE) + last)


def by_either(dice):
    """Files whose answer hangs on the limits that they are read by."""
    herds = STANDARD_INPUT.herds + 1
    whole = lean_herds(dice, herds)
    broken = lean_herds(dice, herds)
    broken[-1].write = breaking_end("\n")
    yield file_of(whole)
    yield file_of(broken)
    many = lean_herds(dice, 2 * herds)
    yield of_size(many, STANDARD_INPUT.bytes)
    yield of_size(many, STANDARD_INPUT.bytes + 1)
    many[0].write = breaking_end("\r")
    yield file_of(many).ljust(STANDARD_INPUT.bytes + 1, b"0")
    yield cases.COOPERATIVE_EXAMPLE.read_bytes()


def like_any_other(dice):
    """Small files, to which the limits make no difference."""
    yield from cases.examples()
    yield from cases.edge_files()
    for _ in range(RANDOM_FILES):
        yield damage.random_file(dice)


def every_case():
    """All files, in order, each with the limits that it is read by."""
    dice = FarmDice(SEED)
    for file in itertools.chain(
        at_both_limits(dice),
        past_the_last_herd(dice),
        near_labels(),
        faults_after_many_herds(dice),
        like_any_other(dice),
        without_last_end(),
    ):
        yield COOPERATIVE, file
    for file in by_either(dice):
        yield COOPERATIVE, file
        yield STANDARD_INPUT, file


def random_file(dice):
    """A file of many herds: accepted, with a fault at its end, with one herd too many, or too long."""
    if dice.one_in(10):
        return damage.too_long_file(dice, COOPERATIVE)
    if dice.one_in(10):
        return damage.file_past_the_last_herd(dice, COOPERATIVE)
    lines = lean_herds(dice, dice.between(STANDARD_INPUT.herds + 1, COOPERATIVE.herds - 3))
    if dice.one_in(2):
        return written(dice, lines)
    last, line = damage.lines_with_spot(dice, 3)
    damage.put_fault(dice, last, line, dice.pick((*damage.FAULTS, damage.MISSING)))
    return written(dice, lines + last)
