"""Request W11: walks of steps over farms with stored totals, and what the program that runs them prints.

A walk is the length of an array, the book and the herds in front of the array, and steps, each with the record that it
is handed. These are records and no files, so that a walk may have any fault that a record can have. For each step there
is what is printed for it, the totals' listing or the refusal's line, and a line with the number of herds afterwards and
a checksum of all of them, each with its place.
"""

from dataclasses import dataclass, replace
from fractions import Fraction
from functools import partial

from cooperative_cases import lean_herds
from farmfile import COMMA, RECORD_END
from farms import FarmDice, farm_lines, file_of, herd_lines, new_label
from faults import BAD_LABELS
from inputs import KINDS, STANDARD, Number
from lent_cases import BELOW_0, FILLER, NOTHING, SLOTS, THE_WORD, entries_sum, names_in_order, numbers_of
from listing import farm_listing, refusal
from reading import COOPERATIVE, LONGEST_LABEL, NO_RECORD, STANDARD_INPUT, Herd, Refused, read_farm
from steps import ADD, FARTHEST, REMOVE, REPLACE, STEPS, Book, fresh_book, take_step
from totals import TOTALS

SEED = 20231116
SHORT_LENGTHS = (0, 1, 2, 3, 5, 8)
STEPS_OF_A_SHORT_WALK = 60
FARMS = 16
STEPS_ON_A_FARM = 30
HERDS_MOST = 4
NEARLY_FULL = 8
STEPS_ON_A_FULL_ARRAY = 40
# Farther from zero than any total.
HIGHEST = 2**63 - 1

# How many bytes a number of a walk takes.
COUNT_BYTES, TOTAL_BYTES, SIZE_BYTES = 2, 8, 4

# Of a label that is too long a record has the first bytes and the length.
SPOILT_LABELS = (*(label for label in BAD_LABELS if len(label) <= LONGEST_LABEL), "A" * LONGEST_LABEL + "\0")

@dataclass(frozen=True)
class Walk:
    """`herds` are the first entries of the array; of a removal's record only the label counts."""

    length: int
    book: Book
    herds: tuple
    steps: tuple


# ---- as bytes: the length, the count and the number of herds, the totals, the herds, the steps


def number_bytes(number, size):
    return number.to_bytes(size, "little")


def herd_bytes(herd):
    """The length of the label, its bytes and the kind, a byte each; the form and the size of each slot."""
    length, *rest = numbers_of(herd)
    label, kind, slots = rest[:LONGEST_LABEL], rest[LONGEST_LABEL], rest[LONGEST_LABEL + 1 :]
    sizes = (number_bytes(size, SIZE_BYTES) for size in slots[1::2])
    return bytes([length, *label, kind]) + b"".join(bytes([form]) + size for form, size in zip(slots[::2], sizes))


def total_bytes(grams):
    """Whether it is below zero, a byte, and how far from zero it is."""
    return bytes([grams < 0]) + number_bytes(abs(grams), TOTAL_BYTES)


def walk_bytes(walk):
    counts = (walk.length, walk.book.count, len(walk.herds))
    return b"".join(
        (
            *(number_bytes(count, COUNT_BYTES) for count in counts),
            *(total_bytes(walk.book.totals[name]) for name in TOTALS),
            *map(herd_bytes, walk.herds),
            *(bytes([STEPS.index(step)]) + herd_bytes(herd) for step, herd in walk.steps),
        )
    )


class Bytes:
    """The bytes of a walk, taken from the front."""

    def __init__(self, given):
        self.left = given

    def take(self, size):
        taken, self.left = self.left[:size], self.left[size:]
        return taken

    def number(self, size=1):
        return int.from_bytes(self.take(size), "little")


def value_of(listed, form, size):
    """What a slot holds; a place that no name of the list has stays a number."""
    if form == THE_WORD[0]:
        return STANDARD
    if isinstance(listed.values, Number):
        return Fraction(-size if form == BELOW_0 else size, 10**listed.values.decimals)
    names = names_in_order(listed.values.names)
    return names[size] if size < len(names) else size


def herd_from(given):
    length, label, kind = given.number(), given.take(LONGEST_LABEL), KINDS[given.number()]
    slots = [(given.number(), given.number(SIZE_BYTES)) for _ in range(SLOTS)]
    held = {listed.name: value_of(listed, *slot) for listed, slot in zip(kind.inputs, slots) if slot != NOTHING}
    return Herd(label[:length].decode("latin-1").ljust(length, "\0"), kind, NO_RECORD, held)


def total_from(given):
    is_below, grams = given.number(), given.number(TOTAL_BYTES)
    return -grams if is_below else grams


def walk_from(file):
    given = Bytes(file)
    length, count, herds = (given.number(COUNT_BYTES) for _ in range(3))
    totals = {name: total_from(given) for name in TOTALS}
    standing = tuple(herd_from(given) for _ in range(herds))
    steps = []
    while given.left:
        steps.append((STEPS[given.number()], herd_from(given)))
    return Walk(length, Book(count, totals), standing, tuple(steps))


# ---- what is printed


def named(step, herd):
    return herd.label if step == REMOVE else herd


def after_each(walk):
    """The array and the book after each step, and the refusal's number or None."""
    array = [*walk.herds, *[FILLER] * (walk.length - len(walk.herds))]
    book = walk.book
    for step, herd in walk.steps:
        try:
            book, number = take_step(array, book, step, named(step, herd)), None
        except Refused as refused:
            number = refused.number
        yield array, book, number


def lines_for(walk):
    for array, book, number in after_each(walk):
        yield farm_listing(book.totals) if number is None else refusal(number, NO_RECORD)
        yield COMMA.join((str(book.count), str(entries_sum(array[: book.count])))) + RECORD_END


def output(file):
    """What the program prints for a walk."""
    return "".join(lines_for(walk_from(file))).encode("ascii")


def refusal_numbers(files):
    """The number of each refused step of the walks, and None for each that is done."""
    return (number for file in files for _, _, number in after_each(walk_from(file)))


# ---- the walks


def whole_herd(dice, label):
    """A herd of any kind that is accepted."""
    (herd,) = read_farm(file_of(herd_lines(dice, label, dice.pick(dice.kinds))))
    return replace(herd, first_record=NO_RECORD)


def herds_in(lines):
    """The herds of an accepted file, as records of no file."""
    herds = read_farm(file_of(lines), COOPERATIVE)
    return tuple(replace(herd, first_record=NO_RECORD) for herd in herds)


def label_alone(label):
    return Herd(label, KINDS[0], NO_RECORD)


def mislabelled(dice, herd):
    return replace(herd, label=dice.pick(SPOILT_LABELS))


def lacking(dice, herd):
    without = dice.pick(herd.kind.inputs).name
    return replace(herd, given={name: value for name, value in herd.given.items() if name != without})


def out_of_range(dice, herd):
    """One value beyond its range or its list, below zero, or the word where it may not stand."""
    listed = dice.pick(herd.kind.inputs)
    if not isinstance(listed.values, Number):
        value = len(listed.values.names)
    elif listed.has_standard and not herd.kind.takes_standard(listed) and dice.one_in(2):
        value = STANDARD
    else:
        least = Fraction(1, 10**listed.values.decimals)
        value = dice.pick((listed.values.most + least, listed.values.least - least))
    return replace(herd, given={**herd.given, listed.name: value})


def spoilt(dice, herd):
    """A herd with one fault or two: of its label, of an input that is missing, of a value."""
    for fault in dice.shuffled((mislabelled, lacking, out_of_range))[: dice.between(1, 2)]:
        herd = fault(dice, herd)
    return herd


def place_among(dice, count):
    """The first, the last, the middle or any."""
    return dice.pick((0, count - 1, count // 2, dice.below(count)))


def thrown_step(dice, herds):
    """A step that is done for the most part, of a farm with these herds."""
    labels = [herd.label for herd in herds]
    step = dice.pick(STEPS)
    is_there = bool(labels) and (step != ADD) != dice.one_in(8)
    label = labels[place_among(dice, len(labels))] if is_there else new_label(dice, labels)
    herd = whole_herd(dice, label)
    if dice.one_in(6):
        herd = spoilt(dice, herd)
    return step, (label_alone(herd.label) if step == REMOVE else herd)


def walked(length, book, herds, steps):
    """The walk of the steps that a function gives, each from the herds that stand there then."""
    array = [*herds, *[FILLER] * (length - len(herds))]
    first, taken = book, []
    for step_of in steps:
        step, herd = step_of(array[: book.count])
        taken.append((step, herd))
        try:
            book = take_step(array, book, step, named(step, herd))
        except Refused:
            pass
    return Walk(length, first, tuple(herds), tuple(taken))


def thrown(dice, length, herds, steps):
    """A walk of throws from a farm with its own totals."""
    return walked(length, fresh_book(list(herds), len(herds)), herds, [partial(thrown_step, dice)] * steps)


def add_new(dice):
    return lambda herds: (ADD, whole_herd(dice, new_label(dice, [herd.label for herd in herds])))


def remove_at(place):
    return lambda herds: (REMOVE, label_alone(herds[place(len(herds))].label))


def replace_at(dice, place):
    return lambda herds: (REPLACE, whole_herd(dice, herds[place(len(herds))].label))


FIRST, MIDDLE, LAST = PLACES = (lambda count: 0, lambda count: count // 2, lambda count: count - 1)


def filled(dice, length, herds):
    """Adds to the full array and one more; then each place is replaced, and freed and filled again; then throws."""
    steps = [add_new(dice)] * (min(length, COOPERATIVE.herds) - len(herds) + 1)
    for place in PLACES:
        steps += [replace_at(dice, place), add_new(dice), remove_at(place), add_new(dice), add_new(dice)]
    steps += [partial(thrown_step, dice)] * STEPS_ON_A_FULL_ARRAY
    return walked(length, fresh_book(list(herds), len(herds)), herds, steps)


def emptied(dice, herds):
    """All herds removed, from the front, the middle and the end in turn; then one is added again."""
    steps = [remove_at(PLACES[i % len(PLACES)]) for i in range(len(herds))]
    steps += [lambda standing: (REMOVE, label_alone(herds[0].label)), add_new(dice)]
    return walked(len(herds), fresh_book(list(herds), len(herds)), herds, steps)


def every_step(dice, herds):
    """One step of each word that would be done, and one of each that has faults of its own."""
    there = herds[-1].label
    done = [(ADD, whole_herd(dice, "new")), (REPLACE, whole_herd(dice, there)), (REMOVE, label_alone(there))]
    spoilt_steps = [(step, replace(herd, label="", given={})) for step, herd in done]
    return spoilt_steps + done


def at_the_bound(dice):
    """A stored total at 16's bound, one gram beyond it and as far as can be, on either side of zero; each of them."""
    herds = herds_in(lean_herds(dice, 2))
    for name in TOTALS:
        for grams in (FARTHEST, FARTHEST + 1, -FARTHEST, -FARTHEST - 1, HIGHEST, -HIGHEST):
            book = Book(2, {**dict.fromkeys(TOTALS, 0), name: grams})
            yield Walk(3, book, herds, tuple(every_step(dice, herds)))


def over_the_bound(dice):
    """Totals that are no farm's move by the figures alone; where a step takes one over the bound, the next is 16."""
    herds = herds_in(lean_herds(dice, 3))
    for grams in (FARTHEST, -FARTHEST, 12345, -1):
        book = Book(3, dict.fromkeys(TOTALS, grams))
        for step in every_step(dice, herds)[len(STEPS) :]:
            yield Walk(4, book, herds, (step, (REMOVE, label_alone(herds[0].label))))


def bad_records(dice):
    """A farm's record with a fault of its own, which comes before all faults of a step and before 16."""
    herds = herds_in(lean_herds(dice, 3))
    first, second, third = herds
    farms = [
        (513, ()),
        (3, (first, replace(second, label=""), third)),
        (3, (first, second, replace(third, label=first.label))),
        (3, (first, lacking(dice, second), third)),
        (3, (first, second, out_of_range(dice, third))),
        (3, (out_of_range(dice, first), replace(second, label=""), third)),
        # A fault behind the last herd is none.
        (2, (first, second, replace(third, label=""))),
    ]
    for count, standing in farms:
        for grams in (0, FARTHEST + 1):
            book = Book(count, dict.fromkeys(TOTALS, grams))
            yield Walk(512, book, standing, tuple(every_step(dice, herds)))


def every_walk():
    dice = FarmDice(SEED)
    for length in SHORT_LENGTHS:
        yield thrown(dice, length, (), STEPS_OF_A_SHORT_WALK)
    for _ in range(FARMS):
        herds = herds_in(farm_lines(dice, dice.between(1, HERDS_MOST)))
        yield thrown(dice, len(herds) + dice.below(3), herds, STEPS_ON_A_FARM)
    yield emptied(dice, herds_in(farm_lines(dice, 2 * HERDS_MOST)))
    yield filled(dice, STANDARD_INPUT.herds, ())
    for length in (COOPERATIVE.herds, COOPERATIVE.herds + 1):
        yield filled(dice, length, herds_in(lean_herds(dice, COOPERATIVE.herds - NEARLY_FULL)))
    yield from at_the_bound(dice)
    yield from over_the_bound(dice)
    yield from bad_records(dice)


def every_case():
    """The bytes of each walk, in order."""
    return map(walk_bytes, every_walk())
