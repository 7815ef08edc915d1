"""Totals that follow the edit (request W11): a farm's herds in a lent array, and beside them a book with the number
of herds and the stored totals. A herd is added, replaced or removed, and the totals move with it.
"""

from dataclasses import dataclass

from arithmetic import CUTS
from lent import check_inputs, farm_totals, herds_of, room_of
from model import figures
from reading import NO_RECORD, Refused, is_label
from totals import TOTALS, totals

# No stored total may be farther from zero, in grams.
FARTHEST = 10_000_000_000_000

ADD, REPLACE, REMOVE = STEPS = ("add", "replace", "remove")


@dataclass(frozen=True)
class Book:
    """How many entries of the array are herds of the farm, and the totals that are stored with them."""

    count: int
    totals: dict


def fresh_book(array, count):
    """The book of a farm's record, with its totals worked out afresh, or raise the record's refusal."""
    return Book(count, farm_totals(array, count))


def label_of(step, named):
    """What names the herd: of a removal the label itself, else the new record's own."""
    return named if step == REMOVE else named.label


def place_of(herds, label):
    """Where the herd of the label stands, or None where there is none."""
    return next((place for place, herd in enumerate(herds) if herd.label == label), None)


def check_step(array, book, step, named):
    """Raise the refusal of a step, the first in the order of the request; record 0 in all."""
    herds = herds_of(array, book.count)
    label = label_of(step, named)
    place = place_of(herds, label)
    if any(abs(grams) > FARTHEST for grams in book.totals.values()):
        raise Refused(16, NO_RECORD)
    if not is_label(label):
        raise Refused(4, NO_RECORD)
    if step != ADD and place is None:
        raise Refused(15, NO_RECORD)
    if step == ADD and place is not None:
        raise Refused(8, NO_RECORD)
    if step == ADD and book.count >= room_of(array):
        raise Refused(9, NO_RECORD)
    if step != REMOVE:
        check_inputs(named)


def moved(stored, old, new):
    """The stored totals, each moved by exactly the old and the new herds' figures."""
    gone, come = (totals([figures(herd, CUTS) for herd in herds]) for herds in (old, new))
    return {name: stored[name] - gone[name] + come[name] for name in TOTALS}


def take_step(array, book, step, named):
    """Take a step: change the array and give the book afterwards; or raise the refusal, and nothing has changed.

    `named` is the new record, of a removal the label. What the array holds beyond the last herd stays, and so does
    what stood in the place that a removal frees.
    """
    check_step(array, book, step, named)
    herds = array[: book.count]
    place = place_of(herds, label_of(step, named))
    old = [] if place is None else [herds[place]]
    new = [] if step == REMOVE else [named]
    at = book.count if place is None else place
    herds[at : at + len(old)] = new
    array[: len(herds)] = herds
    return Book(len(herds), moved(book.totals, old, new))
