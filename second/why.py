"""Why a yard's share on days with both grazing and yard is what it is (request W2).

Four reasons in a written order, each with the fact that it rests on and the share that
follows from it. A herd is given the first whose fact holds. Kinds without a yard are
given none.
"""

from collections.abc import Callable
from dataclasses import dataclass
from fractions import Fraction

from inputs import KINDS_WITH_A_YARD
from model import days_with_both, yard_share
from values import DAYS_A_YEAR, MOST_YARD_SHARE_WITH_GRAZING

NO_YARD = "not_available"


@dataclass(frozen=True)
class Reason:
    """Its word, its fact, the share it gives, and how a sentence goes on to the chosen share."""

    word: str
    holds: Callable[[dict], bool]
    share: Callable[[dict], Fraction]
    goes_on: str


REASONS = (
    Reason(
        "no_such_days",
        lambda given: days_with_both(given) == 0,
        yard_share,
        "since there is no such day and the chosen share stays",
    ),
    Reason(
        "not_available",
        lambda given: given["exercise_yard"] == NO_YARD,
        lambda given: Fraction(0),
        "since no yard is available and the chosen share is",
    ),
    Reason(
        "as_chosen",
        lambda given: yard_share(given) <= MOST_YARD_SHARE_WITH_GRAZING,
        yard_share,
        "the same as the chosen share of",
    ),
    Reason(
        "lowered",
        lambda given: yard_share(given) > MOST_YARD_SHARE_WITH_GRAZING,
        lambda given: MOST_YARD_SHARE_WITH_GRAZING,
        "lowered from the chosen share of",
    ),
)


@dataclass(frozen=True)
class Why:
    reason: Reason
    days: int
    chosen: Fraction
    share: Fraction


def why(herd):
    """The first reason whose fact holds, or None for a herd without a yard."""
    if herd.kind not in KINDS_WITH_A_YARD:
        return None
    given = herd.given
    reason = next(reason for reason in REASONS if reason.holds(given))
    return Why(reason, int(days_with_both(given)), yard_share(given), reason.share(given))


def one_decimal(share):
    return f"{float(share):.1f}"


def fields(told):
    return told.reason.word, str(told.days), one_decimal(told.share)


def sentence(told):
    """What follows the label."""
    return (
        f": with both yard and pasture on {told.days} of {DAYS_A_YEAR} days,"
        f" the yard's share on such days is {one_decimal(told.share)},"
        f" {told.reason.goes_on} {one_decimal(told.chosen)}."
    )
