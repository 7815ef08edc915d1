"""The two ways of working the figures.

The model is written once and is handed one of these two objects. `CUTS` cuts
where the rules cut, so its amounts are whole grams. `EXACT` cuts nowhere, so
its amounts are fractions; it is what the cut figures are measured against.
"""

from fractions import Fraction
from math import floor

BILLION = 10**9
HALF = Fraction(1, 2)


class Cuts:
    """Amounts cut to whole grams, factors held in whole billionths."""

    def grams(self, amount):
        return floor(amount)

    def billionths(self, factor):
        return Fraction(floor(factor * BILLION), BILLION)

    def nearest_billionth(self, factor):
        return Fraction(floor(factor * BILLION + HALF), BILLION)


class Exact:
    """Everything stays as it is."""

    def grams(self, amount):
        return Fraction(amount)

    def billionths(self, factor):
        return factor

    def nearest_billionth(self, factor):
        return factor


CUTS = Cuts()
EXACT = Exact()
