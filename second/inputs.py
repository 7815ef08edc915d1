"""The inputs of each kind of herd: where they stand and what they may hold."""

import re
from dataclasses import dataclass
from fractions import Fraction

import values

NUMBER = re.compile(r"(0|[1-9][0-9]*)(?:\.([0-9]+))?")
MINUS = "-"
STANDARD = "standard"


@dataclass(frozen=True)
class Number:
    """A number from 0 to `most` with at most so many decimals; 0 decimals: no point."""

    most: int
    decimals: int = 0

    def read(self, text):
        """Give the number as a fraction, or None if it is unreadable or out of range."""
        shape = NUMBER.fullmatch(text)
        if shape is None:
            return None
        whole, decimals = shape[1], shape[2] or ""
        if len(whole) > len(str(self.most)) or len(decimals) > self.decimals:
            return None
        number = Fraction(int(whole + decimals), 10 ** len(decimals))
        return number if number <= self.most else None

    def holds(self, value):
        """Whether a value that was handed in, and not read, is such a number."""
        whole = isinstance(value, (int, Fraction)) and Fraction(value * 10**self.decimals).denominator == 1
        return whole and self.least <= value <= self.most

    @property
    def least(self):
        return 0


@dataclass(frozen=True)
class Signed(Number):
    """The same from `-most` on: below 0 with a leading minus, behind which no 0 stands (request W3)."""

    def read(self, text):
        if not text.startswith(MINUS):
            return super().read(text)
        number = super().read(text.removeprefix(MINUS))
        return -number if number else None

    @property
    def least(self):
        return -self.most


@dataclass(frozen=True)
class OneOf:
    """One of a list of names, letter for letter."""

    names: tuple

    def read(self, text):
        return text if text in self.names else None

    def holds(self, value):
        return value in self.names


@dataclass(frozen=True)
class Input:
    """`has_standard` tells whether the word is known there, if only to be refused."""

    module: str
    name: str
    values: object
    has_standard: bool = False


@dataclass(frozen=True, eq=False)
class Kind:
    """A kind of herd. `standards` are the names of the inputs whose number the word may replace."""

    path: str
    inputs: tuple
    standards: frozenset = frozenset()

    def takes_standard(self, listed):
        return listed.name in self.standards

    def may_have(self, listed, value):
        """Whether a herd of this kind may have the value for an input."""
        return self.takes_standard(listed) if value == STANDARD else listed.values.holds(value)

    def refused_standards(self):
        return [listed for listed in self.inputs if listed.has_standard and not self.takes_standard(listed)]


N_A_HEAD = Input("Excretion", "inp_n_excretion", Number(200, 3), has_standard=True)
TAN_FRACTION = Input("Excretion", "tan_fraction", Number(100, 2), has_standard=True)
EXCRETION_NUMBERS = (Input("Excretion", "animals", Number(10000)), N_A_HEAD, TAN_FRACTION)
DAYS = Number(values.DAYS_A_YEAR)
HOURS = Number(values.HOURS_A_DAY, 1)
FREE_FACTOR = Signed(100)
MITIGATION = "Housing::MitigationOptions"

ROUGHAGE = Kind(
    "Livestock::RoughageConsuming",
    (
        Input("Excretion", "animalcategory", OneOf(tuple(values.ROUGHAGE_STANDARD_KILOGRAMS))),
        *EXCRETION_NUMBERS,
        Input("Housing::CFreeFactor", "free_correction_factor", FREE_FACTOR),
        Input("Grazing", "grazing_days", DAYS),
        Input("Grazing", "grazing_hours", HOURS),
    ),
    frozenset({N_A_HEAD.name, TAN_FRACTION.name}),
)
CATTLE_INPUTS = (
    *EXCRETION_NUMBERS,
    Input("Outdoor", "yard_days", DAYS),
    Input("Outdoor", "exercise_yard", OneOf(tuple(values.YARD_SHARES))),
    Input("Outdoor", "floor_properties_exercise_yard", OneOf(tuple(values.FLOOR_REDUCTIONS))),
    Input("Outdoor", "free_correction_factor", FREE_FACTOR),
    Input("Outdoor", "grazing_days", DAYS),
    Input("Outdoor", "grazing_hours", HOURS),
)
CATTLE = Kind("Livestock::OtherCattle", CATTLE_INPUTS)
PIGS = Kind(
    "Livestock::FatteningPigs",
    (
        *EXCRETION_NUMBERS,
        Input("Housing::Type", "housing_type", OneOf(tuple(values.PIG_HOUSES))),
        Input("Housing::AirScrubber", "air_scrubber", OneOf(tuple(values.AIR_SCRUBBERS))),
        Input(MITIGATION, "mitigation_housing_floor", OneOf(tuple(values.HOUSING_FLOORS))),
        Input(MITIGATION, "mitigation_housing_air", OneOf(tuple(values.HOUSING_AIRS))),
        Input("Housing::CFreeFactor", "free_correction_factor", FREE_FACTOR),
    ),
)
# Request W9: a standard for N awaits milk yield and feed.
DAIRY_COWS = Kind("Livestock::DairyCow", CATTLE_INPUTS, frozenset({TAN_FRACTION.name}))
KINDS = (ROUGHAGE, CATTLE, PIGS, DAIRY_COWS)
KINDS_WITH_A_YARD = (CATTLE, DAIRY_COWS)


def module_path(kind, module):
    return f"{kind.path}::{module}"


# Every pair of module path and input name that a record may hold.
LISTED = {
    (module_path(kind, listed.module), listed.name): (kind, listed)
    for kind in KINDS
    for listed in kind.inputs
}


def is_standard(text):
    """Whether the text is the word `standard`, in any letter case."""
    return text.lower() == STANDARD
