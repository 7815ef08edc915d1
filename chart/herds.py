"""What the program prints for a farm, read back: each herd's figures and the farm's, by name, with their texts."""

import csv
from dataclasses import dataclass, field
from decimal import Decimal


@dataclass(frozen=True)
class Place:
    """Where nitrogen goes: its key in the table of words, and the names of the nitrogen and of the ammonia."""

    key: str
    n: str
    nh3: str


YARD = Place("yard", "n_into_yard", "nh3_nyard")
PASTURE = Place("pasture", "n_into_grazing", "nh3_ngrazing")
HOUSING = Place("housing", "n_into_housing", "nh3_nhousing")
PLACES = (YARD, PASTURE, HOUSING)
NOTHING = Decimal(0)


@dataclass(frozen=True)
class Line:
    module: str
    name: str
    text: str


@dataclass
class Herd:
    """A label, its lines, and the nitrogen in housing whose ammonia is not in the model."""

    label: str
    lines: list = field(default_factory=list)
    unknown: Decimal = NOTHING

    def text(self, name):
        """A figure as the program wrote it, or None."""
        return next((line.text for line in self.lines if line.name == name), None)

    def kilograms(self, name):
        """A figure as the length of a bar: what is not listed and what is below zero has none."""
        return max(NOTHING, Decimal(self.text(name) or 0))

    def nitrogen(self):
        return sum((self.kilograms(place.n) for place in PLACES), NOTHING)

    def ammonia(self):
        return sum((self.kilograms(place.nh3) for place in PLACES), NOTHING)

    def places(self):
        """The places that nitrogen goes to."""
        return [place for place in PLACES if self.kilograms(place.n)]

    def without_housing(self):
        """The nitrogen in a housing of which the listing has no ammonia."""
        return NOTHING if self.text(HOUSING.nh3) else self.kilograms(HOUSING.n)


@dataclass
class Farm:
    herds: list
    total: Herd

    def lacking(self):
        """The herds with nitrogen in a housing that is not in the model."""
        return [herd for herd in self.herds if herd.unknown]

    def by_ammonia(self):
        """The herds with the most ammonia first; those with the same as in the file."""
        return sorted(self.herds, key=lambda herd: -herd.ammonia())


def records(listing):
    return list(csv.reader(listing.splitlines()))


def is_refusal(listing):
    """A refusal's line has three fields, and a line of a listing four."""
    return listing.startswith("refused,") and listing.count(",") == 2


def farm_of(listing):
    """The herds in the order of the listing, and the farm's totals, which have an empty label."""
    herds, total = [], Herd("")
    for label, module, name, text in records(listing):
        if label and not (herds and herds[-1].label == label):
            herds.append(Herd(label))
        (herds[-1] if label else total).lines.append(Line(module, name, text))
    for herd in herds:
        herd.unknown = herd.without_housing()
    total.unknown = sum((herd.unknown for herd in herds), NOTHING)
    return Farm(herds, total)
