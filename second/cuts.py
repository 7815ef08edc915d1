"""What each cut of a herd's figures cuts off (request W7).

A cut is told by what it divides, worked exactly as a fraction, and by its divisor.
The divisor follows from the units that the request names: shares and hours count in
tenths, floor and free factor in percent, rates in ten-thousandths, 0.275 in
thousandths, factors in billionths. What is cut off is the part past the whole, counted
in that divisor; it has to be a whole number, or the divisor is wrong.
"""

from dataclasses import dataclass
from fractions import Fraction
from math import floor

import values
from arithmetic import BILLION, CUTS, EXACT
from inputs import CATTLE, DAIRY_COWS, PIGS, ROUGHAGE
from model import (
    DAIRY_STANDARDS,
    HOURS_A_YEAR,
    c_grazing,
    entered_tan_share,
    figures,
    housing_nh3_rate,
    k_grazing,
    left_by_air,
    left_by_free_factor,
    pig_factors,
    pig_house,
    red_air_scrubber,
    roughage_standards,
    scrubbed_share,
    share_into_pasture,
    share_into_yard,
    tan_share,
    yard_factor,
)
from values import DAYS_A_YEAR, HOURS_A_DAY

TENTHS = 10
HUNDREDTHS = 100
THOUSANDTHS = 1000
TEN_THOUSANDTHS = 10_000
DAY = HOURS_A_DAY * TENTHS
INTO_YARD = TENTHS * DAYS_A_YEAR
INTO_PASTURE_WITH_A_YARD = DAY * TENTHS * DAYS_A_YEAR
ROUGHAGE_INTO_PASTURE = DAY * DAYS_A_YEAR
YARD_NH3 = TEN_THOUSANDTHS * HUNDREDTHS * HUNDREDTHS


@dataclass(frozen=True)
class Cut:
    """The module and name it stands under, what it divides, already over the divisor, and the divisor."""

    module: str
    name: str
    uncut: Fraction
    divisor: int

    @property
    def quotient(self):
        return floor(self.uncut)

    @property
    def cut_off(self):
        left = (self.uncut - self.quotient) * self.divisor
        if left.denominator != 1:
            raise ValueError(f"{self.name}: {self.divisor} is not its divisor")
        return left.numerator


def cuts(herd):
    """The cuts that are made for a herd, in the order of the listing."""
    return CUTS_OF_KIND[herd.kind](herd.given, figures(herd, CUTS))


def roughage(given, worked):
    days, hours = given["grazing_days"], given["grazing_hours"]
    outdoors = hours / HOURS_A_DAY * days / DAYS_A_YEAR
    return [
        excretion(worked, tan_share(given, roughage_standards(given))),
        *into("Grazing", "grazing", worked, outdoors, ROUGHAGE_INTO_PASTURE),
        *gases(worked, values.ROUGHAGE_PASTURE),
        *housing(days, hours, left_by_free_factor(given), worked),
    ]


def cattle(given, worked):
    return with_a_yard(given, worked, entered_tan_share(given), values.CATTLE_PASTURE)


def dairy_cows(given, worked):
    return with_a_yard(given, worked, tan_share(given, DAIRY_STANDARDS), values.DAIRY_PASTURE)


def with_a_yard(given, worked, share, rates):
    return [
        excretion(worked, share),
        *into("Yard", "yard", worked, share_into_yard(given), INTO_YARD),
        Cut("Yard", "nh3_nyard", worked["tan_into_yard"] * yard_factor(given), YARD_NH3),
        *into("Grazing", "grazing", worked, share_into_pasture(given), INTO_PASTURE_WITH_A_YARD),
        *gases(worked, rates),
    ]


def pigs(given, worked):
    """What they put on pasture is all or nothing, and no cut."""
    return [
        excretion(worked, entered_tan_share(given)),
        *gases(worked, values.PIG_PASTURE),
        *pig_factor_cuts(given),
        *pig_ammonia_cuts(given, worked),
        *pig_gas_cuts(given, worked),
    ]


CUTS_OF_KIND = {ROUGHAGE: roughage, CATTLE: cattle, PIGS: pigs, DAIRY_COWS: dairy_cows}


def excretion(worked, share):
    return Cut("Excretion", "tan_excretion", worked["n_excretion"] * share, TEN_THOUSANDTHS)


def into(module, place, worked, share, divisor):
    return [
        Cut(module, f"{part}_into_{place}", worked[f"{part}_excretion"] * share, divisor)
        for part in ("n", "tan")
    ]


def gases(worked, rates):
    n, tan = worked["n_into_grazing"], worked["tan_into_grazing"]
    return [
        Cut("Grazing", "nh3_ngrazing", tan * rates.nh3, TEN_THOUSANDTHS),
        Cut("Grazing", "n2_ngrazing", n * rates.n2, TEN_THOUSANDTHS),
        Cut("Grazing", "no_ngrazing", n * rates.no, TEN_THOUSANDTHS),
        Cut("Grazing", "n2o_ngrazing", n * rates.n2o, TEN_THOUSANDTHS),
    ]


def housing(days, hours, left, worked):
    """The factor's cuts, and that of the ammonia; c = 1 of a whole year on pasture is no cut."""
    k = k_grazing(hours, CUTS)
    c = c_grazing(days, hours, k, CUTS)
    with_rate = Cut(
        "Housing",
        "ef_nh3_nhousing:er_housing",
        c * values.ROUGHAGE_HOUSING_NH3_RATE * BILLION,
        THOUSANDTHS,
    )
    made = [
        with_rate,
        Cut(
            "Housing",
            "ef_nh3_nhousing:c_free_factor_housing",
            with_rate.quotient * left,
            HUNDREDTHS,
        ),
        Cut(
            "Housing",
            "nh3_nhousing",
            worked["tan_into_housing"] * housing_nh3_rate(c, left, CUTS),
            BILLION,
        ),
    ]
    if days * hours >= HOURS_A_YEAR:
        return made
    in_housing = DAY * DAYS_A_YEAR - days * hours * TENTHS
    grown = c_grazing(days, hours, k, EXACT) * BILLION
    return [Cut("Housing", "c_grazing", grown, int(in_housing)), *made]


def pig_factor_cuts(given):
    """Those of the factors of 2.51; products with 1 or 0, of area and floor, are no cuts."""
    house, factors = pig_house(given), pig_factors(given, CUTS)
    with_free_factor = house.er * left_by_free_factor(given)
    before, indoor, grazing, _ = (factor * BILLION for factor in factors)
    return [
        factor_cut("ef_housing_indoor_before_air_scrubber:c_free_factor_housing", with_free_factor * BILLION, HUNDREDTHS),
        factor_cut(
            "ef_housing_indoor_before_air_scrubber:red_housing_air",
            floor(with_free_factor * BILLION) * left_by_air(given),
            TENTHS,
        ),
        factor_cut("ef_housing_indoor", before * (1 - red_air_scrubber(given)), TENTHS),
        factor_cut("ef_housing_grazing:c_free_factor_housing", with_free_factor * BILLION, HUNDREDTHS),
        factor_cut("ef_nh3_nhousing:ef_housing_indoor", house.share_indoor * indoor, TENTHS),
        factor_cut("ef_nh3_nhousing:ef_housing_grazing", (1 - house.share_indoor) * grazing, TENTHS),
    ]


def factor_cut(name, billionths, divisor):
    return Cut("Housing", name, billionths, divisor)


def pig_ammonia_cuts(given, worked):
    """That of the ammonia, and with a biotrickling filter those of what it takes."""
    factors = pig_factors(given, CUTS)
    ammonia = Cut("Housing", "nh3_nhousing", worked["tan_into_housing"] * factors.ef_nh3_nhousing, BILLION)
    if given["air_scrubber"] != values.BIOTRICKLING:
        return [ammonia]
    reached = Cut(
        "Housing", "tan_air_scrubber:tan_excretion", scrubbed_share(given) * worked["tan_excretion"], BILLION
    )
    before = factors.ef_housing_indoor_before_air_scrubber
    return [
        ammonia,
        reached,
        Cut(
            "Housing",
            "tan_air_scrubber:ef_housing_indoor_before_air_scrubber",
            reached.quotient * before,
            BILLION,
        ),
    ]


def pig_gas_cuts(given, worked):
    house = pig_house(given)
    fractions = {"solid": 1 - house.share_liquid, "liquid": house.share_liquid}
    return [
        Cut("NxOx", f"{gas}_n{fraction}", worked["n_into_housing"] * share * rate, TEN_THOUSANDTHS)
        for fraction, share in fractions.items()
        for gas, rate in vars(house.gases).items()
    ]
