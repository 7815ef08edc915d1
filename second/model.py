"""The steps from a herd's inputs to its figures, and the herd's notes.

Each function gives part of a herd's figures under their output names. The
argument `sums` is one of the two objects of arithmetic.py: `sums.grams(...)`
stands where an amount is cut, `sums.billionths(...)` where a factor is.
"""

from fractions import Fraction
from functools import cache
from typing import NamedTuple

import values
from arithmetic import CUTS
from inputs import CATTLE, DAIRY_COWS, KINDS_WITH_A_YARD, PIGS, ROUGHAGE, STANDARD
from values import DAYS_A_YEAR, HOURS_A_DAY, PERCENT

LAST_TERM_OF_SERIES = 20
HOURS_A_YEAR = DAYS_A_YEAR * HOURS_A_DAY


def figures(herd, sums):
    """All figures of a herd, in grams of nitrogen a year."""
    return FIGURES_OF_KIND[herd.kind](herd.given, sums)


def roughage(given, sums):
    standards = roughage_standards(given)
    excreted = excretion(given, kilograms_a_head(given, standards), tan_share(given, standards), sums)
    outdoors = given["grazing_hours"] / HOURS_A_DAY * given["grazing_days"] / DAYS_A_YEAR
    grazed = into_grazing(excreted, outdoors, sums)
    housed = into_housing(excreted, grazed)
    return {
        **excreted,
        **grazed,
        **pasture(grazed, values.ROUGHAGE_PASTURE, sums),
        **housed,
        **housing_ammonia(given, housed, sums),
    }


def cattle(given, sums):
    return with_a_yard(given, entered_tan_share(given), values.CATTLE_PASTURE, sums)


def dairy_cows(given, sums):
    return with_a_yard(given, tan_share(given, DAIRY_STANDARDS), values.DAIRY_PASTURE, sums)


def with_a_yard(given, share, rates, sums):
    excreted = excretion(given, given["inp_n_excretion"], share, sums)
    yarded = into_yard(excreted, share_into_yard(given), sums)
    grazed = into_grazing(excreted, share_into_pasture(given), sums)
    return {
        **excreted,
        **yarded,
        **yard_ammonia(given, yarded, sums),
        **grazed,
        **pasture(grazed, rates, sums),
        **into_housing(excreted, grazed, yarded),
    }


def pigs(given, sums):
    excreted = excretion(given, given["inp_n_excretion"], entered_tan_share(given), sums)
    outdoors = Fraction(given["housing_type"] == values.OUTDOOR)
    grazed = into_grazing(excreted, outdoors, sums)
    housed = into_housing(excreted, grazed)
    return {
        **excreted,
        **grazed,
        **pasture(grazed, values.PIG_PASTURE, sums),
        **housed,
        **pig_house_ammonia(given, excreted, housed, sums),
        **pig_house_gases(given, housed, sums),
    }


FIGURES_OF_KIND = {ROUGHAGE: roughage, CATTLE: cattle, PIGS: pigs, DAIRY_COWS: dairy_cows}


# Excretion (2.2, 2.22, 2.50, 2.84)


def excretion(given, kilograms, share, sums):
    n = sums.grams(given["animals"] * kilograms * values.GRAMS_A_KILOGRAM)
    return {"n_excretion": n, "tan_excretion": sums.grams(n * share)}


class Standards(NamedTuple):
    """Kilograms of N a head, and TAN's share of it."""

    kilograms: Fraction
    tan_share: Fraction


def roughage_standards(given):
    kilograms = values.ROUGHAGE_STANDARD_KILOGRAMS[given["animalcategory"]]
    return Standards(kilograms, values.ROUGHAGE_STANDARD_TAN_SHARE)


DAIRY_STANDARDS = Standards(values.DAIRY_STANDARD_KILOGRAMS, values.DAIRY_STANDARD_TAN_SHARE)


def kilograms_a_head(given, standards):
    entered = given["inp_n_excretion"]
    return standards.kilograms if entered == STANDARD else entered


def tan_share(given, standards):
    return standards.tan_share if given["tan_fraction"] == STANDARD else entered_tan_share(given)


def entered_tan_share(given):
    return given["tan_fraction"] * PERCENT


# Where the excretion falls (2.18 to 2.20, 2.33 to 2.35, 2.61, 2.88)


def days_with_both(given):
    return max(0, given["grazing_days"] + given["yard_days"] - DAYS_A_YEAR)


def yard_share(given):
    return values.YARD_SHARES[given["exercise_yard"]]


def yard_share_with_grazing(given):
    return min(yard_share(given), values.MOST_YARD_SHARE_WITH_GRAZING)


def share_into_yard(given):
    both = days_with_both(given)
    yard_only = given["yard_days"] - both
    days = yard_share(given) * yard_only + yard_share_with_grazing(given) * both
    return days / DAYS_A_YEAR


def share_into_pasture(given):
    both = days_with_both(given)
    grazing_only = given["grazing_days"] - both
    days = grazing_only + (1 - yard_share_with_grazing(given)) * both
    return given["grazing_hours"] / HOURS_A_DAY * days / DAYS_A_YEAR


def into_yard(excreted, share, sums):
    return {
        "n_into_yard": sums.grams(excreted["n_excretion"] * share),
        "tan_into_yard": sums.grams(excreted["tan_excretion"] * share),
    }


def into_grazing(excreted, share, sums):
    return {
        "n_into_grazing": sums.grams(excreted["n_excretion"] * share),
        "tan_into_grazing": sums.grams(excreted["tan_excretion"] * share),
    }


NO_YARD = {"n_into_yard": 0, "tan_into_yard": 0}


def into_housing(excreted, grazed, yarded=NO_YARD):
    """What falls neither on pasture nor in the yard."""
    return {
        "n_into_housing": excreted["n_excretion"]
        - grazed["n_into_grazing"]
        - yarded["n_into_yard"],
        "tan_into_housing": excreted["tan_excretion"]
        - grazed["tan_into_grazing"]
        - yarded["tan_into_yard"],
    }


# Exercise yard (2.19, 2.34)


def yard_ammonia(given, yarded, sums):
    nh3 = sums.grams(yarded["tan_into_yard"] * yard_factor(given))
    return {
        "nh3_nyard": nh3,
        "n_outyard_liquid": yarded["n_into_yard"] - nh3,
        "tan_outyard_liquid": yarded["tan_into_yard"] - nh3,
    }


def yard_factor(given):
    """Not cut by itself: the ammonia of the yard has one cut."""
    floor = 1 - values.FLOOR_REDUCTIONS[given["floor_properties_exercise_yard"]]
    return at_most_1(values.YARD_NH3_RATE * floor * left_by_free_factor(given))


def at_most_1(factor):
    return min(factor, values.MOST_FACTOR)


def left_by_free_factor(given):
    """From 0 to 2: a free factor below zero adds to the ammonia."""
    return 1 - given["free_correction_factor"] * PERCENT


# Pasture (2.20, 2.35, 2.61, 2.88)


def pasture(grazed, rates, sums):
    """What leaves the pasture, and what remains; TAN gives up all four as well."""
    nh3 = sums.grams(grazed["tan_into_grazing"] * rates.nh3)
    n2 = sums.grams(grazed["n_into_grazing"] * rates.n2)
    no = sums.grams(grazed["n_into_grazing"] * rates.no)
    n2o = sums.grams(grazed["n_into_grazing"] * rates.n2o)
    lost = nh3 + n2 + no + n2o
    return {
        "nh3_ngrazing": nh3,
        "n2_ngrazing": n2,
        "no_ngrazing": no,
        "n2o_ngrazing": n2o,
        "n_remain_grazing": grazed["n_into_grazing"] - lost,
        "tan_remain_grazing": grazed["tan_into_grazing"] - lost,
    }


# Housing of roughage herds (2.85, 2.87)


@cache
def k_grazing(hours, sums):
    """exp(0.0403 x hours), taken as the terms 0 to 20 of its series."""
    exponent = values.K_GRAZING_B * hours
    term = total = Fraction(1)
    for i in range(1, LAST_TERM_OF_SERIES + 1):
        term = term * exponent / i
        total += term
    return sums.nearest_billionth(total)


def c_grazing(days, hours, k, sums):
    """By how much grazing raises the ammonia of what still falls in the housing."""
    if days * hours >= HOURS_A_YEAR:
        return Fraction(1)
    return sums.billionths(
        ((DAYS_A_YEAR - days) * HOURS_A_DAY + days * (HOURS_A_DAY - hours) * k)
        / (HOURS_A_YEAR - days * hours)
    )


def housing_nh3_rate_before_ceiling(c, left, sums):
    rate = sums.billionths(c * values.ROUGHAGE_HOUSING_NH3_RATE)
    return sums.billionths(rate * left)


def housing_nh3_rate(c, left, sums):
    return at_most_1(housing_nh3_rate_before_ceiling(c, left, sums))


def c_grazing_of(given, sums):
    days, hours = given["grazing_days"], given["grazing_hours"]
    return c_grazing(days, hours, k_grazing(hours, sums), sums)


def housing_ammonia(given, housed, sums):
    rate = housing_nh3_rate(c_grazing_of(given, sums), left_by_free_factor(given), sums)
    nh3 = sums.grams(housed["tan_into_housing"] * rate)
    return {
        "nh3_nhousing": nh3,
        "n_outhousing": housed["n_into_housing"] - nh3,
        "tan_outhousing": housed["tan_into_housing"] - nh3,
    }


# Pig houses (2.51 to 2.60, 2.62)


class PigFactors(NamedTuple):
    """The NH3 emission factors of 2.51, under its names."""

    ef_housing_indoor_before_air_scrubber: Fraction
    ef_housing_indoor: Fraction
    ef_housing_grazing: Fraction
    ef_nh3_nhousing: Fraction


def pig_house(given):
    return values.PIG_HOUSES[given["housing_type"]]


def red_air_scrubber(given):
    return values.AIR_SCRUBBERS[given["air_scrubber"]]


def left_by_floor(given):
    return 1 - values.HOUSING_FLOORS[given["mitigation_housing_floor"]]


def left_by_air(given):
    return 1 - values.HOUSING_AIRS[given["mitigation_housing_air"]]


def pig_factors(given, sums):
    """Cut after each product; the area's and the floor's are products with 1 and cut nothing."""
    house = pig_house(given)
    left = left_by_free_factor(given)
    with_free_factor = sums.billionths(house.er * values.C_AREA * left)
    with_air = sums.billionths(with_free_factor * left_by_floor(given) * left_by_air(given))
    before = at_most_1(with_air)
    indoor = at_most_1(sums.billionths(before * (1 - red_air_scrubber(given))))
    grazing = at_most_1(sums.billionths(house.er * left) * values.C_AREA)
    inside = sums.billionths(house.share_indoor * indoor)
    outside = sums.billionths((1 - house.share_indoor) * grazing)
    return PigFactors(before, indoor, grazing, at_most_1(inside + outside))


def scrubbed_share(given):
    """What a biotrickling filter takes of the ammonia; what an acid scrubber takes stays with the manure."""
    if given["air_scrubber"] != values.BIOTRICKLING:
        return Fraction(0)
    return pig_house(given).share_indoor * red_air_scrubber(given)


def pig_house_ammonia(given, excreted, housed, sums):
    factors = pig_factors(given, sums)
    nh3 = sums.grams(housed["tan_into_housing"] * factors.ef_nh3_nhousing)
    reached = sums.grams(scrubbed_share(given) * excreted["tan_excretion"])
    scrubbed = sums.grams(reached * factors.ef_housing_indoor_before_air_scrubber)
    n, tan = (housed[f"{part}_into_housing"] - nh3 - scrubbed for part in ("n", "tan"))
    liquid = pig_house(given).share_liquid
    n_liquid, tan_liquid = sums.grams(n * liquid), sums.grams(tan * liquid)
    return {
        "nh3_nhousing": nh3,
        "tan_air_scrubber": scrubbed,
        "n_outhousing": n,
        "tan_outhousing": tan,
        "n_outhousing_liquid": n_liquid,
        "tan_outhousing_liquid": tan_liquid,
        "n_outhousing_solid": n - n_liquid,
        "tan_outhousing_solid": tan - tan_liquid,
    }


def pig_house_gases(given, housed, sums):
    """The gases of both fractions; the fractions themselves are all or nothing, and no cut."""
    house = pig_house(given)
    fractions = {"solid": 1 - house.share_liquid, "liquid": house.share_liquid}
    return {
        f"{gas}_n{fraction}": sums.grams(housed["n_into_housing"] * share * rate)
        for fraction, share in fractions.items()
        for gas, rate in vars(house.gases).items()
    }


# Notes


class Notes(NamedTuple):
    """Five answers, yes or no, that stand beside a herd's figures, in the order of the rules and of the requests."""

    n_far_from_standard: bool
    tan_far_from_standard: bool
    free_factor: bool
    share_lowered: bool
    factor_above_1: bool


def notes(herd):
    given, standards = herd.given, standards_of(herd)
    return Notes(
        n_far_from_standard=standards is not None and n_far_from_standard(given, standards),
        tan_far_from_standard=standards is not None and tan_far_from_standard(given, standards),
        free_factor=given.get("free_correction_factor", 0) != 0,
        share_lowered=herd.kind in KINDS_WITH_A_YARD
        and days_with_both(given) > 0
        and yard_share(given) > values.MOST_YARD_SHARE_WITH_GRAZING,
        factor_above_1=herd.kind is ROUGHAGE and housing_factor_above_1(given),
    )


def standards_of(herd):
    """Those that an entry is held to, or None for a kind that has none."""
    if herd.kind is ROUGHAGE:
        return roughage_standards(herd.given)
    return DAIRY_STANDARDS if herd.kind is DAIRY_COWS else None


def housing_factor_above_1(given):
    c, left = c_grazing_of(given, CUTS), left_by_free_factor(given)
    return housing_nh3_rate_before_ceiling(c, left, CUTS) > values.MOST_FACTOR


def n_far_from_standard(given, standards):
    kilograms, standard = kilograms_a_head(given, standards), standards.kilograms
    least, most = values.LEAST_OF_STANDARD * standard, values.MOST_OF_STANDARD * standard
    return not least <= kilograms <= most


def tan_far_from_standard(given, standards):
    return abs(tan_share(given, standards) - standards.tan_share) > values.MOST_TAN_SHARE_AWAY
