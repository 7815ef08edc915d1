#!/usr/bin/env python3
"""The tests of this implementation: run it, and it ends with status 0 if all hold."""

import itertools
import math
import os
import struct
import sys
import unittest
from dataclasses import replace
from fractions import Fraction
from pathlib import Path

import cases
import cooperative
import cooperative_cases
import damage
import doubles
import faults
import gate_cases
import gatelog
import lent
import lent_cases
import mend
import mend_cases
import printed
import steps_cases
import write
from arithmetic import BILLION, CUTS, EXACT, HALF, Cuts
from cases import COOPERATIVE_EXAMPLE
from cuts import cuts
from dice import Dice
from edit import DONE, FAILED, REFUSED, edit
from farms import FarmDice, farm_lines, file_of, herd_lines, line_for, new_labels, written
from inputs import CATTLE, DAIRY_COWS, HOURS, KINDS, KINDS_WITH_A_YARD, PIGS, ROUGHAGE, STANDARD, Number
from line import HIGHEST_LINE, above, in_words, livestock
from model import (
    Notes, c_grazing, figures, housing_nh3_rate, k_grazing, notes, pig_house_ammonia, share_into_yard
)
from reading import COOPERATIVE, STANDARD_INPUT, Limits, Refused, read_farm
from steps import ADD, FARTHEST, REMOVE, REPLACE, Book, fresh_book, take_step
from totals import TOTALS, totals
from urvendlo import CUTS_OFF, FIGURES, NOTES, WHY, WHY_WORDS, answer, at_line
from values import DAYS_A_YEAR, YARD_SHARES
from why import REASONS, why

# Names the text of source document 001, where that is at hand.
DOCUMENT = "URVENDLO_001"
# How far a figure may be from its exact value: in houses farther than elsewhere.
GRAMS_AWAY = 10
ROUGHAGE_HOUSING_GRAMS_AWAY = 20
PIG_HOUSE_GRAMS_AWAY = 40
HERDS_OF_A_KIND = 1500
FARMS = 60
PARTLY = "available_roughage_is_partly_supplied_in_the_exercise_yard"
EXCLUSIVELY = "available_roughage_is_exclusively_supplied_in_the_exercise_yard"
NOT_SUPPLIED = "available_roughage_is_not_supplied_in_the_exercise_yard"

# The herds that the rules set out: cattle of the rows marked C and of row 4, deer of
# row 5, pigs of row 6.
C = {
    "animals": "10",
    "inp_n_excretion": "73",
    "tan_fraction": "60",
    "yard_days": "365",
    "exercise_yard": PARTLY,
    "floor_properties_exercise_yard": "solid_floor",
    "free_correction_factor": "0",
    "grazing_days": "200",
    "grazing_hours": "12",
}
ROW_4 = {
    **C,
    "tan_fraction": "2",
    "yard_days": "0",
    "grazing_days": "365",
    "grazing_hours": "24",
}
DEER = {
    "animalcategory": "fallow_deer",
    "animals": "10",
    "inp_n_excretion": "standard",
    "tan_fraction": "standard",
    "free_correction_factor": "0",
    "grazing_days": "0",
    "grazing_hours": "0",
}
OUTDOOR_PIGS = {
    "animals": "10",
    "inp_n_excretion": "13",
    "tan_fraction": "70",
    "housing_type": "Outdoor",
    "air_scrubber": "none",
    "mitigation_housing_floor": "none",
    "mitigation_housing_air": "none",
    "free_correction_factor": "0",
}
HOUSED_PIGS = {**OUTDOOR_PIGS, "housing_type": "Slurry_Conventional"}
# Dairy cows by the standard of 2.2, kept as the cattle of the rows marked C.
COWS = {**C, "inp_n_excretion": "112", "tan_fraction": "standard"}
HERD_OF_KIND = {ROUGHAGE: DEER, CATTLE: C, PIGS: OUTDOOR_PIGS, DAIRY_COWS: COWS}

LARGEST = {"animals": "10000", "inp_n_excretion": "200", "tan_fraction": "100"}

# The last texts that are taken and the first that are not, for each input that is a number.
RANGES = {
    "animals": (("0", "10000"), ("10001", "1.0")),
    "inp_n_excretion": (("0", "0.001", "200", "200.000"), ("200.001", "0.0001", "1.0000")),
    "tan_fraction": (("0", "0.01", "100", "100.00"), ("100.01", "0.001", "1.000")),
    "free_correction_factor": (
        ("0", "100", "-1", "-9", "-10", "-25", "-100"),
        ("101", "1.0", "-0", "-", "--5", "-05", "+5", "-5.0", "-101", "-1000", "5-", "- 5", "-25%"),
    ),
    "yard_days": (("0", "365"), ("366", "1.0")),
    "grazing_days": (("0", "365"), ("366", "1.0")),
    "grazing_hours": (("0", "0.1", "24", "24.0"), ("24.1", "0.01", "1.00")),
}

PIG_FILE = b"""\
P1,Livestock::FatteningPigs::Excretion,animals,10\r
P1,Livestock::FatteningPigs::Excretion,inp_n_excretion,13\r
P1,Livestock::FatteningPigs::Excretion,tan_fraction,70\r
P1,Livestock::FatteningPigs::Housing::Type,housing_type,Outdoor\r
P1,Livestock::FatteningPigs::Housing::AirScrubber,air_scrubber,none\r
P1,Livestock::FatteningPigs::Housing::MitigationOptions,mitigation_housing_floor,none\r
P1,Livestock::FatteningPigs::Housing::MitigationOptions,mitigation_housing_air,none\r
P1,Livestock::FatteningPigs::Housing::CFreeFactor,free_correction_factor,0\r
"""
PIG_LISTING = b"""\
P1,Livestock::FatteningPigs::Excretion,n_excretion,130.000\r
P1,Livestock::FatteningPigs::Excretion,tan_excretion,91.000\r
P1,Livestock::FatteningPigs::Grazing,n_into_grazing,130.000\r
P1,Livestock::FatteningPigs::Grazing,tan_into_grazing,91.000\r
P1,Livestock::FatteningPigs::Grazing,nh3_ngrazing,18.200\r
P1,Livestock::FatteningPigs::Grazing,n2_ngrazing,0.000\r
P1,Livestock::FatteningPigs::Grazing,no_ngrazing,0.715\r
P1,Livestock::FatteningPigs::Grazing,n2o_ngrazing,2.600\r
P1,Livestock::FatteningPigs::Grazing,n_remain_grazing,108.485\r
P1,Livestock::FatteningPigs::Grazing,tan_remain_grazing,69.485\r
P1,Livestock::FatteningPigs::Housing,n_into_housing,0.000\r
P1,Livestock::FatteningPigs::Housing,tan_into_housing,0.000\r
P1,Livestock::FatteningPigs::Housing,nh3_nhousing,0.000\r
P1,Livestock::FatteningPigs::Housing,n_outhousing_liquid,0.000\r
P1,Livestock::FatteningPigs::Housing,tan_outhousing_liquid,0.000\r
P1,Livestock::FatteningPigs::Housing,n_outhousing_solid,0.000\r
P1,Livestock::FatteningPigs::Housing,tan_outhousing_solid,0.000\r
P1,Livestock::FatteningPigs::NxOx,n2_nsolid,0.000\r
P1,Livestock::FatteningPigs::NxOx,no_nsolid,0.000\r
P1,Livestock::FatteningPigs::NxOx,n2o_nsolid,0.000\r
P1,Livestock::FatteningPigs::NxOx,n2_nliquid,0.000\r
P1,Livestock::FatteningPigs::NxOx,no_nliquid,0.000\r
P1,Livestock::FatteningPigs::NxOx,n2o_nliquid,0.000\r
,Livestock,n_excretion,130.000\r
,Livestock,tan_excretion,91.000\r
,Livestock,n_into_housing,0.000\r
,Livestock,tan_into_housing,0.000\r
,Livestock,n_into_yard,0.000\r
,Livestock,tan_into_yard,0.000\r
,Livestock,n_into_grazing,130.000\r
,Livestock,tan_into_grazing,91.000\r
,Livestock,nh3_nhousing,0.000\r
,Livestock,nh3_nyard,0.000\r
,Livestock,nh3_ngrazing,18.200\r
,Livestock,nh3_nhousing_and_yard,0.000\r
,Livestock,nh3_nlivestock,18.200\r
,Livestock,n2_ngrazing,0.000\r
,Livestock,no_ngrazing,0.715\r
,Livestock,n2o_ngrazing,2.600\r
,Livestock,n_remain_grazing,108.485\r
,Livestock,tan_remain_grazing,69.485\r
"""

# The lines that the totals follow.
PIG_LINES = 23

# The figures of a house behind its door; of pigs the last three are not listed, of roughage herds the
# first and the last two are.
HOUSE_FIGURES = {
    "nh3_nhousing",
    "n_outhousing_liquid",
    "tan_outhousing_liquid",
    "n_outhousing_solid",
    "tan_outhousing_solid",
    "n2_nsolid",
    "no_nsolid",
    "n2o_nsolid",
    "n2_nliquid",
    "no_nliquid",
    "n2o_nliquid",
    "tan_air_scrubber",
    "n_outhousing",
    "tan_outhousing",
}
HOUSING_AMMONIA_TOTALS = {"nh3_nhousing", "nh3_nhousing_and_yard", "nh3_nlivestock"}

# Module and output name of each line of a herd, written out once more from the rules.
GRAZING_LINES = """
    Grazing n_into_grazing, Grazing tan_into_grazing, Grazing nh3_ngrazing, Grazing n2_ngrazing,
    Grazing no_ngrazing, Grazing n2o_ngrazing, Grazing n_remain_grazing, Grazing tan_remain_grazing,
"""
CATTLE_LINES = (
    "Excretion n_excretion, Excretion tan_excretion,"
    + "Yard n_into_yard, Yard tan_into_yard, Yard nh3_nyard,"
    + "Yard n_outyard_liquid, Yard tan_outyard_liquid,"
    + GRAZING_LINES
    + "Housing n_into_housing, Housing tan_into_housing"
)
HERD_LINES = {
    ROUGHAGE: "Excretion n_excretion, Excretion tan_excretion,"
    + GRAZING_LINES
    + "Housing n_into_housing, Housing tan_into_housing,"
    + "Housing nh3_nhousing, Housing n_outhousing, Housing tan_outhousing",
    CATTLE: CATTLE_LINES,
    DAIRY_COWS: CATTLE_LINES,
    PIGS: "Excretion n_excretion, Excretion tan_excretion,"
    + GRAZING_LINES
    + "Housing n_into_housing, Housing tan_into_housing,"
    + "Housing nh3_nhousing, Housing n_outhousing_liquid, Housing tan_outhousing_liquid,"
    + "Housing n_outhousing_solid, Housing tan_outhousing_solid,"
    + "NxOx n2_nsolid, NxOx no_nsolid, NxOx n2o_nsolid,"
    + "NxOx n2_nliquid, NxOx no_nliquid, NxOx n2o_nliquid",
}

# What goes in on the left comes out as the sum on the right.
PASTURE_LOSSES = ("nh3_ngrazing", "n2_ngrazing", "no_ngrazing", "n2o_ngrazing")
BALANCES = (
    ("n_excretion", ("n_into_yard", "n_into_grazing", "n_into_housing")),
    ("tan_excretion", ("tan_into_yard", "tan_into_grazing", "tan_into_housing")),
    ("n_into_yard", ("nh3_nyard", "n_outyard_liquid")),
    ("tan_into_yard", ("nh3_nyard", "tan_outyard_liquid")),
    ("n_into_grazing", (*PASTURE_LOSSES, "n_remain_grazing")),
    ("tan_into_grazing", (*PASTURE_LOSSES, "tan_remain_grazing")),
)
BALANCES_OF_KIND = {
    ROUGHAGE: (
        ("n_into_housing", ("nh3_nhousing", "n_outhousing")),
        ("tan_into_housing", ("nh3_nhousing", "tan_outhousing")),
    ),
    CATTLE: (),
    DAIRY_COWS: (),
    PIGS: (
        ("n_into_housing", ("nh3_nhousing", "tan_air_scrubber", "n_outhousing")),
        ("tan_into_housing", ("nh3_nhousing", "tan_air_scrubber", "tan_outhousing")),
        ("n_outhousing", ("n_outhousing_liquid", "n_outhousing_solid")),
        ("tan_outhousing", ("tan_outhousing_liquid", "tan_outhousing_solid")),
    ),
}
FARM_BALANCES = (
    *(balance for balance in BALANCES if "into_yard" not in balance[0]),
    ("nh3_nhousing_and_yard", ("nh3_nhousing", "nh3_nyard")),
    ("nh3_nlivestock", ("nh3_nhousing", "nh3_nyard", "nh3_ngrazing")),
)
MAY_BE_BELOW_ZERO = {"tan_remain_grazing"}


def lines_of(kind, texts, label="H"):
    return [line_for(kind, label, listed, texts[listed.name]) for listed in kind.inputs]


def herd(kind, texts, **changes):
    return herd_of(kind, {**texts, **changes}, "H")


def herd_of(kind, texts, label):
    """A herd read from a file of its own."""
    (read,) = read_farm(file_of(lines_of(kind, texts, label)))
    return read


def refusal_of(call, *arguments):
    """Number and record of the refusal that a call raises, or None if it raises none."""
    try:
        call(*arguments)
    except Refused as refused:
        return refused.number, refused.record
    return None


def refusal(file, limits=STANDARD_INPUT):
    """The same of reading a file."""
    return refusal_of(read_farm, file, limits)


def largest_roughage_herds():
    """The largest herd for every tenth of an hour, where the cuts of a factor weigh the most."""
    for tenths in range(HOURS.most * 10 + 1):
        for days, free in (("1", "0"), ("120", "1"), ("364", "50"), ("365", "0"), ("364", "-97"), ("365", "-31")):
            yield herd(
                ROUGHAGE,
                {**DEER, **LARGEST},
                free_correction_factor=free,
                grazing_days=days,
                grazing_hours=f"{tenths // 10}.{tenths % 10}",
            )


class EdgeHerds(unittest.TestCase):
    """The rows of "Herds on both sides of an edge"."""

    def expect(self, read, **expected):
        worked = figures(read, CUTS)
        self.assertEqual({name: worked[name] for name in expected}, expected)

    def test_row_1(self):
        read = herd(CATTLE, C)
        self.expect(
            read,
            n_excretion=730000,
            tan_excretion=438000,
            n_into_yard=146000,
            tan_into_yard=87600,
            nh3_nyard=61320,
            n_outyard_liquid=84680,
            tan_outyard_liquid=26280,
            n_into_grazing=160000,
            tan_into_grazing=96000,
            nh3_ngrazing=7968,
            n2_ngrazing=0,
            no_ngrazing=880,
            n2o_ngrazing=3200,
            n_remain_grazing=147952,
            tan_remain_grazing=83952,
            n_into_housing=424000,
            tan_into_housing=254400,
        )
        self.assertFalse(notes(read).share_lowered)

    def test_row_2(self):
        read = herd(CATTLE, C, exercise_yard=EXCLUSIVELY)
        self.expect(read, n_into_yard=278000, n_into_grazing=160000, n_into_housing=292000)
        self.assertTrue(notes(read).share_lowered)

    def test_row_3(self):
        read = herd(CATTLE, C, exercise_yard=EXCLUSIVELY, grazing_days="0")
        self.expect(read, n_into_yard=438000)
        self.assertFalse(notes(read).share_lowered)

    def test_row_4(self):
        self.expect(
            herd(CATTLE, ROW_4),
            tan_into_grazing=14600,
            nh3_ngrazing=1211,
            no_ngrazing=4015,
            n2o_ngrazing=14600,
            n_remain_grazing=710174,
            tan_remain_grazing=-5226,
        )

    def test_row_5(self):
        self.expect(
            herd(ROUGHAGE, DEER),
            n_excretion=200000,
            tan_excretion=80000,
            nh3_nhousing=22000,
            n_outhousing=178000,
            tan_outhousing=58000,
        )

    def test_row_6(self):
        self.assertEqual(answer(PIG_FILE), PIG_LISTING)
        self.assertEqual(file_of(lines_of(PIGS, OUTDOOR_PIGS, "P1")), PIG_FILE)

    def test_row_7(self):
        self.assertEqual(k_grazing(Fraction(0), CUTS) * BILLION, 1000000000)

    def test_row_8(self):
        for kilograms, noted in (("28", 0), ("52", 0), ("27.999", 1), ("52.001", 1)):
            deer = herd(ROUGHAGE, DEER, animalcategory="red_deer", inp_n_excretion=kilograms)
            self.assertEqual(notes(deer).n_far_from_standard, bool(noted), kilograms)

    def test_row_9(self):
        days, hours = Fraction(365), Fraction(24)
        self.expect(
            herd(ROUGHAGE, DEER, grazing_days="365", grazing_hours="24"),
            n_into_housing=0,
            tan_into_housing=0,
            nh3_nhousing=0,
        )
        self.assertEqual(c_grazing(days, hours, k_grazing(hours, CUTS), CUTS), 1)

    def test_row_10_bytes(self):
        # No accepted farm is this long, so that it is read shows in the other refusal.
        file = PIG_FILE[:-2].ljust(65536, b"r")
        self.assertEqual(refusal(file), (7, 8))
        self.assertEqual(refusal(file + b"r"), (1, 0))

    def test_row_10_herds(self):
        herds = [lines_of(PIGS, OUTDOOR_PIGS, f"P{i}") for i in range(65)]
        self.assertEqual(len(read_farm(file_of(itertools.chain(*herds[:64])))), 64)
        self.assertEqual(refusal(file_of(itertools.chain(*herds))), (9, 64 * 8 + 1))


HOUSE_GRAMS_AWAY = {
    ROUGHAGE: ROUGHAGE_HOUSING_GRAMS_AWAY,
    CATTLE: GRAMS_AWAY,
    PIGS: PIG_HOUSE_GRAMS_AWAY,
    DAIRY_COWS: GRAMS_AWAY,
}


def most_away(kind, name):
    """The grams that a herd's figure may be from its exact value."""
    return HOUSE_GRAMS_AWAY[kind] if name in HOUSE_FIGURES else GRAMS_AWAY


def most_away_in_total(kind, name):
    """The same of a total, for each herd of a kind."""
    return HOUSE_GRAMS_AWAY[kind] if name in HOUSING_AMMONIA_TOTALS else GRAMS_AWAY


class WrongReadings(unittest.TestCase):
    """Each case holds for the right reading and fails for the one that only looks right."""

    def test_k_is_not_multiplied(self):
        texts = {**DEER, "animals": "500", "grazing_days": "200", "grazing_hours": "12"}
        worked = figures(herd(ROUGHAGE, texts), CUTS)
        days, hours = Fraction(200), Fraction(12)

        def nh3(k):
            rate = housing_nh3_rate(c_grazing(days, hours, k, CUTS), 1, CUTS)
            return CUTS.grams(worked["tan_into_housing"] * rate)

        c = (165 * 24 + 200 * 12 * math.exp(0.0403 * 12)) / (8760 - 2400)
        right = math.floor(worked["tan_into_housing"] * 0.275 * c)
        k = k_grazing(hours, CUTS)
        self.assertEqual(worked["nh3_nhousing"], right)
        self.assertEqual(nh3(k), right)
        self.assertNotEqual(nh3(k * Fraction("0.9989")), right)

    def test_yard_days_are_not_cut(self):
        right = 146000
        without_overlap = str(DAYS_A_YEAR - int(C["grazing_days"]))
        self.assertEqual(figures(herd(CATTLE, C), CUTS)["n_into_yard"], right)
        wrong = figures(herd(CATTLE, C, yard_days=without_overlap), CUTS)
        self.assertNotEqual(wrong["n_into_yard"], right)

    def test_grams_are_cut_and_not_rounded(self):
        class Nearest(Cuts):
            def grams(self, amount):
                return math.floor(amount + HALF)

        five_grams = herd(
            CATTLE,
            C,
            animals="1",
            inp_n_excretion="0.005",
            exercise_yard=NOT_SUPPLIED,
            grazing_days="365",
            grazing_hours="24",
        )
        names = ("n_excretion", "n_into_yard", "n_into_grazing", "n_into_housing")
        right, wrong = figures(five_grams, CUTS), figures(five_grams, Nearest())
        self.assertEqual([right[name] for name in names], [5, 0, 4, 1])
        self.assertEqual([wrong[name] for name in names], [5, 1, 5, -1])

    def test_a_filter_takes_of_the_excretion(self):
        """Of outdoor pigs nothing falls in the house; the emission rate of 0 is what makes the filter's share 0."""
        read = herd(PIGS, OUTDOOR_PIGS, air_scrubber="biotrickling")
        made = {cut.name: cut.quotient for cut in cuts(read)}
        self.assertEqual(made["tan_air_scrubber:tan_excretion"], 63700)
        self.assertEqual(made["tan_air_scrubber:ef_housing_indoor_before_air_scrubber"], 0)

    def test_an_acid_scrubber_loses_nothing(self):
        """What it takes stays with the manure: only the ammonia is less."""
        worked = figures(herd(PIGS, HOUSED_PIGS, air_scrubber="acid"), CUTS)
        self.assertEqual(worked["n_outhousing_liquid"], 130000 - worked["nh3_nhousing"])

    def test_gases_are_of_what_comes_in(self):
        """And they are not taken off what goes out."""
        worked = figures(herd(PIGS, HOUSED_PIGS), CUTS)
        self.assertEqual(worked["n2_nliquid"], 2600)
        self.assertEqual(worked["n_outhousing_liquid"], 130000 - 22113)

    def test_tan_below_zero_stays(self):
        lines = answer(file_of(lines_of(CATTLE, ROW_4))).decode().splitlines()
        right = "Grazing,tan_remain_grazing,-5.226"
        wrong = "Grazing,tan_remain_grazing,0.000"
        self.assertEqual(sum(line.endswith(right) for line in lines), 1)
        self.assertEqual(sum(line.endswith(wrong) for line in lines), 0)


class Figures(unittest.TestCase):
    """Closeness to the exact values, and balances, for herds of every kind."""

    farthest = {}

    def corner_texts(self, listed):
        if not isinstance(listed.values, Number):
            return listed.values.names
        least, most, places = listed.values.least, listed.values.most, listed.values.decimals
        if least < 0:
            return "0", "1", "-1", f"{most}", f"{least}", f"{least + 1}"
        if places == 0:
            return "0", "1", f"{most - 1}", f"{most}"
        return "0", "0." + "1".zfill(places), f"{most - 1}." + "9" * places, f"{most}"

    def corner_herds(self, dice, kind):
        """Herds whose inputs all stand at an end of their range or one step inside."""
        for label in range(HERDS_OF_A_KIND):
            texts = {listed.name: dice.pick(self.corner_texts(listed)) for listed in kind.inputs}
            if dice.one_in(2):
                texts |= LARGEST
            yield lines_of(kind, texts, str(label))

    def random_herds(self, dice, kind):
        for label in range(HERDS_OF_A_KIND):
            yield herd_lines(dice, str(label), kind)

    def check_herd(self, read):
        cut, exact = figures(read, CUTS), figures(read, EXACT)
        self.assertEqual(cut.keys(), exact.keys())
        self.check_distance(cut, exact, lambda name: most_away(read.kind, name))
        for worked in (cut, exact):
            self.check_balances(read.kind, worked)
        self.assertTrue(all(isinstance(amount, int) for amount in cut.values()))
        self.assertEqual(cut["n_excretion"], exact["n_excretion"])
        return cut, exact

    def check_distance(self, cut, exact, most):
        for name, amount in cut.items():
            distance, allowed = abs(amount - exact[name]), most(name)
            self.assertLessEqual(distance, allowed, name)
            Figures.farthest[allowed] = max(Figures.farthest.get(allowed, 0), distance)

    def check_balances(self, kind, worked):
        for whole, parts in BALANCES + BALANCES_OF_KIND[kind]:
            self.assertEqual(worked.get(whole, 0), sum(worked.get(part, 0) for part in parts))
        for name in worked.keys() - MAY_BE_BELOW_ZERO:
            self.assertGreaterEqual(worked[name], 0, name)

    def test_herds(self):
        dice = Dice(3)
        for kind in KINDS:
            for lines in (*self.corner_herds(dice, kind), *self.random_herds(dice, kind)):
                self.check_herd(*read_farm(file_of(lines)))

    def test_farms(self):
        dice = FarmDice(4)
        for number in range(FARMS):
            self.check_farm(read_farm(written(dice, farm_lines(dice, number))))

    def test_cooperative(self):
        self.check_farm(read_farm(COOPERATIVE_EXAMPLE.read_bytes(), COOPERATIVE))

    def test_largest_roughage_herds(self):
        herds = list(largest_roughage_herds())
        for begin in range(0, len(herds), COOPERATIVE.herds):
            self.check_farm(herds[begin : begin + COOPERATIVE.herds])

    def check_farm(self, herds):
        """The herds of a farm one by one, and their totals."""
        worked = [self.check_herd(read) for read in herds]
        cut, exact = (totals([both[way] for both in worked]) for way in (0, 1))
        for name, amount in cut.items():
            most = sum(most_away_in_total(read.kind, name) for read in herds)
            self.assertLessEqual(abs(amount - exact[name]), most, name)
        for farm in (cut, exact):
            for whole, parts in FARM_BALANCES:
                self.assertEqual(farm[whole], sum(farm[part] for part in parts), whole)

    def test_k(self):
        """Each k is near the exponential, and no series ends on the half of a billionth."""
        for tenths in range(HOURS.most * 10 + 1):
            hours = Fraction(tenths, 10)
            k, exact = k_grazing(hours, CUTS), k_grazing(hours, EXACT)
            self.assertLess(abs(k - exact), HALF / BILLION)
            self.assertAlmostEqual(float(exact), math.exp(0.00403 * tenths), places=13)


class WorkedByHand(unittest.TestCase):
    """Values and cuts once more, in figures and in formulas over whole numbers."""

    def test_standards(self):
        for category, grams in (
            ("fallow_deer", 20000),
            ("red_deer", 40000),
            ("wapiti", 80000),
            ("bison_older_than_3yr", 60000),
            ("bison_younger_than_3yr", 20000),
            ("lama_older_than_2yr", 17000),
            ("lama_younger_than_2yr", 11000),
            ("alpaca_older_than_2yr", 11000),
            ("alpaca_younger_than_2yr", 7000),
            ("rabbit_doe_kits", 2600),
            ("rabbit_young", 790),
        ):
            worked = figures(herd(ROUGHAGE, DEER, animalcategory=category), CUTS)
            self.assertEqual(worked["n_excretion"], 10 * grams)
            self.assertEqual(worked["tan_excretion"], 4 * grams)

    def test_roughage_pasture(self):
        texts = {**DEER, "animals": "200", "grazing_days": "365", "grazing_hours": "24"}
        worked = figures(herd(ROUGHAGE, texts), CUTS)
        names = (*PASTURE_LOSSES, "n_remain_grazing", "tan_remain_grazing")
        expected = [200000, 0, 22000, 40000, 3738000, 1338000]
        self.assertEqual([worked[name] for name in names], expected)

    def test_yard_floors(self):
        for floor, nh3 in (
            ("solid_floor", 45990),
            ("unpaved_floor", 22995),
            ("perforated_floor", 11497),
            ("paddock_or_pasture_used_as_exercise_yard", 4599),
        ):
            changes = {"floor_properties_exercise_yard": floor, "free_correction_factor": "25"}
            self.assertEqual(figures(herd(CATTLE, C, **changes), CUTS)["nh3_nyard"], nh3)

    def test_yard_ceiling(self):
        """87,600 g TAN in the yard: a quarter more of 0.7, and never more than all of it."""
        for floor, free, nh3 in (
            ("solid_floor", "-25", 76650),
            ("solid_floor", "-42", 87074),
            ("solid_floor", "-43", 87600),
            ("solid_floor", "-100", 87600),
            ("unpaved_floor", "-100", 61320),
        ):
            changes = {"floor_properties_exercise_yard": floor, "free_correction_factor": free}
            read = herd(CATTLE, C, **changes)
            self.assertEqual(figures(read, CUTS)["nh3_nyard"], nh3, changes)
            self.assertEqual(figures(read, CUTS)["tan_outyard_liquid"], 87600 - nh3, changes)
            self.assertFalse(notes(read).factor_above_1)

    def test_roughage_ceiling(self):
        """Nearest to 1 from below and from above; above it all TAN in the house is lost as ammonia."""
        deer = {**DEER, **LARGEST, "animalcategory": "wapiti"}
        for days, hours, free, factor, noted in (
            ("364", "23.9", "-84", 999999992, False),
            ("365", "21", "-56", 1000001639, True),
            ("365", "23.9", "-100", 1440993776, True),
            ("365", "24", "-100", 550000000, False),
            ("0", "0", "-100", 550000000, False),
        ):
            read = herd(
                ROUGHAGE, deer, grazing_days=days, grazing_hours=hours, free_correction_factor=free
            )
            made = {cut.name: cut for cut in cuts(read)}
            self.assertEqual(made["ef_nh3_nhousing:c_free_factor_housing"].quotient, factor, (days, hours, free))
            self.assertEqual(notes(read).factor_above_1, noted)
            worked = figures(read, CUTS)
            tan = worked["tan_into_housing"]
            self.assertEqual(worked["nh3_nhousing"], tan * min(factor, BILLION) // BILLION)
            self.assertEqual(made["nh3_nhousing"].cut_off, tan * min(factor, BILLION) % BILLION)
            if noted:
                self.assertEqual((worked["nh3_nhousing"], worked["tan_outhousing"]), (tan, 0))

    def test_yard_shares(self):
        for name, n in (("not_available", 0), (NOT_SUPPLIED, 73000), (PARTLY, 146000)):
            worked = figures(herd(CATTLE, C, exercise_yard=name), CUTS)
            self.assertEqual(worked["n_into_yard"], n)

    def test_pig_houses(self):
        """10 pigs, 13 kg, TAN 70 percent, no measures: NH3 of 91,000 g TAN, gases of 130,000 g N."""
        for name, nh3, n2, no in (
            ("Slurry_Conventional", 22113, 2600, 260),
            ("Slurry_Label", 44226, 2600, 260),
            ("Slurry_Label_Open", 30940, 2600, 260),
            ("Deep_Litter", 44226, 6500, 1300),
        ):
            worked = figures(herd(PIGS, OUTDOOR_PIGS, housing_type=name), CUTS)
            there, not_there = ("solid", "liquid") if name == "Deep_Litter" else ("liquid", "solid")
            expected = {
                "n_into_housing": 130000,
                "tan_into_housing": 91000,
                "tan_remain_grazing": 0,
                "nh3_nhousing": nh3,
                f"n_outhousing_{there}": 130000 - nh3,
                f"tan_outhousing_{there}": 91000 - nh3,
                f"n2_n{there}": n2,
                f"no_n{there}": no,
                f"n2o_n{there}": no,
                f"n_outhousing_{not_there}": 0,
                f"tan_outhousing_{not_there}": 0,
                f"n2_n{not_there}": 0,
                f"no_n{not_there}": 0,
                f"n2o_n{not_there}": 0,
            }
            self.assertEqual({figure: worked[figure] for figure in expected}, expected, name)

    def test_air_scrubbers(self):
        """What is left of 91,000 g TAN, 0.243 of it or 0.486 indoors and out, and what a filter holds back."""
        for name, scrubber, nh3, held in (
            ("Slurry_Conventional", "none", 22113, 0),
            ("Slurry_Conventional", "acid", 2211, 0),
            ("Slurry_Conventional", "biotrickling", 6633, 15479),
            ("Slurry_Label", "none", 44226, 0),
            ("Slurry_Label", "acid", 24324, 0),
            ("Slurry_Label", "biotrickling", 28746, 15479),
            ("Outdoor", "biotrickling", 0, 0),
        ):
            worked = figures(herd(PIGS, OUTDOOR_PIGS, housing_type=name, air_scrubber=scrubber), CUTS)
            self.assertEqual((worked["nh3_nhousing"], worked["tan_air_scrubber"]), (nh3, held), (name, scrubber))
            n, tan = worked["n_into_housing"], worked["tan_into_housing"]
            self.assertEqual(worked["n_outhousing"], n - nh3 - held)
            self.assertEqual(worked["tan_outhousing"], tan - nh3 - held)

    def test_low_impulse_air(self):
        """0.243 x 0.8 indoors; of the other half of a label house nothing is taken off."""
        for name, nh3 in (("Slurry_Conventional", 17690), ("Slurry_Label", 39803), ("Deep_Litter", 35380)):
            texts = {"housing_type": name, "mitigation_housing_air": "low_impuls_air_supply"}
            self.assertEqual(figures(herd(PIGS, OUTDOOR_PIGS, **texts), CUTS)["nh3_nhousing"], nh3)

    def test_free_factor_of_pigs(self):
        frees = ("-100", 88452), ("-1", 44668), ("0", 44226), ("1", 43783), ("50", 22113), ("99", 442), ("100", 0)
        for free, nh3 in frees:
            texts = {"housing_type": "Slurry_Label", "free_correction_factor": free}
            self.assertEqual(figures(herd(PIGS, OUTDOOR_PIGS, **texts), CUTS)["nh3_nhousing"], nh3)

    def test_pig_houses_by_whole_numbers(self):
        """The formulas of 2.51 once more: factors in billionths, percent and tenths."""
        rates = {
            "Outdoor": (0, 10),
            "Slurry_Conventional": (243, 10),
            "Slurry_Label": (486, 5),
            "Slurry_Label_Open": (340, 5),
            "Deep_Litter": (486, 10),
        }
        scrubbers = {"acid": 9, "biotrickling": 7, "none": 0}
        airs = {"low_impuls_air_supply": 2, "none": 0}
        for name, scrubber, air, free in itertools.product(rates, scrubbers, airs, range(-100, 101)):
            er, indoors = rates[name]
            tan = 1999000000 + 7 * free
            read = herd(
                PIGS,
                OUTDOOR_PIGS,
                housing_type=name,
                air_scrubber=scrubber,
                mitigation_housing_air=air,
                free_correction_factor=str(free),
            )
            before = er * 10**6 * (100 - free) // 100 * (10 - airs[air]) // 10
            indoor = before * (10 - scrubbers[scrubber]) // 10
            grazing = er * 10**6 * (100 - free) // 100
            factor = indoors * indoor // 10 + (10 - indoors) * grazing // 10
            housed = {"n_into_housing": tan, "tan_into_housing": tan}
            worked = pig_house_ammonia(read.given, {"tan_excretion": tan}, housed, CUTS)
            self.assertEqual(worked["nh3_nhousing"], tan * factor // 10**9)
            reached = tan * indoors * scrubbers[scrubber] * 10**7 // 10**9 * (scrubber == "biotrickling")
            self.assertEqual(worked["tan_air_scrubber"], reached * before // 10**9)

    def test_housing_cuts(self):
        for read in largest_roughage_herds():
            days, free = int(read.given["grazing_days"]), int(read.given["free_correction_factor"])
            tenths = int(read.given["grazing_hours"] * 10)
            k = int(k_grazing(read.given["grazing_hours"], CUTS) * 10**9)
            indoors = 87600 - days * tenths
            c = 10**9
            if indoors > 0:
                c = ((365 - days) * 240 * 10**9 + days * (240 - tenths) * k) // indoors
            rate = min(c * 275 // 1000 * (100 - free) // 100, 10**9)
            tan = 2 * 10**9 - 2 * 10**9 * days * tenths // 87600
            self.assertEqual(figures(read, CUTS)["nh3_nhousing"], tan * rate // 10**9)


class Notices(unittest.TestCase):
    def test_notes(self):
        none = Notes(False, False, False, False, False)
        for kind, texts, changes, expected in (
            (ROUGHAGE, DEER, {}, none),
            (ROUGHAGE, DEER, {"tan_fraction": "20"}, none),
            (ROUGHAGE, DEER, {"tan_fraction": "60"}, none),
            (ROUGHAGE, DEER, {"tan_fraction": "19.99"}, Notes(False, True, False, False, False)),
            (ROUGHAGE, DEER, {"tan_fraction": "60.01"}, Notes(False, True, False, False, False)),
            (ROUGHAGE, DEER, {"free_correction_factor": "1"}, Notes(False, False, True, False, False)),
            (ROUGHAGE, DEER, {"inp_n_excretion": "13.999"}, Notes(True, False, False, False, False)),
            (ROUGHAGE, DEER, {"free_correction_factor": "-1"}, Notes(False, False, True, False, False)),
            (
                ROUGHAGE,
                DEER,
                {"free_correction_factor": "-100", "grazing_days": "364", "grazing_hours": "23.9"},
                Notes(False, False, True, False, True),
            ),
            (CATTLE, C, {"free_correction_factor": "100"}, Notes(False, False, True, False, False)),
            (CATTLE, C, {"free_correction_factor": "-100"}, Notes(False, False, True, False, False)),
            (PIGS, HOUSED_PIGS, {"free_correction_factor": "-100"}, Notes(False, False, True, False, False)),
            (CATTLE, C, {"tan_fraction": "0", "inp_n_excretion": "0"}, none),
            (CATTLE, C, {"exercise_yard": EXCLUSIVELY, "yard_days": "165"}, none),
            (
                CATTLE,
                C,
                {"exercise_yard": EXCLUSIVELY, "yard_days": "166"},
                Notes(False, False, False, True, False),
            ),
            (DAIRY_COWS, COWS, {}, none),
            (DAIRY_COWS, COWS, {"free_correction_factor": "1"}, Notes(False, False, True, False, False)),
            (DAIRY_COWS, COWS, {"free_correction_factor": "-100"}, Notes(False, False, True, False, False)),
            (DAIRY_COWS, COWS, {"exercise_yard": EXCLUSIVELY, "yard_days": "165"}, none),
            (
                DAIRY_COWS,
                COWS,
                {"exercise_yard": EXCLUSIVELY, "yard_days": "166"},
                Notes(False, False, False, True, False),
            ),
            (PIGS, OUTDOOR_PIGS, {"tan_fraction": "0", "inp_n_excretion": "200"}, none),
            (PIGS, OUTDOOR_PIGS, {"free_correction_factor": "1"}, Notes(False, False, True, False, False)),
            (PIGS, HOUSED_PIGS, {"free_correction_factor": "100"}, Notes(False, False, True, False, False)),
        ):
            self.assertEqual(notes(herd(kind, texts, **changes)), expected, changes)

    def test_n_of_cows(self):
        for kilograms, noted in (
            ("78.4", False), ("145.6", False), ("112", False), ("78.400", False), ("145.600", False),
            ("78.399", True), ("145.601", True), ("0", True), ("200", True),
        ):
            expected = Notes(noted, False, False, False, False)
            self.assertEqual(notes(herd(DAIRY_COWS, COWS, inp_n_excretion=kilograms)), expected, kilograms)

    def test_tan_of_cows(self):
        for share, noted in (
            ("35", False), ("75", False), ("55", False), ("35.00", False), ("75.00", False),
            ("34.99", True), ("75.01", True), ("0", True), ("100", True),
            ("standard", False), ("STANDARD", False), ("Standard", False), ("sTaNdArD", False),
        ):
            expected = Notes(False, noted, False, False, False)
            self.assertEqual(notes(herd(DAIRY_COWS, COWS, tan_fraction=share)), expected, share)

    def test_records(self):
        lowered = {**C, "exercise_yard": EXCLUSIVELY}
        farm = file_of(lines_of(CATTLE, lowered, "Heifers") + lines_of(PIGS, OUTDOOR_PIGS, "A,B"))
        records = b'Heifers,no,no,no,yes,no\r\n"A,B",no,no,no,no,no\r\n'
        for file, expected in ((farm, records), (b"", b""), (b"a", b"refused,3,1\r\n")):
            self.assertEqual(answer(file, NOTES), expected, file)


class DairyCows(unittest.TestCase):
    """Request W9: what dairy cows have of their own, and what they share with cattle."""

    def test_figures(self):
        """10 cows, 112 kg, TAN by the standard; yard and pasture as in row 1."""
        worked = figures(herd(DAIRY_COWS, COWS), CUTS)
        expected = {
            "n_excretion": 1120000,
            "tan_excretion": 616000,
            "n_into_yard": 224000,
            "tan_into_yard": 123200,
            "nh3_nyard": 86240,
            "n_outyard_liquid": 137760,
            "tan_outyard_liquid": 36960,
            "n_into_grazing": 245479,
            "tan_into_grazing": 135013,
            "nh3_ngrazing": 11206,
            "n2_ngrazing": 0,
            "no_ngrazing": 1350,
            "n2o_ngrazing": 4909,
            "n_remain_grazing": 228014,
            "tan_remain_grazing": 117548,
            "n_into_housing": 650521,
            "tan_into_housing": 357787,
        }
        self.assertEqual(worked, expected)

    def test_standard_share(self):
        """The word, in any letter case, is 55 percent."""
        due = figures(herd(DAIRY_COWS, COWS, tan_fraction="55"), CUTS)
        for word in ("standard", "STANDARD", "Standard", "sTANDARd"):
            self.assertEqual(figures(herd(DAIRY_COWS, COWS, tan_fraction=word), CUTS), due)

    def test_as_cattle(self):
        """With the same texts every command prints the same for both, but for the module and the notes on N and TAN."""
        dice = Dice(9)
        for label in range(HERDS_OF_A_KIND):
            lines = herd_lines(dice, f"{label}", CATTLE)
            cattle = file_of(lines)
            cows = cattle.replace(b"OtherCattle", b"DairyCow")
            for command in (FIGURES, CUTS_OFF, WHY, WHY_WORDS):
                self.assertEqual(answer(cows, command), answer(cattle, command).replace(b"OtherCattle", b"DairyCow"))
            fields = answer(cattle, NOTES).split(b",")
            self.assertEqual(answer(cows, NOTES).split(b",")[3:], fields[3:])

    def test_totals(self):
        """Every figure of cows enters the total of its name, and none that they have not."""
        cows, heifers, deer = herd(DAIRY_COWS, COWS), herd(CATTLE, C), herd(ROUGHAGE, DEER)
        worked = [figures(read, CUTS) for read in (cows, heifers, deer)]
        farm = totals(worked)
        self.assertEqual(farm["n_excretion"], 1120000 + 730000 + 200000)
        self.assertEqual(farm["tan_excretion"], 616000 + 438000 + 80000)
        self.assertEqual(farm["nh3_nyard"], 86240 + 61320)
        self.assertEqual(farm["nh3_ngrazing"], 11206 + 7968)
        self.assertEqual(farm["nh3_nhousing"], 22000)
        self.assertEqual(farm["nh3_nhousing_and_yard"], 22000 + 86240 + 61320)
        self.assertEqual(farm["nh3_nlivestock"], 22000 + 86240 + 61320 + 11206 + 7968)
        self.assertEqual(farm["n_into_housing"], 650521 + 424000 + 200000)

    def test_cuts(self):
        """TAN by the standard is cut from 5,500 ten-thousandths; the divisors are those of cattle."""
        read = herd(DAIRY_COWS, COWS, animals="7", inp_n_excretion="99.999", free_correction_factor="7")
        n = 7 * 99999
        tan = n * 5500 // 10000
        yard, grazed = tan * 2 * 365 // 3650, tan * 120 * 8 * 200 // 876000
        made = {cut.name: (cut.quotient, cut.cut_off, cut.divisor) for cut in cuts(read)}
        for name, due in (
            ("tan_excretion", divmod_of(n * 5500, 10000)),
            ("n_into_yard", divmod_of(n * 2 * 365, 3650)),
            ("tan_into_yard", divmod_of(tan * 2 * 365, 3650)),
            ("nh3_nyard", divmod_of(yard * 7000 * 100 * 93, 10**8)),
            ("tan_into_grazing", divmod_of(tan * 120 * 8 * 200, 876000)),
            ("nh3_ngrazing", divmod_of(grazed * 830, 10000)),
        ):
            self.assertEqual(made[name], due, name)

    def test_standard_refused(self):
        """6 for N, in any letter case; 7 for every other input but TAN, and for what is nearly the word."""
        for word in ("standard", "STANDARD", "Standard"):
            for place, listed in enumerate(DAIRY_COWS.inputs, start=1):
                file = file_of(lines_of(DAIRY_COWS, {**COWS, listed.name: word}))
                due = {"inp_n_excretion": (6, place), "tan_fraction": None}.get(listed.name, (7, place))
                self.assertEqual(refusal(file), due, listed.name)
        self.assertEqual(refusal(file_of(lines_of(DAIRY_COWS, {**COWS, "tan_fraction": "standard "}))), (7, 3))

    def test_other_refusals(self):
        """Cows are no cattle, a module of theirs that holds no input is none, and each input is needed."""
        cows = lines_of(DAIRY_COWS, COWS)
        for kind, other in itertools.permutations(KINDS, 2):
            if DAIRY_COWS in (kind, other):
                mixed = lines_of(kind, HERD_OF_KIND[kind]) + lines_of(other, HERD_OF_KIND[other])
                self.assertEqual(refusal(file_of(mixed)), (10, len(kind.inputs) + 1))
        for module, name in faults.UNLISTED_OF_DAIRY_COWS:
            file = file_of([*cows, replace(cows[0], module=module, name=name)])
            self.assertEqual(refusal(file), (5, 10), (module, name))
        for place in range(len(cows)):
            self.assertEqual(refusal(file_of(cows[:place] + cows[place + 1 :])), (12, 1))
            self.assertEqual(refusal(file_of([*cows, cows[place]])), (11, 10))


GASES = ["nh3_ngrazing", "n2_ngrazing", "no_ngrazing", "n2o_ngrazing"]
INTO_GRAZING = ["n_into_grazing", "tan_into_grazing"]
FACTORS = ["ef_nh3_nhousing:er_housing", "ef_nh3_nhousing:c_free_factor_housing"]
CATTLE_CUTS = ["tan_excretion", "n_into_yard", "tan_into_yard", "nh3_nyard", *INTO_GRAZING, *GASES]
CUT_NAMES = {
    ROUGHAGE: ["tan_excretion", *INTO_GRAZING, *GASES, "c_grazing", *FACTORS, "nh3_nhousing"],
    CATTLE: CATTLE_CUTS,
    DAIRY_COWS: CATTLE_CUTS,
    PIGS: [
        "tan_excretion",
        *GASES,
        "ef_housing_indoor_before_air_scrubber:c_free_factor_housing",
        "ef_housing_indoor_before_air_scrubber:red_housing_air",
        "ef_housing_indoor",
        "ef_housing_grazing:c_free_factor_housing",
        "ef_nh3_nhousing:ef_housing_indoor",
        "ef_nh3_nhousing:ef_housing_grazing",
        "nh3_nhousing",
        "tan_air_scrubber:tan_excretion",
        "tan_air_scrubber:ef_housing_indoor_before_air_scrubber",
        "n2_nsolid",
        "no_nsolid",
        "n2o_nsolid",
        "n2_nliquid",
        "no_nliquid",
        "n2o_nliquid",
    ],
}


class Reasons(unittest.TestCase):
    """Request W2: the first of four reasons whose fact holds, and the share that follows."""

    # Yard days, with 200 grazing days, and yard: reason, days with both, share chosen and given.
    EDGES = {
        ("165", EXCLUSIVELY): ("no_such_days", 0, "0.6", "0.6"),
        ("166", EXCLUSIVELY): ("lowered", 1, "0.6", "0.2"),
        ("165", "not_available"): ("no_such_days", 0, "0", "0"),
        ("166", "not_available"): ("not_available", 1, "0", "0"),
        ("166", NOT_SUPPLIED): ("as_chosen", 1, "0.1", "0.1"),
        ("166", PARTLY): ("as_chosen", 1, "0.2", "0.2"),
        ("365", EXCLUSIVELY): ("lowered", 200, "0.6", "0.2"),
    }

    def test_edges(self):
        for kind, (edge, due) in itertools.product(KINDS_WITH_A_YARD, self.EDGES.items()):
            (days, yard), (word, both, chosen, share) = edge, due
            told = why(herd(kind, HERD_OF_KIND[kind], yard_days=days, exercise_yard=yard))
            self.assertEqual((told.reason.word, told.days), (word, both))
            self.assertEqual((told.chosen, told.share), (Fraction(chosen), Fraction(share)))

    def test_share_is_that_of_the_figures(self):
        """The share of the year on the yard, worked out once more from what is told."""
        edges = range(0, DAYS_A_YEAR + 1, 73)
        for kind, grazing, yard_days, yard in itertools.product(KINDS_WITH_A_YARD, edges, edges, YARD_SHARES):
            changes = {"grazing_days": str(grazing), "yard_days": str(yard_days), "exercise_yard": yard}
            read = herd(kind, HERD_OF_KIND[kind], **changes)
            told = why(read)
            days = told.chosen * (yard_days - told.days) + told.share * told.days
            self.assertEqual(share_into_yard(read.given), days / DAYS_A_YEAR)
            self.assertEqual(told.reason.word == "lowered", notes(read).share_lowered)
            holding = [reason for reason in REASONS if reason.holds(read.given)]
            self.assertIs(told.reason, holding[0])

    def test_other_kinds(self):
        self.assertIsNone(why(herd(ROUGHAGE, DEER)))
        self.assertIsNone(why(herd(PIGS, OUTDOOR_PIGS)))

    def test_printed(self):
        lines = lines_of(CATTLE, {**C, "exercise_yard": EXCLUSIVELY}, label="A,B")
        file = file_of(lines + lines_of(PIGS, OUTDOOR_PIGS, label="P"))
        self.assertEqual(answer(file, WHY), b'"A,B",lowered,200,0.2\r\n')
        self.assertEqual(
            answer(file, WHY_WORDS),
            b'"A,B": with both yard and pasture on 200 of 365 days, the yard\'s share on such days is 0.2,'
            b" lowered from the chosen share of 0.6.\r\n",
        )
        self.assertEqual(answer(b"", WHY), b"")
        self.assertEqual(answer(b"a", WHY), b"refused,3,1\r\n")


class AboveTheLine(unittest.TestCase):
    """Request W8, by hand at the edges: a herd of outdoor pigs has 18,200 g."""

    HERDS = ((PIGS, OUTDOOR_PIGS), (CATTLE, C), (ROUGHAGE, DEER))

    def farm(self, *herds):
        return file_of([line for i, (kind, texts) in enumerate(herds) for line in lines_of(kind, texts, f"H{i}")])

    def worked(self, file):
        return [figures(herd, CUTS) for herd in read_farm(file)]

    def sums(self, file):
        return [livestock(self.worked(file)[: count + 1]) for count in range(len(read_farm(file)))]

    def test_one_herd(self):
        for line, printed in ((18_199, b"yes,1"), (18_200, b"no,1"), (18_201, b"no,1"), (0, b"yes,1")):
            self.assertEqual(answer(PIG_FILE, at_line(line)), printed + b"\r\n")

    def test_at_each_herd(self):
        file = self.farm(*self.HERDS)
        first, second, third = self.sums(file)
        self.assertEqual(first, 18_200)
        self.assertLess(first, second)
        self.assertLess(second, third)
        for line, printed in (
            (0, "yes,1"), (first - 1, "yes,1"), (first, "yes,2"), (first + 1, "yes,2"),
            (second - 1, "yes,2"), (second, "yes,3"), (third - 1, "yes,3"),
            (third, "no,3"), (third + 1, "no,3"), (HIGHEST_LINE, "no,3"),
        ):
            self.assertEqual(answer(file, at_line(line)), f"{printed}\r\n".encode(), line)

    def test_no_herd_alone(self):
        file = self.farm(*[(PIGS, OUTDOOR_PIGS)] * 4)
        for line, count in ((18_200, 2), (36_399, 2), (36_400, 3), (72_799, 4)):
            self.assertEqual(above(self.worked(file), line), (True, count))

    def test_no_herds(self):
        for line in (0, 1, HIGHEST_LINE):
            self.assertEqual(answer(b"", at_line(line)), b"no,0\r\n")

    def test_nothing_emitted(self):
        silent = (PIGS, {**OUTDOOR_PIGS, "animals": "0"})
        self.assertEqual(answer(self.farm(silent, silent), at_line(0)), b"no,2\r\n")
        self.assertEqual(answer(self.farm(silent, self.HERDS[0], silent), at_line(0)), b"yes,2\r\n")

    def test_refused(self):
        self.assertEqual(answer(b"H", at_line(0)), b"refused,3,1\r\n")

    def test_in_words(self):
        self.assertEqual(in_words(b"yes,1\r\n", 18_199), "above 18199 g of NH3-N a year: 1 herd added up")
        self.assertEqual(in_words(b"no,0\r\n", 0), "not above 0 g of NH3-N a year: 0 herds added up")

    def test_random_farms(self):
        dice = FarmDice(17)
        for _ in range(FARMS):
            file = file_of(farm_lines(dice, dice.between(1, 5)))
            worked, sums = self.worked(file), self.sums(file)
            for line in {0, HIGHEST_LINE, *(near for grams in sums for near in (max(grams - 1, 0), grams, grams + 1))}:
                passed, count = above(worked, line)
                self.assertEqual(passed, livestock(worked) > line)
                behind = next((i + 1 for i, grams in enumerate(sums) if grams > line), len(sums))
                self.assertEqual(count, behind)
                if passed:
                    self.assertEqual(above(worked[:count], line), (True, count))


class CutOff(unittest.TestCase):
    """Request W7: every cut's name, what was cut off and the divisor."""

    def made(self, read):
        return {cut.name: (cut.quotient, cut.cut_off, cut.divisor) for cut in cuts(read)}

    def check_herd(self, read):
        worked = figures(read, CUTS)
        for cut in cuts(read):
            self.assertTrue(0 <= cut.cut_off < cut.divisor, cut)
            self.assertEqual(cut.quotient * cut.divisor + cut.cut_off, cut.uncut * cut.divisor, cut)
            self.assertEqual(worked.get(cut.name, cut.quotient), cut.quotient, cut)

    def test_herds(self):
        """The names of each kind; the dividends are whole, and the quotients are the figures."""
        dice = Dice(7)
        for kind in KINDS:
            for label in range(HERDS_OF_A_KIND):
                (read,) = read_farm(file_of(herd_lines(dice, str(label), kind)))
                self.check_herd(read)
                due = list(CUT_NAMES[kind])
                if kind is ROUGHAGE and read.given["grazing_days"] * read.given["grazing_hours"] >= 8760:
                    due.remove("c_grazing")
                if kind is PIGS and read.given["air_scrubber"] != "biotrickling":
                    due = [name for name in due if not name.startswith("tan_air_scrubber")]
                self.assertEqual([cut.name for cut in cuts(read)], due)

    def test_one_gram_off(self):
        """5 grams, share 0.1, both counts 365, 24 hours: half a gram is cut off twice, and housing has the gram."""
        read = herd(
            CATTLE,
            C,
            animals="1",
            inp_n_excretion="0.005",
            exercise_yard=NOT_SUPPLIED,
            grazing_days="365",
            grazing_hours="24",
        )
        made = self.made(read)
        self.assertEqual(made["n_into_yard"], (0, 1825, 3650))
        self.assertEqual(made["n_into_grazing"], (4, 438000, 876000))
        self.assertEqual(figures(read, CUTS)["n_into_housing"], 1)

    def test_roughage(self):
        """10 fallow deer, 100 days of 12 hours, free 7: k at 12 hours is 1,621,902,755 billionths."""
        read = herd(ROUGHAGE, DEER, grazing_days="100", grazing_hours="12", free_correction_factor="7")
        made = self.made(read)
        self.assertEqual(made["n_into_grazing"], divmod_of(200000 * 120 * 100, 87600))
        k = 1621902755
        self.assertEqual(k_grazing(Fraction(12), CUTS) * BILLION, k)
        c = divmod_of(265 * 240 * BILLION + 100 * 120 * k, 87600 - 12000)
        self.assertEqual(made["c_grazing"], c)
        rate = divmod_of(c[0] * 275, 1000)
        self.assertEqual(made["ef_nh3_nhousing:er_housing"], rate)
        factor = divmod_of(rate[0] * 93, 100)
        self.assertEqual(made["ef_nh3_nhousing:c_free_factor_housing"], factor)
        tan = figures(read, CUTS)["tan_into_housing"]
        self.assertEqual(made["nh3_nhousing"], divmod_of(tan * factor[0], BILLION))

    def test_pigs(self):
        """7 pigs, 13.337 kg, TAN 33.33 percent in a label house with filter and low impulse air, free 7."""
        texts = {
            "animals": "7",
            "inp_n_excretion": "13.337",
            "tan_fraction": "33.33",
            "housing_type": "Slurry_Label",
            "air_scrubber": "biotrickling",
            "mitigation_housing_air": "low_impuls_air_supply",
            "free_correction_factor": "7",
        }
        made = self.made(herd(PIGS, OUTDOOR_PIGS, **texts))
        n = 7 * 13337
        tan = n * 3333 // 10000
        before, grazing = 361584000, 451980000
        for name, due in (
            ("tan_excretion", divmod_of(n * 3333, 10000)),
            ("ef_housing_indoor_before_air_scrubber:c_free_factor_housing", (grazing, 0, 100)),
            ("ef_housing_indoor_before_air_scrubber:red_housing_air", (before, 0, 10)),
            ("ef_housing_indoor", (108475200, 0, 10)),
            ("ef_housing_grazing:c_free_factor_housing", (grazing, 0, 100)),
            ("ef_nh3_nhousing:ef_housing_indoor", (54237600, 0, 10)),
            ("ef_nh3_nhousing:ef_housing_grazing", (225990000, 0, 10)),
            ("nh3_nhousing", divmod_of(tan * 280227600, BILLION)),
            ("tan_air_scrubber:tan_excretion", divmod_of(tan * 350000000, BILLION)),
            (
                "tan_air_scrubber:ef_housing_indoor_before_air_scrubber",
                divmod_of(tan * 350000000 // BILLION * before, BILLION),
            ),
            ("n2_nsolid", (0, 0, 10000)),
            ("n2_nliquid", divmod_of(n * 200, 10000)),
            ("no_nliquid", divmod_of(n * 20, 10000)),
            ("n2o_nliquid", divmod_of(n * 20, 10000)),
        ):
            self.assertEqual(made[name], due, name)

    def test_whole_year_on_pasture(self):
        for days, hours, made in (("365", "24", False), ("365", "23.9", True), ("364", "24", True)):
            read = herd(ROUGHAGE, DEER, grazing_days=days, grazing_hours=hours)
            self.assertEqual("c_grazing" in self.made(read), made, (days, hours))

    def test_records(self):
        lines = lines_of(PIGS, OUTDOOR_PIGS, label="P, 1")
        self.assertEqual(
            answer(file_of(lines), CUTS_OFF).decode().splitlines()[:2],
            [
                '"P, 1",Livestock::FatteningPigs::Excretion,tan_excretion,0,10000',
                '"P, 1",Livestock::FatteningPigs::Grazing,nh3_ngrazing,0,10000',
            ],
        )


class MoreAnimals(unittest.TestCase):
    """Request W14: one more animal, or a gram more of N a head, and never less NH3."""

    def with_more(self, read, name, more):
        return figures(replace(read, given={**read.given, name: read.given[name] + more}), CUTS)

    def check_no_less(self, few, many):
        for name, amount in few.items():
            if name.startswith("nh3_"):
                self.assertLessEqual(amount, many[name], name)

    def test_herds(self):
        dice = Dice(14)
        for kind in KINDS:
            for label in range(HERDS_OF_A_KIND):
                (read,) = read_farm(file_of(herd_lines(dice, str(label), kind)))
                worked = figures(read, CUTS)
                self.check_no_less(worked, self.with_more(read, "animals", 1))
                if read.given["inp_n_excretion"] != STANDARD:
                    self.check_no_less(worked, self.with_more(read, "inp_n_excretion", Fraction(1, 1000)))

    def test_small_herds(self):
        """Where a cut weighs the most: a few grams a head."""
        yards = NOT_SUPPLIED, PARTLY, EXCLUSIVELY
        for grams, yard, hours in itertools.product(range(1, 8), yards, ("6", "12", "24")):
            changes = {"inp_n_excretion": f"0.00{grams}", "exercise_yard": yard, "grazing_hours": hours}
            read = herd(CATTLE, C, animals="0", **changes)
            worked = [self.with_more(read, "animals", animals) for animals in range(60)]
            for few, many in itertools.pairwise(worked):
                self.check_no_less(few, many)

    def test_what_falls(self):
        """TAN remaining, and TAN into a housing behind a yard, can fall."""
        small = {**C, "tan_fraction": "20", "grazing_days": "365"}
        gram = {**small, "animals": "24", "inp_n_excretion": "0.001"}
        three_grams = {**small, "animals": "18", "inp_n_excretion": "0.003", "exercise_yard": NOT_SUPPLIED}
        for texts, name, was, then in (
            (ROW_4, "tan_remain_grazing", -5226, -5748),
            ({**three_grams, "grazing_hours": "24"}, "tan_remain_grazing", 9, 8),
            (gram, "tan_into_housing", 3, 2),
        ):
            read = herd(CATTLE, texts)
            self.assertEqual((figures(read, CUTS)[name], self.with_more(read, "animals", 1)[name]), (was, then))


def divmod_of(dividend, divisor):
    """Quotient, what was cut off, divisor."""
    return (*divmod(dividend, divisor), divisor)


class Listings(unittest.TestCase):
    def test_every_output_name(self):
        for kind, texts in HERD_OF_KIND.items():
            lines = answer(file_of(lines_of(kind, texts))).decode().split("\r\n")
            expected = [tuple(pair.split()) for pair in HERD_LINES[kind].split(",")]
            listed = [tuple(line.split(",")[1:3]) for line in lines if line.startswith("H,")]
            self.assertEqual(listed, [(f"{kind.path}::{m}", name) for m, name in expected])

    def test_only_a_comma_is_quoted(self):
        for label, written_label in (("a,b", '"a,b"'), (" a'b ", " a'b ")):
            listing = answer(file_of(lines_of(PIGS, OUTDOOR_PIGS, label))).decode()
            first = f"{written_label},Livestock::FatteningPigs::Excretion,n_excretion,130.000\r\n"
            self.assertTrue(listing.startswith(first))

    def test_no_herds(self):
        expected = [line.rsplit(b",", 1)[0] + b",0.000" for line in PIG_LISTING.splitlines()[PIG_LINES:]]
        self.assertEqual(answer(b"").splitlines(), expected)


class Refusals(unittest.TestCase):
    def test_single_faults(self):
        """Each way of spoiling a line gives its own refusal and that line's number."""
        dice = FarmDice(5)
        for number in damage.FAULTS:
            for _ in range(100):
                lines, line = damage.lines_with_spot(dice, 3)
                damage.put_fault(dice, lines, line, number)
                # With the last CRLF: an empty line at the end of a file without it is no record.
                file = file_of(lines, lambda: dice.one_in(5))
                self.assertEqual(refusal(file), (number, lines.index(line) + 1))

    def test_missing_inputs(self):
        dice = FarmDice(6)
        for _ in range(100):
            lines = farm_lines(dice, 3)
            line = dice.pick(lines)
            first = lines.index(damage.herd_of(lines, line)[0])
            lines.remove(line)
            self.assertEqual(refusal(written(dice, lines)), (12, first + 1))

    def test_herd_too_many(self):
        dice = Dice(7)
        herds = [herd_lines(dice, label, PIGS) for label in new_labels(dice, STANDARD_INPUT.herds + 1)]
        self.assertIsNone(refusal(file_of(itertools.chain(*herds[:-1]))))
        self.assertEqual(refusal(file_of(itertools.chain(*herds)))[0], 9)

    def test_every_bad_value(self):
        for kind, listed in ((kind, listed) for kind in KINDS for listed in kind.inputs):
            for text in faults.bad_values(listed):
                line = line_for(kind, "H", listed, text)
                self.assertEqual(refusal(file_of([line])), (7, 1), (listed.name, text))

    def test_names_of_pig_houses(self):
        """The values are the names of the formulas; a list with one name takes no other."""
        for name, taken, not_taken in (
            ("air_scrubber", ("acid", "biotrickling", "none"), ("biotrickling_filter", "Acid", "", "0.9")),
            ("mitigation_housing_floor", ("none",), ("", "None", "low_impuls_air_supply")),
            ("mitigation_housing_air", ("low_impuls_air_supply", "none"), ("low_impulse_air_supply", "acid", "")),
        ):
            for text in taken:
                self.assertIsNone(refusal(file_of(lines_of(PIGS, {**OUTDOOR_PIGS, name: text}))), text)
            for text in not_taken:
                file = file_of(lines_of(PIGS, {**OUTDOOR_PIGS, name: text}))
                self.assertEqual(refusal(file)[0], 7, text)

    def test_pigs_lack_an_input(self):
        for place in range(len(PIGS.inputs)):
            lines = lines_of(PIGS, OUTDOOR_PIGS)
            del lines[place]
            self.assertEqual(refusal(file_of(lines)), (12, 1))

    def test_ranges(self):
        for kind, texts in HERD_OF_KIND.items():
            for name in RANGES.keys() & texts.keys():
                taken, not_taken = RANGES[name]
                for text in taken:
                    self.assertIsNone(refusal(file_of(lines_of(kind, {**texts, name: text}))))
                for text in not_taken:
                    file = file_of(lines_of(kind, {**texts, name: text}))
                    self.assertEqual(refusal(file)[0], 7, (name, text))

    def test_labels(self):
        for label in ("A" * 16, "," * 16, " ", "!", "~"):
            self.assertIsNone(refusal(file_of(lines_of(PIGS, OUTDOOR_PIGS, label))))
        for label in ("", "A" * 17, "," * 17, "\x1f", "\x7f", "\x80", '"'):
            self.assertEqual(refusal(file_of(lines_of(PIGS, OUTDOOR_PIGS, label))), (4, 1))

    def test_records(self):
        """Where records begin, end and break."""
        for file, expected in (
            (b"", None),
            (b"\r\n", (3, 1)),
            (b"\r\n\r\n", (3, 1)),
            (b"\r", (2, 1)),
            (b"\n", (2, 1)),
            (b'"', (2, 1)),
            (b'""', (3, 1)),
            (b'"a"b', (2, 1)),
            (b'a"b', (2, 1)),
            (b'"a\r\nb"', (3, 1)),
            (b",,,", (4, 1)),
            (b",,,,", (3, 1)),
            (b',,,,,"', (2, 1)),
            (b"H,x,y,z", (5, 1)),
            (b"H,x,y,z\r", (2, 1)),
            (b"\0,x,y,z", (4, 1)),
            (b"\xff,x,y,z\r\n", (4, 1)),
            (PIG_FILE[:-2], None),
            (PIG_FILE[:-1], (2, 8)),
            (PIG_FILE + b"\r\n", (3, 9)),
            (PIG_FILE + b"\r", (2, 9)),
            (PIG_FILE + b'"', (2, 9)),
            (PIG_FILE.replace(b"P1", b'"P1"', 2), None),
            (PIG_FILE.replace(b"P1", b'"P""1"'), (4, 1)),
            (PIG_FILE.replace(b",10\r", b',"10"\r'), None),
            (PIG_FILE.replace(b",10\r", b',"1""0"\r'), (7, 1)),
            (PIG_FILE.replace(b",10\r", b",10\n"), (2, 1)),
            (PIG_FILE.replace(b",10\r", b",x\r").replace(b"Outdoor", b'"'), (7, 1)),
        ):
            self.assertEqual(refusal(file), expected, file)

    def test_order(self):
        """Two faults in one record: the earlier number is given."""
        animals = b"Livestock::OtherCattle::Excretion,animals"
        kilograms = b"Livestock::OtherCattle::Excretion,inp_n_excretion"
        open_herds = b"A," + animals + b",1\r\nB," + animals + b",1\r\n"
        for record, number in (
            (b'"",x,y"', 2),
            (b"," + animals, 3),
            (b"," + b"x,y,z", 4),
            (b"A,x,animals,standard", 5),
            (b"A," + kilograms + b",Standard", 6),
            (b"A," + animals + b",Standard", 7),
            (b"A," + animals + b",1", 8),
            (b"A,Livestock::FatteningPigs::Excretion,animals,1", 8),
            (b"B,Livestock::FatteningPigs::Excretion,animals,1", 10),
            (b"B," + animals + b",2", 11),
            (b"B," + animals + b",x", 7),
        ):
            self.assertEqual(refusal(open_herds + record), (number, 3), record)
        self.assertEqual(refusal(open_herds), (12, 1))


def whole_herds(count):
    """As many whole herds, in few bytes."""
    return file_of(cooperative_cases.shortest_herds(count))


class Cooperatives(unittest.TestCase):
    """Request W12: larger files and farms, by limits that are an argument."""

    def test_herds(self):
        """Herd 512 is taken and 513 is refused at its first record; from standard input herd 65 still is."""
        records = len(ROUGHAGE.inputs)
        self.assertEqual(len(read_farm(whole_herds(512), COOPERATIVE)), 512)
        self.assertEqual(refusal(whole_herds(513), COOPERATIVE), (9, 512 * records + 1))
        self.assertIsNone(refusal(whole_herds(65), COOPERATIVE))
        self.assertEqual(refusal(whole_herds(65)), (9, 64 * records + 1))

    def test_bytes(self):
        """262,144 bytes are accepted, one more is refused, and from standard input 65,537 still are."""
        lines = cooperative_cases.lean_herds(FarmDice(8), 512)
        for size, expected in ((262144, None), (262145, (1, 0)), (262146, (1, 0))):
            file = cooperative_cases.of_size(lines, size)
            self.assertEqual((len(file), refusal(file, COOPERATIVE)), (size, expected))
        lines = cooperative_cases.lean_herds(FarmDice(9), 130)
        for size, expected in ((65536, (9, 529)), (65537, (1, 0))):
            file = cooperative_cases.of_size(lines, size)
            self.assertEqual((len(file), refusal(file)), (size, expected))
            self.assertIsNone(refusal(file, COOPERATIVE))

    def test_any_limits(self):
        """Herds and bytes count by themselves, and no herd at all is a limit too."""
        five = whole_herds(5)
        for limits, expected in (
            (Limits(len(five), 5), None),
            (Limits(len(five) - 1, 5), (1, 0)),
            (Limits(len(five), 4), (9, 29)),
            (Limits(len(five), 0), (9, 1)),
            (Limits(0, 0), (1, 0)),
        ):
            self.assertEqual(refusal(five, limits), expected)
        self.assertEqual(read_farm(b"", Limits(0, 0)), [])

    def test_order(self):
        """8 comes before 9 and 9 before 10, at the last herd that there is room for as at any other."""
        full = whole_herds(512)
        animals = b"Livestock::OtherCattle::Excretion,animals,1\r\n"
        for record, number in ((b"0," + animals, 8), (b"511," + animals, 10), (b"512," + animals, 9)):
            self.assertEqual(refusal(full + record, COOPERATIVE), (number, 3585))

    def test_limits_change_nothing_else(self):
        """A file within both limits is answered alike."""
        dice = FarmDice(10)
        for _ in range(300):
            file = damage.random_file(dice)
            if refusal(file) is None or refusal(file)[0] != 9:
                self.assertEqual(answer(file), answer(file, limits=COOPERATIVE))

    def test_example(self):
        """The stored file is the one that is made now, with its answer: 300 herds, of every kind."""
        file = cooperative.cooperative()
        self.assertEqual(COOPERATIVE_EXAMPLE.read_bytes(), file)
        self.assertEqual(COOPERATIVE_EXAMPLE.with_suffix(".out").read_bytes(), answer(file, limits=COOPERATIVE))
        herds = read_farm(file, COOPERATIVE)
        self.assertEqual((len(herds), {read.kind for read in herds}), (300, set(KINDS)))


class LentArrays(unittest.TestCase):
    """Request W12: the farm's herds in an array that a caller lends, and a farm's record of an array and a count."""

    def lent(self, length):
        """An array with something in every entry."""
        return [f"entry {i}" for i in range(length)]

    def test_reading(self):
        """The herds stand in front, and what the array holds beyond the last one stays."""
        for herds, length in ((0, 0), (0, 3), (5, 5), (5, 6), (300, 300), (300, 400), (512, 512), (512, 600)):
            array, file = self.lent(length), whole_herds(herds)
            self.assertEqual(lent.read_into(file, array), herds)
            self.assertEqual(array[:herds], read_farm(file, COOPERATIVE))
            self.assertEqual(array[herds:], self.lent(length)[herds:])

    def test_refused(self):
        """After a refusal the whole array is as it was, however many herds were good."""
        records = len(ROUGHAGE.inputs)
        for file, length, expected in (
            (whole_herds(5), 4, (9, 4 * records + 1)),
            (whole_herds(1), 0, (9, 1)),
            (whole_herds(300), 299, (9, 299 * records + 1)),
            (whole_herds(513), 600, (9, 512 * records + 1)),
            (whole_herds(300) + b"x", 512, (3, 300 * records + 1)),
            (whole_herds(300) + b'"', 300, (2, 300 * records + 1)),
            (whole_herds(300).removesuffix(b",3\r\n") + b",25\r\n", 300, (7, 300 * records)),
            (whole_herds(300).rsplit(b"299,", 1)[0], 300, (12, 299 * records + 1)),
            (b"x" * 262145, 512, (1, 0)),
            (b"x" * 262145, 0, (1, 0)),
            (b"x" * 262144, 0, (3, 1)),
        ):
            array = self.lent(length)
            self.assertEqual(refusal_of(lent.read_into, file, array), expected)
            self.assertEqual(array, self.lent(length))

    def test_farm_record(self):
        """What was read is a farm's record with the same totals; so is each beginning of it."""
        file = COOPERATIVE_EXAMPLE.read_bytes()
        array = self.lent(400)
        count = lent.read_into(file, array)
        worked = [figures(read, CUTS) for read in read_farm(file, COOPERATIVE)]
        for herds in (0, 1, 299, count):
            self.assertEqual(lent.farm_totals(array, herds), totals(worked[:herds]))

    def test_count(self):
        """A count beyond the array, or beyond 512, is 9 with record 0, before any herd is looked at."""
        herds = read_farm(whole_herds(512), COOPERATIVE)
        for array, count in ((self.lent(0), 1), (self.lent(5), 6), (self.lent(600), 513), (self.lent(600), 601)):
            self.assertEqual(refusal_of(lent.farm_totals, array, count), (9, 0))
        for array, count in (([], 0), (self.lent(5), 0), (herds[:5], 5), (herds, 512), (herds + self.lent(88), 512)):
            self.assertIsNone(refusal_of(lent.farm_totals, array, count))

    def test_herds_of_a_record(self):
        """Herd by herd 4, 8, 12 and 7, always with record 0; beyond the count nothing is looked at."""

        def changed(place, **changes):
            herds = read_farm(whole_herds(3), COOPERATIVE)
            herds[place] = replace(herds[place], **changes)
            return herds

        given = changed(0)[0].given
        lacking = {name: value for name, value in given.items() if name != "grazing_days"}
        beyond = {**given, "animals": 10001}
        cattle = read_farm(file_of(lines_of(CATTLE, C)), COOPERATIVE)[0]
        for herds, expected in (
            (changed(0), None),
            (changed(0, label=""), (4, 0)),
            (changed(1, label="A" * 17), (4, 0)),
            (changed(2, label="0"), (8, 0)),
            (changed(1, given=lacking), (12, 0)),
            (changed(1, given=beyond), (7, 0)),
            (changed(1, given={**given, "animals": Fraction(1, 2)}), (7, 0)),
            (changed(1, given={**given, "animals": STANDARD}), (7, 0)),
            (changed(1, given={**given, "tan_fraction": STANDARD}), None),
            (changed(1, given={**given, "animalcategory": "cow"}), (7, 0)),
            (changed(1, given={**given, "free_correction_factor": -100}), None),
            (changed(1, given={**given, "free_correction_factor": -101}), (7, 0)),
            ([cattle], None),
            ([replace(cattle, given={**cattle.given, "tan_fraction": STANDARD})], (7, 0)),
            (changed(1, label="", given=lacking), (4, 0)),
            (changed(1, label="0", given=lacking), (8, 0)),
            (changed(1, given={**lacking, "animals": 10001}), (12, 0)),
            ([changed(0, given=beyond)[0], *changed(1, label="")[1:]], (7, 0)),
        ):
            self.assertEqual(refusal_of(lent.farm_totals, herds, len(herds)), expected)
        self.assertIsNone(refusal_of(lent.farm_totals, changed(2, label=""), 2))

    def test_entries_as_numbers(self):
        """01's pigs: each number in units of its last decimal, each name by its place, and a slot that says nothing."""
        (pigs,) = read_farm(PIG_FILE)
        slots = [2, 10, 2, 13000, 2, 7000, 2, 4, 2, 2, 2, 0, 2, 1, 3, 0, 0, 0]
        self.assertEqual(list(lent_cases.numbers_of(pigs)), [2, *b"P1", *[0] * 14, 2, *slots])
        deer = herd(ROUGHAGE, DEER, free_correction_factor="-5", grazing_hours="12.5")
        slots = [2, 0, 2, 10, 1, 0, 1, 0, 4, 5, 2, 0, 2, 125, *[0] * 4]
        self.assertEqual(list(lent_cases.numbers_of(deer)), [1, *b"H", *[0] * 15, 0, *slots])

    def test_every_entry_counts(self):
        """The checksum is another where an entry is touched, left, moved, or another herd."""
        first, second, third = read_farm(whole_herds(3), COOPERATIVE)
        filler = lent_cases.FILLER
        arrays = (
            [first, second, filler, filler],
            [first, second, filler, third],
            [first, filler, filler, filler],
            [first, filler, second, filler],
            [second, first, filler, filler],
            [first, third, filler, filler],
            [first, first, filler, filler],
            [filler] * 4,
        )
        self.assertEqual(len({lent_cases.entries_sum(array) for array in arrays}), len(arrays))


class FollowedTotals(unittest.TestCase):
    """Request W11: a herd is added, replaced or removed, and the stored totals follow."""

    def setUp(self):
        self.cows, self.pigs = herd_of(DAIRY_COWS, COWS, "Cows"), herd_of(PIGS, OUTDOOR_PIGS, "Pigs")
        self.deer, self.others = herd_of(ROUGHAGE, DEER, "Deer"), herd_of(PIGS, HOUSED_PIGS, "Cows")

    def farm(self, *herds, length=4):
        array = [*herds, *(f"entry {i}" for i in range(len(herds), length))]
        return array, fresh_book(array, len(herds))

    def test_done(self):
        """An added herd goes last, a replaced one stays, those behind a removed one move up; the rest is as it was."""
        cows, pigs, deer, others = self.cows, self.pigs, self.deer, self.others
        for step, named, after in (
            (ADD, deer, [cows, pigs, deer, "entry 3"]),
            (REPLACE, others, [others, pigs, "entry 2", "entry 3"]),
            (REMOVE, "Cows", [pigs, pigs, "entry 2", "entry 3"]),
            (REMOVE, "Pigs", [cows, pigs, "entry 2", "entry 3"]),
        ):
            array, book = self.farm(cows, pigs)
            book = take_step(array, book, step, named)
            self.assertEqual(array, after)
            self.assertEqual(book, fresh_book(array, {ADD: 3, REPLACE: 2, REMOVE: 1}[step]))

    def test_any_totals(self):
        """Stored totals that are not the farm's move by exactly the old and the new herd's figures."""
        old, new = (totals([figures(herd, CUTS)]) for herd in (self.cows, self.others))
        for grams in (0, -7, FARTHEST, -FARTHEST):
            stored = dict.fromkeys(TOTALS, grams)
            for step, named, moves in (
                (ADD, self.deer, totals([figures(self.deer, CUTS)])),
                (REPLACE, self.others, {name: new[name] - old[name] for name in TOTALS}),
                (REMOVE, "Cows", {name: -old[name] for name in TOTALS}),
            ):
                array, book = self.farm(self.cows, self.pigs)
                after = take_step(array, replace(book, totals=stored), step, named)
                self.assertEqual(after.totals, {name: grams + moves[name] for name in TOTALS})

    def test_refusals(self):
        """Each number in its order, record 0 in all; nothing has changed then."""
        cows, pigs, deer = self.cows, self.pigs, self.deer
        bare = replace(deer, given={})
        beyond = replace(deer, given={**deer.given, "animals": 10001})
        far = {"totals": {**dict.fromkeys(TOTALS, 0), "n2_ngrazing": FARTHEST + 1}}
        far_below = {"totals": {**dict.fromkeys(TOTALS, 0), "tan_remain_grazing": -FARTHEST - 1}}
        for herds, changes, step, named, number in (
            ([cows, cows], far, ADD, replace(bare, label=""), 8),
            ([cows, replace(pigs, label="")], far, ADD, deer, 4),
            ([cows, replace(pigs, given={})], far, REMOVE, "Cows", 12),
            ([cows, pigs], {"count": 5, **far}, REMOVE, "", 9),
            ([cows, pigs], far, ADD, replace(bare, label=""), 16),
            ([cows, pigs], far_below, REMOVE, "Cows", 16),
            ([cows, pigs], far, REPLACE, replace(cows, label="None"), 16),
            ([cows, pigs], {}, ADD, replace(bare, label=""), 4),
            ([cows, pigs], {}, REPLACE, replace(bare, label="A" * 17), 4),
            ([cows, pigs], {}, REMOVE, 'A"', 4),
            ([cows, pigs], {}, REPLACE, bare, 15),
            ([cows, pigs], {}, REMOVE, "cows", 15),
            ([cows, pigs, deer, replace(deer, label="D")], {}, ADD, replace(bare, label="Pigs"), 8),
            ([cows, pigs, deer, replace(deer, label="D")], {}, ADD, replace(bare, label="E"), 9),
            ([cows, pigs], {}, ADD, replace(bare, given={"animals": 10001}), 12),
            ([cows, pigs], {}, REPLACE, replace(bare, label="Cows"), 12),
            ([cows, pigs], {}, ADD, beyond, 7),
            ([cows, pigs], {}, REPLACE, replace(beyond, label="Cows"), 7),
        ):
            array = [*herds, *[None] * (4 - len(herds))]
            book = replace(Book(len(herds), dict.fromkeys(TOTALS, 0)), **changes)
            before = list(array)
            self.assertEqual(refusal_of(take_step, array, book, step, named), (number, 0))
            self.assertEqual(array, before)

    def test_at_the_bound(self):
        for grams in (FARTHEST, -FARTHEST):
            array, book = self.farm(self.cows)
            book = take_step(array, replace(book, totals=dict.fromkeys(TOTALS, grams)), ADD, self.pigs)
            self.assertEqual(book.totals["n_excretion"], grams + 130_000)

    def test_room(self):
        """The room of a removed herd serves the next; an array of more than 512 has room for 512."""
        array, book = self.farm(self.cows, self.pigs, length=2)
        self.assertEqual(refusal_of(take_step, array, book, ADD, self.deer), (9, 0))
        book = take_step(array, take_step(array, book, REMOVE, "Cows"), ADD, self.deer)
        self.assertEqual((array, book.count), ([self.pigs, self.deer], 2))
        array = read_farm(whole_herds(512), COOPERATIVE) + [None]
        self.assertEqual(refusal_of(take_step, array, fresh_book(array, 512), ADD, self.deer), (9, 0))
        self.assertEqual(take_step(array, fresh_book(array, 511), ADD, self.deer).count, 512)

    def test_walks(self):
        """The stored totals are those worked out afresh, after every step of every farm that began with its own."""
        compared, given = 0, set()
        for walk in steps_cases.every_walk():
            self.assertEqual(steps_cases.walk_from(steps_cases.walk_bytes(walk)), walk)
            began = refusal_of(fresh_book, list(walk.herds), walk.book.count) is None and (
                fresh_book(list(walk.herds), walk.book.count) == walk.book
            )
            for array, book, number in steps_cases.after_each(walk):
                given.add(number)
                if began:
                    self.assertEqual(book, fresh_book(array, book.count))
                    compared += 1
        self.assertGreater(compared, 1000)
        self.assertEqual(given, {None, 4, 7, 8, 9, 12, 15, 16})

    def test_edit(self):
        """What the command prints: behind each step the totals or the refusal's line, and its status."""
        cows = file_of(lines_of(DAIRY_COWS, COWS, "Cows"))
        totals_of = lambda file: answer(file).split(b"\r\n,", 1)[1]  # noqa: E731
        both, one = b"," + totals_of(PIG_FILE + cows), b"," + totals_of(cows)
        for steps, expected in (
            ([(ADD, cows)], (both, DONE)),
            ([(ADD, cows), (REMOVE, b"P1")], (both + one, DONE)),
            ([(ADD, cows), (ADD, cows), (REMOVE, b"P1")], (both + b"refused,8,0\r\n" + one, REFUSED)),
            ([(REPLACE, cows)], (b"refused,15,0\r\n", REFUSED)),
            ([(REMOVE, b"")], (b"refused,4,0\r\n", REFUSED)),
            ([(ADD, b"H"), (ADD, cows)], (b"refused,3,1\r\n" + both, REFUSED)),
            ([(ADD, cows), (ADD, b""), (ADD, cows)], (both, FAILED)),
            ([(ADD, PIG_FILE + cows)], (b"", FAILED)),
            ([], (b"", DONE)),
        ):
            self.assertEqual(edit(PIG_FILE, steps), expected)
        self.assertEqual(edit(b"H", [(ADD, cows)]), (b"refused,3,1\r\n", REFUSED))
        said_of = edit(PIG_FILE, [(ADD, cows), (REMOVE, b"P1")], only_the_farm=True)
        self.assertEqual(said_of, (write.answer(cows), DONE))
        self.assertEqual(edit(PIG_FILE, [(REMOVE, b"P2")], only_the_farm=True), (write.answer(PIG_FILE), REFUSED))


class GateLogs(unittest.TestCase):
    """Request W10, on logs that are written out from its text."""

    def days(self, year, **changes):
        """A year's records, an hour on pasture each day, changed on some dates: m03_d01=(pasture, yard)."""
        days = [[date, "1", "0"] for date in gatelog.dates_of(year)]
        for name, (pasture, yard) in changes.items():
            date = f"{year:04}-{name[1:3]}-{name[5:7]}"
            (place,) = [place for place, day in enumerate(days) if day[0] == date]
            days[place] = [date, pasture, yard]
        return days

    def expect(self, days, grazing_days, yard_days, hours):
        lines = (f"grazing_days,{grazing_days}", f"yard_days,{yard_days}", f"grazing_hours,{hours}")
        due = "".join(line + "\r\n" for line in lines)
        self.assertEqual(gatelog.answer(gate_cases.file_of(days)).decode(), due)

    def expect_refusal(self, days, number, record):
        due = f"refused,{number},{record}\r\n".encode()
        self.assertEqual(gatelog.answer(gate_cases.file_of(days)), due)

    def test_years(self):
        for year in (2023, 2024, 1900, 2000, 2100, 0, 4, 100, 9999):
            leap = year in (2024, 2000, 0, 4)
            dates = gatelog.dates_of(year)
            self.assertEqual(len(dates), 365 + leap)
            self.assertEqual((dates[0], dates[-1]), (f"{year:04}-01-01", f"{year:04}-12-31"))
            self.assertEqual(f"{year:04}-02-29" in dates, leap)
            self.assertEqual(dates, sorted(set(dates)))
        self.assertEqual(gatelog.dates_of(2023)[58:60], ["2023-02-28", "2023-03-01"])

    def test_what_it_comes_to(self):
        self.expect(self.days(2023), 365, 0, "1.0")
        self.expect(self.days(2024), 365, 0, "1.0")
        self.expect(self.days(2024, m02_d29=("24", "0")), 365, 0, "1.0")
        self.expect(self.days(2024, m02_d29=("0", "24")), 365, 0, "1.0")
        self.expect(self.days(2023, m03_d01=("0.0", "24.0")), 364, 1, "1.0")
        none = [[date, "0", "2.5"] for date in gatelog.dates_of(2023)]
        self.expect(none, 0, 365, "0.0")
        self.expect([["2023-01-01", "10", "0"], ["2023-01-02", "0.5", "0"], *none[2:]], 2, 363, "5.2")
        self.expect([["2023-01-01", "9.9", "0"], ["2023-01-02", "10.0", "14"], *none[2:]], 2, 364, "9.9")

    def test_refusals(self):
        days = self.days(2023)
        self.expect_refusal([], 14, 0)
        self.expect_refusal(days[:-1], 14, 0)
        self.expect_refusal(days + [["2024-01-01", "1", "0"]], 14, 366)
        self.expect_refusal(days + [["2023-12-31", "1", "0"]], 14, 366)
        self.expect_refusal(days[1:], 14, 1)
        self.expect_refusal(days[:59] + [["2023-02-29", "1", "0"]] + days[59:], 14, 60)
        self.expect_refusal(self.days(1900)[:59] + [["1900-02-29", "1", "0"]], 14, 60)
        self.expect_refusal(self.days(2000)[:59] + [["2000-02-30", "1", "0"]], 14, 60)
        self.expect_refusal(days[:9] + days[10:], 14, 10)
        self.expect_refusal(days[:9] + days[8:], 14, 10)
        for hours in (("24", "0.1"), ("12.5", "11.6"), ("24.1", "0"), ("1.05", "0")):
            self.expect_refusal([["2023-01-01", *hours]], 7, 1)
        for hours in (("24.0", "0"), ("12.5", "11.5"), ("0", "24")):
            self.expect_refusal([["2023-01-01", *hours]], 14, 0)
        for fields, number in (
            (['x"', "25"], 2),
            (["x", "25"], 3),
            (["2023-01-01", "1", "0", ""], 3),
            (["x", "25", "0"], 7),
            (["x", "24", "0"], 14),
        ):
            self.expect_refusal(days[:4] + [fields], number, 5)
        self.assertEqual(gatelog.answer(b"x" * 65536), b"refused,3,1\r\n")
        self.assertEqual(gatelog.answer(b"x" * 65537), b"refused,1,0\r\n")

    def test_ranges(self):
        """What comes out is a value that a farm file takes."""
        taken = {listed.name: listed.values for listed in CATTLE.inputs}
        for log in gate_cases.every_log():
            out = gatelog.answer(log).decode()
            if not out.startswith("refused"):
                for line in out.splitlines():
                    name, text = line.split(",")
                    self.assertIsNotNone(taken[name].read(text), log)
def bare_places(file):
    """The places of bare LFs, each judged by the bytes before it."""
    return [
        place
        for place, byte in enumerate(file)
        if byte == 10 and not file[:place].endswith(b"\r") and file[:place].count(b'"') % 2 == 0
    ]


class Mending(unittest.TestCase):
    """Request W6, on the files of its pack."""

    def test_examples(self):
        mark = b"\xef\xbb\xbf"
        for file, out, changed in (
            (b"", b"", []),
            (mark, b"", [(1, 0)]),
            (mark + mark, mark, [(1, 0)]),
            (b"a" + mark + b"\n", b"a" + mark + b"\r\n", [(2, 4)]),
            (b"\n", b"\r\n", [(2, 0)]),
            (mark + b"\n", b"\r\n", [(1, 0), (2, 3)]),
            (b"a\nb\r\nc\r\r\n", b"a\r\nb\r\nc\r\r\n", [(2, 1)]),
            (b'"\n"\n', b'"\n"\r\n', [(2, 3)]),
            (b'"\n""\n"\n', b'"\n""\n"\r\n', [(2, 6)]),
            (b'a"\n', b'a"\n', []),
            (b"\n\n", b"\r\n\r\n", [(2, 0), (2, 1)]),
        ):
            self.assertEqual(mend.mended(file), out, file)
            self.assertEqual(mend.changes(file), changed, file)

    def test_every_file(self):
        """The changes are the faults, in rising places; undone, they give the old file back; a second mark alone is left."""
        for file in mend_cases.every_file():
            out, changed = mend.mended(file), mend.changes(file)
            marks = [(1, 0)] if file[:3] == b"\xef\xbb\xbf" else []
            self.assertEqual(changed, marks + [(2, place) for place in bare_places(file)], file)
            self.assertEqual([place for _, place in changed], sorted({place for _, place in changed}), file)
            self.assertEqual(mend.undone(changed, out), file, file)
            self.assertEqual(changed == [], out == file, file)
            again = [(1, 0)] if file[:6] == b"\xef\xbb\xbf\xef\xbb\xbf" else []
            self.assertEqual(mend.changes(out), again, file)

    def test_damaged_farms(self):
        """A farm file with a mark in front and no CRs at its records' ends comes back, and an accepted one stays."""
        dice = FarmDice(8)
        for _ in range(FARMS):
            lines = farm_lines(dice, 2)
            file = written(dice, lines)
            self.assertEqual(mend.mended(file), file)
            self.assertEqual(mend.changes(file), [])
            bare = b"\xef\xbb\xbf" + file.replace(b"\r\n", b"\n")
            self.assertEqual(mend.mended(bare), file)
            self.assertNotEqual(refusal(bare), None)


# How long a herd of each kind may be as it is written, and the values that make it so long. The label has 16 bytes and
# two quotes.
LONGEST_CATTLE = {
    "animals": "10000",
    "inp_n_excretion": "199.999",
    "tan_fraction": "99.99",
    "yard_days": "365",
    "exercise_yard": EXCLUSIVELY,
    "floor_properties_exercise_yard": "paddock_or_pasture_used_as_exercise_yard",
    "free_correction_factor": "-100",
    "grazing_days": "365",
    "grazing_hours": "23.9",
}
LONGEST_HERDS = {
    ROUGHAGE: (
        591,
        {
            **DEER,
            "animalcategory": "alpaca_younger_than_2yr",
            "animals": "10000",
            "free_correction_factor": "-100",
            "grazing_days": "365",
            "grazing_hours": "23.9",
        },
    ),
    CATTLE: (759, LONGEST_CATTLE),
    PIGS: (
        727,
        {
            "animals": "10000",
            "inp_n_excretion": "199.999",
            "tan_fraction": "99.99",
            "housing_type": "Slurry_Conventional",
            "air_scrubber": "biotrickling",
            "mitigation_housing_floor": "none",
            "mitigation_housing_air": "low_impuls_air_supply",
            "free_correction_factor": "-100",
        },
    ),
    DAIRY_COWS: (735, {**LONGEST_CATTLE, "tan_fraction": "standard"}),
}


def said(herds):
    """What herds say: their labels, kinds and inputs, in order, and not where they stood."""
    return [(herd.label, herd.kind, herd.given) for herd in herds]


class Writing(unittest.TestCase):
    """Request W5: a farm written as a file."""

    def written_value(self, kind, name, text):
        """What a value is written as."""
        file = write.farm_file([herd(kind, HERD_OF_KIND[kind], **{name: text})]).decode()
        (found,) = (line.split(",")[3] for line in file.splitlines() if line.split(",")[2] == name)
        return found

    def test_values(self):
        for kind, name, text, expected in (
            (CATTLE, "inp_n_excretion", "0.000", "0"),
            (CATTLE, "inp_n_excretion", "0.001", "0.001"),
            (CATTLE, "inp_n_excretion", "0.010", "0.01"),
            (CATTLE, "inp_n_excretion", "200.000", "200"),
            (CATTLE, "inp_n_excretion", "199.999", "199.999"),
            (CATTLE, "tan_fraction", "100.00", "100"),
            (CATTLE, "tan_fraction", "1.50", "1.5"),
            (CATTLE, "grazing_hours", "24.0", "24"),
            (CATTLE, "grazing_hours", "0.0", "0"),
            (CATTLE, "free_correction_factor", "-100", "-100"),
            (CATTLE, "free_correction_factor", "100", "100"),
            (ROUGHAGE, "tan_fraction", "STANDARD", "standard"),
            (ROUGHAGE, "inp_n_excretion", "Standard", "standard"),
            (DAIRY_COWS, "tan_fraction", "sTANDARD", "standard"),
            (PIGS, "housing_type", "Slurry_Label_Open", "Slurry_Label_Open"),
        ):
            self.assertEqual(self.written_value(kind, name, text), expected, (name, text))

    def test_pigs(self):
        """The inputs in the order of the list, whatever theirs was; quotes round a label with a comma alone."""
        lines = lines_of(PIGS, OUTDOOR_PIGS, "P1")
        for file in (file_of(lines), file_of(lines[::-1]), file_of(lines, lambda: True), file_of(lines)[:-2]):
            self.assertEqual(write.answer(file), PIG_FILE)
        for label, written_label in (("a,b", b'"a,b"'), (" a'b ", b" a'b "), (",", b'","'), (" ", b" ")):
            out = write.answer(file_of(lines_of(PIGS, OUTDOOR_PIGS, label), lambda: True))
            self.assertEqual(out, PIG_FILE.replace(b"P1", written_label))

    def test_no_herds(self):
        self.assertEqual(write.answer(b""), b"")

    def test_every_file(self):
        """Each accepted file is written and read again: the same farm, and the same file the second time."""
        for file in cases.every_file():
            if refusal(file):
                self.assertEqual(write.answer(file), answer(file))
                continue
            herds = read_farm(file)
            out = write.farm_file(herds)
            self.assertEqual(said(read_farm(out)), said(herds), file)
            self.assertEqual(write.answer(out), out, file)
            self.assertLessEqual(len(out), len(file) + 2, file)

    def test_alike(self):
        """Files that read alike are written alike."""
        dice = FarmDice(5)
        for _ in range(FARMS):
            herds = [herd_lines(dice, label, dice.pick(KINDS)) for label in new_labels(dice, 3)]
            first = written(dice, [line for lines in herds for line in lines])
            other = written(dice, [line for lines in herds for line in dice.shuffled(lines)])
            self.assertEqual(write.answer(first), write.answer(other))

    def test_last_bytes(self):
        """A file that is as long as one may be, and lacks its last CRLF, has no room for it."""
        out = write.answer(PIG_FILE)
        refused = b"refused,1,0\r\n"
        for most, expected in ((len(out), out), (len(out) - 1, refused), (len(out) - 2, refused)):
            limits = Limits(bytes=most, herds=64)
            self.assertEqual(write.answer(PIG_FILE.removesuffix(b"\r\n"), limits), expected)

    def test_records(self):
        """Of a farm's record: its own refusals, then 1, then 13, and else what a file of it is written as."""
        herds = [herd_of(CATTLE, LONGEST_CATTLE, f"{number:015},") for number in range(512)]
        file = write.farm_file(herds[:345], COOPERATIVE)
        self.assertEqual(len(file), 345 * 759)
        self.assertEqual(write.record_file(herds, 345, len(file)), file)
        self.assertEqual(said(read_farm(file, COOPERATIVE)), said(herds[:345]))
        for count, room, refusal_given in (
            (513, 0, (9, 0)),
            (346, 0, (1, 0)),
            (512, 512 * 759, (1, 0)),
            (345, len(file) - 1, (13, 0)),
            (1, 0, (13, 0)),
        ):
            with self.assertRaises(Refused) as raised:
                write.record_file(herds, count, room)
            self.assertEqual((raised.exception.number, raised.exception.record), refusal_given, (count, room))
        self.assertEqual(write.record_file(herds, 0, 0), b"")
        herds[3] = replace(herds[3], given={**herds[3].given, "animals": Fraction(10001)})
        with self.assertRaises(Refused) as raised:
            write.record_file(herds, 512, 0)
        self.assertEqual(raised.exception.number, 7)

    def test_longest(self):
        """The longest herd of each kind, one by one and 64 of them; no herd that is thrown is longer."""
        dice = FarmDice(6)
        for kind, (most, texts) in LONGEST_HERDS.items():
            for label in ("a" * 15 + ",", "," * 16):
                self.assertEqual(len(write.farm_file([herd_of(kind, texts, label)])), most)
            for _ in range(HERDS_OF_A_KIND):
                lines = herd_lines(dice, label, kind)
                self.assertLessEqual(len(write.answer(file_of(lines))), most)
            longest = [herd_of(kind, texts, f"{number:015},") for number in range(64)]
            self.assertEqual(len(write.farm_file(longest)), 64 * most)
            self.assertLessEqual(64 * most, 65536)
            self.assertEqual(said(read_farm(write.farm_file(longest))), said(longest))


def rows_of_table(rows):
    """Rows as the table has them, from section, place, name and text."""
    return "\n".join(f'prints "{section}" ({place} "{name}") "{text}"' for section, place, name, text in rows)


PIG_ROWS = rows_of_table(
    (
        ("2.52", "out", "share_indoor", "0.5"),
        ("2.53", "tech", "er", "0.243"),
        ("2.53", "tech", "share_liquid", "1"),
        ("2.54", "tech", "er", "0.486"),
        ("2.54", "tech", "share_liquid", "1"),
        ("2.55", "tech", "er", "0.34"),
        ("2.55", "tech", "share_liquid", "1"),
        ("2.56", "tech", "er", "0.486"),
        ("2.56", "tech", "share_liquid", "0"),
        ("2.57", "tech", "er", "0"),
        ("2.57", "tech", "share_liquid", "0"),
        ("2.58", "tech", "red_acid_air_scrubber", "0.9"),
        ("2.58", "tech", "red_biotrickling_filter_air_scrubber", "0.7"),
        ("2.59", "tech", "red_low_impuls_air_supply", "0.2"),
        *(
            ("2.62", "tech", f"er_{gas}_{fraction}_{house}", rate)
            for gas, slurry, solid in (("n2", "0.02", "0.05"), ("no", "0.002", "0.01"), ("n2o", "0.002", "0.01"))
            for house, rate in (("Slurry", slurry), ("Solid", solid))
            for fraction in ("solid", "liquid")
        ),
    )
)
DAIRY_ROWS = rows_of_table(
    (
        ("2.2", "out", "n_excretion_animal", "0.7"),
        ("2.2", "out", "n_excretion_animal", "1.3"),
        ("2.2", "out", "tan_content", "0.2"),
        ("2.2", "tech", "standard_N_excretion", "112"),
        ("2.2", "tech", "share_Nsol", "0.55"),
        ("2.18", "out", "days_with_grazing_and_yard", "365"),
        ("2.19", "tech", "er_yard", "0.7"),
        *(
            ("2.19", "tech", f"share_available_roughage_is_{supplied}_supplied_in_the_exercise_yard", share)
            for supplied, share in (("not", "0.1"), ("partly", "0.2"), ("exclusively", "0.6"))
        ),
        *(
            ("2.19", "tech", f"red_floor_properties_{floor}", reduction)
            for floor, reduction in (
                ("solid_floor", "0.0"),
                ("unpaved_floor", "0.5"),
                ("perforated_floor", "0.75"),
                ("paddock_or_pasture_used_as_exercise_yard", "0.9"),
            )
        ),
        ("2.20", "tech", "er_dairycow_grazing", "0.083"),
        ("2.20", "tech", "er_n2_dairycow_grazing", "0.0"),
        ("2.20", "tech", "er_no_dairycow_grazing", "0.0055"),
        ("2.20", "tech", "er_n2o_dairycow_grazing", "0.02"),
    )
)


class Doubles(unittest.TestCase):
    """Request W13: each double against fractions, and not against a division."""

    @staticmethod
    def double(grams):
        (x,) = struct.unpack("<d", struct.pack("<Q", int(doubles.bits(grams))))
        return x

    def test_nearest(self):
        for grams in (0, 1, 3, 7, 999, 1001, 5226, 99_999, 4_000_000_000, 767_999_999_999):
            for signed in (grams, -grams):
                x, exact = self.double(signed), Fraction(signed, 1000)
                for other in (math.nextafter(x, math.inf), math.nextafter(x, -math.inf)):
                    self.assertLess(abs(Fraction(x) - exact), abs(Fraction(other) - exact))

    def test_whole_kilograms(self):
        for kilograms in (0, 1, -1, 51, -51, 4_000_000, 768_000_000):
            self.assertEqual(Fraction(self.double(1000 * kilograms)), kilograms)
        self.assertEqual(doubles.bits(0), "0\r\n")

    def test_below_zero(self):
        herds = read_farm(next(doubles.every_file()))
        left = [figures(herd, CUTS)["tan_remain_grazing"] for herd in herds]
        self.assertEqual(left, [-51_000, -50_994, -51])


@unittest.skipUnless(os.environ.get(DOCUMENT), f"{DOCUMENT} does not name the text of 001")
class PrintedNumbers(unittest.TestCase):
    """The table of printed numbers against the document itself."""

    def test_pig_houses(self):
        document = Path(os.environ[DOCUMENT]).read_text(encoding="utf-8")
        self.assertEqual(list(printed.faults(PIG_ROWS, document)), [])
        wrong = PIG_ROWS.replace('"2.54" (tech "er") "0.486"', '"2.54" (tech "er") "0.243"')
        self.assertEqual(list(printed.faults(wrong, document)), ["2.54: er is not printed as 0.243"])

    def test_dairy_cows(self):
        document = Path(os.environ[DOCUMENT]).read_text(encoding="utf-8")
        self.assertEqual(list(printed.faults(DAIRY_ROWS, document)), [])
        wrong = DAIRY_ROWS.replace('"112"', '"115"')
        self.assertEqual(list(printed.faults(wrong, document)), ["2.2: standard_N_excretion is not printed as 115"])

    def test_table(self):
        table = printed.TABLE.read_text(encoding="utf-8")
        document = Path(os.environ[DOCUMENT]).read_text(encoding="utf-8")
        self.assertEqual(list(printed.faults(table, document)), [])
        for right, wrong, fault in (
            ('wapiti") "80"', 'wapiti") "70"', "wapiti is not printed as 70"),
            ('animal") "1.3"', 'animal") "1.2"', "animal is not printed as 1.2"),
            ('(tech "er_housing")', '(tech "er_house")', "er_housing is not in the table"),
        ):
            self.assertIn(fault, "\n".join(printed.faults(table.replace(right, wrong), document)))


if __name__ == "__main__":
    ran = unittest.main(exit=False, verbosity=0).result
    for allowed, farthest in sorted(Figures.farthest.items()):
        print(f"farthest figure of those that may be {allowed} grams from their exact value: {float(farthest):.3f} grams")
    sys.exit(not ran.wasSuccessful())
