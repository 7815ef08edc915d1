#!/usr/bin/env python3
"""The file of an Alpine cooperative: 60 members, five herds each.

    cooperative.py > examples/cooperative.csv

A member has a number, which begins the labels of the herds. Cows and young cattle are on the alp in
summer; the pigs are fed the whey. What is thrown is thrown with a fixed seed.
"""

import sys

from cases import lines_of
from dice import Dice
from farms import file_of
from inputs import CATTLE, DAIRY_COWS, PIGS, ROUGHAGE, STANDARD
from values import FLOOR_REDUCTIONS, PIG_HOUSES, YARD_SHARES

SEED = 20230624
MEMBERS = 60

# What a herd of roughage animals may be: the label's end, the category, and the most animals.
GRAZERS = (
    ("red deer", "red_deer", 40),
    ("fallow deer", "fallow_deer", 60),
    ("bison", "bison_older_than_3yr", 25),
    ("lamas", "lama_older_than_2yr", 15),
    ("alpacas", "alpaca_older_than_2yr", 20),
    ("rabbits", "rabbit_doe_kits", 120),
)


def kilograms(dice, least, most):
    """Kilograms of N a head, with a decimal."""
    tenths = dice.between(least * 10, most * 10)
    return f"{tenths // 10}.{tenths % 10}"


def outdoors(dice):
    """Yard and pasture of cattle: the yard for most of the year, the pasture in summer."""
    return (
        str(dice.between(120, 300)),
        dice.pick(tuple(YARD_SHARES)),
        dice.pick(tuple(FLOOR_REDUCTIONS)),
        dice.pick(("0", "0", "0", "10", "-25")),
        str(dice.between(90, 200)),
        dice.pick(("8", "12.5", "16", "20", "22.5")),
    )


def cows(dice):
    share = dice.pick((STANDARD, STANDARD, "55", "58.25"))
    return "cows", DAIRY_COWS, (str(dice.between(8, 60)), kilograms(dice, 90, 125), share, *outdoors(dice))


def heifers(dice):
    return "heifers", CATTLE, (str(dice.between(4, 30)), kilograms(dice, 35, 60), "60", *outdoors(dice))


def calves(dice):
    return "calves", CATTLE, (str(dice.between(2, 25)), kilograms(dice, 10, 25), "58.5", *outdoors(dice))


def pigs(dice):
    """A scrubber is in one house of four."""
    scrubber, air = dice.pick((*[("none", "none")] * 3, ("acid", "low_impuls_air_supply")))
    house = dice.pick(tuple(PIG_HOUSES))
    return "pigs", PIGS, (str(dice.between(10, 80)), kilograms(dice, 11, 15), "70", house, scrubber, "none", air, "0")


def grazers(dice):
    name, category, most = dice.pick(GRAZERS)
    days, hours = str(dice.between(150, 300)), dice.pick(("12", "18.5", "24"))
    return name, ROUGHAGE, (category, str(dice.between(3, most)), STANDARD, STANDARD, "0", days, hours)


def cooperative():
    """The file's bytes."""
    dice, lines = Dice(SEED), []
    for member in range(1, MEMBERS + 1):
        for herd in (cows, heifers, calves, pigs, grazers):
            name, kind, texts = herd(dice)
            lines += lines_of(kind, f"{member:02} {name}", texts)
    return file_of(lines)


if __name__ == "__main__":
    sys.stdout.buffer.write(cooperative())
