"""The farm files that are held against lines (request W8), each behind its line: at each herd's sum, one below it and
one above, at 0 and at the highest; farms of no herds, of herds that emit nothing, of the most herds; refused files.
"""

from arithmetic import CUTS
from cases import edge_files, examples, lines_of
from cooperative_cases import lean_herds
from farms import FarmDice, farm_lines, file_of
from inputs import PIGS
from line import HIGHEST_LINE, livestock
from model import figures
from reading import COOPERATIVE, STANDARD_INPUT, Refused, read_farm

SEED = 20231108
RANDOM_FARMS = 40
MOST_HERDS = 4

SILENT = ("0", "13", "70", "Outdoor", "none", "none", "none", "0")
OUTDOORS = ("10", "13", "70", "Outdoor", "none", "none", "none", "0")


def pigs(*herds):
    return file_of([line for i, texts in enumerate(herds) for line in lines_of(PIGS, f"{i}", texts)])


def sums(file, limits):
    """The total of each beginning of the farm; of a refused file none."""
    try:
        worked = [figures(herd, CUTS) for herd in read_farm(file, limits)]
    except Refused:
        return []
    return [livestock(worked[: count + 1]) for count in range(len(worked))]


def lines_at(grams):
    return {near for total in grams for near in (max(total - 1, 0), total, total + 1)}


def every_line(file, limits):
    """Both ends, and those at each sum."""
    return sorted({0, HIGHEST_LINE} | lines_at(sums(file, limits)))


def few_lines(file, limits):
    """At a sum in the middle and at the last, and just below them."""
    grams = sums(file, limits)
    return [near for total in (grams[len(grams) // 2], grams[-1]) for near in (total - 1, total)]


def small_farms():
    yield b""
    yield from (pigs(SILENT), pigs(SILENT, SILENT), pigs(SILENT, OUTDOORS, SILENT), pigs(*[OUTDOORS] * 4))
    yield from examples()
    dice = FarmDice(SEED)
    for _ in range(RANDOM_FARMS):
        yield file_of(farm_lines(dice, dice.between(1, MOST_HERDS)))


def large_farms():
    dice = FarmDice(SEED + 1)
    yield STANDARD_INPUT, file_of(lean_herds(dice, STANDARD_INPUT.herds))
    yield COOPERATIVE, file_of(lean_herds(dice, COOPERATIVE.herds))


def every_case():
    """The limits, the line and the file of each case."""
    for file in small_farms():
        for line in every_line(file, STANDARD_INPUT):
            yield STANDARD_INPUT, line, file
    for limits, file in large_farms():
        for line in few_lines(file, limits):
            yield limits, line, file
    for file in edge_files():
        yield STANDARD_INPUT, 0, file
    # A farm of more herds than standard input takes.
    file = file_of(lean_herds(FarmDice(SEED + 2), STANDARD_INPUT.herds + 1))
    for limits in (STANDARD_INPUT, COOPERATIVE):
        yield limits, 0, file
