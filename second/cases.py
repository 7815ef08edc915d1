"""The fixed list of farm files on standard input that the stored vectors are made of.

Most groups go through a catalogue or a range from end to end; the last ones are
thrown with a fixed seed.
"""

import itertools
from fractions import Fraction
from pathlib import Path

import damage
import faults
from arithmetic import BILLION, CUTS
from farmfile import RECORD_END
from farms import FIRST_KINDS, FarmDice, as_record, file_of, herd_lines, line_for, new_labels, quoted, written
from inputs import (
    CATTLE,
    DAIRY_COWS,
    EXCRETION_NUMBERS,
    FREE_FACTOR,
    HOURS,
    KINDS,
    KINDS_WITH_A_YARD,
    PIGS,
    ROUGHAGE,
    STANDARD,
    Number,
    module_path,
)
from model import HOURS_A_YEAR, c_grazing, housing_nh3_rate, k_grazing
from reading import LONGEST_LABEL, STANDARD_INPUT
from values import (
    AIR_SCRUBBERS,
    DAIRY_STANDARD_KILOGRAMS,
    DAYS_A_YEAR,
    FLOOR_REDUCTIONS,
    GRAMS_A_KILOGRAM,
    HOUSING_AIRS,
    LEAST_OF_STANDARD,
    MOST_OF_STANDARD,
    PIG_HOUSES,
    ROUGHAGE_STANDARD_KILOGRAMS,
    YARD_SHARES,
)

SEED = 20220809
RANDOM_FILES = 600
FILES_A_PAIR = 3
PAST_THE_LAST_HERD_FILES = 40
TOO_LONG_FILES = 16
# The throws that have dairy cows too.
SEED_WITH_COWS = 20241103
RANDOM_FILES_WITH_COWS = 120

MOST_BYTES, MOST_HERDS = STANDARD_INPUT.bytes, STANDARD_INPUT.herds

# The farm files that the project shows, and the one of a cooperative among them.
FOLDER = Path(__file__).resolve().parent.parent / "examples"
COOPERATIVE_EXAMPLE = FOLDER / "cooperative.csv"

# One herd of each kind to spoil.
EXAMPLES = {
    ROUGHAGE: ("red_deer", "25", "40.5", STANDARD, "10", "180", "12.5"),
    CATTLE: ("12", "55.125", "60.25", "200", "not_available", "solid_floor", "0", "200", "8"),
    PIGS: ("10", "13", "70", "Outdoor", "none", "none", "none", "0"),
    DAIRY_COWS: ("40", "105.5", STANDARD, "250", "not_available", "unpaved_floor", "0", "180", "6.5"),
}

# Animals, kilograms a head and TAN in percent of the largest herd; all its N is TAN.
LARGEST = tuple(str(listed.values.most) for listed in EXCRETION_NUMBERS)
LARGEST_TAN = int(LARGEST[0]) * int(LARGEST[1]) * GRAMS_A_KILOGRAM

_, NOT_SUPPLIED, PARTLY, EXCLUSIVELY = YARD_SHARES

WORDS_FOR_STANDARD = ("standard", "STANDARD", "Standard", "sTANDARd", "standarD")

TINY = (
    b"",
    b"\r\n",
    b"\r",
    b"\n",
    b"\n\r",
    b"\r\n\r\n",
    b"\r\r\n",
    b",",
    b",,",
    b",,,",
    b",,,,",
    b",,,\r\n",
    b",,,\r",
    b'"',
    b'""',
    b'"""',
    b'""""',
    b'"\r\n"',
    b'"\r\n',
    b'"\r',
    b'""\r',
    b'""\n',
    b'""\r\n',
    b'"",',
    b'"","","",""',
    b'"","","","',
    b"\0",
    b"\xff",
    b"\xef\xbb\xbf",
    b" ",
    b"A",
    b"A\r",
    b"A\n",
    b"A\r\n",
    b'"A',
    b'"A"',
    b'A"',
    b'"A"B',
    b'"A" ',
    b' "A"',
    b"\r\nA",
    b"A,B,C,D",
    b"A,B,C,D\r\n",
    b"refused,1,0\r\n",
)
TAILS = (
    b"",
    b"\r\n",
    b"\r",
    b"\n",
    b"\r\n\r\n",
    b"\r\n\r",
    b"\r\n\n",
    b"\r\r\n",
    b" ",
    b",",
    b",\r\n",
    b'"',
    b'\r\n"',
    b'\r\n""',
    b"\0",
    b"\r\n\0",
    b"\x1a",
    b"\r\n\x1a",
    b"\r\n,,,",
    b"\r\n,,,\r\n",
)
HEADS = (b"\r\n", b"\n", b"\xef\xbb\xbf", b" ", b",", b'"', b'""', b"\0", b"#\r\n", b"sep=,\r\n")


def lines_of(kind, label, texts):
    """A herd's lines, from the texts of its inputs in the order of the list of inputs."""
    return [
        line_for(kind, label, listed, text)
        for listed, text in zip(kind.inputs, texts, strict=True)
    ]


def example_lines(kind, label="H"):
    return lines_of(kind, label, EXAMPLES[kind])


def changed(kind, place, **changes):
    """The example herd of a kind with one of its lines changed."""
    lines = example_lines(kind)
    for attribute, value in changes.items():
        setattr(lines[place], attribute, value)
    return file_of(lines)


def edge_files():
    farm = file_of(example_lines(PIGS)).removesuffix(RECORD_END.encode())
    yield from TINY
    yield from (farm + tail for tail in TAILS)
    yield from (head + farm for head in HEADS)


def every_byte():
    """Each byte in turn at the end of a label, at the end of a number, and bare before a name."""
    for byte in map(chr, range(256)):
        yield file_of(example_lines(PIGS, "L" + byte))
        yield changed(CATTLE, 3, text="1" + byte)
        yield changed(PIGS, 3, write=faults.breaking_field(lambda field: byte + field, 3))


def spoilt_values():
    for kind in FIRST_KINDS:
        for place, listed in enumerate(kind.inputs):
            for text in faults.bad_values(listed):
                yield changed(kind, place, text=text)


def accepted_values():
    for kind in KINDS:
        for place, listed in enumerate(kind.inputs):
            for text in accepted_texts(kind, listed):
                yield changed(kind, place, text=text)


def accepted_texts(kind, listed):
    if not isinstance(listed.values, Number):
        return listed.values.names
    most = listed.values.most
    texts = ["0", "1", "9", "10", f"{most - 1}", f"{most}"]
    for places in range(1, listed.values.decimals + 1):
        zeros, nines, one = "0" * places, "9" * places, "1".zfill(places)
        texts += [f"0.{zeros}", f"0.{one}", f"1.{zeros}", f"{most - 1}.{nines}", f"{most}.{zeros}"]
    if listed.values.least < 0:
        texts += faults.BELOW_ZERO
    if kind.takes_standard(listed):
        texts += WORDS_FOR_STANDARD
    return texts


def bent_names(kind, place):
    for bend in faults.BENT_NAMES:
        line = example_lines(kind)[place]
        module, name = bend(line.module, line.name)
        yield changed(kind, place, module=module, name=name)


def spoilt_records():
    for kind in FIRST_KINDS:
        last = len(kind.inputs) - 1
        for place in (0, last):
            for label in faults.BAD_LABELS:
                yield changed(kind, place, label=label)
            for change in faults.COUNTS:
                yield changed(kind, place, write=faults.counting(change))
            for end in faults.END_BREAKS:
                yield changed(kind, place, write=faults.breaking_end(end))
            yield from bent_names(kind, place)
    for module, name in faults.UNLISTED:
        yield changed(PIGS, 1, module=module, name=name)
    for spoil in faults.FIELD_BREAKS:
        for field in range(faults.FIELDS_TO_BREAK):
            yield changed(PIGS, 2, write=faults.breaking_field(spoil, field))
            yield changed(PIGS, len(PIGS.inputs) - 1, write=faults.breaking_field(spoil, field))


def spoilt_cows():
    """What hangs on the inputs of dairy cows: their ranges, modules and names."""
    for place, listed in enumerate(DAIRY_COWS.inputs):
        for text in faults.bad_for_its_rule(listed):
            yield changed(DAIRY_COWS, place, text=text)
    for place in (0, len(DAIRY_COWS.inputs) - 1):
        yield from bent_names(DAIRY_COWS, place)
    for module, name in faults.UNLISTED_OF_DAIRY_COWS:
        yield changed(DAIRY_COWS, 1, module=module, name=name)


def forbidden_standards():
    for kind in KINDS:
        for listed in kind.refused_standards():
            place = kind.inputs.index(listed)
            for word in WORDS_FOR_STANDARD:
                yield changed(kind, place, text=word)
                yield changed(kind, place, text=word, module="x")
                yield changed(kind, place, text=word, label="")


def missing_inputs():
    for kind, follower in itertools.product(KINDS, KINDS):
        for place in range(len(kind.inputs)):
            lines = example_lines(kind)
            del lines[place]
            yield file_of(example_lines(PIGS, "a") + lines + example_lines(follower, "z")[:-1])


def torn_and_mixed_herds():
    """Records of a herd that is closed, of another kind than the herd, and given already."""
    for kind, other in itertools.product(KINDS, KINDS):
        herd, guest = example_lines(kind, "A"), example_lines(other, "A")
        between = example_lines(other, "B")
        yield file_of(herd + between + guest[:1])
        yield file_of(herd[1:] + between + herd[:1])
        for place in range(len(herd)):
            yield file_of(herd[: place + 1] + guest[:1] + herd[place + 1 :])
            yield file_of(herd + [guest[place % len(guest)]] + between[1:])
    yield changed(PIGS, 1, module=module_path(DAIRY_COWS, "Excretion"), name="animals")
    for kind, other in itertools.permutations(KINDS_WITH_A_YARD):
        for place, listed in enumerate(kind.inputs):
            yield changed(kind, place, module=module_path(other, listed.module))


def labels():
    """Labels that are alike but not the same, that are the same, and that need quotes."""
    pairs = ("A", "a"), ("A", "A "), (" A", "A"), ("A", "AA"), ("A", "A,"), (",", ",,"), ("A", "B")
    for first, second in pairs:
        farm = example_lines(PIGS, first) + example_lines(CATTLE, second)
        yield file_of(farm)
        yield file_of(farm + example_lines(PIGS, first)[:1])
    for label in ("x" * LONGEST_LABEL, "," * LONGEST_LABEL, " ", "'", ";", "~", "=1+1", "\\", "-"):
        yield file_of(example_lines(ROUGHAGE, label))
    for place in range(len(PIGS.inputs)):
        yield changed(PIGS, place, write=lambda fields: as_record([quoted("H"), *fields[1:]]))


def in_farms(kind, herds):
    """Farms of as many herds as a farm may have, with the texts given for each herd."""
    herds = list(herds)
    for begin in range(0, len(herds), MOST_HERDS):
        part = enumerate(herds[begin : begin + MOST_HERDS], start=begin)
        yield file_of([line for i, texts in part for line in lines_of(kind, str(i), texts)])


def telling_days(hours, shift):
    """The most grazing days for which a k that is off by the shift changes the largest herd."""

    def nh3(k):
        grazed = CUTS.grams(LARGEST_TAN * days * hours / HOURS_A_YEAR)
        c = c_grazing(days, hours, k, CUTS)
        return CUTS.grams((LARGEST_TAN - grazed) * housing_nh3_rate(c, 1, CUTS))

    k = k_grazing(hours, CUTS)
    for days in range(DAYS_A_YEAR, 0, -1):
        if nh3(k) != nh3(k + shift):
            return days
    return DAYS_A_YEAR


def every_tenth_of_an_hour():
    """The largest roughage herd, on as many days as show a k that is off by a billionth."""
    for shift in (Fraction(1, BILLION), Fraction(-1, BILLION)):
        herds = []
        for tenths in range(HOURS.most * 10 + 1):
            days = telling_days(Fraction(tenths, 10), shift)
            hours = f"{tenths // 10}.{tenths % 10}"
            herds.append(("wapiti", *LARGEST, "0", str(days), hours))
        yield from in_farms(ROUGHAGE, herds)


def every_free_factor():
    """Each factor of a large roughage herd's housing, a large cattle herd's yard and a large pig house."""
    large = ("9999", "199.999", "99.99")
    factors = [str(free) for free in range(FREE_FACTOR.least, FREE_FACTOR.most + 1)]
    yield from in_farms(
        ROUGHAGE, (("red_deer", *large, free, "211", "17.3") for free in factors)
    )
    yield from in_farms(
        CATTLE, ((*large, "211", PARTLY, "solid_floor", free, "180", "8.7") for free in factors)
    )
    yield from in_farms(
        PIGS,
        ((*large, "Slurry_Label_Open", "biotrickling", "none", "low_impuls_air_supply", free) for free in factors),
    )


# Grazing days, hours and free factor: the two whose cut factor is nearest to 1 from below, by 8 and
# 2,878 billionths, the two nearest from above, by 1,639 and 1,765, and the highest factor of all.
NEAR_THE_CEILING = (
    ("364", "23.9", "-84"),
    ("351", "21", "-81"),
    ("365", "21", "-56"),
    ("344", "18.8", "-93"),
    ("365", "23.9", "-100"),
)


def either_side_of_the_ceiling():
    """Factors of a roughage housing and of a yard just below 1, just above and far above; a year outside."""
    herds = (LARGEST, ("9999", "199.999", "99.99"), ("1", "0.009", "100"), ("0", "0", "0"))
    outside = ("365", "24", "-100")
    yield from in_farms(
        ROUGHAGE,
        (
            ("wapiti", *herd, free, days, hours)
            for days, hours, free in (*NEAR_THE_CEILING, outside)
            for herd in herds
        ),
    )
    yield from in_farms(
        CATTLE,
        (
            (*herd, "211", PARTLY, floor, free, "180", "8.7")
            for herd in herds
            for floor in FLOOR_REDUCTIONS
            for free in ("-42", "-43", "-100")
        ),
    )


def every_yard(kind):
    """Each exercise yard on each floor, with no, one and many days of pasture besides."""
    year = DAYS_A_YEAR
    grazing_and_yard = (
        (0, 0), (0, year), (year, 0), (year, year), (1, year), (250, 200),
        (year - 100, 100), (year - 100, 101), (year - 99, 100),
    )  # fmt: skip
    yards = itertools.product(YARD_SHARES, FLOOR_REDUCTIONS, grazing_and_yard)
    yield from in_farms(
        kind,
        (
            ("7", "99.999", "61.37", str(yard), share, floor, "3", str(grazing), str(i % 25))
            for i, (share, floor, (grazing, yard)) in enumerate(yards)
        ),
    )
    five_grams = ("1", "0.005", "100", str(year), NOT_SUPPLIED, "solid_floor", "0", str(year), "24")
    yield from in_farms(kind, [five_grams])


def every_pig_house():
    """Each house with each scrubber and air supply, at both ends of the free factor and in between."""
    frees = ("-100", "-99", "-1", "0", "1", "50", "99", "100")
    odd, others = ("9999", "199.999", "99.97"), (("10", "13", "70"), LARGEST, ("7", "0.143", "33.33"))
    houses = list(itertools.product(PIG_HOUSES, AIR_SCRUBBERS, HOUSING_AIRS, frees))
    herds = [(odd, house) for house in houses]
    herds += [(others[i % len(others)], house) for i, house in enumerate(houses)]
    yield from in_farms(
        PIGS,
        ((*herd, house, scrubber, "none", air, free) for herd, (house, scrubber, air, free) in herds),
    )


def few_grams_of_pigs():
    """Each number of grams up to a few, where each cut bites."""
    biting = (("Slurry_Label", "biotrickling"), ("Slurry_Conventional", "biotrickling"), ("Deep_Litter", "none"))
    yield from in_farms(
        PIGS,
        (
            ("1", f"0.{grams:03}", share, house, scrubber, "none", "low_impuls_air_supply", "3")
            for house, scrubber in biting
            for share in ("100", "97.53")
            for grams in (1, 2, 3, 4, 5, 6, 7, 8, 9, 10, 11, 12, 13, 14, 19, 20, 49, 50, 99, 100, 499, 500)
        ),
    )


def beside_the_edges_of(standard):
    """Kilograms a head where the note begins, below the standard and above it, and a gram to both sides."""
    for edge in (LEAST_OF_STANDARD, MOST_OF_STANDARD):
        for away in (-1, 0, 1):
            grams = int(edge * standard * GRAMS_A_KILOGRAM) + away
            yield f"{grams // GRAMS_A_KILOGRAM}.{grams % GRAMS_A_KILOGRAM:03}"


def either_side_of_each_note():
    """N a head of each category, TAN and the free factor on both sides of where a note begins."""
    herds = []
    for category, standard in ROUGHAGE_STANDARD_KILOGRAMS.items():
        for kilograms in beside_the_edges_of(standard):
            herds.append((category, "10", kilograms, STANDARD, "0", "200", "12"))
    for share in ("19.99", "20", "20.01", "29.99", "50.01", "59.99", "60", "60.01"):
        herds.append(("bison_older_than_3yr", "10", STANDARD, share, "0", "200", "12"))
    for free in ("0", "1", "-1"):
        herds.append(("rabbit_young", "10", STANDARD, STANDARD, free, "200", "12"))
    yield from in_farms(ROUGHAGE, herds)


def either_side_of_each_note_of_cows():
    """The same of dairy cows, with the word for TAN in any letter case, and the yard's share lowered or not."""
    outdoors = ("165", EXCLUSIVELY, "solid_floor", "0", "200", "12")
    shares = ("34.99", "35", "35.01", "54.99", "55", "55.01", "74.99", "75", "75.01", *WORDS_FOR_STANDARD)
    herds = [("10", kilograms, STANDARD, *outdoors) for kilograms in beside_the_edges_of(DAIRY_STANDARD_KILOGRAMS)]
    herds += [("10", "112", share, *outdoors) for share in shares]
    herds += [("10", "78.399", "75.01", "166", yard, "solid_floor", "-1", "200", "12") for yard in YARD_SHARES]
    yield from in_farms(DAIRY_COWS, herds)


def cattle_and_cows():
    """The same herd under both kinds, side by side, over the range of the free factor and past the yard's ceiling."""
    sizes = itertools.cycle((LARGEST, ("9999", "199.999", "99.99"), ("1", "0.009", "100"), ("37", "112", "55")))
    frees = (*range(FREE_FACTOR.least, FREE_FACTOR.most + 1, 10), -43, -42, -1, 1)
    lines = []
    for free, size in zip(frees, sizes):
        texts = (*size, "211", PARTLY, "solid_floor", str(free), "180", "8.7")
        for kind, name in zip(KINDS_WITH_A_YARD, ("cattle", "cows")):
            lines += lines_of(kind, f"{name} {free}", texts)
    yield file_of(lines)


def many_herds(dice):
    for kind in dice.kinds:
        names = new_labels(dice, MOST_HERDS + 1)
        full = [line for label in names for line in herd_lines(dice, label, kind)]
        yield written(dice, full[: -len(kind.inputs)])
        yield written(dice, full)
        yield written(dice, full[: -len(kind.inputs) - 1])
    for _ in range(PAST_THE_LAST_HERD_FILES):
        yield damage.file_past_the_last_herd(dice)
    for herds in (MOST_HERDS - 1, MOST_HERDS, MOST_HERDS + 1):
        yield written(dice, damage.short_herds(dice, herds))


def pairs_of_faults(dice):
    """Each two faults, in one record and in two."""
    for _ in range(FILES_A_PAIR):
        for pair in itertools.combinations(damage.FAULTS, 2):
            yield damage.file_with_faults_in_a_record(dice, pair)
        for pair in itertools.product(damage.FAULTS, damage.FAULTS_OF_ANY_RECORD):
            yield damage.file_with_faults_in_two_records(dice, *pair)


def longest_files(dice):
    """Files of as many bytes as may be read, and of one more."""
    full = file_of([line for i in range(MOST_HERDS) for line in herd_lines(dice, f"{i}", CATTLE)])
    farm = file_of(example_lines(PIGS)).removesuffix(RECORD_END.encode())
    for size in (MOST_BYTES, MOST_BYTES + 1):
        yield b"A" * size
        yield b'"' + b"," * (size - 1)
        yield farm + b"r" * (size - len(farm))
        yield full + b"Z" * (size - len(full))
        yield farm + b"\r\n" * ((size - len(farm)) // 2) + b"\n" * ((size - len(farm)) % 2)
    for _ in range(TOO_LONG_FILES):
        yield damage.too_long_file(dice)


def examples():
    """The farm files that the project shows, but for a cooperative's."""
    for path in sorted(FOLDER.glob("*.csv")):
        if path != COOPERATIVE_EXAMPLE:
            yield path.read_bytes()


def every_file():
    """All files that are read from standard input, in order."""
    dice, dice_with_cows = FarmDice(SEED, FIRST_KINDS), FarmDice(SEED_WITH_COWS)
    yield from examples()
    yield from edge_files()
    yield from every_byte()
    yield from spoilt_values()
    yield from accepted_values()
    yield from spoilt_records()
    yield from forbidden_standards()
    yield from missing_inputs()
    yield from torn_and_mixed_herds()
    yield from labels()
    yield from every_tenth_of_an_hour()
    yield from every_free_factor()
    yield from either_side_of_the_ceiling()
    yield from every_yard(CATTLE)
    yield from every_pig_house()
    yield from few_grams_of_pigs()
    yield from either_side_of_each_note()
    yield from many_herds(dice)
    yield from pairs_of_faults(dice)
    yield from longest_files(dice)
    for _ in range(RANDOM_FILES):
        yield damage.random_file(dice)
    yield from spoilt_cows()
    yield from every_yard(DAIRY_COWS)
    yield from either_side_of_each_note_of_cows()
    yield from cattle_and_cows()
    for _ in range(RANDOM_FILES_WITH_COWS):
        yield damage.random_file(dice_with_cows)
