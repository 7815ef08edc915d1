"""The values that source document 001 prints, each under the section it stands in.

All are exact fractions: 0.0055 here is the printed decimal itself, not the
double nearest to it. The keys of the tables are the names that a farm file may
hold, letter for letter.
"""

from dataclasses import dataclass
from fractions import Fraction

DAYS_A_YEAR = 365
HOURS_A_DAY = 24
GRAMS_A_KILOGRAM = 1000
PERCENT = Fraction(1, 100)
# 2.85 and 2.51: an emission factor above this is lowered to it; by request W3 in the yard as well.
MOST_FACTOR = Fraction(1)


@dataclass(frozen=True)
class PastureRates:
    """What leaves a pasture: NH3 as a share of TAN, the other three as shares of N."""

    nh3: Fraction
    n2: Fraction
    no: Fraction
    n2o: Fraction


@dataclass(frozen=True)
class HouseRates:
    """What leaves a pig house besides NH3, as shares of the N that falls in it."""

    n2: Fraction
    no: Fraction
    n2o: Fraction


@dataclass(frozen=True)
class PigHouse:
    """A housing type: its emission rate, its liquid share, and the part that indoor measures reach."""

    er: Fraction
    share_liquid: Fraction
    share_indoor: Fraction
    gases: HouseRates


# 2.19, 2.34: the share of a day's excretion that falls on the exercise yard.
YARD_SHARES = {
    "not_available": Fraction(0),
    "available_roughage_is_not_supplied_in_the_exercise_yard": Fraction("0.1"),
    "available_roughage_is_partly_supplied_in_the_exercise_yard": Fraction("0.2"),
    "available_roughage_is_exclusively_supplied_in_the_exercise_yard": Fraction("0.6"),
}
# 2.19 and 2.34 name the "partly" share as the most that is left on a day with pasture too.
MOST_YARD_SHARE_WITH_GRAZING = YARD_SHARES[
    "available_roughage_is_partly_supplied_in_the_exercise_yard"
]

# 2.19, 2.34: by how much a floor lowers the ammonia of the yard.
FLOOR_REDUCTIONS = {
    "solid_floor": Fraction(0),
    "unpaved_floor": Fraction("0.5"),
    "perforated_floor": Fraction("0.75"),
    "paddock_or_pasture_used_as_exercise_yard": Fraction("0.9"),
}
YARD_NH3_RATE = Fraction("0.7")

# 2.20
DAIRY_PASTURE = PastureRates(
    nh3=Fraction("0.083"), n2=Fraction(0), no=Fraction("0.0055"), n2o=Fraction("0.02")
)

# 2.35
CATTLE_PASTURE = PastureRates(
    nh3=Fraction("0.083"), n2=Fraction(0), no=Fraction("0.0055"), n2o=Fraction("0.02")
)

# 2.61
PIG_PASTURE = PastureRates(
    nh3=Fraction("0.2"), n2=Fraction(0), no=Fraction("0.0055"), n2o=Fraction("0.02")
)

# 2.61 singles this housing type out.
OUTDOOR = "Outdoor"

# 2.62: what both fractions of a house's manure give off, as shares of the N into it. The rates
# of the solid and of the liquid fraction are printed one by one and are the same.
NO_GASES = HouseRates(n2=Fraction(0), no=Fraction(0), n2o=Fraction(0))
SLURRY_GASES = HouseRates(n2=Fraction("0.02"), no=Fraction("0.002"), n2o=Fraction("0.002"))
SOLID_GASES = HouseRates(n2=Fraction("0.05"), no=Fraction("0.01"), n2o=Fraction("0.01"))

# 2.52 to 2.57, 2.62: the housing types.
PIG_HOUSES = {
    OUTDOOR: PigHouse(Fraction(0), Fraction(0), Fraction(1), NO_GASES),
    "Slurry_Conventional": PigHouse(Fraction("0.243"), Fraction(1), Fraction(1), SLURRY_GASES),
    "Slurry_Label": PigHouse(Fraction("0.486"), Fraction(1), Fraction("0.5"), SLURRY_GASES),
    "Slurry_Label_Open": PigHouse(Fraction("0.34"), Fraction(1), Fraction("0.5"), SLURRY_GASES),
    "Deep_Litter": PigHouse(Fraction("0.486"), Fraction(0), Fraction(1), SOLID_GASES),
}

# 2.52: 1 + area_increase * k_area. Animal places count as equal to the animals, so nothing increases.
C_AREA = 1

# 2.58: by how much an air scrubber lowers the ammonia. What the second one holds back is lost.
BIOTRICKLING = "biotrickling"
AIR_SCRUBBERS = {"acid": Fraction("0.9"), BIOTRICKLING: Fraction("0.7"), "none": Fraction(0)}

# 2.59: by how much the floor and the air supply lower it.
HOUSING_FLOORS = {"none": Fraction(0)}
HOUSING_AIRS = {"low_impuls_air_supply": Fraction("0.2"), "none": Fraction(0)}

# 2.84: kilograms of N a head and year, and TAN's share of it.
ROUGHAGE_STANDARD_KILOGRAMS = {
    "fallow_deer": Fraction(20),
    "red_deer": Fraction(40),
    "wapiti": Fraction(80),
    "bison_older_than_3yr": Fraction(60),
    "bison_younger_than_3yr": Fraction(20),
    "lama_older_than_2yr": Fraction(17),
    "lama_younger_than_2yr": Fraction(11),
    "alpaca_older_than_2yr": Fraction(11),
    "alpaca_younger_than_2yr": Fraction(7),
    "rabbit_doe_kits": Fraction("2.6"),
    "rabbit_young": Fraction("0.79"),
}
ROUGHAGE_STANDARD_TAN_SHARE = Fraction("0.4")

# 2.2: the same of a dairy cow. Its share_Nsol is also what the word `standard` stands for.
DAIRY_STANDARD_KILOGRAMS = Fraction(112)
DAIRY_STANDARD_TAN_SHARE = Fraction("0.55")

# 2.2, 2.84: an entry outside these bounds earns a note.
LEAST_OF_STANDARD = Fraction("0.7")
MOST_OF_STANDARD = Fraction("1.3")
MOST_TAN_SHARE_AWAY = Fraction("0.2")

# 2.85 and 2.87. The k_grazing_a of 2.87 is left out: no formula uses it.
ROUGHAGE_HOUSING_NH3_RATE = Fraction("0.275")
K_GRAZING_B = Fraction("0.0403")

# 2.88
ROUGHAGE_PASTURE = PastureRates(
    nh3=Fraction("0.125"), n2=Fraction(0), no=Fraction("0.0055"), n2o=Fraction("0.01")
)
