"""Writing the figures, the notes, the cuts and the reasons down, in the order of the rules."""

from farmfile import COMMA, QUOTE, RECORD_END
from inputs import CATTLE, DAIRY_COWS, PIGS, ROUGHAGE, module_path
from totals import TOTALS
from values import GRAMS_A_KILOGRAM
from why import fields, sentence

EXCRETION = ("Excretion", ("n_excretion", "tan_excretion"))
YARD = (
    "Yard",
    ("n_into_yard", "tan_into_yard", "nh3_nyard", "n_outyard_liquid", "tan_outyard_liquid"),
)
GRAZING = (
    "Grazing",
    (
        "n_into_grazing",
        "tan_into_grazing",
        "nh3_ngrazing",
        "n2_ngrazing",
        "no_ngrazing",
        "n2o_ngrazing",
        "n_remain_grazing",
        "tan_remain_grazing",
    ),
)
INTO_HOUSING = ("Housing", ("n_into_housing", "tan_into_housing"))
HOUSING_AMMONIA = ("Housing", ("nh3_nhousing", "n_outhousing", "tan_outhousing"))

PIG_HOUSING = (
    "Housing",
    (
        "nh3_nhousing",
        "n_outhousing_liquid",
        "tan_outhousing_liquid",
        "n_outhousing_solid",
        "tan_outhousing_solid",
    ),
)
PIG_GASES = (
    "NxOx",
    ("n2_nsolid", "no_nsolid", "n2o_nsolid", "n2_nliquid", "no_nliquid", "n2o_nliquid"),
)

CATTLE_ORDER = (EXCRETION, YARD, GRAZING, INTO_HOUSING)
HERD_ORDER = {
    ROUGHAGE: (EXCRETION, GRAZING, INTO_HOUSING, HOUSING_AMMONIA),
    CATTLE: CATTLE_ORDER,
    PIGS: (EXCRETION, GRAZING, INTO_HOUSING, PIG_HOUSING, PIG_GASES),
    DAIRY_COWS: CATTLE_ORDER,
}

FARM_LABEL = ""
FARM_MODULE = "Livestock"


def herd_listing(herd, figures):
    return "".join(
        line(herd.label, module_path(herd.kind, module), name, kilograms(figures[name]))
        for module, names in HERD_ORDER[herd.kind]
        for name in names
    )


def farm_listing(totals):
    return "".join(line(FARM_LABEL, FARM_MODULE, name, kilograms(totals[name])) for name in TOTALS)


def herd_notes(herd, notes):
    return line(herd.label, *("yes" if noted else "no" for noted in notes))


def herd_cuts(herd, cuts):
    return "".join(
        line(herd.label, module_path(herd.kind, cut.module), cut.name, str(cut.cut_off), str(cut.divisor))
        for cut in cuts
    )


def herd_why(herd, told):
    return "" if told is None else line(herd.label, *fields(told))


def herd_why_in_words(herd, told):
    return "" if told is None else label_field(herd.label) + sentence(told) + RECORD_END


def label_field(label):
    return QUOTE + label + QUOTE if COMMA in label else label


def line(label, *fields):
    return COMMA.join((label_field(label), *fields)) + RECORD_END


def kilograms(grams):
    whole, rest = divmod(abs(grams), GRAMS_A_KILOGRAM)
    sign = "-" if grams < 0 else ""
    return f"{sign}{whole}.{rest:03}"


def refusal(number, record):
    return f"refused,{number},{record}{RECORD_END}"
