"""Catalogues of single faults: each text, name or way of writing that a file may not have."""

from farmfile import COMMA, QUOTE, RECORD_END
from farms import as_record, quoted
from inputs import CATTLE, DAIRY_COWS, MINUS, PIGS, ROUGHAGE, STANDARD, Number, module_path
from reading import FIELDS_A_RECORD, LONGEST_LABEL

BAD_LABELS = (
    "",
    "A" * (LONGEST_LABEL + 1),
    " " * (LONGEST_LABEL + 1),
    "A," * LONGEST_LABEL,
    "A" * 300,
    "A\x1f",
    "\tA",
    "\0",
    "A\0",
    "\x7f",
    "A\x7fB",
    "A\x80",
    "\xffA",
    "\xa0",
    "K\xc3\xa4lber",
    "\xef\xbb\xbfA",
    'A"B',
    '"',
    'A"',
    "A\r\nB",
    "A\rB",
    "A\n",
)

# Pairs of module path and input name that look like listed ones.
UNLISTED = (
    ("", ""),
    ("Livestock", "animals"),
    ("Livestock::", "animals"),
    ("Livestock", "n_excretion"),
    ("Excretion", "animals"),
    ("Livestock::DairyCow", "animals"),
    ("Livestock::Pig::Excretion", "animals"),
    (module_path(CATTLE, "Excretion"), "animalcategory"),
    (module_path(CATTLE, "Excretion"), "dimensioning_barn"),
    (module_path(CATTLE, "Housing::CFreeFactor"), "free_correction_factor"),
    (module_path(CATTLE, "Grazing"), "grazing_days"),
    (module_path(CATTLE, "Yard"), "yard_days"),
    (module_path(CATTLE, "Yard"), "exercise_yard"),
    (module_path(CATTLE, "Outdoor"), "animals"),
    (module_path(CATTLE, "Excretion"), "n_excretion"),
    (module_path(PIGS, "Excretion"), "animalcategory"),
    (module_path(PIGS, "Excretion"), "energy_content"),
    (module_path(PIGS, "Housing"), "housing_type"),
    (module_path(PIGS, "Housing::Type"), "animals"),
    (module_path(PIGS, "Housing"), "free_correction_factor"),
    (module_path(PIGS, "Housing::CFreeFactor"), "air_scrubber"),
    (module_path(PIGS, "Housing::AirScrubber"), "mitigation_housing_air"),
    (module_path(PIGS, "Housing::MitigationOptions"), "air_scrubber"),
    (module_path(PIGS, "Housing::MitigationOptions"), "mitigation_housing"),
    (module_path(PIGS, "Housing::Type"), "mitigation_housing_floor"),
    (module_path(PIGS, "NxOx"), "n2_nsolid"),
    (module_path(ROUGHAGE, "Housing::AirScrubber"), "air_scrubber"),
    (module_path(CATTLE, "Housing::MitigationOptions"), "mitigation_housing_air"),
    (module_path(PIGS, "Grazing"), "grazing_hours"),
    (module_path(ROUGHAGE, "Housing"), "free_correction_factor"),
    (module_path(ROUGHAGE, "Outdoor"), "grazing_days"),
    (module_path(ROUGHAGE, "Excretion"), "grazing_hours"),
    (module_path(ROUGHAGE, "Grazing"), "yard_days"),
    (module_path(ROUGHAGE, "Excretion"), "n_excretion_animal"),
)

# The same of dairy cows: names of 2.2 to 2.20 that are no inputs here, and modules mixed up.
UNLISTED_OF_DAIRY_COWS = (
    ("Livestock::DairyCows::Excretion", "animals"),
    ("Livestock::Dairycow::Excretion", "animals"),
    ("Livestock::Dairy::Outdoor", "yard_days"),
    ("Livestock::OtherCattle::DairyCow::Excretion", "animals"),
    (module_path(DAIRY_COWS, "Excretion"), "animalcategory"),
    (module_path(DAIRY_COWS, "Excretion"), "dimensioning_barn"),
    (module_path(DAIRY_COWS, "Excretion"), "n_excretion_animal"),
    (module_path(DAIRY_COWS, "Excretion"), "tan_content"),
    (module_path(DAIRY_COWS, "Excretion"), "yard_days"),
    (module_path(DAIRY_COWS, "Excretion"), "free_correction_factor"),
    (module_path(DAIRY_COWS, "Excretion::CMilk"), "milk_yield"),
    (module_path(DAIRY_COWS, "Housing"), "free_correction_factor"),
    (module_path(DAIRY_COWS, "Housing::CFreeFactor"), "free_correction_factor"),
    (module_path(DAIRY_COWS, "Housing::Type"), "housing_type"),
    (module_path(DAIRY_COWS, "Outdoor"), "animals"),
    (module_path(DAIRY_COWS, "Outdoor"), "tan_fraction"),
    (module_path(DAIRY_COWS, "Yard"), "yard_days"),
    (module_path(DAIRY_COWS, "Yard"), "exercise_yard"),
    (module_path(DAIRY_COWS, "Yard"), "free_correction_factor"),
    (module_path(DAIRY_COWS, "Grazing"), "grazing_days"),
    (module_path(DAIRY_COWS, "Grazing"), "grazing_hours"),
    (module_path(DAIRY_COWS, "Grazing"), "n_into_grazing"),
)

# Ways of bending a listed pair so that it is listed no more.
BENT_NAMES = (
    lambda module, name: (module.lower(), name),
    lambda module, name: (module.upper(), name),
    lambda module, name: (module.replace("::", ":"), name),
    lambda module, name: (module.replace("::", "/"), name),
    lambda module, name: (module + "::", name),
    lambda module, name: ("::" + module, name),
    lambda module, name: (module[:-1], name),
    lambda module, name: (module + " ", name),
    lambda module, name: (module + "\0", name),
    lambda module, name: ("", name),
    lambda module, name: (name, module),
    lambda module, name: (module, name.upper()),
    lambda module, name: (module, name.capitalize()),
    lambda module, name: (module, name[:-1]),
    lambda module, name: (module, name + "s"),
    lambda module, name: (module, " " + name),
    lambda module, name: (module, name + "\0"),
    lambda module, name: (module, name[0] + "_" + name[1:]),
    lambda module, name: (module, name + '"'),
    lambda module, name: (module, name + RECORD_END),
    lambda module, name: (module, name + "\xe9"),
    lambda module, name: (module, ""),
    lambda module, name: (module + COMMA + name, name),
)

BAD_NUMBERS = (
    "",
    " ",
    "-0",
    "-",
    "--5",
    "-05",
    "-00",
    "-0.0",
    "-.5",
    "-5.",
    "- 5",
    " -5",
    "-5 ",
    "5-",
    "-+5",
    "+-5",
    "+5",
    "-1,5",
    "-1e1",
    "-\0",
    "-standard",
    "\xe2\x88\x925",
    f"-{2**32 - 5}",
    f"-{2**64 - 5}",
    "-1" + "0" * 400,
    "+1",
    "00",
    "01",
    "007",
    "00.5",
    ".5",
    ".",
    "5.",
    "0.",
    "1.2.3",
    "1..2",
    "1,5",
    "1'000",
    " 1",
    "1 ",
    "1\0",
    "1\t",
    "\n1",
    "1" + RECORD_END,
    "1e1",
    "1E1",
    "0x1",
    "1_0",
    "1%",
    "1kg",
    "NaN",
    "inf",
    "one",
    '"1"',
    '1"',
    "\xb2",
    "\xd9\xa1",
    "\xef\xbc\x91",
    "1\xff",
    "/",
    ":",
    "1/2",
    "1:",
    str(2**16),
    str(2**32),
    str(2**32 + 1),
    str(2**63),
    str(2**64),
    str(2**64 + 1),
    f"{2**64 + 1}.5",
    str(2**128 + 1),
    "9" * 400,
    "1" + "0" * 5000,
    "0" * 20 + "1",
    "0." + "0" * 20,
    "0." + "0" * 5000,
    "1." + "5" * 20,
    f"1.{2**64}",
)

# Numbers below 0, which one input alone takes.
BELOW_ZERO = ("-1", "-5", "-9", "-10", "-25", "-99", "-100")

NEARLY_STANDARD = (
    "standar",
    "standards",
    " standard",
    "standard ",
    "stand ard",
    "default",
    '"standard"',
    "standard" + RECORD_END,
    "standard\0",
    "\xc5\xbftandard",
    "STANDARD.",
)


def out_of_range(rule):
    """Numbers beyond the ends of the rule, or with more decimals than it takes."""
    digits = "0" * rule.decimals
    beyond = [str(rule.most + 1), f"{rule.most}0", f"{rule.most + 1}.{digits or '0'}"]
    too_fine = [f"1.{digits}0", f"0.{digits}1", f"{rule.most}.{digits}0"]
    if rule.decimals:
        beyond.append(f"{rule.most}.{digits[:-1]}1")
    if rule.least < 0:
        below = [MINUS + text for text in (*beyond, *too_fine)]
    else:
        below = BELOW_ZERO
    return (*beyond, *too_fine, *below)


def bad_names(names):
    """Texts that are nearly one of the names, or a name of another list."""
    name = names[0]
    texts = (
        "",
        name.upper(),
        name.swapcase(),
        name[:-1] + name[-1].upper(),
        name + " ",
        " " + name,
        name[:-1],
        name[1:],
        name + "s",
        name + "\0",
        name + '"',
        name + RECORD_END,
        name + COMMA,
        name.replace("o", "0"),
        "\xc3\xa4" + name,
        f"{name}{name}",
        "partly",
        "solid",
        "available",
        "Not_available",
        "Solid_floor",
        "outdoor",
        "slurry_label",
        "Slurry",
        "Acid",
        "biotrickling_filter",
        "None",
        "low_impulse_air_supply",
        "low_impuls_air",
        "deer",
        "Fallow_Deer",
        "Lama_older_than_2yr",
        "llama_older_than_2yr",
        "0",
        "1",
        STANDARD,
        "x" * 5000,
    )
    return tuple(text for text in texts if text not in names)


def bad_values(listed):
    """Texts that give refusal 7 for an input of any kind of herd."""
    if not isinstance(listed.values, Number):
        return bad_names(listed.values.names)
    return (*BAD_NUMBERS, *bad_for_its_rule(listed))


def bad_for_its_rule(listed):
    """Those that hang on the input's own range or names, and on its standard."""
    if not isinstance(listed.values, Number):
        return bad_names(listed.values.names)
    words = NEARLY_STANDARD if listed.has_standard else (*NEARLY_STANDARD, STANDARD, "Standard")
    return (*out_of_range(listed.values), *words)


def bare(field):
    return field.removeprefix(QUOTE).removesuffix(QUOTE)


def in_quotes(field):
    return QUOTE + bare(field) + QUOTE


# Fields that are spoilt in turn: the four of a record, and two more that follow them.
FIELDS_TO_BREAK = FIELDS_A_RECORD + 2

# Ways of spoiling one field so that its record breaks RFC 4180.
FIELD_BREAKS = (
    lambda field: bare(field) + "\r",
    lambda field: bare(field) + "\n",
    lambda field: "\r" + bare(field),
    lambda field: "\n" + bare(field),
    lambda field: bare(field)[:1] + "\r" + bare(field)[1:],
    lambda field: bare(field)[:1] + "\n" + bare(field)[1:],
    lambda field: "x" + bare(field) + QUOTE,
    lambda field: "x" + QUOTE + bare(field),
    lambda field: "x" + QUOTE * 2 + bare(field),
    lambda field: " " + in_quotes(field),
    lambda field: in_quotes(field) + " ",
    lambda field: in_quotes(field) + "b",
    lambda field: in_quotes(field) + "\r",
    lambda field: in_quotes(field) + "\n",
    lambda field: in_quotes(field) + "\0",
    lambda field: in_quotes(field) + " " + in_quotes(field),
    lambda field: QUOTE + bare(field),
    lambda field: QUOTE + bare(field) + QUOTE * 2,
    lambda field: QUOTE * 3 + bare(field),
    lambda field: QUOTE * 2 + bare(field) + QUOTE * 2,
)

# Ways of ending a record that are none.
END_BREAKS = ("\n", "\r", "\n\r", "\r\r\n", "\r \n", " \n", "\r\0")

# Ways of giving a record another number of fields.
COUNTS = (
    lambda fields: [""],
    lambda fields: [QUOTE * 2],
    lambda fields: ["x"],
    lambda fields: fields[:1],
    lambda fields: fields[:2],
    lambda fields: fields[:3],
    lambda fields: fields[1:],
    lambda fields: fields + [""],
    lambda fields: fields + ["x"],
    lambda fields: fields + [QUOTE * 2],
    lambda fields: [""] + fields,
    lambda fields: fields + fields,
    lambda fields: fields[:2] + [""] + fields[2:],
    lambda fields: [""] * 3,
    lambda fields: [""] * 5,
    lambda fields: fields[:3] + ["1", "5"],
    lambda fields: [quoted(COMMA.join(map(bare, fields)))],
    lambda fields: fields[:2] + [quoted(COMMA.join(map(bare, fields[2:])))],
    lambda fields: fields[:3] + [quoted(bare(fields[3]) + RECORD_END) + COMMA],
)


def breaking_field(spoil, place):
    """Write a record with its field at `place` spoilt; a place past the last is an added one."""

    def write(fields):
        fields = fields + ["x"] * (place + 1 - len(fields))
        fields[place] = spoil(fields[place])
        return as_record(fields)

    return write


def breaking_end(end):
    return lambda fields: COMMA.join(fields) + end


def counting(change):
    return lambda fields: as_record(change(fields))
