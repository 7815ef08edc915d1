"""Files as offices write them, with what ./urvendlo says of each on standard error: tests/run tries them all.

Each is the farm of examples/farm.csv, or the log of examples/gate/2024.csv, and one thing is done to it. Behind the
file stand the words of its refusal, and then the advice, line by line.
"""

from pathlib import Path

EXAMPLES = Path(__file__).resolve().parent.parent / "examples"
FARM = (EXAMPLES / "farm.csv").read_bytes()
LOG = (EXAMPLES / "gate" / "2024.csv").read_bytes()
MARK = b"\xef\xbb\xbf"


def changed(old, new, file=FARM):
    """A file with its first such stretch changed."""
    if old not in file:
        raise ValueError(f"there is no {old} to change")
    return file.replace(old, new, 1)


def without(start):
    """The farm without the records that begin so."""
    return b"".join(line for line in FARM.splitlines(keepends=True) if not line.startswith(start))


BARE = FARM.replace(b"\r\n", b"\n")
PLAIN = FARM.replace(b'"Deer, upper"', b"Deer")  # no field has a comma in it
NUMBERED = b"".join(b'"%d",%s\r\n' % (i, line) for i, line in enumerate(FARM.splitlines(), 1))
CATTLE_OUTDOORS = b"Heifers,Livestock::OtherCattle::Outdoor,"
HERD = FARM[: FARM.index(b'"Deer')]  # the records of one
HOURS_OUTDOORS = CATTLE_OUTDOORS + b"grazing_hours"
BLANK_BEHIND = FARM.replace(HOURS_OUTDOORS, HOURS_OUTDOORS.replace(b",", b" ,", 1))
FIRST = FARM.index(b"\r\n")
MODULE = b"Livestock::OtherCattle::Excretion"
WITHOUT = "write it without, in every record of the herd: Jungkuehe"
LACKS = "lacks grazing_hours (Livestock::OtherCattle::Outdoor) (refusal 12)"
WHOLE, HOURS = "it may be 0 to 10000, a whole number (refusal 7)", "it may be 0 to 24, up to 1 decimal (refusal 7)"
DAYS = "it may be 0 to 365, a whole number (refusal 7)"
TAN = "it may be 0 to 100, up to 2 decimals (refusal 7)"
FLOOR = "solid_floor, unpaved_floor, perforated_floor, paddock_or_pasture_used_as_exercise_yard"
FLOORS = f"it may be one of {FLOOR} (refusal 7)"
YARD, CUT_SHORT = b"available_roughage_is_exclusively_supplied_in_the_exercise_yard", b"available_rough"
YARDS = "it may be one of not_available, " + ", ".join(
    f"available_roughage_is_{much}_supplied_in_the_exercise_yard" for much in ("not", "partly", "exclusively")
) + " (refusal 7)"
SAVED = "open it in the program that made it, and save the sheet as CSV with commas"
HEADLESS = "take the first line out: a farm file has no header"
ENDS = "it ends in LF alone; a record ends in CR and LF (refusal 2)"
TO_MEND = "to put a CR before each such LF: urvendlo mend farm.csv > MENDED"
MISSING = "write a number, and 0 where there is none of it"
FIRST_ROW = "leave the first column out: it numbers the rows (R: row.names = FALSE; pandas: index = False)"
ASCII = "it may have letters, digits and signs of ASCII (refusal 4)"
EXCRETION = "it has animals, inp_n_excretion and tan_fraction (refusal 5)"
OUTDOOR = (
    "it has yard_days, exercise_yard, floor_properties_exercise_yard, free_correction_factor, grazing_days and"
    " grazing_hours (refusal 5)"
)

OFFICE = (
    ("semicolons", PLAIN.replace(b",", b";"),
     "record 1: its fields are separated by semicolons and not by commas (refusal 3)",
     "save the file with commas"),
    ("semicolons, quotes", b"".join(b'"%s"\r\n' % line.replace(b",", b'";"') for line in PLAIN.splitlines()),
     "record 1: its fields are separated by semicolons and not by commas (refusal 2)",
     "save the file with commas"),
    ("semicolons, decimal commas, LF", changed(b"9.5", b"9,5", PLAIN.replace(b",", b";")).replace(b"\r\n", b"\n"),
     "record 1: its fields are separated by semicolons and not by commas (refusal 2)",
     "save the file with commas, and with a point in numbers for the decimal comma"),
    ("tabs", FARM.replace(b",", b"\t"),
     "record 1: its fields are separated by tabs and not by commas (refusal 3)",
     "save the file with commas"),
    ("UTF-16", b"\xff\xfe" + FARM.decode().encode("utf-16-le"),
     "record 1: the file is UTF-16, which the bytes FF FE in front say (refusal 2)",
     "save it as CSV in UTF-8, with commas"),
    ("UTF-16, no mark", FARM.decode().encode("utf-16-be"),
     "record 1: the file is UTF-16 (refusal 2)",
     "save it as CSV in UTF-8, with commas"),
    ("xlsx", b"PK\x03\x04\x14\x00\x06\x00\x08\x00\x00\x00!\x00\n" + bytes(range(256)) * 9,
     "record 1: it is a workbook itself, a zip as xlsx and ods are, and no CSV (refusal 2)",
     SAVED),
    ("xls", b"\xd0\xcf\x11\xe0\xa1\xb1\x1a\xe1" + b"\0" * 600,
     "record 1: it is a workbook itself, an xls of old, and no CSV (refusal 3)",
     SAVED),
    ("a header", b"label,module,input,value\r\n" + FARM,
     "record 1: it is a header and no record: label,module,input,value (refusal 5)",
     HEADLESS),
    ("a long header", b"Name of the herd or group,module,input,value\r\n" + FARM,
     "record 1: it is a header and no record: Name of the herd or group,module,input,value (refusal 4)",
     HEADLESS),
    ("a header, LF", b"label,module,input,value\n" + BARE, f"record 1: {ENDS}", TO_MEND, HEADLESS),
    ("R", b'"","label","module","input","value"\n' + NUMBERED.replace(b"\r\n", b"\n"),
     f"record 1: {ENDS}",
     TO_MEND,
     HEADLESS,
     FIRST_ROW),
    ("row numbers", NUMBERED,
     'record 1: it has 5 fields and not 4: "1",Heifers,Livestock::OtherCattle::Excretion,animals,24 (refusal 3)',
     FIRST_ROW),
    ("sep=,", b"sep=,\r\n" + FARM,
     "record 1: the first line, 'sep=,', is for a spreadsheet alone (refusal 3)",
     "take the first line out"),
    ("sep=;", b"sep=;\r\n" + PLAIN.replace(b",", b";"),
     "record 1: the first line, sep=;, is for a spreadsheet alone (refusal 3)",
     "take the first line out, and save the file with commas in place of semicolons"),
    ("a decimal comma in quotes", changed(b"9.5", b'"9,5"'),
     f"record 9: grazing_hours is 9,5; {HOURS}",
     "write 9.5: a point for the decimal comma"),
    ("a decimal comma", changed(b"9.5", b"9,5"),
     "record 9: it has 5 fields and not 4: Heifers,Livestock::OtherCattle::Outdoor,grazing_hours,9,5 (refusal 3)",
     "write 9.5: a point for the decimal comma"),
    ("an apostrophe for thousands", changed(b"animals,24", b"animals,1'200"),
     f"record 1: animals is 1'200; {WHOLE}",
     "write 1200: no separator of thousands"),
    ("a comma for thousands", changed(b"animals,24", b'animals,"1,200"'),
     f"record 1: animals is 1,200; {WHOLE}",
     "write 1200: no separator of thousands"),
    ("a blank for thousands", changed(b"animals,24", "animals,1\u00a0200".encode()),
     f"record 1: animals is '1\\xc2\\xa0200'; {WHOLE}",
     "write 1200: no separator of thousands"),
    ("24.0", changed(b"animals,24", b"animals,24.0"),
     f"record 1: animals is 24.0; {WHOLE}",
     "write 24: a whole number has no point"),
    ("024", changed(b"animals,24", b"animals,024"),
     f"record 1: animals is 024; {WHOLE}",
     "write 24: no zeros in front"),
    ("2.4E+01", changed(b"animals,24", b"animals,2.4E+01"),
     f"record 1: animals is 2.4E+01; {WHOLE}",
     "write 24: no exponent"),
    ("+24", changed(b"animals,24", b"animals,+24"), f"record 1: animals is +24; {WHOLE}", "write 24: no plus sign"),
    ("percent", changed(b"55", b"55%"),
     f"record 3: tan_fraction is 55%; {TAN}",
     "write 55: no unit and no percent sign"),
    ("a unit", changed(b"9.5", b"9.5 h"),
     f"record 9: grazing_hours is 9.5 h; {HOURS}",
     "write 9.5: no unit and no percent sign"),
    ("a blank in front", changed(b"animals,24", b"animals, 24"),
     f"record 1: animals is ' 24'; {WHOLE}",
     "write 24: no blanks around it"),
    ("a tab behind", changed(b"animals,24", b"animals,24\t"),
     f"record 1: animals is '24\\x09'; {WHOLE}",
     "write 24: no blanks around it"),
    ("a blank behind each comma", PLAIN.replace(b",", b", "),
     "record 1: there is no module ' Livestock::OtherCattle::Excretion' (refusal 5)",
     "write Livestock::OtherCattle::Excretion: no blanks around it"),
    ("letter case of a module", changed(b"Livestock::OtherCattle::Excretion", b"livestock::othercattle::excretion"),
     "record 1: there is no module livestock::othercattle::excretion (refusal 5)",
     "write Livestock::OtherCattle::Excretion: letter case counts"),
    ("letter case of an input", changed(b"animals", b"Animals"),
     f"record 1: Livestock::OtherCattle::Excretion has no input Animals; {EXCRETION}",
     "write animals: letter case counts"),
    ("a name cut short, as three begin", changed(YARD, CUT_SHORT),
     f"record 5: exercise_yard is {CUT_SHORT.decode()}; {YARDS}"),
    ("letter case of a value", changed(b"unpaved_floor", b"Unpaved_Floor"),
     f"record 6: floor_properties_exercise_yard is Unpaved_Floor; {FLOORS}",
     "write unpaved_floor: letter case counts"),
    ("blanks in a value", changed(b"unpaved_floor", b"unpaved floor"),
     f"record 6: floor_properties_exercise_yard is unpaved floor; {FLOORS}",
     "write unpaved_floor: it is written so, byte for byte"),
    ("a letter beyond ASCII", FARM.replace(b"Heifers", "Jungk\u00fche".encode()),
     f"record 1: the label Jungk\u00fche has \u00fc; {ASCII}",
     WITHOUT),
    ("the same of old", FARM.replace(b"Heifers", b"Jungk\xfche"),
     f"record 1: the label 'Jungk\\xfche' has \u00fc; {ASCII}",
     WITHOUT),
    ("a long label", FARM.replace(b"Heifers", b"Heifers of the alp"),
     "record 1: the label Heifers of the alp has 18 bytes; it may have 16 (refusal 4)",
     "write a shorter one"),
    ("a label in the first row alone", FARM[:FIRST] + FARM[FIRST:].replace(b"Heifers", b""),
     "record 2: the label is empty (refusal 4)",
     "write the herd's label into each of its records: Heifers"),
    ("a label with a comma", FARM.replace(b'"Deer, upper"', b"Deer, upper"),
     "record 10: it has 5 fields and not 4: Deer, upper,Livestock::RoughageConsuming::Excretion,animalca.. (refusal 3)",
     'put the label in quotes, since it has a comma: "Deer, upper"'),
    ("an empty line at the end", FARM + b"\r\n",
     "record 33: it is empty, and a record has 4 fields (refusal 3)",
     "take the empty line at the end out"),
    ("an empty line", changed(b"\r\n", b"\r\n\r\n"),
     "record 2: it is empty, and a record has 4 fields (refusal 3)",
     "take the empty line out"),
    ("empty rows at the end", FARM + b",,,\r\n,,,\r\n",
     "record 33: its 4 fields are empty (refusal 4)",
     "take the line out: it is an empty row of the sheet"),
    ("a wider empty row at the end", FARM + b",,,,,\r\n",
     "record 33: its 6 fields are empty, and a record has 4 (refusal 3)",
     "take the line out: it is an empty row of the sheet"),
    ("an empty column at the end", FARM.replace(b"\r\n", b",\r\n"),
     "record 1: it has 5 fields and not 4: 'Heifers,Livestock::OtherCattle::Excretion,animals,24,' (refusal 3)",
     "delete the empty columns behind the value: the record ends with it"),
    ("a mark", MARK + FARM, "record 1: a byte order mark (EF BB BF) stands before the label (refusal 4)"),
    ("LF", BARE, f"record 1: {ENDS}"),
    ("CR", FARM.replace(b"\r\n", b"\r"),
     "record 1: it ends in CR alone; a record ends in CR and LF (refusal 2)",
     "save the file again as CSV, with CR and LF at line ends"),
    ("a quote", FARM.replace(b"Heifers", b'Heifers "old"'),
     'record 1: a quote stands inside field 1: Heifers "old" (refusal 2)',
     "take the quotes out, or put the field in quotes and double each quote in it"),
    ("an open quote", changed(b"Heifers", b'"Heifers'),
     "record 1: the quote that opens field 1 is not closed in its line:"
     " Heifers,Livestock::OtherCattle::Excretion,animals,24 (refusal 2)",
     "take the quote out, or close it behind the field"),
    ("a blank behind a quote", changed(b'upper"', b'upper" '),
     "record 10: behind the closing quote of field 1, \"Deer, upper\", stands ' ' (refusal 2)",
     "put the whole field in quotes, or none of it"),
    ("the end of a file of old", FARM + b"\x1a",
     "record 33: it has nothing but '\\x1a', and a record has 4 fields (refusal 3)",
     "take the line out"),
    ("a comment", b"# our farm\r\n" + FARM,
     "record 1: it has 1 field and not 4: # our farm (refusal 3)",
     "take the line out: a farm file has no comments"),
    ("a typed minus", changed(b"factor,0", "factor,\u221225".encode()),
     "record 7: free_correction_factor is \u221225; it may be -100 to 100, a whole number (refusal 7)",
     "write -25: the minus of the keyboard"),
    ("no value", changed(b"yard_days,365", b"yard_days,"), f"record 4: yard_days is empty; {DAYS}", MISSING),
    ("NA", changed(b"yard_days,365", b"yard_days,NA"), f"record 4: yard_days is NA; {DAYS}", MISSING),
    ("#REF!", changed(b"yard_days,365", b"yard_days,#REF!"),
     f"record 4: yard_days is #REF!; {DAYS}",
     "a spreadsheet wrote that where it had no value: mend the cell"),
    ("a date", changed(b"9.5", b"09. Mai"),
     f"record 9: grazing_hours is 09. Mai; {HOURS}",
     "a spreadsheet made a date of it: format the column as text, and enter the number again"),
    ("366", changed(b"yard_days,365", b"yard_days,366"), f"record 4: yard_days is 366; {DAYS}"),
    ("below zero", changed(b"animals,24", b"animals,-24"), f"record 1: animals is -24; {WHOLE}"),
    ("two decimals", changed(b"9.5", b"9.25"), f"record 9: grazing_hours is 9.25; {HOURS}", "round it to 1 decimal"),
    ("standard", changed(b"excretion,40", b"excretion,Standard"),
     "record 2: inp_n_excretion is Standard; of other cattle it may be 0 to 200, up to 3 decimals (refusal 6)",
     "write the number: standard is of other roughage-consuming animals alone"),
    ("an input of another module", changed(b"Outdoor,yard_days", b"Excretion,yard_days"),
     f"record 4: Livestock::OtherCattle::Excretion has no input yard_days; {EXCRETION}",
     "yard_days stands under Livestock::OtherCattle::Outdoor"),
    ("a module of another input", changed(b"Outdoor,grazing_days", b"Grazing,grazing_days"),
     "record 8: there is no module Livestock::OtherCattle::Grazing (refusal 5)",
     "grazing_days stands under Livestock::OtherCattle::Outdoor"),
    ("a misspelt input", changed(b"grazing_days", b"grasing_days"),
     f"record 8: Livestock::OtherCattle::Outdoor has no input grasing_days; {OUTDOOR}",
     "write grazing_days: it is the nearest that there is"),
    ("a kind that there is not", changed(b"OtherCattle", b"Equides"),
     "record 1: there is no module Livestock::Equides::Excretion (refusal 5)",
     "the kinds of herd are Livestock::RoughageConsuming, Livestock::OtherCattle, Livestock::DairyCow and"
     " Livestock::FatteningPigs; `urvendlo inputs` tells more"),
    ("fields in another order", changed(MODULE + b",animals", b"animals," + MODULE),
     "record 1: there is no module animals (refusal 5)",
     "the module stands in field 3: the order is LABEL,MODULE,INPUT,VALUE"),
    ("a herd apart", FARM + CATTLE_OUTDOORS + b"grazing_days,180\r\n",
     "record 33: herd Heifers stood in records 1 to 9; a herd's records stand together (refusal 8)",
     "move it behind record 9, or sort the file by its first column; another herd has another label"),
    ("65 herds", b"".join(HERD.replace(b"Heifers", b"%d" % number) for number in range(65)),
     "record 577: 64 is herd 65; a file may have 64 (refusal 9)"),
    ("two kinds", changed(CATTLE_OUTDOORS, CATTLE_OUTDOORS.replace(b"OtherCattle", b"DairyCow")),
     "record 4: it is of dairy cows (Livestock::DairyCow), and Heifers is of other cattle (Livestock::OtherCattle) by"
     " record 1 (refusal 10)",
     "if it is of Heifers, write Livestock::OtherCattle; if not, give the dairy cows a label of their own"),
    ("an input twice", changed(b"\r\n", b"\r\nHeifers,Livestock::OtherCattle::Excretion,animals,25\r\n"),
     "record 2: animals of Heifers was given already, in record 1 as 24 (refusal 11)",
     "keep 24 or 25, and take the other out; another herd has another label"),
    ("an input missing", without(CATTLE_OUTDOORS + b"grazing_hours"),
     f"record 1: Heifers, other cattle in records 1 to 8, {LACKS}",
     "give it once; `urvendlo inputs cattle` tells what it may be"),
    ("two inputs missing of the second herd", without(b'"Deer, upper",Livestock::RoughageConsuming::Grazing'),
     "record 10: 'Deer, upper', other roughage-consuming animals in records 10 to 14, lacks grazing_days and"
     " grazing_hours (Livestock::RoughageConsuming::Grazing) (refusal 12)",
     "give each once; `urvendlo inputs roughage` tells what it may be"),
    ("a blank behind a label", BLANK_BEHIND,
     f"record 1: Heifers, other cattle in records 1 to 8, {LACKS}",
     "'Heifers' and 'Heifers ' (record 9) count as two herds: write the label the same everywhere"),
    ("blank lines", FARM + b"\r\n" * 40000,
     "the file has 82,358 bytes; it may have 65,536 (refusal 1)",
     "take 40,001 empty lines out"),
)  # fmt: skip

A_DAY = b"2024-04-10,0,0"
OFFICE_LOGS = (
    ("a header", b"date,pasture,yard\r\n" + LOG,
     "record 1: it is a header and no record: date,pasture,yard (refusal 7)",
     "take the first line out: a log has no header"),
    ("semicolons", LOG.replace(b",", b";"),
     "record 1: its fields are separated by semicolons and not by commas (refusal 3)",
     "save the file with commas"),
    ("decimal commas", LOG.replace(b".", b","),
     "record 1: it has 4 fields and not 3: 2024-01-01,0,2,5 (refusal 3)",
     "write a point for the decimal comma"),
    ("decimal commas in quotes", LOG.replace(b"2.5", b'"2,5"'),
     f"record 1: hours on the yard is 2,5; {HOURS}",
     "write 2.5: a point for the decimal comma"),
    ("an empty line at the end", LOG + b"\r\n",
     "record 367: it is empty, and a record has 3 fields (refusal 3)",
     "take the empty line at the end out"),
    ("25 hours", changed(A_DAY, b"2024-04-10,25,0", LOG), f"record 101: hours on pasture is 25; {HOURS}"),
    ("24.5 hours", changed(A_DAY, b"2024-04-10,12.5,12", LOG),
     "record 101: 12.5 hours on pasture and 12 on the yard come to 24.5; a day has 24 (refusal 7)"),
    ("no hours", changed(A_DAY, b"2024-04-10,,0", LOG), f"record 101: hours on pasture is empty; {HOURS}", MISSING),
    ("a day left out", changed(A_DAY + b"\r\n", b"", LOG),
     "record 101: the date is 2024-04-11; 2024-04-10 is due (refusal 14)"),
    ("29 February left out", changed(b"2024-02-29", b"2024-03-01", LOG),
     "record 60: the date is 2024-03-01; 2024-02-29 is due (refusal 14)"),
    ("dates with points", changed(b"2024-01-01", b"01.01.2024", LOG),
     "record 1: the date is 01.01.2024; a log begins with 1 January, as 2024-01-01 (refusal 14)",
     "write 2024-01-01: dates are written so"),
    ("dates without zeros", changed(b"2024-04-10", b"2024-4-10", LOG),
     "record 101: the date is 2024-4-10; 2024-04-10 is due (refusal 14)",
     "write 2024-04-10: dates are written so"),
    ("a log from spring on", LOG[LOG.index(A_DAY) :],
     "record 1: the date is 2024-04-10; a log begins with 1 January, as 2024-01-01 (refusal 14)"),
    ("a log up to spring", LOG[: LOG.index(A_DAY)],
     "the log ends with 2024-04-09; it goes on to 31 December (refusal 14)"),
    ("no log", b"", "the log is empty; it has a record for each day of a year (refusal 14)"),
    ("a day more", LOG + b"2025-01-01,0,0\r\n",
     "record 367: the date is 2025-01-01; record 366 is the last day of the year (refusal 14)",
     "a log has one calendar year"),
    ("LF", LOG.replace(b"\r\n", b"\n"), f"record 1: {ENDS}"),
)  # fmt: skip
