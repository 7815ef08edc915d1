"""The logs that the pack of `test_gate` is made of: whole years, and years spoilt in one place or two."""

from itertools import chain, repeat
from pathlib import Path

from dice import Dice
from farms import number_text
from gatelog import HOURS, MONTHS, dates_of
from reading import STANDARD_INPUT

SEED = 20221101
RANDOM_LOGS = 60
CUT_LOGS = 20

# How many records stay behind one that is spoilt: none of them is read.
RECORDS_BEHIND = 6

# Common and leap years; hundredth years that are not leap years and those that are; the first and
# the last of four digits.
YEARS = (2022, 2023, 2024, 1900, 2000, 2100, 1600, 0, 1, 4, 100, 400, 9999, 9996)

# A summer on pasture, a winter on the yard: hours that go through tenths, and add up to 24 on some days.
SEASONS = (
    (31 + 28, "0", "2.5"),
    (31 + 30, "8.5", "1"),
    (31 + 30, "16.4", "7.6"),
    (31 + 31, "24", "0"),
    (30 + 31, "11", "0.0"),
)

BAD_HOURS = (
    "", " ", "x", "-1", "+1", "1.", ".5", "1.05", "1.00", "01", "00", "24.1", "25", "240",
    "1,5", "1e1", "0x1", "١", "24.00", "99999999999999999999", "1 ", " 1",
)  # fmt: skip
FIT_HOURS = ("0", "0.0", "0.1", "1", "9.9", "10.0", "23.9", "24", "24.0")
HOURS_TOGETHER = (
    ("12.5", "11.5"), ("12.5", "11.6"), ("24", "0"), ("24.0", "0.0"), ("24", "0.1"),
    ("0.1", "24"), ("0", "24"), ("23.9", "0.1"), ("12", "12"), ("12.1", "12"), ("24", "24"),
    ("0.0", "0"),
)  # fmt: skip
BAD_DATES = (
    "", "x", "2023-3-1", "2023-03-1", "23-03-01", "02023-03-01", "2023-03-001", "2023/03/01",
    "2023.03.01", "20230301", "2023-0301", "202303-01", " 2023-03-01", "2023-03-01 ",
    "2023-03-0x", "202x-03-01", "2023-0a-01", "-023-03-01", "2023--3-01", "2023-00-01",
    "2023-13-01", "2023-03-00", "2023-03-32", "2023-02-29", "2023-02-30", "2024-03-01",
    "2022-03-01", "2023-03-02", "2023-02-28", "2023-01-01", "01-03-2023", "2023-01-03",
    "+023-03-01", "9999-12-31", "2023-12-31", "2023-03-0/", "2023-03-0:", "２023-03-01",
)  # fmt: skip
ENDS = (
    b"",
    b"\r\n",
    b"\r",
    b"\n",
    b"\r\n\r\n",
    b",",
    b'"',
    b"x",
    b"\r\nx",
    b"\r\n,,",
    b"\r\n,,,",
    b"\r\n2024-01-01,0,0",
)


def season_hours():
    """The hours of a common year, day by day."""
    for days, pasture, yard in SEASONS * 2:
        yield from [(pasture, yard)] * days


def year_of(year, hours=repeat(("1", "2"))):
    """The fields of a year's records, with these hours day by day, and none past the last of them."""
    return [[date, *pair] for date, pair in zip(dates_of(year), chain(hours, repeat(("0", "0"))))]


def file_of(days):
    return "".join(",".join(fields) + "\r\n" for fields in days).encode("utf-8")


def changed(days, number, fields):
    """A log with another record in place of one, counted from 1."""
    return days[: number - 1] + [fields] + days[number:]


def spoilt(days, number, fields):
    """A log with a spoilt record, to a few records behind it."""
    return file_of(changed(days, number, fields)[: number + RECORDS_BEHIND])


def whole_years():
    for year in YEARS:
        yield file_of(year_of(year))
    for year in (2023, 2024):
        yield file_of(year_of(year, season_hours()))
        yield file_of(year_of(year, repeat(("0", "0"))))
        yield file_of(year_of(year, repeat(("24.0", "0"))))
        yield file_of(year_of(year, repeat(("0", "24"))))


def counted_days():
    """Hours on 29 February alone, and on all other days; a mean that is cut and one that is not."""
    place = MONTHS[0] + 29
    for rest, that in (("0", "5"), ("5", "0"), ("5", "24"), ("0.1", "24")):
        yield file_of(changed(year_of(2024, repeat((rest, rest))), place, ["2024-02-29", that, "0"]))
        yield file_of(changed(year_of(2024, repeat((rest, rest))), place, ["2024-02-29", "0", that]))
    for hours in (("0.1", "0.2"), ("0.1", "0.1", "0.2"), ("9.9", "10.0"), ("24", "23.9", "23.9")):
        yield file_of(year_of(2023, [(pasture, "0") for pasture in hours]))


def fields_spoilt():
    days = year_of(2023)
    for number in (1, 60, 365):
        date = days[number - 1][0]
        for text in BAD_HOURS:
            yield spoilt(days, number, [date, text, "0"])
            yield spoilt(days, number, [date, "0", text])
        for fields in (
            [],
            [date],
            [date, "0"],
            [date, "0", "0", ""],
            [date, "0", "0", "0"],
            ["", "", ""],
            [date, "0,0"],
        ):
            yield spoilt(days, number, fields)
    for text in FIT_HOURS:
        yield file_of(changed(days, 200, [days[199][0], text, "0"]))
        yield file_of(changed(days, 200, [days[199][0], "0", text]))
    for pair in HOURS_TOGETHER:
        yield file_of(changed(days, 200, [days[199][0], *pair]))
    for date in BAD_DATES:
        yield spoilt(days, 60, [date, "1", "1"])
        yield spoilt(days, 1, [date, "1", "1"])


def dates_out_of_order():
    """Gaps, repeats, a day too many, days that do not exist, and logs that begin or end elsewhere."""
    for year in (2023, 2024, 1900, 2000):
        days = year_of(year)
        for number in (1, 2, 59, 60, 61, len(days) - 1, len(days)):
            end = number + RECORDS_BEHIND
            yield file_of((days[: number - 1] + days[number:])[:end])
            yield file_of((days[:number] + days[number - 1 :])[:end])
            yield file_of(days[:number])
        yield file_of((days[:59] + [[f"{year:04}-02-29", "1", "1"]] + days[59:])[:70])
        yield file_of((days[:60] + [[f"{year:04}-02-30", "1", "1"]] + days[60:])[:70])
        yield file_of(days[:-1] + [[f"{year:04}-12-32", "1", "1"]])
        for extra in (f"{year + 1:04}-01-01", f"{year:04}-12-31", f"{year:04}-12-32", "x"):
            yield file_of(days + [[extra, "1", "1"]])
        yield file_of(days[::-1])
        yield file_of(days[180:])
    yield file_of(year_of(2023) + year_of(2024))


def two_faults():
    """Two faults in one record, and in two: the first in the order is given."""
    days = year_of(2023)
    wrong = {
        2: ['2023-03-01"', "1", "1"],
        3: ["2023-03-01", "1"],
        7: ["2023-03-01", "25", "1"],
        14: ["2023-03-02", "1", "1"],
        "2 and 3": ['2023-03-01"', "1"],
        "2 and 7": ['2023-03-01"', "25", "1"],
        "3 and 7": ["2023-03-01", "25"],
        "3 and 14": ["2023-03-02", "1"],
        "7 and 14": ["2023-03-02", "12.1", "12"],
        "7 and unreadable": ["x", "25", "1"],
    }
    for fields in wrong.values():
        yield spoilt(days, 60, fields)
        for other in wrong.values():
            yield spoilt(changed(days, 61, other), 60, fields)
    yield file_of(days + [["2024-01-01", "25", "0"]])
    yield file_of(days + [["2024-01-01", "25"]])
    yield file_of(days[:100] + [["2023-04-11", "1"]])


def ends():
    log = file_of(year_of(2023)).removesuffix(b"\r\n")
    yield from (log + end for end in ENDS)
    yield from (b"", b"\r\n", b"\r", b",,", b'"', b"2023-01-01,0,0", b"2023-12-31,0,0\r\n")
    quoted = ",".join(f'"{field}"' for field in ("2023-01-01", "1.5", "2"))
    yield quoted.encode() + b"\r\n" + file_of(year_of(2023)[1:])
    yield b'"2023-01-""01",0,0\r\n' + file_of(year_of(2023)[1:])
    for size in (STANDARD_INPUT.bytes, STANDARD_INPUT.bytes + 1):
        yield (log + b"\r\n" + b"x" * size)[:size]
        yield b"x" * size
        yield file_of([["x", "1", "1"]]).ljust(size, b"0")


def random_hours(dice):
    """Hours day by day: mostly such as a day has, now and then two numbers that may be too much together."""
    while True:
        tenths = dice.below(241)
        pasture = dice.below(tenths + 1) if dice.one_in(2) else 0
        fit = tuple(f"{n // 10}.{n % 10}" for n in (pasture, dice.below(tenths - pasture + 1)))
        yield (number_text(dice, HOURS), number_text(dice, HOURS)) if dice.one_in(400) else fit


def random_year(dice):
    return year_of(dice.pick((2023, 2024, dice.below(10000))), random_hours(dice))


def random_logs():
    dice = Dice(SEED)
    for _ in range(RANDOM_LOGS):
        yield file_of(random_year(dice))
    for _ in range(CUT_LOGS):
        log = file_of(random_year(dice))
        yield log[: dice.below(len(log))]


def examples():
    """The logs that the project shows."""
    folder = Path(__file__).resolve().parent.parent / "examples" / "gate"
    for path in sorted(folder.glob("*.csv")):
        yield path.read_bytes()


def every_log():
    """All logs of the pack, in order."""
    yield from examples()
    yield from whole_years()
    yield from counted_days()
    yield from fields_spoilt()
    yield from dates_out_of_order()
    yield from two_faults()
    yield from ends()
    yield from random_logs()
