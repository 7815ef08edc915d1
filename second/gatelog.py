#!/usr/bin/env python3
"""Request W10: the log of a pasture gate, a record a day, becomes grazing days, yard days and grazing hours.

    gatelog.py < log.csv

The log is compared with the dates of its year, which are written down first, one
after the other; so no date is taken apart and none is worked out from the one before.
"""

import re
import sys
from dataclasses import dataclass
from fractions import Fraction
from math import floor

from farmfile import RECORD_END, records
from inputs import Number
from listing import refusal
from reading import NO_RECORD, STANDARD_INPUT, Refused

FIELDS_A_RECORD = 3
HOURS_A_DAY = 24
HOURS = Number(HOURS_A_DAY, decimals=1)
NEW_YEAR = re.compile("([0-9]{4})-01-01")
MONTHS = (31, 28, 31, 30, 31, 30, 31, 31, 30, 31, 30, 31)
NOT_COUNTED = "-02-29"
BAD_DATE = 14


@dataclass
class Day:
    date: str
    pasture: Fraction
    yard: Fraction


def is_leap(year):
    return year % 4 == 0 and year % 100 != 0 or year % 400 == 0


def dates_of(year):
    """The dates of a year, as the log has to write them."""
    lengths = list(MONTHS)
    lengths[1] += is_leap(year)
    return [
        f"{year:04}-{month:02}-{day:02}"
        for month, length in enumerate(lengths, start=1)
        for day in range(1, length + 1)
    ]


def read_log(log):
    """Give the days of a log (bytes), or raise its refusal."""
    if len(log) > STANDARD_INPUT.bytes:
        raise Refused(1, NO_RECORD)
    days, dates = [], None
    for number, fields in enumerate(records(log.decode("latin-1")), start=1):
        day = read_day(number, fields)
        if number == 1:
            first = NEW_YEAR.fullmatch(day.date)
            dates = dates_of(int(first[1])) if first else []
        if number > len(dates) or day.date != dates[number - 1]:
            raise Refused(BAD_DATE, number)
        days.append(day)
    if dates is None or len(days) < len(dates):
        raise Refused(BAD_DATE, NO_RECORD)
    return days


def read_day(number, fields):
    """Give what one record says, its date as it is written, or raise its refusal."""
    if fields is None:
        raise Refused(2, number)
    if len(fields) != FIELDS_A_RECORD:
        raise Refused(3, number)
    date, *texts = fields
    pasture, yard = map(HOURS.read, texts)
    if pasture is None or yard is None or pasture + yard > HOURS_A_DAY:
        raise Refused(7, number)
    return Day(date, pasture, yard)


def outdoors(days):
    """Grazing days, yard days and grazing hours of a year's days, the hours in whole tenths."""
    counted = [day for day in days if not day.date.endswith(NOT_COUNTED)]
    grazed = [day.pasture for day in counted if day.pasture > 0]
    on_yard = [day for day in counted if day.yard > 0]
    tenths = floor(sum(grazed) / len(grazed) * 10) if grazed else 0
    return len(grazed), len(on_yard), tenths


def answer(log):
    """Give the bytes that the program prints for a log's bytes."""
    try:
        grazing_days, yard_days, tenths = outdoors(read_log(log))
    except Refused as refused:
        return refusal(refused.number, refused.record).encode("ascii")
    lines = (
        f"grazing_days,{grazing_days}",
        f"yard_days,{yard_days}",
        f"grazing_hours,{tenths // 10}.{tenths % 10}",
    )
    return "".join(line + RECORD_END for line in lines).encode("ascii")


if __name__ == "__main__":
    sys.stdout.buffer.write(answer(sys.stdin.buffer.read()))
