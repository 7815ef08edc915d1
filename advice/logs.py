"""Refusals 3, 7 and 14 of a gate's log: not three fields, bad hours, and a date that is not the next one."""

import datetime
import re
from decimal import Decimal

import values
from case import Unknown, record_of, text_of
from lists import INPUTS
from shapes import empty_or_blank
from shown import counted, shown, shown_text

FIELDS = ("the date", "hours on pasture", "hours on the yard")
HOURS = next(of for (_, name), (_, of) in INPUTS.items() if name == "grazing_hours")  # a day's hours are read alike
HOURS_A_DAY = HOURS.form.most // 10**HOURS.form.decimals
DAY = re.compile(r"(\d{4})-(\d\d)-(\d\d)")
WRITTEN = re.compile(r"(\d{1,2})[-./](\d{1,2})[-./](\d{4})|(\d{4})[-./](\d{1,2})[-./](\d{1,2})")


def not_three(case):
    record = record_of(case)
    count, line = len(record.fields), case.raw[record.start : record.end]
    if count == len(FIELDS):
        raise Unknown
    of_nothing = empty_or_blank(case, line, len(FIELDS))
    if of_nothing:
        return of_nothing
    numbers = all(field.isdigit() for field in record.fields[1:])
    return f"it has {counted(count, 'field')} and not {len(FIELDS)}: {shown(line)}", [
        "write a point for the decimal comma" if numbers and count > len(FIELDS) else "a record is DATE,PASTURE,YARD"
    ]


def bad_hours(case):
    _, *hours = texts_of(case)
    if is_header(case):
        return of_header(case)
    for what, text in zip(FIELDS[1:], hours):
        if not values.takes(HOURS.form, text):
            stands = f"is {shown_text(text)}" if text else "is empty"
            said = values.advice(text, HOURS.form)
            return f"{what} {stands}; it may be {HOURS.range}", [said] if said else []
    together = sum(map(Decimal, hours))
    if together <= HOURS_A_DAY:
        raise Unknown
    both = f"{hours[0]} hours on pasture and {hours[1]} on the yard"
    return f"{both} come to {together}; a day has {HOURS_A_DAY}", []


def texts_of(case):
    fields = record_of(case).fields
    if len(fields) != len(FIELDS):
        raise Unknown
    return [text_of(field) for field in fields]


def wrong_date(case):
    if case.place == 0:
        return ends_early(case)
    date = texts_of(case)[0]
    due = due_at(case)
    stands = f"the date is {shown_text(date)}" if date else "the date is empty"
    if due is None:
        return f"{stands}; record {case.place - 1} is the last day of the year", ["a log has one calendar year"]
    if is_header(case):
        return of_header(case)
    if date == due:
        raise Unknown
    what = f"{stands}; {due} is due" if case.place > 1 else f"{stands}; a log begins with 1 January, as {due}"
    meant = written_so(date)
    return what, [f"write {meant}: dates are written so"] if meant not in (None, date) else []


def is_header(case):
    """Whether the first record, which is the refused one, has no number in it."""
    return case.place == 1 and not re.search(rb"\d", case.raw[: record_of(case).end])


def of_header(case):
    line = shown(case.raw[: record_of(case).end])
    return f"it is a header and no record: {line}", ["take the first line out: a log has no header"]


def ends_early(case):
    if not case.records:
        return "the log is empty; it has a record for each day of a year", []
    last = text_of(case.records[-1].fields[0])
    return f"the log ends with {shown_text(last)}; it goes on to 31 December", []


def due_at(case):
    """The date that is due at the record, in a log that has no other fault before it; None behind 31 December."""
    if case.place == 1:
        year = re.search(r"\d{4}", text_of(record_of(case).fields[0]))
        return f"{year[0] if year else '2024'}-01-01"
    before = DAY.fullmatch(text_of(case.records[case.place - 2].fields[0]))
    if not before:
        raise Unknown
    year, month, day = map(int, before.groups())
    if (month, day) == (12, 31):
        return None
    leap = datetime.date(2000 if is_leap(year) else 2001, month, day) + datetime.timedelta(1)
    return f"{year:04}-{leap.month:02}-{leap.day:02}"


def is_leap(year):
    return year % 4 == 0 and (year % 100 != 0 or year % 400 == 0)


def written_so(date):
    """A date as an office writes it, in the form of a log; None where it is none."""
    found = WRITTEN.fullmatch(date.strip())
    if not found:
        return None
    day, month, year = found.groups()[:3] if found[1] else reversed(found.groups()[3:])
    return f"{year}-{int(month):02}-{int(day):02}" if 1 <= int(month) <= 12 else None
