"""Refusals 1 to 3: a file that is too long, a record that breaks, a record that has not four fields."""

import re

import records
import values
from case import FIELDS, FORM, Unknown, of_mending, record_of, text_of
from lists import INPUTS, LISTS
from records import records_of
from shown import counted, shown
from whole import EMPTY_ROW, HEADER, is_header, lines_of


def too_long(case):
    most = LISTS.bytes[case.limits]
    if case.size <= most:
        raise Unknown
    empty = sum(not line.strip(b",; \t") for line in lines_of(case.raw))
    out = [f"take {counted(empty, 'empty line')} out"] if empty > 1 else []
    return f"the file has {case.size:,} bytes; it may have {most:,}", out


def broken(case):
    record = record_of(case)
    number, field = len(record.fields), record.fields[-1]
    if record.breaks == records.BARE_LF:
        return "it ends in LF alone; a record ends in CR and LF", of_ends(case)
    if record.breaks == records.BARE_CR:
        return "it ends in CR alone; a record ends in CR and LF", [
            "save the file again as CSV, with CR and LF at line ends"
        ]
    if record.breaks == records.QUOTE_INSIDE:
        whole = field + re.match(rb"[^,\r\n]*", case.raw[record.end :])[0]
        return f"a quote stands inside field {number}: {shown(whole)}", [
            "take the quotes out, or put the field in quotes and double each quote in it"
        ]
    if record.breaks == records.BEHIND_QUOTE and b"\n" not in field:
        behind = re.match(rb"[^,\r\n]*", case.raw[record.end :])[0]
        quoted = shown(b'"%s"' % field)
        return f"behind the closing quote of field {number}, {quoted}, stands {shown(behind)}", [
            "put the whole field in quotes, or none of it"
        ]
    if record.breaks in (records.BEHIND_QUOTE, records.UNCLOSED):
        return f"the quote that opens field {number} is not closed in its line: {shown(lines_of(field)[0])}", [
            "take the quote out, or close it behind the field"
        ]
    raise Unknown


def of_ends(case):
    """What to do about bare LFs: to mend the file, where the program does not say it; and about a header."""
    header = of_header(case) if case.place == 1 and is_header(case.raw) else []
    return of_mending(case, "to put a CR before each such LF") + header


def of_header(case):
    """To take the header out, and a column that numbers the rows behind it."""
    second = records_of(lines_of(case.raw)[1])
    return [HEADER, *(of_row_numbers(second[0].fields) if second else [])]


# ---- not four fields


def not_four(case):
    record = record_of(case)
    fields, count = record.fields, len(record.fields)
    line = case.raw[record.start : record.end]
    if count == len(FIELDS):
        raise Unknown
    of_nothing = empty_or_blank(case, line, len(FIELDS))
    if of_nothing:
        return of_nothing
    what = f"it has {counted(count, 'field')} and not 4: {shown(line)}"
    if case.place == 1 and is_header(case.raw):
        return what, of_header(case)
    return what, of_row_numbers(fields) or of_fields(fields, line)


def empty_or_blank(case, line, due):
    """What is said of a record that has nothing in it, where `due` fields are; None where it has something."""
    if not line:
        is_last = not case.raw[record_of(case).end :].strip()
        return f"it is empty, and a record has {due} fields", [
            "take the empty line at the end out" if is_last else "take the empty line out"
        ]
    if not line.strip(b" \t\0\x1a"):
        return f"it has nothing but {shown(line)}, and a record has {due} fields", ["take the line out"]
    if not line.strip(b","):
        return f"its {len(record_of(case).fields)} fields are empty, and a record has {due}", [EMPTY_ROW]
    return None


def of_row_numbers(fields):
    """What to do where a number stands before the label."""
    if len(fields) == len(FIELDS) + 1 and fields[0].isdigit() and b"::" in fields[2]:
        return ["leave the first column out: it numbers the rows (R: row.names = FALSE; pandas: index = False)"]
    return []


def of_fields(fields, line):
    """What to do about too many fields or too few."""
    count = len(fields)
    if not any(fields[len(FIELDS) :]) and count > len(FIELDS):
        return ["delete the empty columns behind the value: the record ends with it"]
    if line.startswith((b"#", b"//")):
        return ["take the line out: a farm file has no comments"]
    if count == len(FIELDS) + 1 and (text_of(fields[1]), text_of(fields[2])) in INPUTS:
        _, of = INPUTS[text_of(fields[1]), text_of(fields[2])]
        said = values.advice(f"{text_of(fields[3])},{text_of(fields[4])}", of.form)
        return [said] if said else [f"{of.name} has one value: take the comma out of it"]
    module = next((place for place, field in enumerate(fields) if b"::" in field), None)
    if module is not None and module > 1:
        label = b'"%s"' % b",".join(fields[:module])
        return [f"put the label in quotes, since it has a comma: {shown(label)}"]
    if module == 0:
        return [f"the herd's label is missing: {FORM}"]
    if module == 1 and count < len(FIELDS):
        return [f"a field is missing: {FORM}"]
    return [f"a record is {FORM}, and says one input of one herd"]
