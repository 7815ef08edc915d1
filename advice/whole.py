"""What a file is as a whole where it has no records at all, or none with commas, by how it begins."""

import re

from records import records_of
from shown import shown

HEADER = "take the first line out: a farm file has no header"
EMPTY_ROW = "take the line out: it is an empty row of the sheet"
SAVE_AS = "open it in the program that made it, and save the sheet as CSV with commas"

WEB = "it is a web page or an XML, and no CSV"

# How files of other kinds begin, in any letter case, and what they are.
BEGINNINGS = (
    (b"PK\x03\x04", "it is a workbook itself, a zip as xlsx and ods are, and no CSV"),
    (b"\xd0\xcf\x11\xe0", "it is a workbook itself, an xls of old, and no CSV"),
    (b"%PDF", "it is a PDF, and no CSV"),
    (b"\x1f\x8b", "it is packed with gzip, and no CSV"),
    (b"{\\rtf", "it is a text of a word processor, and no CSV"),
    (b"<!DOCTYPE", WEB),
    (b"<html", WEB),
    (b"<table", WEB),
    (b"<?xml", WEB),
)
WIDE = {b"\xff\xfe": "FF FE", b"\xfe\xff": "FE FF"}
MARK = b"\xef\xbb\xbf"
SEPARATORS = {b";": "semicolons", b"\t": "tabs", b"|": "bars"}


def of_whole(raw, fields):
    """What is wrong with the file as a whole, and what to do; None where it is made of records, of so many fields."""
    for beginning, what in BEGINNINGS:
        if raw[: len(beginning)].lower() == beginning.lower():
            return what, [SAVE_AS]
    if raw[:2] in WIDE or raw[:400].count(0) > len(raw[:400]) // 4:
        mark = f", which the bytes {WIDE[raw[:2]]} in front say" if raw[:2] in WIDE else ""
        return f"the file is UTF-16{mark}", ["save it as CSV in UTF-8, with commas"]
    first = lines_of(raw)[0].removeprefix(MARK)
    if re.match(rb'"?sep=', first, re.I):
        return f"the first line, {shown(first)}, is for a spreadsheet alone", of_separator(raw, fields)
    return None


def of_separator(raw, fields):
    """What to do about a line that names the separator."""
    rest = separator_of(lines_of(raw)[1:2], fields)
    return ["take the first line out" + (f", and save the file with commas in place of {rest}" if rest else "")]


def lines_of(raw):
    """The lines, however they end, with no regard for quotes."""
    return re.split(rb"\r\n|\r|\n", raw)


def separator_of(lines, fields):
    """What separates so many fields of these lines in place of commas, in words; or None."""
    for line in lines:
        for mark, words in SEPARATORS.items():
            if line.count(mark) >= fields - 1 and line.count(mark) > line.count(b","):
                return words
    return None


def is_header(raw):
    """Whether the first line names columns: three or more fields without a module, and a module in the next line."""
    first, *others = lines_of(raw)[:2]
    fields = records_of(first.removeprefix(MARK))
    return bool(
        others
        and fields
        and len(fields[0].fields) >= 3
        and not fields[0].breaks
        and b"::" not in first
        and b"::" in others[0]
        and not any(re.fullmatch(rb"[\d.]+", field) for field in fields[0].fields)
    )
