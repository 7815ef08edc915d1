"""What is said of a value that is refused: whether another way to write it would be taken, and why it is not.

Each step knows one way in which offices write a value. They are tried one after the other on what the one before left;
the words of those that changed something are told where the value that is left would be taken.
"""

import difflib
import re
from decimal import Decimal, InvalidOperation

from lists import is_number
from shown import counted

NUMBER = re.compile(r"(-?)(0|[1-9]\d*)(?:\.(\d+))?")
BLANKS = " \t\r\n\u00a0\u1680\u202f\u205f\u3000\ufeff" + "".join(map(chr, range(0x2000, 0x200C)))
MINUSES = "\u2010\u2011\u2012\u2013\u2014\u2212"
APOSTROPHES = "'\u2019\u02bc\u00b4`"


def takes(form, text):
    """Whether a value is taken, by 01's ranges."""
    if not is_number(form):
        return text in form.values
    if text.lower() == "standard":
        return form.standard == "taken"
    number = NUMBER.fullmatch(text)
    if not number or (number[1] and form.least == 0) or text == "-0":
        return False
    decimals = number[3] or ""
    if len(decimals) > form.decimals:
        return False
    digits = number[2] + decimals.ljust(form.decimals, "0")
    return len(digits) <= len(str(form.most)) and form.least <= int(number[1] + digits) <= form.most


# ---- numbers, as offices write them


def without_blanks(text, _):
    return text.strip(BLANKS), "no blanks around it"


def without_unit(text, _):
    return re.sub(rf"(?<=\d)[{BLANKS}]*(?:%|kg|h|d|hours?|days?)$", "", text, flags=re.I), "no unit and no percent sign"


def with_plain_minus(text, _):
    return re.sub(rf"^[{MINUSES}]", "-", text), "the minus of the keyboard"


def without_thousands(text, form):
    """Groups of three; by a comma or a point only where no decimals are taken, since else it is the decimal comma."""
    marks = rf"[{BLANKS}{APOSTROPHES}_]" if form.decimals else rf"[{BLANKS}{APOSTROPHES}_,.]"
    if re.fullmatch(rf"-?[1-9]\d{{0,2}}({marks})\d{{3}}(?:\1\d{{3}})*(?:[.,]\d+)?", text):
        text = re.sub(rf"{marks}(?=\d{{3}}(?!\d))", "", text)
    return text, "no separator of thousands"


def with_point(text, _):
    has_comma = text.count(",") == 1 and "." not in text
    return text.replace(",", ".") if has_comma else text, "a point for the decimal comma"


def written_out(text, _):
    if re.fullmatch(r"[+-]?\d+(?:\.\d*)?[eE][+-]?\d{1,3}", text):
        try:
            text = f"{Decimal(text):f}"
        except InvalidOperation:
            pass
    return text, "no exponent"


def without_plus(text, _):
    return text.removeprefix("+"), "no plus sign"


def without_leading_zeros(text, _):
    return re.sub(r"^(-?)0+(?=\d)", r"\1", text), "no zeros in front"


def with_digits_around_point(text, _):
    return re.sub(r"^(-?)(?=\.\d)", r"\g<1>0", re.sub(r"(?<=\d)\.$", "", text)), "digits on both sides of the point"


def without_last_zeros(text, form):
    """Zeros behind the last decimal that is taken."""
    kept = shortened(text, form)
    is_same = NUMBER.fullmatch(text) and not text[len(kept) :].strip(".0")
    return kept if is_same else text, "no further decimals" if form.decimals else "a whole number has no point"


def shortened(text, form):
    """A number with no more decimals than are taken."""
    whole, _, decimals = text.partition(".")
    return f"{whole}.{decimals[: form.decimals]}".removesuffix(".")


def without_minus_zero(text, _):
    return ("0" if text == "-0" else text), "zero has no minus"


STEPS = (
    without_blanks,
    without_unit,
    with_plain_minus,
    without_thousands,
    with_point,
    written_out,
    without_plus,
    without_leading_zeros,
    with_digits_around_point,
    without_last_zeros,
    without_minus_zero,
)


def better_number(text, form):
    """The number that is meant, and what was wrong with how it is written; None where no step helps."""
    wrong = []
    for step in STEPS:
        changed, words = step(text, form)
        if changed != text:
            wrong.append(words)
        text = changed
    return (text, wrong) if wrong and takes(form, text) else None


# ---- names

NEAR = 0.75  # so much of two words has to be the same
LEAD = 0.05  # and so much less of any other
FEW = 3  # a word of fewer letters begins too much


def better_name(text, names):
    """The name that is meant: the same but for blanks, letter case and what joins words, or the nearest; or None."""
    for change, words in (
        (lambda word: word.strip(BLANKS), "no blanks around it"),
        (lambda word: word.strip(BLANKS).lower(), "letter case counts"),
        (lambda word: re.sub(r"[\W_]+", "_", word.strip(BLANKS).lower()), "it is written so, byte for byte"),
    ):
        found = [name for name in names if change(name) == change(text)]
        if len(found) == 1:
            return found[0], words
    found = nearest(text.lower(), names)
    return (found, "it is the nearest that there is") if found else None


def nearest(text, names):
    """The one name that begins so, or the one that is nearest by far; None where there is no such one, since a wrong
    name would say something else of the herd."""
    begun = [name for name in names if len(text) >= FEW and name.lower().startswith(text)]
    if begun:
        return begun[0] if len(begun) == 1 else None
    alike = {name: difflib.SequenceMatcher(None, text, name.lower()).ratio() for name in names}
    first, *others = sorted(names, key=alike.get, reverse=True)
    by_far = all(alike[other] < alike[first] - LEAD for other in others)
    return first if by_far and alike[first] >= NEAR else None


# ---- what else may stand there

MISSING = re.compile(r"(?:#?n/?a|nan|null|none|nil|-+|\?+|\.+|x|tbd|missing)", re.I)
FAULTY = re.compile(r"#(?:REF!|NAME\?|DIV/0!|VALUE!|NUM!|NULL!|WERT!|BEZUG!|ZAHL!|#+)?#*", re.I)
MONTH = r"(?:jan|feb|m[aä]r|apr|ma[iy]|jun|jul|aug|sep|o[ck]t|nov|de[cz])\w*\.?"
DATE = re.compile(rf"\d+[-./ ]+{MONTH}(?:[-./ ]+\d+)?|{MONTH}[-./ ]+\d+|\d+[-/]\d+[-/]\d+", re.I)


def advice(text, form):
    """What to do, in words, or None where it is not known what happened."""
    if text.startswith("="):
        return "it is a spreadsheet's formula: save its value"
    if FAULTY.fullmatch(text):
        return "a spreadsheet wrote that where it had no value: mend the cell"
    if not is_number(form):
        found = better_name(text, form.values)
        return found and f"write {found[0]}: {found[1]}"
    if not text.strip(BLANKS) or MISSING.fullmatch(text):
        return "write a number, and 0 where there is none of it"
    found = better_number(text, form)
    if found:
        return f"write {found[0]}: {', '.join(found[1])}"
    if DATE.fullmatch(text):
        return "a spreadsheet made a date of it: format the column as text, and enter the number again"
    if NUMBER.fullmatch(text) and takes(form, shortened(text, form)):
        return "round it" + (f" to {counted(form.decimals, 'decimal')}" if form.decimals else "")
    return None
