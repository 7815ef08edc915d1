"""Refusal 4: a bad label."""

import unicodedata

from case import Unknown, fields_of, of_mending
from lists import LISTS
from shown import shown
from whole import EMPTY_ROW, HEADER, MARK, is_header, lines_of


def bad_label(case):
    fields = fields_of(case)
    label = fields[0]
    if case.place == 1 and is_header(case.raw):
        return f"it is a header and no record: {shown(lines_of(case.raw)[0])}", [HEADER]
    if label.startswith(MARK):
        return "a byte order mark (EF BB BF) stands before the label", of_mending(case, "to drop it")
    if not any(fields):
        return "its 4 fields are empty", [EMPTY_ROW]
    if not label:
        before = case.records[case.place - 2].fields[0] if case.place > 1 else b""
        return "the label is empty", [
            f"write the herd's label into each of its records{f': {shown(before)}' if before else ''}"
        ]
    odd = next((letter for letter in as_read(label) if not " " <= letter <= "~"), None)
    if odd:
        has = f"the label {shown(label)} has {named(odd)}"
        return f"{has}; it may have letters, digits and signs of ASCII", of_letters(label)
    if b'"' in label:
        return f"the label {shown(label)} has a quote in it", ["write the label without quotes"]
    if len(label) > LISTS.label:
        return f"the label {shown(label)} has {len(label)} bytes; it may have {LISTS.label}", ["write a shorter one"]
    raise Unknown


def as_read(label):
    """A label as text, whether it is UTF-8 or from a Windows of the west."""
    try:
        return label.decode()
    except UnicodeDecodeError:
        return label.decode("cp1252", "replace")


NAMES = {
    "\t": "a tab",
    "\n": "a line's end",
    "\r": "a line's end",
    "\0": "a zero byte",
    "\u00a0": "a blank that does not break",
    "\ufffd": "a byte that is no letter",
}


def named(letter):
    """A letter, or what is none by its name."""
    if letter in NAMES:
        return NAMES[letter]
    return letter if letter.isprintable() else f"the byte {ord(letter):02X}"


SPELT = str.maketrans({
    "ä": "ae", "ö": "oe", "ü": "ue", "Ä": "Ae", "Ö": "Oe", "Ü": "Ue", "ß": "ss", "æ": "ae", "œ": "oe", "ø": "o",
    "’": "'", "‘": "'", "“": "", "”": "", "„": "", "«": "", "»": "", "–": "-", "—": "-", "\u00a0": " ", "\t": " ",
})  # fmt: skip


def of_letters(label):
    """The label without letters beyond ASCII, where it is one then."""
    plain = unicodedata.normalize("NFKD", unicodedata.normalize("NFC", as_read(label)).translate(SPELT))
    spelt = "".join(letter for letter in plain if not unicodedata.combining(letter)).strip()
    if spelt.isascii() and spelt.isprintable() and '"' not in spelt and 0 < len(spelt) <= LISTS.label:
        return [f"write it without, in every record of the herd: {spelt}"]
    return ["write it without, in every record of the herd"]
