#!/usr/bin/env python3
"""Says of a refused file which record and field it is, what stands there, what may stand there, and what to do.

    advice/refused.py COMMAND WORDS < FILE

./urvendlo runs it on a farm file, or for the command gate on a log, that it was given by name. WORDS are what the
program said on standard error. They are printed again, with the refusal's line in richer words and advice behind it,
where it is known what happened. Where nothing can be told the status is 1, and ./urvendlo gives the program's own
words. Nothing here decides over a refusal: number and record are the program's.
"""

import os
import re
import sys
import unicodedata

import logs
from case import FIELDS, Case, Unknown, record_of
from entries import bad_value, no_standard, not_listed
from herds import another_kind, given_twice, lacking, stood_before, too_many
from labels import bad_label
from lists import LISTS, REFUSALS
from logs import bad_hours, not_three, wrong_date
from records import records_of
from shapes import broken, not_four, too_long
from whole import lines_of, of_whole, separator_of

# What tells of each refusal of a farm file: what is wrong, and what to do, line by line.
OF_FARM = {
    1: too_long,
    2: broken,
    3: not_four,
    4: bad_label,
    5: not_listed,
    6: no_standard,
    7: bad_value,
    8: stood_before,
    9: too_many,
    10: another_kind,
    11: given_twice,
    12: lacking,
}
OF_LOG = {1: too_long, 2: broken, 3: not_three, 7: bad_hours, 14: wrong_date}
OF_SHAPE = (1, 2, 3, 4)  # those that a file gets which has no such records at all


def told(case, is_log):
    """What is wrong, and what to do."""
    fields = len(logs.FIELDS if is_log else FIELDS)
    if case.number in OF_SHAPE:
        whole = of_whole(case.raw, fields)
        if whole:
            return whole
        separator = separator_of(lines_of(case.raw[record_of(case).start :])[:1], fields) if case.place else None
        if separator:
            point = ", and with a point in numbers for the decimal comma" if re.search(rb"\d,\d", case.raw) else ""
            return f"its fields are separated by {separator} and not by commas", [f"save the file with commas{point}"]
    return (OF_LOG if is_log else OF_FARM)[case.number](case)


def refusal_in(words):
    """The refusal that the program said: its line, what stands before its words, its number, record and limits."""
    for line in words.split("\n"):
        said = re.fullmatch(r"(.*) \(refusal (\d+)\)", line)
        refusal = REFUSALS.get(int(said[2])) if said else None
        for limits, plain in enumerate((refusal.words, refusal.cooperative) if refusal else ()):
            if said[1].endswith(f": {plain}"):
                place = re.fullmatch(r"(.*): record (\d+)", said[1].removesuffix(f": {plain}"))
                before = place[1] if place else said[1].removesuffix(f": {plain}")
                return line, before, refusal.number, int(place[2]) if place else 0, limits
    raise Unknown


def richer(words, raw, size, is_log=False):
    """The program's words with those for the refusal in place of its line."""
    line, before, number, place, limits = refusal_in(words)
    name, is_hinted = before.removeprefix("urvendlo: "), "urvendlo: mending would" in words
    case = Case(name, raw, size, records_of(raw), number, place, limits, is_hinted)
    what, out = told(case, is_log)
    record = f"record {place}: " if place else ""
    lines = [f"{before}: {record}{what} (refusal {number})", *(f"urvendlo: {advice}" for advice in out)]
    if any(unicodedata.category(letter) == "Cc" for letter in "".join(lines)):
        raise Unknown
    return words.replace(line, "\n".join(lines), 1)


def main():
    command, said = sys.argv[1], os.fsencode(sys.argv[2]).decode("utf-8", "surrogateescape")
    raw, size = sys.stdin.buffer.read(max(LISTS.bytes) + 1), os.fstat(0).st_size
    try:
        words = richer(said, raw, max(size, len(raw)), command == "gate")
    except (Unknown, KeyError):
        return 1
    sys.stdout.buffer.write(words.encode("utf-8", "surrogateescape"))
    return 0


if __name__ == "__main__":
    sys.exit(main())
