#!/usr/bin/env python3
"""Writes a farm as a file, from request W5 alone.

    write.py < FILE   prints the file that the farm of an accepted file is written as, or the refusal

Herds stand in their order, the inputs of a herd in that of the list. A number has the fewest decimals that say it,
the word is in small letters, and a label is quoted where it has a comma.
"""

import sys

from inputs import MINUS, module_path
from lent import herds_of
from listing import line, refusal
from reading import COOPERATIVE, NO_RECORD, STANDARD_INPUT, Refused, read_farm


def number_text(number):
    """Give a number with the fewest decimals that say it."""
    places = 0
    while number * 10**places % 1:
        places += 1
    digits = str(int(abs(number) * 10**places)).zfill(places + 1)
    whole, decimals = digits[: len(digits) - places], digits[len(digits) - places :]
    return (MINUS if number < 0 else "") + whole + ("." + decimals if decimals else "")


def value_text(value):
    """Give a value as it is written: a name and the word `standard` as they are, else the number."""
    return value if isinstance(value, str) else number_text(value)


def herd_file(herd):
    return "".join(
        line(herd.label, module_path(herd.kind, listed.module), listed.name, value_text(herd.given[listed.name]))
        for listed in herd.kind.inputs
    )


def farm_file(herds, limits=STANDARD_INPUT):
    """Give the bytes that a farm is written as, or raise 1 where they are more than a file may have."""
    file = "".join(map(herd_file, herds)).encode("ascii")
    if len(file) > limits.bytes:
        raise Refused(1, NO_RECORD)
    return file


def record_file(array, count, room):
    """The same of a farm's record, within the limits of a cooperative (W12); 13 where it has no room."""
    file = farm_file(herds_of(array, count), COOPERATIVE)
    if len(file) > room:
        raise Refused(13, NO_RECORD)
    return file


def answer(file, limits=STANDARD_INPUT):
    """Give the bytes that are printed for a farm file's bytes."""
    try:
        return farm_file(read_farm(file, limits), limits)
    except Refused as refused:
        return refusal(refused.number, refused.record).encode("ascii")


if __name__ == "__main__":
    sys.stdout.buffer.write(answer(sys.stdin.buffer.read()))
