"""What the commands of advice/ share: printing, wrong usage, and the kinds of herd that they are given."""

import os
import select
import sys

from lists import KINDS
from shown import listed, shown

PRINTED, FAILED = 0, 2


def put(text):
    """Prints a text whole, and gives the status."""
    left = text.encode()
    try:
        while left:
            try:
                left = left[os.write(1, left) :]
            except BlockingIOError:
                select.select([], [1], [])
    except OSError as fault:
        print(f"urvendlo: the output cannot be written: {fault.strerror}", file=sys.stderr)
        return FAILED
    return PRINTED


def misused(words):
    """Says what is wrong with what was asked, and gives the status."""
    print(f"urvendlo: {words}\nurvendlo: `urvendlo help` tells more", file=sys.stderr)
    return FAILED


def with_kinds(words, text_of):
    """Prints what is to be told of the kinds that are named, all where none is."""
    wrong = [word for word in words if word not in KINDS]
    if wrong:
        return misused(f"there is no kind of herd {shown(os.fsencode(wrong[0]))}; there are {listed(list(KINDS))}")
    return put(text_of([KINDS[word] for word in words or KINDS]))
