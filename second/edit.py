#!/usr/bin/env python3
"""What the command `edit` prints (request W11), and its status.

    edit.py [--farm] [--cooperative] FARM STEP..

A step is `add HERDFILE`, `replace HERDFILE` or `remove LABEL`. Behind each stand the totals' listing or the refusal's
line; with --farm there is only the farm's file after the last step (request W5). A HERDFILE is a farm file of one herd,
by the same limits.
"""

import sys
from pathlib import Path

import write
from listing import farm_listing, refusal
from reading import COOPERATIVE, STANDARD_INPUT, Refused, read_farm
from steps import REMOVE, fresh_book, take_step
from urvendlo import OF_A_COOPERATIVE

ONLY_THE_FARM = "--farm"
DONE, REFUSED, FAILED = 0, 1, 2


def printed(book):
    return farm_listing(book.totals).encode("ascii")


def refused_line(refused):
    return refusal(refused.number, refused.record).encode("ascii")


def named_by(word, given, limits):
    """The label that is to be removed, or the one herd of a file; None where the file has another number of herds."""
    if word == REMOVE:
        return given.decode("latin-1")
    herds = read_farm(given, limits)
    return herds[0] if len(herds) == 1 else None


def walk(array, book, steps, limits):
    """Give the book after each step and what is printed for it; the last is None where a file is of no one herd."""
    for word, given in steps:
        try:
            named = named_by(word, given, limits)
            if named is None:
                yield book, None
                return
            book = take_step(array, book, word, named)
            yield book, printed(book)
        except Refused as refused:
            yield book, refused_line(refused)


def edit(farm, steps, limits=STANDARD_INPUT, only_the_farm=False):
    """What is printed for a farm's file and the steps, and the status; a step is a word and the bytes that it names."""
    try:
        herds = read_farm(farm, limits)
    except Refused as refused:
        return refused_line(refused), REFUSED
    array = herds + [None] * (limits.herds - len(herds))
    book, shown, status = fresh_book(array, len(herds)), [], DONE
    for book, lines in walk(array, book, steps, limits):
        if lines is None:
            return (b"" if only_the_farm else b"".join(shown)), FAILED
        shown.append(lines)
        status = REFUSED if lines != printed(book) else status
    if not only_the_farm:
        return b"".join(shown), status
    try:
        return write.farm_file(array[: book.count], limits), status
    except Refused as refused:
        return refused_line(refused), REFUSED


def main(words):
    options = {word for word in words if word in (ONLY_THE_FARM, OF_A_COOPERATIVE)}
    name, *rest = (word for word in words if word not in options)
    steps = [
        (word, given.encode("latin-1") if word == REMOVE else Path(given).read_bytes())
        for word, given in zip(rest[::2], rest[1::2], strict=True)
    ]
    limits = COOPERATIVE if OF_A_COOPERATIVE in options else STANDARD_INPUT
    shown, status = edit(Path(name).read_bytes(), steps, limits, ONLY_THE_FARM in options)
    sys.stdout.buffer.write(shown)
    return status


if __name__ == "__main__":
    sys.exit(main(sys.argv[1:]))
