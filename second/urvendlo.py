#!/usr/bin/env python3
"""The program: a farm file on standard input, what a command prints for it on standard output.

    urvendlo.py [COMMAND]                     COMMAND is figures, which is also done without one, notes, cuts, why,
                                              why --words, write, or line GRAMS
    urvendlo.py [COMMAND] --cooperative FILE  the same of a cooperative's file, which may be longer and have more herds
"""

import sys
from pathlib import Path

from arithmetic import CUTS
from cuts import cuts
from listing import farm_listing, herd_cuts, herd_listing, herd_notes, refusal
from line import line_of
from listing import herd_why, herd_why_in_words
from model import figures, notes
from reading import COOPERATIVE, STANDARD_INPUT, Refused, read_farm
from totals import totals
from why import why
from write import farm_file


def figures_of(herds):
    worked = [figures(herd, CUTS) for herd in herds]
    lines = [herd_listing(herd, its) for herd, its in zip(herds, worked)]
    return "".join([*lines, farm_listing(totals(worked))])


def notes_of(herds):
    return "".join(herd_notes(herd, notes(herd)) for herd in herds)


def cuts_of(herds):
    return "".join(herd_cuts(herd, cuts(herd)) for herd in herds)


def why_of(herds):
    return "".join(herd_why(herd, why(herd)) for herd in herds)


def why_in_words_of(herds):
    return "".join(herd_why_in_words(herd, why(herd)) for herd in herds)


def file_of(herds):
    return farm_file(herds, COOPERATIVE).decode("ascii")


FIGURES, NOTES, CUTS_OFF, WHY, WHY_WORDS = "figures", "notes", "cuts", "why", "why --words"
WRITE, LINE = "write", "line"
COMMANDS = {
    FIGURES: figures_of,
    NOTES: notes_of,
    CUTS_OFF: cuts_of,
    WHY: why_of,
    WHY_WORDS: why_in_words_of,
    WRITE: file_of,
}
OF_A_COOPERATIVE = "--cooperative"


def at_line(grams):
    """The command that holds a farm against a line of so many grams."""
    return f"{LINE} {grams}"


def printed_by(command, herds):
    name, *grams = command.split()
    return line_of(herds, int(grams[0])) if name == LINE else COMMANDS[command](herds)


def answer(file, command=FIGURES, limits=STANDARD_INPUT):
    """Give the bytes that a command prints for a farm file's bytes."""
    try:
        return printed_by(command, read_farm(file, limits)).encode("ascii")
    except Refused as refused:
        return refusal(refused.number, refused.record).encode("ascii")


def main(words):
    if words[-2:-1] == [OF_A_COOPERATIVE]:
        file, limits, words = Path(words[-1]).read_bytes(), COOPERATIVE, words[:-2]
    else:
        file, limits = sys.stdin.buffer.read(), STANDARD_INPUT
    sys.stdout.buffer.write(answer(file, " ".join(words) or FIGURES, limits))


if __name__ == "__main__":
    main(sys.argv[1:])
