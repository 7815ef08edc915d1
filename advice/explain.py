#!/usr/bin/env python3
"""Says a refusal in words, with a small example of it and its mend: `./urvendlo explain` runs it.

    advice/explain.py [NUMBER]
"""

import os
import sys
import textwrap
from collections import namedtuple
from pathlib import Path

from console import misused, put
from inputs import WIDTH
from lists import LISTS, REFUSALS
from shown import shown

# A page of explained.txt: what it says, which file its example is of, the lines that are refused, those that mend it.
Page = namedtuple("Page", "says of refused mended")
EXAMPLE = "example: "


def page_of(number):
    page, here = Page([], [], [], []), False
    for line in Path(__file__).with_name("explained.txt").read_text(encoding="utf-8").splitlines():
        if line.startswith("== "):
            here = line == f"== {number}"
        elif here and line.startswith(EXAMPLE):
            page.of.extend(line[len(EXAMPLE) :].split())
        elif here and line[:2] in ("- ", "+ "):
            (page.refused if line[0] == "-" else page.mended).append(f"  {line[2:]}")
        elif here:
            page.says.append(line.replace("HERDS", f"{LISTS.herds[0]}"))
    return page



def all_refusals():
    rows = [
        textwrap.fill(refusal.words, WIDTH, initial_indent=f"  {number:>2}  ", subsequent_indent=" " * 6)
        for number, refusal in REFUSALS.items()
    ]
    head = "A refused file gets the line refused,NUMBER,RECORD. By number it is given when"
    return "\n".join([head, *rows, "", "`urvendlo explain NUMBER` tells more of one.", ""])


def explained(number):
    refusal, page = REFUSALS[number], page_of(number)
    head = textwrap.fill(f"Refusal {number}: {refusal.words}.", WIDTH)
    record = f"The record that it names: {refusal.record}." if refusal.record != "0" else "It names no record: 0."
    return "\n".join([head, record, "", *page.says, *example(page)]) + "\n"


def example(page):
    """The example and its mend, or nothing where no file is refused so."""
    what, *words = page.of
    if what == "none":
        return []
    if what == "herds":
        taken = f"For example a file of {words[0]} herds is refused, and with the option it is taken:"
        return ["", taken, "", "  $ urvendlo --cooperative FILE"]
    of = f"the file that `urvendlo {' '.join(page.of)}` prints" if what == "template" else f"a gate's log of {words[0]}"
    head = textwrap.wrap(f"For example in {of}. Refused:", WIDTH)
    return ["", *head, "", *page.refused, "", "Mended:", "", *page.mended]


def main():
    words = sys.argv[1:]
    if len(words) > 1:
        return misused("explain takes the number of one refusal")
    if not words:
        return put(all_refusals())
    number = int(words[0]) if words[0].isascii() and words[0].isdigit() else 0
    if number not in REFUSALS:
        return misused(f"there is no refusal {shown(os.fsencode(words[0]))}; there are 1 to {max(REFUSALS)}")
    return put(explained(number))


if __name__ == "__main__":
    sys.exit(main())
