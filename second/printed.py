#!/usr/bin/env python3
"""Look every number of the table of printed numbers up in source document 001.

    printed.py DOCUMENT     DOCUMENT is the text of 001, which is not in this repository

The table is `crates/printed_numbers/specs/Printed.antt`: its rows name a section, a technical
parameter or an output there, and the number as the page has it. Three things are
looked for: that each parameter's number stands behind its name, that each other
number stands in the formula of its output, and that no parameter of these sections
is left out, but for those that no formula of ours needs.
"""

import re
import sys
from dataclasses import dataclass
from pathlib import Path

TABLE = Path(__file__).resolve().parent.parent / "crates" / "printed_numbers" / "specs" / "Printed.antt"
ROW = re.compile(r'prints\s+"([^"]*)"\s+\((tech|out)\s+"([^"]*)"\)\s+"([^"]*)"')
SECTION = re.compile(r"^## (?:\*\*)?(\d+\.\d+) ", re.MULTILINE)
NAMED = re.compile(r"^(?:#+ )?\*\*(\w+)\*\*(.*)$", re.MULTILINE)
# A line by itself; in 2.2 the first parameter stands on it.
PARAMETERS = re.compile(r"^(?:#+ \W*|\*\*)Technical Parameters(?:\W*$|\*\*)", re.MULTILINE)
# No formula uses the first. Those of the others are not needed: no area increases, and N of dairy cows is entered.
NOT_TAKEN = {"k_grazing_a", "k_area", "feed_influence_on_Nsol"}


@dataclass(frozen=True)
class Row:
    section: str
    place: str
    name: str
    text: str


def rows(table):
    return [Row(*found) for found in ROW.findall(table)]


def sections(document):
    """The text of each numbered section; the document writes `_` as `\\_`."""
    parts = SECTION.split(document.replace("\\_", "_"))
    return dict(zip(parts[1::2], parts[2::2], strict=True))


def named(text):
    """What stands behind each name in bold letters: the rest of its line, and all up to the next."""
    found = list(NAMED.finditer(text))
    ends = [name.start() for name in found[1:]] + [len(text)]
    return {name[1]: (name[2].strip(), text[name.end() : end]) for name, end in zip(found, ends)}


def outputs_and_parameters(section):
    outputs, *parameters = PARAMETERS.split(section)
    return named(outputs), {name: line for name, (line, _) in named("".join(parameters)).items()}


def stands_in(text, formula):
    return re.search(rf"(?<![\w.]){re.escape(text)}(?![\w.])", formula) is not None


def faults(table, document):
    """What of the table is not in the document, and which parameters the table leaves out."""
    pages = {number: outputs_and_parameters(text) for number, text in sections(document).items()}
    if len(rows(table)) != table.count('prints "'):
        yield "the table has rows of another form"
    for row in rows(table):
        outputs, parameters = pages[row.section]
        if row.place == "tech":
            right = parameters.get(row.name) == row.text
        else:
            right = row.name in outputs and stands_in(row.text, outputs[row.name][1])
        if not right:
            yield f"{row.section}: {row.name} is not printed as {row.text}"
    for number in sorted({row.section for row in rows(table)}):
        listed = {row.name for row in rows(table) if row.section == number}
        for name in sorted(pages[number][1].keys() - listed - NOT_TAKEN):
            yield f"{number}: {name} is not in the table"


def main(path):
    table = TABLE.read_text(encoding="utf-8")
    found = list(faults(table, Path(path).read_text(encoding="utf-8")))
    print(*found, f"{len(rows(table))} numbers, {len(found)} faults", sep="\n")
    return not found


if __name__ == "__main__":
    if len(sys.argv) != 2:
        sys.exit(__doc__)
    sys.exit(not main(sys.argv[1]))
