#!/usr/bin/env python3
"""Draws a farm's listing as a picture: `./urvendlo chart` runs this on what `./urvendlo figures` prints.

    chart/draw.py [--by file|ammonia] [--language en|de|fr] [--file FILE] < LISTING > PICTURE

The listing comes from standard input, and the picture, one SVG, goes to standard output. It is made of sheets of A4,
one below the other, which a browser prints on a page each; a sheet has the legend, the axis, FILE's name and its date,
and no herd stands on two. Lines of other names than the picture shows are passed over. A refusal's line is no listing:
it goes to standard output as it is. The status is 0 where all was written, else 2, with a message on standard error.
"""

import argparse
import os
import sys

from herds import farm_of, is_refusal
from output import told_of, write
from picture import DEFINITIONS, LEFT, SHEET_HEIGHT, SHEET_WIDTH, STYLE, Part, Picture, text
from words import ENGLISH, LANGUAGES, Words

ORDERS = FILE_ORDER, AMMONIA = "file", "ammonia"
TOP, BOTTOM = 42, 36  # of a sheet; a browser's pages may be off by some millimetres after many sheets
LAST_ROOM = 16  # below the last herd
SHOWN_WIDTH = "min(100vw - 1.25rem, 50rem)"


class Sheet:
    """Parts one below the other, each moved to its place."""

    def __init__(self, number):
        self.number, self.parts, self.y = number, [], TOP

    def has_room(self, part):
        return self.y + part.height <= SHEET_HEIGHT - BOTTOM

    def add(self, part):
        self.parts.append((self.y, part))
        self.y += part.height

    def svg(self):
        top = (self.number - 1) * SHEET_HEIGHT
        for y, part in self.parts:
            yield f'<g transform="translate(0 {top + y:g})">'
            yield from part.pieces
            yield "</g>"


def sheets_of(picture, says):
    """The herds' blocks on sheets, each sheet with the head."""
    blocks = [picture.block(herd) for herd in picture.herds]
    if len(blocks) > 1:
        blocks.insert(0, picture.farm_block())
    sheets = []

    def begin():
        sheets.append(Sheet(len(sheets) + 1))
        sheets[-1].add(picture.head(says, explains=len(sheets) == 1))

    begin()
    for block in blocks or [nothing(picture.words)]:
        if not sheets[-1].has_room(block):
            begin()
        sheets[-1].add(block)
    return sheets


def nothing(words):
    part = Part()
    part.line(words("no herds"), height=22)
    return part


def numbered(sheet, sheets, words):
    says = words("sheet", sheet=sheet.number, sheets=len(sheets))
    y = (sheet.number - 1) * SHEET_HEIGHT + SHEET_HEIGHT - BOTTOM / 2
    return text(SHEET_WIDTH - LEFT, y, says, "end")


def picture_of(listing, words, by_ammonia, path):
    farm = farm_of(listing)
    sheets = sheets_of(Picture(farm, words, by_ammonia), told_of(path, words))
    several = len(sheets) > 1
    height = (len(sheets) - 1) * SHEET_HEIGHT + (SHEET_HEIGHT if several else sheets[-1].y + LAST_ROOM)
    return "\n".join([
        f'<svg xmlns="http://www.w3.org/2000/svg" viewBox="0 0 {SHEET_WIDTH} {height:g}" width="{SHEET_WIDTH}"'
        f' height="{height:g}" class="picture" role="img" lang="{words.language}">',
        f"<title>{words('picture title')}</title>",
        f"<style>{STYLE}{paper(height)}</style>",
        DEFINITIONS,
        f'<rect width="{SHEET_WIDTH}" height="{height:g}" fill="#fff"/>',
        *(piece for sheet in sheets for piece in sheet.svg()),
        *(numbered(sheet, sheets, words) for sheet in sheets if several),
        "</svg>\n",
    ])


def paper(height):
    """On a screen the picture is as wide as the window, but no wider than a page; on paper a sheet is a page."""
    shown = f"width: {SHOWN_WIDTH}; height: calc({SHOWN_WIDTH} * {height / SHEET_WIDTH:.4f})"
    printed = f"display: block; width: 210mm; height: {height * 297 / SHEET_HEIGHT:.2f}mm"
    on_paper = f"@page {{ size: A4; margin: 0 }}\n@media print {{ svg.picture {{ {printed} }} }}"
    return f"svg.picture {{ {shown} }}\n{on_paper}\n"


def main():
    parser = argparse.ArgumentParser(description="A farm's listing as a picture.")
    parser.add_argument("--by", choices=ORDERS, default=FILE_ORDER)
    parser.add_argument("--language", choices=LANGUAGES, default=ENGLISH)
    parser.add_argument("--file", type=os.fsencode)
    chosen = parser.parse_args()
    listing = sys.stdin.buffer.read().decode("ascii")
    if is_refusal(listing):
        return write(listing)
    return write(picture_of(listing, Words(chosen.language), chosen.by == AMMONIA, chosen.file))


if __name__ == "__main__":
    sys.exit(main())
