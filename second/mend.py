#!/usr/bin/env python3
"""Mends what spreadsheets do to files, from request W6 alone.

    mend.py < FILE             prints the mended file
    mend.py --changes < FILE   prints the list of changes, a record KIND,PLACE each

A mark is the bytes EF BB BF at the very front. A bare LF is one that has no CR right
before it and an even number of quote bytes before it. Cut at its quotes, the file's
pieces 0, 2, 4 and so on are those with an even number of quotes before them; no piece
but the first has a byte other than a quote right before it, so a piece tells by itself
which of its LFs are bare.
"""

import re
import sys

MARK = b"\xef\xbb\xbf"
QUOTE = b'"'
CR = b"\r"
LF = b"\n"
RECORD_END = b"\r\n"
BARE = re.compile(rb"(?<!\r)\n")
MARK_DROPPED, CR_PUT = 1, 2
MOST_BYTES = 262144


def mended(file):
    """Give the mended file."""
    pieces = file.split(QUOTE)
    pieces[::2] = [BARE.sub(RECORD_END, piece) for piece in pieces[::2]]
    return QUOTE.join(pieces).removeprefix(MARK)


def changes(file):
    """Give the changes, each its kind and its place in the old file, places rising."""
    found = [(MARK_DROPPED, 0)] if file.startswith(MARK) else []
    begin = 0
    for number, piece in enumerate(file.split(QUOTE)):
        if number % 2 == 0:
            found += [(CR_PUT, begin + bare.start()) for bare in BARE.finditer(piece)]
        begin += len(piece) + len(QUOTE)
    return found


def undone(changed, file):
    """Give the old file back from the list of changes and the mended file."""
    old = b""
    for kind, place in changed:
        if kind == MARK_DROPPED:
            old += MARK
        else:
            kept = place - len(old)
            if file[kept : kept + len(CR + LF)] != CR + LF:
                raise ValueError(f"no CR was put in for place {place}")
            old, file = old + file[:kept], file[kept + len(CR) :]
    return old + file


def listed(changed):
    """Give the list of changes as it is printed."""
    return b"".join(b"%d,%d" % change + RECORD_END for change in changed)


def counted(file):
    """Give what the test program prints: both counts, the mended file, the list."""
    out, changed = mended(file), changes(file)
    return b"%d,%d" % (len(out), len(changed)) + RECORD_END + out + listed(changed)


def main():
    file = sys.stdin.buffer.read()
    out = listed(changes(file)) if sys.argv[1:] == ["--changes"] else mended(file)
    sys.stdout.buffer.write(out)


if __name__ == "__main__":
    main()
