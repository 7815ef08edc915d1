"""A farm file split into records by 01's rules, for messages alone: what a record has, and where one breaks.

A record has fields, each the stretch between its delimiters, outer quotes left off. One that breaks the rules has the
fields up to there, the one that breaks among them, and says how it breaks.
"""

import re
from collections import namedtuple

STOP = re.compile(rb'[,"\r\n]')

# How a record breaks.
BARE_LF, BARE_CR = "bare LF", "bare CR"
QUOTE_INSIDE, BEHIND_QUOTE, UNCLOSED = "a quote inside a field", "something behind a closing quote", "an open quote"

# Its fields, where it starts and ends in the file, and how it breaks, or None.
Record = namedtuple("Record", "fields start end breaks")


def records_of(raw):
    """The records from the front, up to the first that breaks."""
    at, found = 0, []
    while at < len(raw):
        record, at = record_at(raw, at)
        found.append(record)
        if record.breaks:
            break
    return found


def record_at(raw, start):
    """The record that starts there, and where the next one does."""
    fields, at = [], start
    while True:
        field, at, breaks = (quoted if raw[at : at + 1] == b'"' else unquoted)(raw, at)
        fields.append(field)
        if breaks or raw[at : at + 1] != b",":
            return Record(fields, start, at, breaks), at + 2
        at += 1


def unquoted(raw, start):
    """A field without quotes: its stretch, where it ends, and how it breaks."""
    stop = STOP.search(raw, start)
    at = stop.start() if stop else len(raw)
    ends = not stop or stop[0] == b"," or raw[at : at + 2] == b"\r\n"
    return raw[start:at], at, None if ends else {b'"': QUOTE_INSIDE, b"\r": BARE_CR, b"\n": BARE_LF}[stop[0]]


def quoted(raw, start):
    """A field in quotes, the same."""
    at = start + 1
    while True:
        at = raw.find(b'"', at)
        if at < 0:
            return raw[start + 1 :], len(raw), UNCLOSED
        if raw[at + 1 : at + 2] != b'"':
            break
        at += 2
    behind = raw[at + 1 : at + 3]
    if behind in (b"", b"\r\n") or behind[:1] == b",":
        return raw[start + 1 : at], at + 1, None
    breaks = {b"\n": BARE_LF, b"\r": BARE_CR}.get(behind[:1], BEHIND_QUOTE)
    return raw[start + 1 : at], at + 1, breaks
