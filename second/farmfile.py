"""Taking a farm file apart into records and fields (RFC 4180).

The file comes as text in which each character stands for one byte (Latin-1),
so any bytes at all can be read and positions are byte positions. A field is the
stretch between its delimiters: outer quotes are left off, and a doubled quote
inside stays doubled.
"""

import re

COMMA = ","
QUOTE = '"'
RECORD_END = "\r\n"
SPECIAL = re.compile('[,"\r\n]')


def records(text):
    """Give the fields of each record in turn, or None for a record that breaks.

    Nothing is read past a broken record. A record end that closes the file
    opens no further record.
    """
    at = 0
    while at < len(text):
        fields = []
        while True:
            found = field(text, at)
            if found is None:
                yield None
                return
            stretch, at = found
            fields.append(stretch)
            if not text.startswith(COMMA, at):
                break
            at += len(COMMA)
        yield fields
        at += len(RECORD_END)


def field(text, at):
    """Give the field that begins at `at` and where it stops, or None if it breaks."""
    if text.startswith(QUOTE, at):
        begin = at + len(QUOTE)
        end = closing_quote(text, begin)
        if end < 0:
            return None
        stop = end + len(QUOTE)
    else:
        begin = at
        special = SPECIAL.search(text, at)
        end = stop = special.start() if special else len(text)
    if stop == len(text) or text.startswith((COMMA, RECORD_END), stop):
        return text[begin:end], stop
    return None


def closing_quote(text, at):
    """Find the first quote from `at` on that is not one of a doubled pair, or -1."""
    end = text.find(QUOTE, at)
    while end >= 0 and text.startswith(QUOTE, end + 1):
        end = text.find(QUOTE, end + 2)
    return end
