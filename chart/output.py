"""What the picture and the page share of files: how a farm file is named and dated, and writing to standard output."""

import os
import select
import stat
import sys
import time
import unicodedata

WRITTEN, FAILED = 0, 2
DAY = "%Y-%m-%d"


def shown_name(path):
    """A file's own name, with no folder; bytes and characters that are not to be shown as \\x.."""
    name = os.path.basename(path).decode("utf-8", "backslashreplace")
    return "".join(letter if is_shown(letter) else f"\\x{ord(letter):02x}" for letter in name)


def is_shown(letter):
    return letter == " " or unicodedata.category(letter)[0] not in "CZ"


def changed(path):
    """When the file was changed last, in seconds; None of what is no file, as a pipe."""
    try:
        found = os.stat(path)
    except OSError:
        return None
    return found.st_mtime if stat.S_ISREG(found.st_mode) else None


def told_of(path, words):
    """A farm file's name and its date; of standard input, and of what has no date, that of today."""
    name = shown_name(path) if path else words("standard input")
    when = changed(path) if path else None
    key = "file read on" if when is None else "file of"
    return words(key, file=name, date=time.strftime(DAY, time.localtime(when)))


def write(said):
    """Writes all of it, and says where that fails. The status is what the script ends with."""
    left = said.encode()
    try:
        while left:
            try:
                left = left[os.write(1, left) :]
            except BlockingIOError:
                select.select([], [1], [])
    except OSError as fault:
        print(f"urvendlo: the output cannot be written: {fault.strerror}", file=sys.stderr)
        return FAILED
    return WRITTEN
