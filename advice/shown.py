"""How a stretch of a file is shown in a message: on one line, and with no control byte."""

import re

MOST = 60  # characters of a stretch
PLAIN = re.compile(r"[!-~\u00a1-\uffff]+(?: [!-~\u00a1-\uffff]+)*")


def shown(stretch):
    """Bytes as they are where that is plain, else in quotes, with \\xNN for a byte that is no printed character."""
    text = stretch.decode("utf-8", "surrogateescape")
    cut = text if len(text) <= MOST else text[:MOST] + ".."
    marked = "".join(letter if letter.isprintable() else escaped(letter) for letter in cut)
    return marked if PLAIN.fullmatch(cut) and marked == cut and not cut.endswith(",") else f"'{marked}'"


def shown_text(text):
    """The same of text that was read with its odd bytes kept."""
    return shown(text.encode("utf-8", "surrogateescape"))


def escaped(letter):
    return "".join(f"\\x{byte:02x}" for byte in letter.encode("utf-8", "surrogateescape"))


def counted(number, what):
    return f"{number:,} {what}{'' if number == 1 else 's'}"


def listed(words):
    """Words in a sentence: a, b and c."""
    *front, last = words
    return f"{', '.join(front)} and {last}" if front else last
