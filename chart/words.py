"""The words of a language, from the one table of words, chart/words.txt.

The English words of refusals, kinds and outputs are those of docs/refusals.txt and docs/meanings.txt.
"""

import json
import re
from pathlib import Path

ROOT = Path(__file__).resolve().parent.parent
TABLE = Path(__file__).resolve().parent / "words.txt"
REFUSALS = ROOT / "docs" / "refusals.txt"
MEANINGS = ROOT / "advice" / "lists.json"  # made from docs/meanings.txt

ENGLISH = "en"
LANGUAGES = (ENGLISH, "de", "fr")
LIMIT = re.compile(r"\b(BYTES|HERDS)\b")


def rows(text):
    """The table: of each key its words by language. A line that is none of it stands under no key."""
    table, words, language = {}, {}, None
    for line in text.splitlines():
        head, _, said = line.partition(" ")
        if not line or line.startswith("#"):
            continue
        if head == "==":
            if said in table:
                raise ValueError(f"the key `{said}` stands twice")
            words = table[said] = {}
        elif line.startswith("   ") and language in words:
            words[language] += " " + line.strip()
        elif head in LANGUAGES and head not in words:
            language = head
            words[language] = said
        else:
            raise ValueError(f"not a line of the table: {line}")
    return table


def refusals(text):
    """The English words of the refusals, with their limits in braces."""
    found = [line.split(" | ") for line in text.splitlines() if line and not line.startswith("#")]
    return {f"refusal {number}": LIMIT.sub(r"{\1}", words) for number, words, _ in found}


def meanings(lists):
    """The English words of the kinds, by the parts of their paths, and of the outputs that are listed."""
    kinds = {f"kind {kind['path'].split('::')[1]}": kind["what"] for kind in lists["kinds"]}
    return {**kinds, **{f"output {output['name']}": output["means"] for output in lists["outputs"]}}


def of_lists():
    """The English words that other lists have."""
    in_lists = json.loads(MEANINGS.read_text(encoding="utf-8"))
    return {**refusals(REFUSALS.read_text(encoding="utf-8")), **meanings(in_lists)}


def table():
    """Of each key its words by language."""
    found = rows(TABLE.read_text(encoding="utf-8"))
    for key, words in of_lists().items():
        found.setdefault(key, {}).setdefault(ENGLISH, words)
    return found


class Words:
    """The words of one language, and how it writes a number with thousands."""

    def __init__(self, language=ENGLISH):
        self.language = language
        self.said = {key: words[language] for key, words in table().items()}

    def __call__(self, key, **put_in):
        return self.said[key].format(**put_in)

    def number(self, number):
        return f"{number:,}".replace(",", self.said["thousands"])
