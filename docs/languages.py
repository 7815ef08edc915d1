"""Holds the table of words of the picture and the page, chart/words.txt, to the program and to what shows the words.

Every key has its words in every language, with the same braces. There is a word for every output, cut, note, reason,
refusal, kind and section of the program, and for no other; every other key is named in chart/, and what is named there
is a key.
"""

import re
import sys

from commands import HELP, commands
from common import CRATES, ROOT, faults
from meanings import MEANINGS
from sources import COOPERATIVE, LIMITS, WORDS, cut_names, definitions, limit, output_names, refusal_rows, texts, totals

CHART = ROOT / "chart"
sys.path.insert(0, str(CHART))

import words  # noqa: E402

NAMED = re.compile(r"""(?:words|said)\(\s*(["'])([^"'{]+)\1""")
BRACES = re.compile(r"{(\w+)}")


def check_words():
    try:
        own = words.rows(words.TABLE.read_text(encoding="utf-8"))
        table = words.table()
    except ValueError as fault:
        faults.append(f"chart/words.txt: {fault}")
        return
    for key, said in table.items():
        check_row(key, said)
    for key in words.of_lists():
        if words.ENGLISH in own.get(key, {}):
            faults.append(f"chart/words.txt: `{key}` has English words, which docs/refusals.txt or {MEANINGS} has")
    check_keys(set(table))
    check_launcher()


def check_row(key, said):
    for language in words.LANGUAGES:
        if not said.get(language):
            faults.append(f"chart/words.txt: `{key}` has no words in `{language}`")
    braces = {language: sorted(set(BRACES.findall(line))) for language, line in said.items()}
    if any(found != braces.get(words.ENGLISH) for found in braces.values()):
        faults.append(f"chart/words.txt: `{key}` has not the same braces in every language")


def of_program():
    """The keys that the program's lists ask for."""
    outputs = {name.text for name in output_names()} | set(totals())
    reasons = definitions("reasons/specs/Reasons.antt")
    modules = [path.split("::") for path in texts(WORDS, "modules")]
    count = re.search(r"^pub const COUNT: usize = (\d+);", (CRATES / "notes" / "src" / "lib.rt").read_text(), re.M)
    return {
        "output": outputs,
        "cut": {name.text for name in cut_names()} - outputs,
        "note": {str(place) for place in range(1, int(count[1]) + 1)},
        "reason": {said.strip('"') for head, said in reasons.items() if head.startswith("word ")},
        "refusal": {row[0] for row in refusal_rows()},
        "kind": {path[1] for path in modules},
        "section": {name.section for name in output_names()},
    }


def check_keys(keys):
    asked = {f"{group} {name}" for group, names in of_program().items() for name in names}
    groups = tuple(f"{group} " for group in of_program())
    for key in sorted(asked - keys):
        faults.append(f"chart/words.txt: it has no words for `{key}`")
    for key in sorted(key for key in keys - asked if key.startswith(groups)):
        faults.append(f"chart/words.txt: the program has no `{key}`")
    sources = "".join(path.read_text(encoding="utf-8") for path in sorted(CHART.glob("*.py")))
    shown = {key for key in keys if f'"{key}"' in sources or f"'{key}'" in sources}
    for key in sorted(key for key in keys - asked - shown if not key.startswith(groups)):
        faults.append(f"chart/words.txt: nothing in chart/ shows `{key}`")
    for key in sorted({key for _, key in NAMED.findall(sources)} - keys):
        faults.append(f"chart/words.txt: it has no words for `{key}`, which chart/ shows")


def check_launcher():
    """The languages, and the longest file, of which a report has a copy, stand in the launcher and in the help, too."""
    said = {option.argument for of in commands() for option in of.options if option.name == "--language"}
    if said != {"|".join(words.LANGUAGES)}:
        faults.append(f"{HELP}: the languages of a usage are not those of chart/words.py")
    launcher = (ROOT / "urvendlo").read_text()
    found = re.search(r"^languages='([a-z ]+)'", launcher, re.M)
    if not found or tuple(found[1].split()) != words.LANGUAGES:
        faults.append("urvendlo: its languages are not those of chart/words.py")
    most = limit(f"{COOPERATIVE}_BYTES").replace(",", "")
    for path, line in (("urvendlo", f"longest={most} "), ("chart/page.py", f"LONGEST = {most} ")):
        if f"\n{line}" not in (ROOT / path).read_text():
            faults.append(f"{path}: it has no line `{line}`, the limit of crates/{LIMITS}")
