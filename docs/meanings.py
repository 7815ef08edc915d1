"""What docs/tables makes for people from the lists: advice/lists.json, and README.md's tables of inputs and outputs.

Inputs, their ranges and values come from the definitions (inputs/specs/Inputs, names/specs/Names), outputs from
outputs/specs/Names and listing/specs/HerdLines, refusals and limits as in docs/sources.py. docs/meanings.txt says what
these do not: words, sections of 001, values to start from. A name that lacks its line there is a fault, and so is a
line that is of no name.
"""

import json
import re
from functools import cache
from math import prod

from common import ROOT, faults
from sources import COOPERATIVE, INPUT, INPUTS, LINES, LISTING, VALUES
from sources import definitions, limit, output_names, refusal_rows, rows, texts, totals, within

LISTS = ROOT / "advice" / "lists.json"
MEANINGS = "docs/meanings.txt"
PATHS = "line_parts/specs/Paths.antt"
LABELS = "farm/specs/Limits.antt"
NONE = "–"


# ---- what docs/meanings.txt says


def parts():
    """The lines of each part, split."""
    found = {}
    for line in (ROOT / MEANINGS).read_text().splitlines():
        if line.startswith("== "):
            part = found.setdefault(line[3:], [])
        elif not line.startswith("#"):
            part.append(line.split(" | "))
    return found


class Said:
    """A part by its first columns, that knows which of its lines were asked for."""

    def __init__(self, part, keys, columns):
        self.part, self.asked, self.lines = part, set(), {}
        for line in parts().get(part, []):
            key = tuple(line[:keys])
            if len(line) != columns or key in self.lines:
                faults.append(f"{MEANINGS}: under {part}, not {columns} columns, or there already: {' | '.join(line)}")
            self.lines[key] = line[keys:]
        self.rest = columns - keys

    def of(self, *key):
        if key not in self.lines and key not in self.asked:
            faults.append(f"{MEANINGS}: under {self.part} there is no line of {' | '.join(key)}")
        self.asked.add(key)
        found = self.lines.get(key, [""] * self.rest)
        return found[0] if self.rest == 1 else found

    def tell_left(self):
        """Says which lines are of no name."""
        for key in self.lines.keys() - self.asked:
            faults.append(f"{MEANINGS}: under {self.part}, a line of no name: {' | '.join(key)}")


# ---- the input list


def form_of(words):
    """How a value reads: its values; or its decimals, the least and the most in their units, and what `standard` is."""
    page = definitions(INPUTS)
    name, _, maker = words.partition(" ")
    form = re.sub(r"\bform\b", maker, page[f"{name} form"]) if maker else page[name]
    shape, *numbers = re.findall(r"\([\d *]+\)|\w+", form)
    if shape == "OneOf":
        return {"values": texts(VALUES, definitions(VALUES)[f"names_of {numbers[0]}"])}
    *decimals, most = (prod(map(int, re.findall(r"\d+", number))) for number in numbers)
    least = -most if shape == "Signed" else 0
    standard = {"OrStandard": "taken", "NoStandard": "refused"}.get(shape, "unknown")
    return {"decimals": sum(decimals), "least": least, "most": most, "standard": standard}


def range_of(form):
    """A range or the values in words."""
    if "values" in form:
        return "one of " + ", ".join(form["values"]) if len(form["values"]) > 1 else form["values"][0]
    unit = 10 ** form["decimals"]
    up_to = f"up to {form['decimals']} decimal{'s' if form['decimals'] > 1 else ''}"
    decimals = "a whole number" if unit == 1 else up_to
    standard = ", or standard" if form["standard"] == "taken" else ""
    return f"{form['least'] // unit} to {form['most'] // unit}, {decimals}{standard}"


# ---- the lists


def kind_list(kind, said):
    """A kind with its words, its inputs and the lines that it lists."""
    word, what, label = said["kinds"].of(kind)
    path, sections = definitions(PATHS)[f"path_of {kind}"].strip('"'), dict(output_names())
    inputs = rows(INPUTS, f"rows_of {kind}", r'"([\w:]+)" has "(\w+)" reads ([\w ]+?)(?=\))')
    lines = [(f"{path}::{sections[name]}", name) for name in texts(LINES, f"lines_of {kind}")]
    return {
        "word": word,
        "what": what,
        "path": path,
        "label": label,
        "inputs": [input_row(kind, *of, said) for of in inputs],
        "outputs": [line_row(*line, said) for line in lines],
    }


def input_row(kind, module, name, words, said):
    form = form_of(words)
    return {
        "module": module,
        "name": name,
        "section": said["modules"].of(module),
        "means": said["inputs"].of(name),
        "form": form,
        "range": range_of(form),
        "start": said["starts"].of(kind, name),
    }


def line_row(module, name, said):
    return {"module": module, "name": name, "section": said["modules"].of(module)}


def outputs(lines, said):
    """What each output means that is listed, in the order of the list of outputs."""
    listed = {line["name"] for line in lines}
    in_order = dict.fromkeys([*(name.text for name in output_names()), *totals()])
    return [{"name": name, "means": said["outputs"].of(name)} for name in in_order if name in listed]


def refusals():
    """The refusals in words, by standard input's limits and by a cooperative's."""
    return [
        {
            "number": int(number),
            "words": within(INPUT, words),
            "cooperative": within(COOPERATIVE, words),
            "record": record,
        }
        for number, words, record in refusal_rows()
    ]


EXPLAINED = "advice/explained.txt"


def check_explained():
    """Each refusal has its page, and each page its refusal."""
    explained = re.findall(r"^== (\d+)$", (ROOT / EXPLAINED).read_text(), re.M)
    numbers = [number for number, _, _ in refusal_rows()]
    faults.extend(f"{EXPLAINED}: it has no page of refusal {number}" for number in numbers if number not in explained)
    faults.extend(f"{EXPLAINED}: a page of no refusal: {number}" for number in explained if number not in numbers)


# The parts of docs/meanings.txt: how many columns name what a line is of, and how many there are in all.
PARTS = {"kinds": (1, 4), "modules": (1, 2), "inputs": (1, 2), "starts": (2, 3), "outputs": (1, 2)}


@cache
def lists():
    """All that advice/lists.json has; the kinds are in the order of docs/meanings.txt."""
    said = {part: Said(part, *columns) for part, columns in PARTS.items()}
    by_kind = {kind: kind_list(kind, said) for kind in rows(INPUTS, "kinds", r"(\w+)")}
    kinds = [by_kind[kind] for (kind,) in said["kinds"].lines if kind in by_kind]
    (farm,) = texts(LISTING, "total_path")
    of_farm = [line_row(farm, name, said) for name in totals()]
    means = outputs([*(line for kind in kinds for line in kind["outputs"]), *of_farm], said)
    for part in said.values():
        part.tell_left()
    return {
        "made": "by docs/tables from the lists of inputs, outputs and refusals, and from docs/meanings.txt",
        "bytes": limit_number("BYTES"),
        "herds": limit_number("HERDS"),
        "label": int(definitions(LABELS)["label_most"]),
        "kinds": kinds,
        "totals": of_farm,
        "outputs": means,
        "refusals": refusals(),
    }


def limit_number(name):
    """A limit of a farm file, and of a cooperative's."""
    return [int(limit(f"{whose}_{name}").replace(",", "")) for whose in (INPUT, COOPERATIVE)]


def lists_file():
    check_explained()
    return {LISTS: json.dumps(lists(), indent=1, ensure_ascii=False) + "\n"}


# ---- the tables of README.md


def input_table():
    """A row an input."""
    return ("module", "input", "what it is", "may be", "section"), [
        (f"`{of['module']}`", f"`{of['name']}`", of["means"], marked(of["form"]), of["section"])
        for kind in lists()["kinds"]
        for of in kind["inputs"]
    ]


def marked(form):
    """A range or values with the words that a file has marked."""
    if "values" in form:
        return ", ".join(f"`{value}`" for value in form["values"])
    return range_of(form).replace("standard", "`standard`")


def output_table():
    """A row an output: where it stands, and of which kinds."""
    all_of = lists()
    found = []
    for name, means in (output.values() for output in all_of["outputs"]):
        lines = [(kind["word"], line["module"]) for kind in all_of["kinds"] for line in kind["outputs"]
                 if line["name"] == name]  # fmt: skip
        modules = dict.fromkeys(module.rpartition("::")[2] for _, module in lines)
        of = ", ".join(word for word, _ in lines) if len(lines) < len(all_of["kinds"]) else "every kind"
        in_totals = any(line["name"] == name for line in all_of["totals"])
        found.append((f"`{name}`", ", ".join(modules) or NONE, means, of or NONE, "yes" if in_totals else NONE))
    return ("output", "module", "what it is", "of", "in the totals"), found
