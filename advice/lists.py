"""The lists of kinds, inputs, outputs and refusals. docs/tables makes lists.json from the program's own lists."""

import json
from pathlib import Path
from types import SimpleNamespace

LISTS = json.loads(
    Path(__file__).with_name("lists.json").read_text(encoding="utf-8"), object_hook=lambda of: SimpleNamespace(**of)
)
KINDS = {kind.word: kind for kind in LISTS.kinds}
REFUSALS = {refusal.number: refusal for refusal in LISTS.refusals}

# Each input with its kind, by module and name.
INPUTS = {(of.module, of.name): (kind, of) for kind in LISTS.kinds for of in kind.inputs}


def names_of(module):
    """The names of a module's inputs; none where there is no such module."""
    return [name for of, name in INPUTS if of == module]


def kind_of(module):
    """The kind whose path a module stands under, or None."""
    return next((kind for kind in LISTS.kinds if f"{module}::".startswith(f"{kind.path}::")), None)


def is_number(form):
    return hasattr(form, "decimals")
