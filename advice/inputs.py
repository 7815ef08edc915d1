#!/usr/bin/env python3
"""Prints every input of a farm file, with what it is and what it may be: `./urvendlo inputs` runs it.

    advice/inputs.py [KIND..]
"""

import sys
import textwrap

from console import with_kinds
from lists import is_number
from shown import listed

WIDTH = 80
SECTIONS = "Sections are those of the model's technical description, Agrammon version 6.\n"
HEAD = f"A record is LABEL,MODULE,INPUT,VALUE; each input of a kind is given once.\n{SECTIONS}"


def indented(words, indent):
    return textwrap.fill(words, WIDTH, initial_indent=" " * indent, subsequent_indent=" " * (indent + 2)) + "\n"


def inputs(kinds):
    return HEAD + "".join(map(of_kind, kinds))


def of_kind(kind):
    modules = dict.fromkeys((of.module, of.section) for of in kind.inputs)
    return f"\n{kind.word}: {kind.what}\n" + "".join(of_module(kind, *module) for module in modules)


def of_module(kind, module, section):
    its = "".join(of_input(of) for of in kind.inputs if of.module == module)
    return f"\n  {module}  ({sections([section])})\n{its}"


def sections(numbers):
    return f"section{'' if len(numbers) == 1 else 's'} {listed(list(numbers))}"


def of_input(of):
    may_be = [of.range] if is_number(of.form) else of.form.values
    return indented(f"{of.name}: {of.means}", 4) + "".join(indented(words, 8) for words in may_be)


if __name__ == "__main__":
    sys.exit(with_kinds(sys.argv[1:], inputs))
