#!/usr/bin/env python3
"""Prints every output with its meaning: `./urvendlo outputs` runs it.

    advice/outputs.py [KIND..]
"""

import sys

from console import with_kinds
from inputs import SECTIONS, indented, sections
from lists import LISTS
from shown import listed

HEAD = f"Each is in kilograms of nitrogen a year. TAN is its soluble part.\n{SECTIONS}"


def outputs(kinds):
    """The outputs of the kinds, module by module, with which of them have each where not all do; then the totals."""
    home = {line.name: last_of(line.module) for kind in LISTS.kinds for line in kind.outputs}
    modules = dict.fromkeys(home[output.name] for output in LISTS.outputs if output.name in home)
    return HEAD + "".join(of_module(module, kinds) for module in modules) + of_totals()


def last_of(module):
    return module.rpartition("::")[2]


def of_module(module, kinds):
    lines = ""
    for output in LISTS.outputs:
        having = [kind for kind in kinds if any(is_line(line, module, output.name) for line in kind.outputs)]
        if having:
            who = f" ({listed([kind.word for kind in having])} alone)" if len(having) < len(kinds) else ""
            lines += indented(f"{output.name}: {output.means}{who}", 4)
    of_lines = dict.fromkeys(line.section for kind in kinds for line in kind.outputs if last_of(line.module) == module)
    return f"\n  {module}  ({sections(of_lines)})\n{lines}" if lines else ""


def is_line(line, module, name):
    return (last_of(line.module), line.name) == (module, name)


def of_totals():
    means = {output.name: output.means for output in LISTS.outputs}
    in_herds = {line.name for kind in LISTS.kinds for line in kind.outputs}
    names = [line.name for line in LISTS.totals]
    more = "".join(indented(f"{name}: {means[name]}", 4) for name in names if name not in in_herds)
    same = indented(f"the sums over all herds of {listed([name for name in names if name in in_herds])}", 4)
    (place,) = {(line.module, line.section) for line in LISTS.totals}
    return f"\n  {place[0]}, with an empty label  ({sections(place[1:])})\n{same}{more}"


if __name__ == "__main__":
    sys.exit(with_kinds(sys.argv[1:], outputs))
