#!/usr/bin/env python3
"""Prints a farm file to start from, with a herd of each kind that is named: `./urvendlo template` runs it.

    advice/template.py [KIND..]
"""

import sys

from console import with_kinds


def labels_of(kinds):
    """The label of each herd; of a kind that is named more than once the second has a 2, and so on."""
    before = [sum(kind is other for other in kinds[:place]) for place, kind in enumerate(kinds)]
    return [f"{kind.label} {count + 1}" if count else kind.label for kind, count in zip(kinds, before)]


def template(kinds):
    return "".join(
        f"{label},{of.module},{of.name},{of.start}\r\n"
        for kind, label in zip(kinds, labels_of(kinds))
        for of in kind.inputs
    )


if __name__ == "__main__":
    sys.exit(with_kinds(sys.argv[1:], template))
