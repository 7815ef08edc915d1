#!/usr/bin/env python3
"""The stored test vectors: files and the outputs that belong to them.

    vectors.py --write                  make all packs anew
    vectors.py --check                  make them in memory and compare with the stored ones
    vectors.py --which OFFSET           show the farm file that a byte of the outputs belongs to
    vectors.py --which OFFSET --logs    the same of the gate's logs
    vectors.py --which OFFSET --mended  the same of the files that were mended
    vectors.py --which OFFSET --doubles the same of the farm files whose doubles are shown
    vectors.py --which OFFSET --lent    the same of the farm files that are read into lent arrays
    vectors.py --which OFFSET --lines   the same of the farm files that are held against a line
    vectors.py --which OFFSET --steps   the same of the walks of steps

The packs are the input and the expected output of seven programs: `test_vectors`, farm
files and for each what every command prints, `test_gate`, logs of a pasture gate and
their answers, `test_mend`, files and what mending makes of them, `test_kilograms`,
farm files and their figures as doubles, `test_lent`, farm files and what lent arrays
hold after reading them, `test_line`, farm files held against a line, and `test_steps`,
walks of steps over farms with stored totals, as bytes (`steps_cases.py`). In a program's
folder `stdin` holds each file's length as 4 bytes, little-endian, and its bytes;
`stdout` holds the outputs one after the other. In the packs of `test_vectors` and of `test_line` a letter stands
before each farm file, and counts to its length: where the file comes from, which gives its limits. Behind the letter
`test_line` has a byte with the length of the line's digits, and the digits.
"""

import argparse
import sys
from collections import Counter
from functools import partial
from pathlib import Path

import cases
import cooperative_cases
import doubles
import gate_cases
import gatelog
import lent_cases
import line_cases
import mend
import mend_cases
import steps_cases
from reading import COOPERATIVE, STANDARD_INPUT
from urvendlo import COMMANDS, answer, at_line

CRATES = Path(__file__).resolve().parent.parent / "crates"
LENGTH_BYTES = 4
REFUSAL_FIELDS = 3


# Where a farm file comes from.
LETTERS = {STANDARD_INPUT: b"s", COOPERATIVE: b"c"}
LIMITS = {letter: limits for limits, letter in LETTERS.items()}


def every_farm():
    """Each farm file behind its letter."""
    for file in cases.every_file():
        yield LETTERS[STANDARD_INPUT] + file
    for limits, file in cooperative_cases.every_case():
        yield LETTERS[limits] + file


def farm_answer(farm, *command):
    """What a command prints for a farm file that stands behind its letter."""
    return answer(farm[1:], *command, limits=LIMITS[farm[:1]])


def output(farm):
    """What the commands print for it, one after the other."""
    return b"".join(farm_answer(farm, command) for command in COMMANDS)


def every_line():
    """Each farm file behind its letter, the length of its line's text, and that text."""
    for limits, line, file in line_cases.every_case():
        text = str(line).encode("ascii")
        yield LETTERS[limits] + bytes([len(text)]) + text + file


def line_answer(farm):
    """What is printed for a farm file that stands behind its letter and its line."""
    end = 2 + farm[1]
    return answer(farm[end:], at_line(int(farm[2:end])), LIMITS[farm[:1]])


def refusal_number(output):
    """The number of a refusal's line, or None for an answer, which has more fields."""
    fields = output.split(b",")
    return int(fields[1]) if len(fields) == REFUSAL_FIELDS else None


def told(counts):
    return ", ".join(f"{number}: {counts[number]}" for number in sorted(counts))


def by_refusals(answer):
    """What is told of files, by the answer to each."""

    def tell(files):
        counts = Counter(refusal_number(answer(file)) for file in files)
        return f"{len(files)} files, {counts.pop(None)} accepted; refused, by number:\n{told(counts)}"

    return tell


def by_changes(files):
    counts = Counter(kind for file in files for kind, _ in mend.changes(file))
    return f"{len(files)} files; {counts[mend.MARK_DROPPED]} marks dropped, {counts[mend.CR_PUT]} CRs put in"


def by_steps(walks):
    counts = Counter(steps_cases.refusal_numbers(walks))
    return f"{len(walks)} walks, {counts.pop(None)} steps done; refused, by number:\n{told(counts)}"


class Pack:
    """What a test program is run on: files, what it prints for each, and what is told of all of them."""

    def __init__(self, program, every_file, output, tell):
        self.files = CRATES / program / "stdin"
        self.outputs = CRATES / program / "stdout"
        self.program, self.every_file, self.output, self.tell = program, every_file, output, tell


FARMS = Pack("test_vectors", every_farm, output, by_refusals(farm_answer))
LOGS = Pack("test_gate", gate_cases.every_log, gatelog.answer, by_refusals(gatelog.answer))
MENDED = Pack("test_mend", mend_cases.every_file, mend.counted, by_changes)
DOUBLES = Pack("test_kilograms", doubles.every_file, doubles.doubles, by_refusals(answer))
LENT = Pack("test_lent", lent_cases.every_file, lent_cases.output, by_refusals(partial(answer, limits=COOPERATIVE)))
LINES = Pack("test_line", every_line, line_answer, by_refusals(line_answer))
STEPS = Pack("test_steps", steps_cases.every_case, steps_cases.output, by_steps)
PACKS = (FARMS, LOGS, MENDED, DOUBLES, LENT, LINES, STEPS)


def packed(files):
    return b"".join(len(file).to_bytes(LENGTH_BYTES, "little") + file for file in files)


def unpacked(pack):
    at = 0
    while at < len(pack):
        begin = at + LENGTH_BYTES
        at = begin + int.from_bytes(pack[at:begin], "little")
        yield pack[begin:at]


def stored_farms(limits):
    """The farm files of the vectors that are read by these limits."""
    for farm in unpacked(FARMS.files.read_bytes()):
        if LIMITS[farm[:1]] == limits:
            yield farm[1:]


def write(pack):
    files = list(pack.every_file())
    pack.files.write_bytes(packed(files))
    pack.outputs.write_bytes(b"".join(map(pack.output, files)))


def check(pack):
    """Compare with the stored packs; give whether they are the same."""
    files = list(pack.every_file())
    outputs = b"".join(map(pack.output, files))
    same = True
    for path, made in ((pack.files, packed(files)), (pack.outputs, outputs)):
        if path.read_bytes() != made:
            print(f"{pack.program}/{path.name}: the stored pack differs from the one made now")
            same = False
    print(f"{pack.program}: {pack.tell(files)}")
    return same


def show(pack, offset):
    end = 0
    for number, file in enumerate(unpacked(pack.files.read_bytes()), start=1):
        printed = pack.output(file)
        begin, end = end, end + len(printed)
        if offset < end:
            print(f"file {number}, {len(file)} bytes; its output stands at {begin} to {end}:")
            for part in (file, printed):
                print(*map(repr, part.splitlines(keepends=True)), sep="\n", end="\n\n")
            return True
    print(f"the outputs end at {end}")
    return False


def main():
    parser = argparse.ArgumentParser(description="The stored test vectors.")
    choice = parser.add_mutually_exclusive_group(required=True)
    choice.add_argument("--write", action="store_true", help="make the packs anew")
    choice.add_argument("--check", action="store_true", help="compare with the stored packs")
    choice.add_argument("--which", type=int, metavar="OFFSET", help="show one file and its output")
    of = parser.add_mutually_exclusive_group()
    of.add_argument("--logs", action="store_const", dest="pack", const=LOGS, default=FARMS, help="of the gate's logs")
    of.add_argument("--mended", action="store_const", dest="pack", const=MENDED, help="of the files that were mended")
    of.add_argument("--doubles", action="store_const", dest="pack", const=DOUBLES, help="of the doubles' farm files")
    of.add_argument("--lent", action="store_const", dest="pack", const=LENT, help="of the lent arrays' farm files")
    of.add_argument("--lines", action="store_const", dest="pack", const=LINES, help="of the farm files at a line")
    of.add_argument("--steps", action="store_const", dest="pack", const=STEPS, help="of the walks of steps")
    chosen = parser.parse_args()
    if chosen.write:
        for pack in PACKS:
            write(pack)
        return 0
    if chosen.check:
        same = [check(pack) for pack in PACKS]
        return 0 if all(same) else 1
    return 0 if show(chosen.pack, chosen.which) else 1


if __name__ == "__main__":
    sys.exit(main())
