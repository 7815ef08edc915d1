"""Farm files spoilt by throws: one fault, two faults in one record or in two, or changed bytes.

A function that spoils a line is filed under the refusal that it asks for when
nothing earlier is wrong.
"""

from farms import (
    farm_file,
    farm_lines,
    herd_lines,
    line_for,
    new_label,
    new_labels,
    odd_case,
    text_for,
    written,
)
from faults import (
    BAD_LABELS,
    BENT_NAMES,
    COUNTS,
    END_BREAKS,
    FIELD_BREAKS,
    FIELDS_TO_BREAK,
    UNLISTED,
    bad_values,
    breaking_end,
    breaking_field,
    counting,
)
from inputs import LISTED, PIGS, STANDARD, module_path
from reading import STANDARD_INPUT

# Spoiling a line of a farm: each changes the line that it is given.


def herd_of(lines, line):
    return [other for other in lines if other.label == line.label]


def break_record(dice, lines, line):
    if dice.one_in(4):
        line.write = breaking_end(dice.pick(END_BREAKS))
    else:
        line.write = breaking_field(dice.pick(FIELD_BREAKS), dice.below(FIELDS_TO_BREAK))


def change_count(dice, lines, line):
    line.write = counting(dice.pick(COUNTS))


def spoil_label(dice, lines, line):
    line.label = dice.pick(BAD_LABELS)


def spoil_name(dice, lines, line):
    if dice.one_in(2):
        line.module, line.name = dice.pick(UNLISTED)
    else:
        line.module, line.name = dice.pick(BENT_NAMES)(line.module, line.name)


def forbidden_standard(dice, lines, line):
    listed = dice.pick(line.kind.refused_standards())
    line.module, line.name = module_path(line.kind, listed.module), listed.name
    line.text = odd_case(dice, STANDARD)


def spoil_value(dice, lines, line):
    line.text = dice.pick(bad_values(LISTED[line.module, line.name][1]))


def label_of_earlier_herd(dice, lines, line):
    earlier = lines[: lines.index(herd_of(lines, line)[0])]
    line.label = dice.pick(earlier).label


def other_kind(dice, lines, line):
    kind = dice.pick([kind for kind in dice.kinds if kind is not line.kind])
    shared = [listed for listed in kind.inputs if listed.name == line.name]
    listed = shared[0] if shared and dice.one_in(2) else dice.pick(kind.inputs)
    line.module, line.name = module_path(kind, listed.module), listed.name
    line.text = text_for(dice, kind, listed)


def given_already(dice, lines, line):
    before = herd_of(lines, line)
    given = dice.pick(before[: before.index(line)])
    line.module, line.name = given.module, given.name
    line.text = dice.pick((given.text, text_for(dice, *LISTED[given.module, given.name])))


def missing_input(dice, lines, line):
    lines.remove(line)


# Two of them go on one line with the later refusal first, so that the earlier one
# can be laid over it. Refusal 9 takes a farm of its own: file_past_the_last_herd.
FAULTS = {
    2: break_record,
    3: change_count,
    4: spoil_label,
    5: spoil_name,
    6: forbidden_standard,
    7: spoil_value,
    8: label_of_earlier_herd,
    10: other_kind,
    11: given_already,
}
MISSING = 12
# Those that any record can have, and those that a record which opens a herd can have.
FAULTS_OF_ANY_RECORD = (2, 3, 4, 5, 7, MISSING)
FAULTS_OF_FIRST_RECORDS = (2, 3, 4, 5, 6, 7, 8)


def spot(dice, lines):
    """A line where each fault can be put: later in a herd that is not roughage, not the first herd."""
    fit = [
        line
        for line in lines
        if line.kind.refused_standards()
        and line.label != lines[0].label
        and line is not herd_of(lines, line)[0]
    ]
    return dice.pick(fit) if fit else None


def lines_with_spot(dice, herds):
    while True:
        lines = farm_lines(dice, herds)
        line = spot(dice, lines)
        if line:
            return lines, line


def file_with_faults_in_a_record(dice, numbers):
    lines, line = lines_with_spot(dice, 2)
    for number in sorted(numbers, reverse=True):
        put_fault(dice, lines, line, number)
    return written(dice, lines)


def file_with_faults_in_two_records(dice, number, other_number):
    lines, line = lines_with_spot(dice, 3)
    other = dice.pick([other for other in lines if other is not line])
    put_fault(dice, lines, line, number)
    put_fault(dice, lines, other, other_number)
    return written(dice, lines)


def file_with_a_fault(dice):
    return file_with_faults_in_a_record(dice, [dice.pick((*FAULTS, MISSING))])


def file_with_two_faults(dice):
    if dice.one_in(2):
        return file_with_faults_in_a_record(dice, dice.shuffled(FAULTS)[:2])
    number, other_number = dice.pick(tuple(FAULTS)), dice.pick(FAULTS_OF_ANY_RECORD)
    return file_with_faults_in_two_records(dice, number, other_number)


def put_fault(dice, lines, line, number):
    if number == MISSING:
        missing_input(dice, lines, line)
    else:
        FAULTS[number](dice, lines, line)


def short_herds(dice, count):
    """Herds of one record each: enough to count them, short of inputs."""
    lines = []
    kinds = [kind for kind in dice.kinds if kind.refused_standards()]
    for label in new_labels(dice, count):
        kind = dice.pick(kinds)
        listed = dice.pick([listed for listed in kind.inputs if listed.module == "Excretion"])
        lines.append(line_for(kind, label, listed, text_for(dice, kind, listed)))
    return lines


def file_past_the_last_herd(dice, limits=STANDARD_INPUT):
    """One record opens the herd too many, and often has another fault as well."""
    lines = short_herds(dice, limits.herds + 1)
    fault = dice.pick((*FAULTS_OF_FIRST_RECORDS, *[None] * len(FAULTS_OF_FIRST_RECORDS)))
    if fault:
        put_fault(dice, lines, lines[-1], fault)
    lines += herd_lines(dice, new_label(dice, [line.label for line in lines]), PIGS)
    return written(dice, lines)


HOSTILE = b',,""\r\n\0 .-+:09Aa\x1f\x7f\x80\xff'

# What is put in place of a stretch of bytes, and the length of the stretch it replaces.
EDITS = (
    lambda stretch, byte: (byte, 1),
    lambda stretch, byte: (byte, 0),
    lambda stretch, byte: (b"", 1),
    lambda stretch, byte: (b"", len(stretch)),
    lambda stretch, byte: (stretch, 0),
    lambda stretch, byte: (stretch[::-1], len(stretch)),
)


def mutated_file(dice):
    """An accepted file with a few bytes changed, put in, taken out, doubled or turned round."""
    file = farm_file(dice)
    for _ in range(dice.between(1, 3)):
        at = dice.below(len(file))
        stretch = file[at : at + dice.between(1, 60)]
        new, replaced = dice.pick(EDITS)(stretch, bytes([dice.pick(HOSTILE)]))
        file = file[:at] + new + file[at + replaced :]
    return file[: dice.below(len(file))] if dice.one_in(6) else file


def moved_records_file(dice):
    """An accepted file with a record or two moved, so that herds may be torn apart."""
    lines = farm_lines(dice, dice.between(1, 3))
    for _ in range(dice.between(1, 2)):
        line = lines.pop(dice.below(len(lines)))
        lines.insert(dice.below(len(lines) + 1), line)
    return written(dice, lines)


# Each way of making a file, and in how many of a hundred cases it is taken.
WAYS = (
    (40, farm_file),
    (12, file_with_a_fault),
    (24, file_with_two_faults),
    (14, mutated_file),
    (6, moved_records_file),
    (4, file_past_the_last_herd),
)


def random_file(dice):
    """Any file: accepted, with one fault or two, or with bytes changed."""
    return dice.pick([way for times, way in WAYS for _ in range(times)])(dice)


def too_long_file(dice, limits=STANDARD_INPUT):
    """A file of more bytes than may be read: a farm with padding before or behind it."""
    farm = farm_file(dice)
    over = dice.pick((1, 1, 1, 2, 3, 100))
    filler = dice.pick((b"A", b",", b"\r\n", b'"', b"\0", b"9", farm))
    missing = limits.bytes + over - len(farm)
    padding = (filler * missing)[:missing]
    return dice.pick((farm + padding, padding + farm))
