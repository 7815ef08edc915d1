"""A refused farm file, as what is said of it needs it."""

from collections import namedtuple

FIELDS = ("label", "module", "input name", "value")
FORM = "LABEL,MODULE,INPUT,VALUE"

# A refused file: its name as the program shows it, its bytes up to the larger limit, how many it has in all, its
# records, the refusal's number, the record that it names (0 where none), the limits that held (0 a farm file's, 1 a
# cooperative's), and whether the program says that mending helps.
Case = namedtuple("Case", "name raw size records number place limits is_hinted")


class Unknown(Exception):
    """The file is not as the refusal says, so nothing is known of it."""


def record_of(case):
    """The record that is named."""
    if not 1 <= case.place <= len(case.records):
        raise Unknown
    return case.records[case.place - 1]


def fields_of(case):
    """Its four fields."""
    fields = record_of(case).fields
    if len(fields) != len(FIELDS):
        raise Unknown
    return fields


def text_of(field):
    return field.decode("utf-8", "surrogateescape")


def of_mending(case, to):
    """The command that mends, where the program does not name it."""
    return [] if case.is_hinted else [f"{to}: urvendlo mend {case.name} > MENDED"]
