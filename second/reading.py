"""Reading a farm: the herds of a file, or its refusal.

The checks stand in the order of the refusal table, so that the first one that
fails is the one to give. How long a file and how large its farm may be is an argument.
"""

from dataclasses import dataclass, field

from farmfile import records
from inputs import LISTED, STANDARD, is_standard

FIELDS_A_RECORD = 4
LONGEST_LABEL = 16
LABEL_BYTES = frozenset(map(chr, range(32, 127))) - {'"'}
NO_RECORD = 0


@dataclass(frozen=True)
class Limits:
    """The most bytes of a file, and the most herds of its farm."""

    bytes: int
    herds: int


STANDARD_INPUT = Limits(bytes=65536, herds=64)
# Request W12.
COOPERATIVE = Limits(bytes=262144, herds=512)


class Refused(Exception):
    """A file that is not accepted: the refusal's number and the record's."""

    def __init__(self, number, record):
        super().__init__(number, record)
        self.number = number
        self.record = record


@dataclass
class Herd:
    label: str
    kind: object
    first_record: int
    given: dict = field(default_factory=dict)

    def lacks_an_input(self):
        return any(listed.name not in self.given for listed in self.kind.inputs)


def read_farm(file, limits=STANDARD_INPUT):
    """Give the herds of a farm file (bytes) in file order, or raise its refusal."""
    if len(file) > limits.bytes:
        raise Refused(1, NO_RECORD)
    herds = []
    for number, fields in enumerate(records(file.decode("latin-1")), start=1):
        take_record(herds, number, fields, limits.herds)
    for herd in herds:
        if herd.lacks_an_input():
            raise Refused(12, herd.first_record)
    return herds


def take_record(herds, number, fields, most_herds):
    """Put one record into the farm read so far, or raise its refusal."""
    if fields is None:
        raise Refused(2, number)
    if len(fields) != FIELDS_A_RECORD:
        raise Refused(3, number)
    label, module, name, text = fields
    if not is_label(label):
        raise Refused(4, number)
    if (module, name) not in LISTED:
        raise Refused(5, number)
    kind, listed = LISTED[module, name]
    if listed.has_standard and is_standard(text):
        if not kind.takes_standard(listed):
            raise Refused(6, number)
        value = STANDARD
    else:
        value = listed.values.read(text)
        if value is None:
            raise Refused(7, number)
    if not herds or herds[-1].label != label:
        if any(herd.label == label for herd in herds):
            raise Refused(8, number)
        if len(herds) == most_herds:
            raise Refused(9, number)
        herds.append(Herd(label, kind, number))
    herd = herds[-1]
    if herd.kind is not kind:
        raise Refused(10, number)
    if name in herd.given:
        raise Refused(11, number)
    herd.given[name] = value


def is_label(text):
    return 1 <= len(text) <= LONGEST_LABEL and LABEL_BYTES.issuperset(text)
