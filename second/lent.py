"""Request W12: the herds of a farm in an array that a caller lends, here a list.

A farm's record is then such an array and a count. It is checked as the rules check a farm
that is handed in, always with record 0.
"""

from arithmetic import CUTS
from model import figures
from reading import COOPERATIVE, NO_RECORD, Limits, Refused, is_label, read_farm
from totals import totals


def room_of(array):
    """How many herds the array may hold."""
    return min(len(array), COOPERATIVE.herds)


def read_into(file, array):
    """Put the herds of a file to the front of the array and give their number, or raise the refusal.

    What the array holds beyond the last herd stays, and after a refusal the whole array does.
    """
    herds = read_farm(file, Limits(COOPERATIVE.bytes, room_of(array)))
    array[: len(herds)] = herds
    return len(herds)


def herds_of(array, count):
    """The herds of a farm's record, or raise its refusal."""
    if count > room_of(array):
        raise Refused(9, NO_RECORD)
    herds = array[:count]
    for place, herd in enumerate(herds):
        check_herd(herd, [earlier.label for earlier in herds[:place]])
    return herds


def check_herd(herd, earlier_labels):
    if not is_label(herd.label):
        raise Refused(4, NO_RECORD)
    if herd.label in earlier_labels:
        raise Refused(8, NO_RECORD)
    check_inputs(herd)


def check_inputs(herd):
    if herd.lacks_an_input():
        raise Refused(12, NO_RECORD)
    if not all(herd.kind.may_have(listed, herd.given[listed.name]) for listed in herd.kind.inputs):
        raise Refused(7, NO_RECORD)


def farm_totals(array, count):
    """The totals of a farm's record, or raise its refusal."""
    return totals([figures(herd, CUTS) for herd in herds_of(array, count)])
