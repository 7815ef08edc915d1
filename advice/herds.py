"""Refusals 8 to 12: what is wrong with a herd as a whole."""

from collections import namedtuple

from case import FIELDS, Unknown, fields_of, text_of
from lists import LISTS, kind_of
from shown import listed, shown

# A herd as it stands in a file: its label, and the places of its records.
Herd = namedtuple("Herd", "label places")


def herds_of(case, end):
    """The herds of the records before a place, which stand together there."""
    found = []
    for place, record in enumerate(case.records[: end - 1], 1):
        if len(record.fields) != len(FIELDS):
            raise Unknown
        if not (found and found[-1].label == record.fields[0]):
            found.append(Herd(record.fields[0], []))
        found[-1].places.append(place)
    return found


def places_of(herd):
    first, last = herd.places[0], herd.places[-1]
    return f"record {first}" if first == last else f"records {first} to {last}"


def stood_before(case):
    label = fields_of(case)[0]
    herds = herds_of(case, case.place)
    stood = [herd for herd in herds if herd.label == label]
    if not stood or herds[-1].label == label:
        raise Unknown
    what = f"herd {shown_label(label)} stood in {places_of(stood[0])}; a herd's records stand together"
    last = stood[0].places[-1]
    alike = [herd for herd in herds if herd.places[0] > last and same_label(herd.label, label)]
    if alike:
        return what, [two_herds(stood[0], alike[0])]
    return what, [f"move it behind record {last}, or sort the file by its first column; another herd has another label"]


def two_herds(herd, other):
    """What to do where two labels differ by blanks or letter case alone."""
    both = f"{in_quotes(herd.label)} and {in_quotes(other.label)} ({places_of(other)})"
    return f"{both} count as two herds: write the label the same everywhere"


def too_many(case):
    label = fields_of(case)[0]
    herds, most = herds_of(case, case.place), LISTS.herds[case.limits]
    if len(herds) != most:
        raise Unknown
    return f"{shown_label(label)} is herd {most + 1}; a file may have {most}", []


def another_kind(case):
    label, module, _, _ = fields_of(case)
    first = own_herd(case, label).places[0]
    its, of = kind_of(text_of(case.records[first - 1].fields[1])), kind_of(text_of(module))
    if its is None or of is None or its is of:
        raise Unknown
    both = f"it is of {of.what} ({of.path}), and {shown_label(label)} is of {its.what} ({its.path})"
    return f"{both} by record {first}", [
        f"if it is of {shown_label(label)}, write {its.path}; if not, give the {of.what} a label of their own"
    ]


def own_herd(case, label):
    """The herd that a record goes on."""
    herds = herds_of(case, case.place)
    if not herds or herds[-1].label != label:
        raise Unknown
    return herds[-1]


def given_twice(case):
    label, module, name, value = fields_of(case)
    first = next((p for p in own_herd(case, label).places if case.records[p - 1].fields[1:3] == [module, name]), None)
    if first is None:
        raise Unknown
    before = case.records[first - 1].fields[3]
    either = f"keep {shown(before)} or {shown(value)}, and take the other out"
    said = "take one of the two out" if before == value else either
    return f"{text_of(name)} of {shown_label(label)} was given already, in record {first} as {shown(before)}", [
        f"{said}; another herd has another label"
    ]


def lacking(case):
    herds = herds_of(case, len(case.records) + 1)
    herd = next((herd for herd in herds if herd.places[0] == case.place), None)
    kind = herd and kind_of(text_of(case.records[case.place - 1].fields[1]))
    if not kind:
        raise Unknown
    has = {tuple(map(text_of, case.records[place - 1].fields[1:3])) for place in herd.places}
    lacks = [of for of in kind.inputs if (of.module, of.name) not in has]
    if not lacks:
        raise Unknown
    modules = dict.fromkeys(of.module for of in lacks)
    missing = [f"{listed([of.name for of in lacks if of.module == module])} ({module})" for module in modules]
    what = f"{shown_label(herd.label)}, {kind.what} in {places_of(herd)}, lacks {listed(missing)}"
    alike = [other for other in herds if other is not herd and same_label(other.label, herd.label)]
    if alike:
        return what, [two_herds(herd, alike[0])]
    which = "it" if len(lacks) == 1 else "each"
    return what, [f"give {which} once; `urvendlo inputs {kind.word}` tells what it may be"]


def same_label(a, b):
    """Whether two labels are one but for blanks and letter case."""
    return b"".join(a.split()).lower() == b"".join(b.split()).lower()


def in_quotes(label):
    return f"'{text_of(label)}'"


def shown_label(label):
    """A label in a sentence, in quotes where it has a comma."""
    return in_quotes(label) if b"," in label else shown(label)
