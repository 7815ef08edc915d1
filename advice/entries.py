"""Refusals 5 to 7: a module and an input name that are not in the list, and a value that is not taken."""

import re

import values
from case import FORM, Unknown, fields_of, text_of
from lists import INPUTS, LISTS, kind_of, names_of
from shown import listed, shown, shown_text
from whole import HEADER, is_header, lines_of

# ---- module and input name


def not_listed(case):
    _, module, name, _ = map(text_of, fields_of(case))
    if (module, name) in INPUTS:
        raise Unknown
    if case.place == 1 and is_header(case.raw):
        return f"it is a header and no record: {shown(lines_of(case.raw)[0])}", [HEADER]
    if names_of(module):
        return unlisted_name(module, name)
    return unlisted_module(fields_of(case), module, name)


def unlisted_name(module, name):
    what = f"{module} has no input {shown_text(name)}; it has {listed(names_of(module))}"
    found = values.better_name(name, names_of(module))
    homes = [other for other, of in INPUTS if of == name.strip() and kind_of(other) is kind_of(module)]
    if homes:
        return what, [f"{name.strip()} stands under {homes[0]}"]
    others = [kind.what for kind in LISTS.kinds if any(of.name == name.strip() for of in kind.inputs)]
    if others:
        return what, [f"{name.strip()} is an input of {listed(others)} alone"]
    return what, [f"write {found[0]}: {found[1]}"] if found else ["`urvendlo inputs` tells every input"]


def unlisted_module(fields, module, name):
    modules = list(dict.fromkeys(of for of, _ in INPUTS))
    what = f"there is no module {shown_text(module)}" if module else "the module is empty"
    place = next((place for place, field in enumerate(fields) if text_of(field) in modules), None)
    if place is not None:
        return what, [f"the module stands in field {place + 1}: the order is {FORM}"]
    kind = meant_kind(module)
    homes = [of for of, its in INPUTS if its == name.strip() and kind_of(of) is kind]
    found = kind and values.better_name(module, [of for of in modules if kind_of(of) is kind])
    if homes and not (found and found[0] in homes):
        return what, [f"{name.strip()} stands under {homes[0]}"]
    if found:
        return what, [f"write {found[0]}: {found[1]}"]
    return what, [f"the kinds of herd are {listed([kind.path for kind in LISTS.kinds])}; `urvendlo inputs` tells more"]


def meant_kind(module):
    """The kind that a module's second part names, or nearly names; or None."""
    second = (re.split(r"[\W_]+", module.strip()) + [""])[1]
    kinds = {kind.path.rpartition("::")[2]: kind for kind in LISTS.kinds}
    found = values.better_name(second, list(kinds))
    return kinds[found[0]] if found else None


# ---- the value


def no_standard(case):
    _, module, name, value = map(text_of, fields_of(case))
    kind, of = listed_input(module, name)
    if value.lower() != "standard" or of.form.standard != "refused":
        raise Unknown
    takers = [other.what for other, its in INPUTS.values() if its.name == name and its.form.standard == "taken"]
    return f"{name} is {value}; of {kind.what} it may be {of.range}", [
        f"write the number: standard is of {listed(takers)} alone"
    ]


def bad_value(case):
    _, module, name, value = map(text_of, fields_of(case))
    _, of = listed_input(module, name)
    if values.takes(of.form, value):
        raise Unknown
    stands = f"is {shown_text(value)}" if value else "is empty"
    said = values.advice(value, of.form)
    return f"{name} {stands}; it may be {of.range}", [said] if said else []


def listed_input(module, name):
    if (module, name) not in INPUTS:
        raise Unknown
    return INPUTS[module, name]
