"""Making farm files that are accepted: any kind, value shape, order and quoting."""

from dataclasses import dataclass

from dice import Dice
from farmfile import COMMA, QUOTE, RECORD_END, SPECIAL
from inputs import CATTLE, KINDS, MINUS, PIGS, ROUGHAGE, STANDARD, Number, module_path
from reading import LABEL_BYTES, LONGEST_LABEL

LETTERS = sorted(LABEL_BYTES)
# With these alone the throws come out as they did before there were dairy cows.
FIRST_KINDS = (ROUGHAGE, CATTLE, PIGS)


class FarmDice(Dice):
    """Throws for farms whose herds are of some kinds."""

    def __init__(self, seed, kinds=KINDS):
        super().__init__(seed)
        self.kinds = kinds


def as_record(fields):
    return COMMA.join(fields) + RECORD_END


@dataclass(eq=False)
class Line:
    """A record to be written. Damage changes its texts or the way it is written."""

    kind: object
    label: str
    module: str
    name: str
    text: str
    write: object = as_record


def line_for(kind, label, listed, text):
    return Line(kind, label, module_path(kind, listed.module), listed.name, text)


def number_text(dice, rule):
    """A number of the rule, often at an end of its range, with any number of decimals."""
    places = dice.below(rule.decimals + 1)
    scale = 10**places
    least, most = rule.least * scale, rule.most * scale
    value = {0: 0, 1: 1, 2: most, 3: least or most}.get(dice.below(20), dice.between(least, most))
    whole, rest = divmod(abs(value), scale)
    text = f"{whole}.{rest:0{places}}" if places else str(whole)
    return MINUS + text if value < 0 else text


def odd_case(dice, word):
    return "".join(dice.pick((letter.lower(), letter.upper())) for letter in word)


def text_for(dice, kind, listed):
    if kind.takes_standard(listed) and dice.one_in(3):
        return odd_case(dice, STANDARD)
    if isinstance(listed.values, Number):
        return number_text(dice, listed.values)
    return dice.pick(listed.values.names)


def new_label(dice, taken):
    """A label that is not taken, now and then one that is nearly like a taken one."""
    while True:
        label = "".join(dice.pick(LETTERS) for _ in range(dice.between(1, LONGEST_LABEL)))
        if taken and dice.one_in(3):
            twin = dice.pick(taken)
            label = dice.pick((twin.swapcase(), twin + " ", " " + twin, twin[:-1], twin + COMMA))
        if label not in taken and 1 <= len(label) <= LONGEST_LABEL:
            return label


def new_labels(dice, count):
    labels = []
    while len(labels) < count:
        labels.append(new_label(dice, labels))
    return labels


def herd_lines(dice, label, kind):
    return [
        line_for(kind, label, listed, text_for(dice, kind, listed))
        for listed in dice.shuffled(kind.inputs)
    ]


def farm_lines(dice, herds):
    return [
        line
        for label in new_labels(dice, herds)
        for line in herd_lines(dice, label, dice.pick(dice.kinds))
    ]


def quoted(text):
    return QUOTE + text.replace(QUOTE, QUOTE * 2) + QUOTE


def file_of(lines, quote_too=lambda: False):
    """The bytes of the lines, each field quoted where it must be or where asked for."""
    out = ""
    for line in lines:
        texts = (line.label, line.module, line.name, line.text)
        out += line.write([quoted(t) if SPECIAL.search(t) or quote_too() else t for t in texts])
    return out.encode("latin-1")


def written(dice, lines):
    """The same, with quotes everywhere, here and there or nowhere else; the end may lack CRLF."""
    one_in = dice.pick((1, 2, 5, 1000))
    file = file_of(lines, lambda: dice.one_in(one_in))
    return file.removesuffix(RECORD_END.encode()) if dice.one_in(4) else file


def farm_file(dice):
    return written(dice, farm_lines(dice, dice.between(1, 3)))
