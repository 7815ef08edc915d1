"""The parts of the picture, in units of a third of a millimetre: its head with legend and axis, and a block a herd.

All bars, and the strips of ammonia in them, have one scale. A part is a height and pieces of SVG whose y begins at 0;
the sheets of chart/draw.py put parts one below the other, and the page of chart/page.py has each as a row.
"""

import unicodedata
from decimal import ROUND_CEILING, ROUND_HALF_UP, Context, Decimal
from xml.sax.saxutils import escape, quoteattr

from herds import HOUSING, NOTHING, PASTURE, PLACES, YARD

# ---- sizes

SHEET_WIDTH, SHEET_HEIGHT = 630, 891  # A4
LEFT, RIGHT = 36, 594
BAR_WIDTH = RIGHT - LEFT
COLUMN = BAR_WIDTH / len(PLACES)
BAR_HEIGHT, STRIP_HEIGHT = 22, 10
SWATCH_WIDTH, SWATCH_HEIGHT = 26, 12
MARK = 9  # a swatch within a line
EXPLAINED = ("picture bars", "picture ammonia", "picture percents")
LARGEST_OF_FARM = 4  # the farm has a bar where the largest herd's is no less than such a part of it

SIZES = {"title": 20, "label": 14}
SIZE = 11.5

STYLE = """
.picture text { font-family: Helvetica, Arial, "Liberation Sans", "DejaVu Sans", sans-serif; font-size: 11.5px;
  fill: #000; white-space: pre }
.picture .title { font-size: 20px; font-weight: bold }
.picture .label { font-size: 14px; font-weight: bold }
.picture .end { text-anchor: end }
.picture .middle { text-anchor: middle }
.picture .axis { stroke: #000; stroke-width: 1; fill: none }
.picture .grid { stroke: #999; stroke-width: 0.5; fill: none }
.picture .outline { stroke: #000; stroke-width: 0.75; fill: none }
.picture .part { stroke: #000; stroke-width: 0.75 }
.picture .nh3 { fill: #000; stroke: #fff; stroke-width: 0.75 }
.picture .unknown { fill: url(#unknown); stroke: #000; stroke-width: 0.75; stroke-dasharray: 2.5 1.5 }
"""

# No colour is needed to tell the places apart: the yard is plain, the pasture striped, the housing dotted; ammonia is
# black, and what is not known of it cross-hatched.
DEFINITIONS = """<defs>
<pattern id="pasture" width="7" height="7" patternUnits="userSpaceOnUse" patternTransform="rotate(45)">
<rect width="7" height="7" fill="#fff"/><rect width="2.4" height="7" fill="#00694a"/></pattern>
<pattern id="housing" width="6" height="6" patternUnits="userSpaceOnUse">
<rect width="6" height="6" fill="#fff"/><circle cx="3" cy="3" r="1.3" fill="#0b4f9e"/></pattern>
<pattern id="unknown" width="5" height="5" patternUnits="userSpaceOnUse">
<rect width="5" height="5" fill="#fff"/><path d="M0 0L5 5M5 0L0 5" stroke="#000" stroke-width="0.6"/></pattern>
</defs>"""
FILL_OF = {YARD: "#e3a857", PASTURE: "url(#pasture)", HOUSING: "url(#housing)"}


# ---- numbers

THREE_DIGITS = Context(prec=3, rounding=ROUND_HALF_UP)
LEAST_PERCENT = Decimal("0.1")
UNIT = " kg"


def rounded(kilograms):
    """Three digits that count, but no fewer than all whole ones and no more than the listing's three decimals."""
    decimals = min(3, max(0, 2 - THREE_DIGITS.plus(kilograms).adjusted())) if kilograms else 0
    return kilograms.quantize(Decimal(1).scaleb(-decimals), ROUND_HALF_UP)


def percent(part, whole):
    """A part in percent of the whole, with one decimal; one that is not nothing is not shown as nothing."""
    exact = 100 * part / whole
    if NOTHING < exact < LEAST_PERCENT:
        return f"< {LEAST_PERCENT} %"
    return f"{exact.quantize(LEAST_PERCENT, ROUND_HALF_UP)} %"


def step_of(most):
    """The distance of the axis's ticks, 1, 2 or 5 and zeros: three to six of them reach as far as `most`."""
    power = Decimal(1).scaleb((most / 3).adjusted())
    return next(times * power for times in (1, 2, 5, 10) if times * power * 6 >= most)


class Scale:
    """How long so many kilograms are, and the ticks of the axis. It ends at a tick, so that every bar fits."""

    def __init__(self, most):
        most = most or Decimal(1)
        step = step_of(most)
        count = int((most / step).to_integral_value(ROUND_CEILING))
        self.ticks = [step * i for i in range(count + 1)]

    def width(self, kilograms):
        return BAR_WIDTH * float(kilograms / self.ticks[-1])


# ---- pieces

# How wide Helvetica's letters are, from the blank to ~, in thousandths of their size; Arial's are the same.
WIDTHS = (
    "278 278 355 556 556 889 667 191 333 333 389 584 278 333 278 278 556 556 556 556 556 556 556 556 556 556 278 "
    "278 584 584 584 556 1015 667 667 722 722 667 611 778 722 278 500 667 556 833 722 778 667 778 722 667 611 722 "
    "667 944 667 667 611 278 278 278 469 556 333 556 556 500 556 556 278 556 556 222 222 500 222 833 556 556 556 "
    "556 333 500 278 556 500 722 500 500 500 334 260 334 584 "
)
WIDTH_OF = {chr(code): int(width) / 1000 for code, width in enumerate(WIDTHS.split(), ord(" "))}
BOLDER = 1.08
SPARE = 1.04  # other fonts are wider


def width_of(words, size):
    """About how wide words are: a letter with an accent as the letter, what Helvetica may not have as a wide one."""
    bases = (unicodedata.normalize("NFD", letter)[0] for letter in words)
    return size * SPARE * sum(WIDTH_OF.get(base, 0.35 if base in "’·₂₃" else 1.0) for base in bases)


def wrapped(words, room):
    """Words as lines that have room."""
    lines = [""]
    for word in words.split():
        longer = f"{lines[-1]} {word}".strip()
        if width_of(longer, SIZE) > room and lines[-1]:
            lines.append(word)
        else:
            lines[-1] = longer
    return lines


def text(x, y, words, *looks, room=BAR_WIDTH):
    """Words, which are drawn closer where they would not have room."""
    size = max((SIZES[look] * BOLDER for look in looks if look in SIZES), default=SIZE)
    look = f' class="{" ".join(looks)}"' if looks else ""
    closer = f' textLength="{room:.0f}" lengthAdjust="spacingAndGlyphs"' if width_of(words, size) > room else ""
    return f'<text x="{x:g}" y="{y:g}"{look}{closer}>{escape(words)}</text>'


def box(x, y, width, height, look, fill=None, title=None):
    filled = f" fill={quoteattr(fill)}" if fill else ""
    told = f"<title>{escape(title)}</title>" if title else ""
    return f'<rect x="{x:.2f}" y="{y:g}" width="{width:.2f}" height="{height:g}" class="{look}"{filled}>{told}</rect>'


def path(way, look):
    return f'<path d="{way}" class="{look}"/>'


class Part:
    """Pieces from the top to the bottom."""

    def __init__(self):
        self.pieces, self.height = [], 0

    def draw(self, *pieces):
        self.pieces.extend(pieces)

    def down(self, by):
        self.height += by

    def line(self, words, *looks, height=14):
        self.down(height)
        self.draw(text(LEFT, self.height, words, *looks))


class Picture:
    """A farm's picture: its parts in the words of a language, with rounded figures or with the program's own texts."""

    def __init__(self, farm, words, by_ammonia=False, exact=False):
        self.farm, self.words, self.exact = farm, words, exact
        self.herds = farm.by_ammonia() if by_ammonia else farm.herds
        self.order = "in the order of ammonia" if by_ammonia else "in the order of the file"
        most = max((herd.nitrogen() for herd in self.herds), default=NOTHING)
        whole = farm.total.nitrogen()
        self.draws_farm = whole <= LARGEST_OF_FARM * most
        self.scale = Scale(whole if self.draws_farm else most)

    # ---- the head

    def head(self, says, title=True, explains=True):
        """The title and what a bar is, what is said of the file, the legend, and the axis."""
        part = Part()
        if title:
            part.line(self.words("picture title"), "title", height=17)
            part.down(3)
        if explains:
            for key in EXPLAINED:
                for line in wrapped(self.words(key), BAR_WIDTH):
                    part.line(line)
            part.down(3)
        part.line(f"{says} · {self.words(self.order)}")
        self.draw_legend(part)
        self.draw_axis(part)
        return part

    def draw_legend(self, part):
        swatches = [(self.words(place.key), [("part", FILL_OF[place])]) for place in PLACES]
        swatches.append((self.words("lost"), [("nh3", None)]))
        if self.farm.total.unknown:
            swatches.append((self.words("unknown"), [("unknown", None)]))
        part.down(8)
        x = LEFT
        for words, [(look, fill)] in swatches:
            width = SWATCH_WIDTH + 5 + width_of(words, SIZE)
            if x + width > RIGHT:
                x = LEFT
                part.down(SWATCH_HEIGHT + 6)
            part.draw(box(x, part.height, SWATCH_WIDTH, SWATCH_HEIGHT, look, fill))
            part.draw(text(x + SWATCH_WIDTH + 5, part.height + 10, words))
            x += width + 10
        part.down(SWATCH_HEIGHT)

    def draw_axis(self, part):
        part.line(self.words("axis"), height=18)
        part.down(14)
        ticks = self.scale.ticks
        for tick in ticks:
            x = LEFT + self.scale.width(tick)
            side = "start" if tick == ticks[0] else "end" if tick == ticks[-1] else "middle"
            part.draw(text(x, part.height, self.words.number(tick.normalize() + 0), "tick", side, room=COLUMN))
            part.draw(path(f"M{x:.2f} {part.height + 3:g}v5", "axis"))
        part.down(8)
        part.draw(path(f"M{LEFT} {part.height:g}H{RIGHT}", "axis"))

    # ---- a herd, or the farm

    def farm_block(self):
        """The farm as a herd is drawn. Where its bar would be longer than the page it has none."""
        total, lacking = self.farm.total, len(self.farm.lacking())
        part = Part()
        part.draw("<g>", f"<title>{escape(self.farm_label())}</title>")
        part.line(self.farm_label(), "label", height=22)
        part.draw(text(RIGHT, part.height, self.sums(total), "end", room=BAR_WIDTH - 250))
        if self.draws_farm:
            self.draw_bar(part, total)
        else:
            part.line(self.words("longer than the page"))
        self.draw_columns(part, total)
        if lacking:
            key = "left out of one" if lacking == 1 else "left out of several"
            part.line(self.words(key, herds=lacking))
        part.draw("</g>")
        part.down(8)
        part.draw(path(f"M{LEFT} {part.height:g}H{RIGHT}", "axis"))
        return part

    def farm_label(self):
        return self.words("whole farm", herds=len(self.herds))

    def block(self, herd):
        part = Part()
        part.draw("<g>", f"<title>{escape(herd.label)}</title>")
        part.line(herd.label, "label", height=22)
        part.draw(text(RIGHT, part.height, self.sums(herd), "end", room=BAR_WIDTH - 220))
        self.draw_bar(part, herd)
        self.draw_columns(part, herd)
        part.draw("</g>")
        part.down(4)
        return part

    def sums(self, herd):
        """All nitrogen and all ammonia, which is summed up here, so that exact figures have its percent alone."""
        nitrogen, ammonia = herd.nitrogen(), herd.ammonia()
        all_of_it = f"{herd.text('n_excretion')} kg N" if self.exact else f"{self.number(nitrogen)} kg N"
        if not nitrogen:
            return all_of_it
        kilograms = "" if self.exact else f"{self.number(ammonia)} kg, "
        return f"{all_of_it} · NH₃ {self.at_least(herd)}{kilograms}{percent(ammonia, nitrogen)}"

    def at_least(self, herd):
        return f"{self.words('at least')} " if herd.unknown else ""

    def number(self, kilograms):
        return self.words.number(rounded(kilograms))

    def amount(self, herd, name):
        return f"{herd.text(name) if self.exact else self.number(herd.kilograms(name))} kg"

    def draw_bar(self, part, herd):
        """A box a place, and in its lower half the ammonia. What is not known of it ends the housing's."""
        part.down(6)
        for tick in self.scale.ticks:
            part.draw(path(f"M{LEFT + self.scale.width(tick):.2f} {part.height - 3:g}v{BAR_HEIGHT + 6}", "grid"))
        strip = part.height + BAR_HEIGHT - STRIP_HEIGHT
        x = LEFT
        for place in herd.places():
            words, width = self.words(place.key), self.scale.width(herd.kilograms(place.n))
            told = f"{words}: {herd.text(place.n)} kg N"
            part.draw(box(x, part.height, width, BAR_HEIGHT, "part", FILL_OF[place], told))
            ammonia = herd.kilograms(place.nh3)
            if ammonia:
                told = f"{words}, NH₃: {herd.text(place.nh3)} kg N"
                part.draw(box(x, strip, self.scale.width(ammonia), STRIP_HEIGHT, "nh3", None, told))
                part.draw(path(f"M{x:.2f} {part.height:g}v{BAR_HEIGHT}h{width:.2f}", "outline"))
            x += width
        if herd.unknown:
            width = self.scale.width(herd.unknown)
            told = f"{self.words('housing')}, NH₃: {self.words('not in the model')}"
            part.draw(box(x - width, strip, width, STRIP_HEIGHT, "unknown", None, told))
        part.down(BAR_HEIGHT)

    def draw_columns(self, part, herd):
        """Each place in words: its nitrogen, and under it its ammonia."""
        first, second = part.height + 14, part.height + 28
        for i, place in enumerate(PLACES):
            if place not in herd.places():
                continue
            x = LEFT + COLUMN * i
            part.draw(box(x, first - MARK, MARK, MARK, "part", FILL_OF[place]))
            words = f"{self.words(place.key)} {self.amount(herd, place.n)}"
            part.draw(text(x + MARK + 4, first, words, room=COLUMN - MARK - 8))
            part.draw(text(x + MARK + 4, second, f"NH₃ {self.lost(herd, place)}", room=COLUMN - MARK - 8))
        if not herd.places():
            part.draw(text(LEFT, first, self.words("nothing")))
        part.down(28 if herd.places() else 14)

    def lost(self, herd, place):
        if herd.text(place.nh3) is None or (place is HOUSING and herd.unknown == herd.kilograms(place.n)):
            return self.words("not in the model")
        share = percent(herd.kilograms(place.nh3), herd.kilograms(place.n))
        at_least = self.at_least(herd) if place is HOUSING else ""
        return f"{at_least}{self.amount(herd, place.nh3)}, {share}"
