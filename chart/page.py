#!/usr/bin/env python3
"""Makes the page for the kitchen table: `./urvendlo report` runs this on what the program prints for a farm file.

    chart/page.py [--by file|ammonia] [--language en|de|fr] [--file FILE] [--version VERSION] FOLDER > PAGE

FOLDER has the farm file as it was read, `farm`, and what the program printed for it, a file a view: `figures`, `notes`,
`cuts`, `why` and `words`; of a refused file `figures` alone, which is then the refusal's line, `said`, which is what
the program said on standard error, and `advice`, the same in richer words where there are any. The page goes to
standard output: one file, with no script, and nothing is fetched. The status is 0 where all was written, else 2, with a
message on standard error.
"""

import argparse
import hashlib
import os
import re
import sys
import time
from html import escape
from pathlib import Path

from draw import AMMONIA, FILE_ORDER, ORDERS
from herds import HOUSING, farm_of, is_refusal, records
from output import is_shown, told_of, write
from picture import BAR_WIDTH, DEFINITIONS, EXPLAINED, LEFT, STYLE, Picture
from words import ENGLISH, LANGUAGES, Words

MOMENT = "%Y-%m-%d %H:%M:%S %z"
LONGEST = 262144  # bytes; a longer file is cut off when it is copied
MOST_SHOWN = 400  # characters of a refused record
ESCAPED = {ord("\r"): "\\r", ord("\n"): "\\n", ord("\t"): "\\t"}
YES = "yes"
AT_LEAST = ("nh3_nhousing", "nh3_nhousing_and_yard", "nh3_nlivestock")  # the totals that left out housing is missing in

PAGE_STYLE = """
:root { color-scheme: light }
body { font: 16px/1.45 Helvetica, Arial, "Liberation Sans", "DejaVu Sans", sans-serif; color: #000; background: #fff;
  max-width: 50rem; margin: 0 auto; padding: 1rem; overflow-wrap: anywhere }
h1 { font-size: 1.7rem; margin: 0 0 0.3rem } h2 { font-size: 1.3rem; margin: 2rem 0 0.5rem }
h3 { font-size: 1.1rem; margin: 0 0 0.3rem } h4 { font-size: 1rem; margin: 0.6rem 0 0.2rem } p, ul { margin: 0.2rem 0 }
h3, .label { white-space: pre-wrap }
table { border-collapse: collapse; width: 100% } th, td { text-align: left; font-weight: normal; vertical-align: top;
  padding: 0.1rem 0.4rem 0.1rem 0 }
.figures td, .figures th { border-bottom: 1px solid #bbb }
.figures .section th { font-weight: bold; padding-top: 0.4rem }
.number { text-align: right; white-space: nowrap; font-variant-numeric: tabular-nums }
code { font: 0.8em "DejaVu Sans Mono", Menlo, Consolas, monospace; color: #444 }
.herd { break-inside: avoid; border-top: 2px solid #000; padding: 0.6rem 0 1.2rem }
svg { display: block; width: 100%; height: auto }
.drawn > * > tr > * { padding: 0 } .drawn tr { break-inside: avoid } thead { display: table-header-group }
pre { white-space: pre-wrap; border: 1px solid #000; padding: 0.5rem; font-size: 0.9rem }
summary { cursor: pointer; font-size: 1.3rem; font-weight: bold; margin-top: 2rem }
dt { font-weight: bold } dd { margin: 0 0 0.3rem 1.2rem }
@page { size: A4; margin: 14mm 14mm 16mm;
  font: 9pt Helvetica, Arial, "Liberation Sans", sans-serif;
  @bottom-left { content: FOOT } @bottom-right { content: counter(page) " / " counter(pages) }
}
@media print {
  body { font-size: 10pt; max-width: none; margin: 0; padding: 0 }
  h2, h3, h4, summary { break-after: avoid } summary { font-size: 1.1rem }
  .figures { font-size: 8pt; line-height: 1.15 } .figures td, .figures th { padding: 0 1mm 0 0 }
  .farm, .colophon, .refusal { break-inside: avoid } .herd { padding: 2mm 0 3mm } h4, p, ul { margin: 0.5mm 0 }
}
"""


def as_css(words):
    """A text as CSS has it between quotes, with nothing in it that ends the text, the rule or the style."""
    return '"' + "".join(c if c.isascii() and c.isalnum() else f"\\{ord(c):x} " for c in words) + '"'


def shown(words):
    """Bytes of a farm file as they may stand on a page: what is no letter of ASCII as \\x.., and not too many."""
    letters = "".join(chr(b) if 32 <= b < 127 else ESCAPED.get(b, f"\\x{b:02x}") for b in words[:MOST_SHOWN])
    return letters + (" …" if len(words) > MOST_SHOWN else "")


def svg(part, language, extra=""):
    return (
        f'<svg class="picture" viewBox="{LEFT - 1} 0 {BAR_WIDTH + 2} {part.height + 4:g}" role="img" lang="{language}">'
        f"{extra}{''.join(part.pieces)}</svg>"
    )


def element(tag, inside, look=""):
    looks = f' class="{look}"' if look else ""
    return f"<{tag}{looks}>{inside}</{tag}>"


class Page:
    """A page in the words of a language."""

    def __init__(self, words, path, version, file):
        self.words, self.version, self.file = words, version, file
        self.told = told_of(path, words)
        self.body = []

    def add(self, *elements):
        self.body.extend(elements)

    def said(self, key, tag, look="", **put_in):
        return element(tag, escape(self.words(key, **put_in)), look)

    def html(self, title):
        style = STYLE + PAGE_STYLE.replace("FOOT", as_css(self.told))
        return "\n".join([
            "<!DOCTYPE html>",
            f'<html lang="{self.words.language}">',
            "<head>",
            '<meta charset="utf-8">',
            '<meta name="viewport" content="width=device-width, initial-scale=1">',
            '<meta http-equiv="Content-Security-Policy" content="default-src \'none\'; style-src \'unsafe-inline\'">',
            f"<title>{escape(f'{self.told}: {title}')}</title>",
            f"<style>{style}</style>",
            "</head>",
            "<body>",
            element("h1", escape(title)),
            element("p", escape(self.told), "file"),
            *self.body,
            "</body>",
            "</html>\n",
        ])

    def colophon(self):
        """Which file, when, which program, and what the figures are."""
        size, sum_of = len(self.file), hashlib.sha256(self.file).hexdigest()
        print_of = "" if size > LONGEST else f"; {self.words('colophon bytes', bytes=size, sum=sum_of)}"
        facts = (
            ("colophon file", f"{self.told}{print_of}"),
            ("colophon made", time.strftime(MOMENT)),
            ("colophon version", self.version),
        )
        rows = "".join(self.said(key, "dt") + element("dd", escape(fact)) for key, fact in facts)
        return element("dl", rows)

    def source(self, *says):
        inside = self.said("colophon title", "h2") + self.colophon() + "".join(self.said(key, "p") for key in says)
        self.add(element("section", inside, "colophon"))


class FarmPage(Page):
    """The page of an accepted file."""

    def __init__(self, words, path, version, file, views, by_ammonia):
        super().__init__(words, path, version, file)
        self.farm = farm_of(views["figures"])
        self.picture = Picture(self.farm, words, by_ammonia, exact=True)
        self.notes = {label: flags for label, *flags in records(views["notes"])}
        self.reasons = reasons_of(views["why"], views["words"])
        self.cuts = {}
        for label, *cut in records(views["cuts"]):
            self.cuts.setdefault(label, []).append(cut)

    def made(self):
        self.add(self.drawn())
        if self.farm.herds:
            self.add(element("section", self.said("totals title", "h2") + self.totals(), "farm"))
            self.add(self.said("herds title", "h2"))
            self.add(*(self.herd(herd) for herd in self.picture.herds), self.folded())
        self.source("colophon figures", "colophon model")
        return self.html(self.words("page title"))

    # ---- the picture

    def drawn(self):
        """A row a herd, below a head that a printer repeats on every page."""
        language = self.words.language
        says = "".join(self.said(key, "p") for key in EXPLAINED)
        head = svg(self.picture.head(self.told, title=False, explains=False), language, DEFINITIONS)
        blocks = [self.picture.block(herd) for herd in self.picture.herds]
        if len(blocks) > 1:
            blocks.insert(0, self.picture.farm_block())
        rows = [f"<tr><td>{svg(block, language)}</td></tr>" for block in blocks]
        rows = rows or [f"<tr><td>{self.said('no herds', 'p')}</td></tr>"]
        body = f"<thead><tr><th>{head}</th></tr></thead>\n<tbody>\n" + "\n".join(rows) + "\n</tbody>"
        return self.said("picture title", "h2") + says + element("table", body, "drawn")

    # ---- figures

    def row(self, line, at_least=""):
        name = self.words(f"output {line.name}")
        return (
            f"<tr><th>{escape(name)} <code>{escape(line.name)}</code></th>"
            f'<td class="number">{escape(at_least)}{escape(line.text)}</td></tr>'
        )

    def table(self, rows):
        head = f'<tr>{self.said("figure", "th")}{self.said("unit", "th", "number")}</tr>'
        return element("table", f"<thead>{head}</thead>\n<tbody>\n" + "\n".join(rows) + "\n</tbody>", "figures")

    def totals(self):
        total = self.farm.total
        rows = [self.row(line, self.picture.at_least(total) if line.name in AT_LEAST else "") for line in total.lines]
        lacking = len(self.farm.lacking())
        key = "left out of one" if lacking == 1 else "left out of several"
        remark = self.said(key, "p", herds=lacking) if lacking else ""
        return self.table(rows) + remark

    def herd(self, herd):
        """A herd's figures, its notes, and the reason for its yard's share."""
        kind = herd.lines[0].module.split("::")[1]
        title = element("h3", f"{escape(herd.label)} · {escape(self.words(f'kind {kind}'))}")
        rows, before = [], None
        for line in herd.lines:
            section = line.module.split("::")[-1]
            if section != before:
                rows.append(f'<tr class="section">{self.said(f"section {section}", "th")}<td></td></tr>')
            rows.append(self.row(line))
            before = section
        if herd.unknown:
            name = self.words(f"output {HOUSING.nh3}")
            rows.append(f'<tr><th>{escape(name)}</th>{self.said("not in the model", "td", "number")}</tr>')
        return element("article", title + self.table(rows) + self.remarks(herd), "herd")

    def remarks(self, herd):
        given = [place for place, flag in enumerate(self.notes[herd.label], 1) if flag == YES]
        said = self.said("no notes", "p")
        if given:
            notes = "".join(self.said(f"note {place}", "li") for place in given)
            said = self.said("notes title", "h4") + element("ul", notes)
        if herd.label in self.reasons:
            said += self.said("yard title", "h4") + element("p", escape(self.reason(self.reasons[herd.label])), "why")
        return said

    def reason(self, reason):
        """The program's own sentence; in another language the same from the record and the sentence's last number."""
        if self.words.language == ENGLISH:
            return reason["sentence"]
        return self.words(f"reason {reason['code']}", **{key: reason[key] for key in ("days", "share", "chosen")})

    # ---- the odd grams

    def folded(self):
        parts = [self.said("cuts title", "summary"), self.said("cuts say", "p")]
        for herd in self.picture.herds:
            head = self.said("figure", "th")
            head += self.said("left over", "th", "number") + self.said("divisor", "th", "number")
            rows = "\n".join(self.cut(*cut) for cut in self.cuts[herd.label])
            table = element("table", f"<thead><tr>{head}</tr></thead>\n<tbody>\n{rows}\n</tbody>", "figures")
            parts.append(element("section", element("h3", escape(herd.label)) + table, "cuts"))
        return element("details", "\n".join(parts))

    def cut(self, _, name, left, divisor):
        key = f"cut {name}" if f"cut {name}" in self.words.said else f"output {name}"
        numbers = element("td", escape(left), "number") + element("td", escape(divisor), "number")
        return f"<tr><th>{escape(self.words(key))} <code>{escape(name)}</code></th>{numbers}</tr>"


CHOSEN = re.compile(r"([\d.]+)\.$")


def reasons_of(why, in_words):
    """Of each herd with a yard its record and its sentence, which has the chosen share, too. Both are in one order."""
    found = {}
    for (label, code, days, share), said in zip(records(why), in_words.splitlines()):
        sentence = said.rpartition(": with ")[2]
        found[label] = {
            "code": code, "days": days, "share": share,
            "chosen": CHOSEN.search(said)[1], "sentence": f"With {sentence}",
        }
    return found


class RefusedPage(Page):
    """The page that explains a refusal."""

    def __init__(self, words, path, version, file, line, said, advice):
        super().__init__(words, path, version, file)
        _, self.number, self.record = line.strip().split(",")
        self.by_program, self.advice = said, advice

    def made(self):
        where = self.words("refused record", record=self.record) if self.record != "0" else self.words("refused file")
        number = self.words("refused number", number=self.number)
        inside = self.said("refused says", "p") + element("h2", escape(f"{where}: {number}"))
        inside += element("p", escape(self.explained()), "refused")
        stands = record_of(self.file, int(self.record))
        if stands is not None:
            inside += self.said("refused stands", "h4") + element("pre", escape(shown(stands)), "stands")
        if self.advice:
            inside += self.said("refused program", "h4")
            inside += f'<pre lang="en" class="said">{escape(self.advice)}</pre>'
        self.add(element("section", inside, "refusal"))
        self.source("colophon model")
        return self.html(self.words("refused title"))

    def explained(self):
        """The refusal's words. Its limit is the number that the program names."""
        key = f"refusal {self.number}"
        english = Words(ENGLISH).said[key]
        pattern = re.sub(r"\\{(\w+)\\}", r"(?P<\1>[\\d,]+)", re.escape(english))
        found = re.search(pattern, self.by_program)
        words = self.words(key, **(found.groupdict() if found else {"BYTES": "…", "HERDS": "…"}))
        return words[0].upper() + words[1:]


def record_of(file, number):
    """The bytes of a record, counted from 1; None where the file has none such. A quoted CRLF ends no record."""
    at = 0
    for _ in range(number):
        if at >= len(file):
            return None
        start = at
        end = re.compile(rb'(?:"[^"]*(?:"|$)|[^"])*?(?:\r\n|$)').match(file, at)
        at = end.end()
    return file[start:at].removesuffix(b"\r\n") if number else None


def plain(said):
    """What was said on standard error, line by line, with \\x.. for what is not to be shown."""
    letters = said.decode("utf-8", "backslashreplace")
    return "".join(letter if letter == "\n" or is_shown(letter) else f"\\x{ord(letter):02x}" for letter in letters)


def main():
    parser = argparse.ArgumentParser(description="A farm's page.")
    parser.add_argument("--by", choices=ORDERS, default=FILE_ORDER)
    parser.add_argument("--language", choices=LANGUAGES, default=ENGLISH)
    parser.add_argument("--file", type=os.fsencode)
    parser.add_argument("--version", default="urvendlo")
    parser.add_argument("folder", type=Path)
    chosen = parser.parse_args()
    found = {path.name: path.read_bytes() for path in chosen.folder.iterdir()}
    file, said = found.pop("farm"), found.pop("said", b"")
    advice = found.pop("advice", said)
    views = {name: printed.decode("ascii") for name, printed in found.items()}
    of_all = (Words(chosen.language), chosen.file, chosen.version, file)
    if is_refusal(views["figures"]):
        return write(RefusedPage(*of_all, views["figures"], plain(said), plain(advice)).made())
    return write(FarmPage(*of_all, views, chosen.by == AMMONIA).made())


if __name__ == "__main__":
    sys.exit(main())
