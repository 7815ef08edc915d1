"""The one table of commands, read from docs/help.txt, and the options in ./urvendlo that docs/tables makes of it.

The head of a page says a command's name, and whether ./urvendlo alone has it. Its usage says which options and operands
the command takes, and the page of `help` what it does in a few words.
"""

import re
from collections import namedtuple
from functools import cache
from itertools import takewhile

from common import ROOT, faults

HELP = "docs/help.txt"
LAUNCHER = ROOT / "urvendlo"
WIDTH = 80

# ---- the pages

Page = namedtuple("Page", "lines is_of_launcher")
HEAD = re.compile(r"== ([a-z]+)( \(launcher\))?$")


@cache
def help_pages():
    """The pages of help by their names, in their order."""
    pages = {}
    for line in (ROOT / HELP).read_text().splitlines():
        head = HEAD.match(line)
        if head:
            page = pages[head[1]] = Page([], bool(head[2]))
        elif line.startswith("=="):
            faults.append(f"{HELP}: it is no head of a page: {line}")
        elif not line.startswith("#"):
            page.lines.append(line + "\n")
            if len(line) > WIDTH:
                faults.append(f"{HELP}: a line has more than {WIDTH} characters: {line}")
    return pages


# ---- the table

Command = namedtuple("Command", "name is_of_launcher options operands says")
Option = namedtuple("Option", "name argument")
USAGE = re.compile(r"usage: urvendlo \[?([a-z]+)\]?((?: .*)?)")


@cache
def commands():
    """Each command with what its usage says that it takes, and what it does."""
    pages, said = help_pages(), listed("")
    for name in said.keys() ^ pages.keys():
        faults.append(f"{HELP}: {name} has no page, or the page of help does not list it")
    return [Command(name, page.is_of_launcher, *taken(name, page), said.get(name, "")) for name, page in pages.items()]


def listed(begin):
    """What the page of help says of each word with this beginning: of the commands, or of the options."""
    page = "".join(help_pages()["help"].lines)
    rows = re.findall(rf"^  ({begin}[a-z]+)(?: [A-Z]+)?\s+(.*\n(?: {{11}}.*\n)*)", page, re.M)
    return {word: " ".join(said.split()) for word, said in rows}


def usage_of(page):
    """The first paragraph of a page; a usage that is too long for a line goes on in the next."""
    return " ".join(line.strip() for line in takewhile(str.strip, page.lines))


def taken(name, page):
    """The options and the operands of a usage, `[-o FILE] GRAMS [FILE | --cooperative FILE]`; help's names a command.

    An option beside an operand, as the last one, has no argument of its own.
    """
    usage = USAGE.fullmatch(usage_of(page))
    if name != "help" and (not usage or usage[1] != name):
        faults.append(f"{HELP}: the page of {name} does not begin with its usage")
        return [], []
    options, operands = [], []
    for part in re.split(r"[][]", " [COMMAND]" if name == "help" else usage[2]):
        choices = [choice.split() for choice in part.split(" | ") if choice.strip()]
        for first, *behind in choices:
            if not first.startswith("-"):
                operands += [first, *behind]
            else:
                options.append(Option(first, " ".join(behind) if len(choices) == 1 else ""))
    return options, operands


# ---- the launcher

MADE = re.compile(rf"(?<=^# made by docs/tables from {HELP}: ).*?(?=^# end$)", re.M | re.S)


def launcher():
    """./urvendlo with the options of each command."""
    names = {command.name: " ".join(option.name for option in command.options) for command in commands()}
    rows = "".join(f"    [{name}]='{options}'\n" for name, options in names.items())
    lines = f"the options that each command takes\ndeclare -A options_of=(\n{rows})\n"
    made, count = MADE.subn(lambda _: lines, LAUNCHER.read_text())
    if count != 1:
        faults.append("urvendlo: it has no place, or more than one, for the options of each command")
    return {LAUNCHER: made}
