"""The sources that docs/tables makes: what the code needs beside the rows of a list, and so is not written by hand.

From the lists of definitions come number constants, texts and where each starts; from docs/refusals.txt, docs/help.txt
and the limits of crate `limits` the texts of the program. A list is read where it stands in its crate's specs/, and
what is no row of it is a fault, so that no row is passed over. The proofs hold what is made to the definitions, as if
it were written by hand.
"""

import re
import textwrap
from collections import namedtuple

from commands import commands, help_pages
from common import CRATES, ROOT, faults


def made():
    """The text of each source that is made, by its path."""
    sources = {
        "words/src/modules.rt": modules,
        "words/src/input_names.rt": input_names,
        "names/src/lists.rt": value_names,
        "inputs/src/slots.rt": slots,
        "file_text/src/heads.rt": record_heads,
        "outputs/src/names.rt": output_numbers,
        "outputs/src/total_names.rt": total_numbers,
        "sums/src/total_addends.rt": addends,
        "listing/src/texts.rt": listing_texts,
        "cuts/src/names.rt": cut_numbers,
        "lines_cuts/src/texts.rt": cut_texts,
        "texts/src/lib.rt": program_texts,
        "asked/src/commands.rt": command_numbers,
    }
    return {CRATES / path: source() for path, source in sources.items()}


# ---- lists of definitions

DEFINITION = re.compile(r"^(\S.*?) =((?: .*)?\n(?: +.*\n)*)", re.M)


def definitions(page):
    """What stands behind each `name =` of a page, or `name argument =`, on one line and without comments."""
    text = re.sub("--.*", "", (CRATES / page).read_text())
    return {head: " ".join(body.split()) for head, body in DEFINITION.findall(text)}


def rows(page, name, row):
    """The rows of a list: of each what the pattern's groups are."""
    body = definitions(page).get(name)
    if body is None:
        faults.append(f"crates/{page}: it has no list `{name}`")
        return []
    left = re.sub(row, "", body)
    if re.sub(r"∷|\+\+|\[\]|[() ]", "", left):
        faults.append(f"crates/{page}: not a row of `{name}`: {left}")
    return re.findall(row, body)


def texts(page, name):
    """A list of texts: those that stand in it, and those of the lists that it names."""
    found = rows(page, name, r'"([^"]*)"|(\w+)')
    return [text for its_own, named in found for text in ([its_own] if its_own else texts(page, named))]


# ---- parts of a source

WIDTH = 120
# The formatter puts an array on one line up to these widths, of the array and of all of the line. A longer one with
# entries of at most so many characters fills its lines.
ARRAY_WIDTH, CODE_WIDTH, SHORT = 60, 100, 10
TACTICS = "#![tactic(auto)]\n"  # what stands near the head of a crate's root file


def source(says, *items, uses=(), is_root=False):
    """A source: what it is for, what it uses, and its items, with a line between each two."""
    head = comment(says) + TACTICS * is_root
    return "\n".join([head + "".join(f"use {used};\n" for used in uses), *items])


def comment(says):
    return "".join(f"// {line}\n" for line in textwrap.wrap(says, WIDTH - 3))


def constants(numbers, of="usize"):
    return "\n".join(f"pub const {name}: {of} = {number};\n" for name, number in numbers)


def numbered(names):
    """A constant for each name, its place."""
    return constants((constant(name), place) for place, name in enumerate(names))


def count(names, says):
    return comment(says) + constants([("COUNT", len(names))])


def constant(name):
    apart = re.sub("(?<=[a-z])(?=[A-Z])", "_", name)
    return re.sub(r"\W+", "_", apart).upper()


def array(name, of, entries, says=""):
    """A table on one line; or over several, each filled where every entry is short, else with one entry."""
    begin, words = f"pub const {name}: [{of}; {len(entries)}] = ", [str(entry) for entry in entries]
    line = ", ".join(words)
    if len(line) + 2 > ARRAY_WIDTH or len(begin) + len(line) + 3 > CODE_WIDTH:
        lines = filled(words) if all(len(word) <= SHORT for word in words) else [f"{word}," for word in words]
        line = "\n" + "".join(f"    {row}\n" for row in lines)
    return f"{comment(says)}{begin}[{line}];\n"


def filled(words):
    """The lines of a table whose entries follow one another, each with a comma."""
    return textwrap.wrap(" ".join(f"{word}," for word in words), CODE_WIDTH - 4)


def starts(lists):
    """Where each starts when they stand one after the other, and where the last ends."""
    return [sum(map(len, lists[:place])) for place in range(len(lists) + 1)]


def text(name, parts, says=""):
    """Texts one after the other, a line each in the source."""
    literal = "".join(as_literal(line) for part in parts for line in part.splitlines(keepends=True))
    return f"{comment(says)}pub const {name}: [u8; {starts(parts)[-1]}] = *b\"\\\n{literal}\";\n"


def text_table(name, starts_name, table, says=""):
    """Texts one after the other, and where each starts."""
    return text(name, table, says) + "\n" + array(starts_name, "usize", starts(table))


def word_table(name, lengths_name, words, says=""):
    """Words as one text, with a space between two, and the length of each."""
    spaced = [f"{word} " for word in words[:-1]] + words[-1:]
    return text(name, spaced, says) + "\n" + array(lengths_name, "u8", [len(word) for word in words])


def as_literal(line):
    """A line as it stands in a text of Rattle, on a line of its own; a space in front would be passed over."""
    escaped = line.replace("\\", "\\\\").replace('"', '\\"').replace("\n", "\\n")
    return re.sub("^ ", r"\\x20", escaped) + "\\\n"


# ---- the words of a record

WORDS = "words/specs/Find.antt"
VALUES = "names/specs/Names.antt"


def modules():
    paths = texts(WORDS, "modules")
    return source(
        "The paths of modules (01, The farm file): their numbers, and the words as one text, with the length of each."
        " Made by docs/tables from the modules of specs/Find.antt.",
        numbered(path.removeprefix("Livestock::") for path in paths),
        word_table("WORDS", "LENGTHS", paths),
    )


def input_names():
    names = texts(WORDS, "input_names")
    return source(
        "The input names (01, The farm file): their numbers, and the words as one text, with the length of each. Made"
        " by docs/tables from the input_names of specs/Find.antt.",
        numbered(names),
        word_table("WORDS", "LENGTHS", names),
    )


def value_names():
    lists = {body: texts(VALUES, body) for head, body in definitions(VALUES).items() if head.startswith("names_of ")}
    return source(
        "The names that a value may be, list by list: how many there are, and the names as one text, with the length of"
        " each. Made by docs/tables from the lists of specs/Names.antt.",
        *(
            constants([(f"{constant(name)}_COUNT", len(names))])
            + "\n"
            + word_table(constant(name), f"{constant(name)}_LENGTHS", names)
            for name, names in lists.items()
        ),
    )


# ---- the input list

INPUTS = "inputs/specs/Inputs.antt"


def slots():
    kinds = {}  # those whose inputs have the same names, by the names
    for head in definitions(INPUTS):
        if head.startswith("rows_of "):
            names = rows(INPUTS, head, r'"[\w:]+" has "(\w+)" reads [\w ]+')
            kinds.setdefault(tuple(names), []).append(head.split()[1])
    return source(
        "The slots of a kind's inputs by name, `slots::CATTLE_YARD_DAYS`, and how many they are. Kinds whose inputs"
        " have the same names, in the same order, have one set. Made by docs/tables from rows_of of specs/Inputs.antt.",
        *(
            comment(" and ".join(of))
            + numbered(f"{of[0]}_{name}" for name in names)
            + "\n"
            + constants([(f"{constant(of[0])}_COUNT", len(names))])
            for names, of in kinds.items()
        ),
    )


def record_heads():
    kinds = {
        head.split()[1]: rows(INPUTS, head, r'"([\w:]+)" has "(\w+)" reads [\w ]+')
        for head in definitions(INPUTS)
        if head.startswith("rows_of ")
    }
    return source(
        "What stands in a record between its label and its value, module and input name, kind by kind in the order of"
        " the slots: as one text, with the length of each. Made by docs/tables from rows_of of"
        " inputs/specs/Inputs.antt.",
        *(
            word_table(constant(kind), f"{constant(kind)}_LENGTHS", [f"{path},{name}" for path, name in inputs])
            for kind, inputs in kinds.items()
        ),
    )


# ---- the output list

OUTPUTS = "outputs/specs/Names.antt"
Named = namedtuple("Named", "text section")


def output_names():
    """The names of a herd's figures, each with its section."""
    sections = rows(OUTPUTS, "rows", r'section "(\w+)" \([^()]*\) (\w+)')
    field = r'(?:amount|rest) "(\w+)" \([^()]*\)'
    return [Named(text, section) for section, fields in sections for text in rows(OUTPUTS, fields, field)]


def totals():
    """The totals, each with its addends."""
    found = rows(OUTPUTS, "totals", r'alone "(\w+)"|"(\w+)" adds \(((?:"\w+" ∷ )+)\[\]\)')
    return {alone or total: re.findall(r"\w+", several) or [alone] for alone, total, several in found}


def output_numbers():
    return source(
        "The names of a herd's figures by number: `figures.grams[names::N_EXCRETION]`. Made by docs/tables from the"
        " rows of specs/Names.antt.",
        numbered(name.text for name in output_names()),
        count(output_names(), "How many names there are."),
    )


def total_numbers():
    return source(
        "The names of a farm's totals by number: `totals.grams[total_names::NH3_NLIVESTOCK]`. Made by docs/tables from"
        " the totals of specs/Names.antt.",
        numbered(totals()),
        count(totals(), "How many totals there are."),
    )


def addends():
    lists = list(totals().values())
    return source(
        "The addends of each total by the numbers of their names, one total after the other, and where each total's"
        " start. Made by docs/tables from the totals of outputs/specs/Names.antt.",
        array("ADDENDS", "usize", [f"names::{constant(name)}" for names in lists for name in names]),
        array("STARTS", "usize", starts(lists)),
        uses=["outputs::names"],
    )


# ---- the listing

LINES = "listing/specs/HerdLines.antt"
LISTS = "listing/specs/Numbered.antt"
LISTING = "listing/specs/Listing.antt"


def lists_of_lines():
    """The lists of lines, each with the kinds that have it."""
    page = definitions(LISTS)
    kinds = {head.split()[1]: int(number) for head, number in page.items() if head.startswith("list_number ")}
    firsts = re.findall(r"(\w+) ∷", page["listed"])
    alike = [[kind for kind in kinds if kinds[kind] == place] for place in range(len(firsts))]
    return [(of, texts(LINES, f"lines_of {first}")) for of, first in zip(alike, firsts)]


def lines(kinds, names):
    """The numbers of a list's names, with a comment before the first."""
    first, *others = [f"names::{constant(name)}" for name in names]
    return [f"// {' and '.join(kinds)}\n    {first}", *others]


def middles(names):
    """What stands in a line between its owner and its amount."""
    return [f"::{name.section},{name.text}," for name in names]


def listing_texts():
    lists = lists_of_lines()
    [path] = texts(LISTING, "total_path")
    return source(
        "The lines of 01, The listing: the texts of a line and the lines of each listing, by number. Texts and lists"
        " stand one after the other in a table, with where each starts. A constant table is built anew at each use: a"
        " call builds it once and lends it. Made by docs/tables from specs/HerdLines.antt, specs/Numbered.antt (listed)"
        " and outputs/specs/Names.antt.",
        array("LINES", "usize", [line for kinds, names in lists for line in lines(kinds, names)]),
        array("LINE_STARTS", "usize", starts([names for _, names in lists])),
        text_table(
            "MIDDLES",
            "STARTS",
            middles(output_names()),
            "What stands in a herd's line between its owner and its amount, by the number of the name.",
        ),
        comment("What the totals' lines begin with: an empty label, and the path.")
        + f'pub const TOTAL_OWNER: [u8; {len(path) + 1}] = *b",{path}";\n',
        array("TOTAL_LINES", "usize", [f"total_names::{constant(name)}" for name in totals()], "The totals' lines."),
        text_table(
            "TOTAL_MIDDLES",
            "TOTAL_STARTS",
            [f",{name}," for name in totals()],
            "What stands in a line of the totals between its owner and its amount, by the number of the total.",
        ),
        uses=["outputs::{names, total_names}"],
    )


# ---- the list of cuts

CUTS = "cuts/specs/Names.antt"


def cut_names():
    """The names of a herd's cuts. One that gives a figure has the figure's section, a factor that of its maker."""
    figures = dict(output_names())
    makers = {head: re.search(r'section = "(\w+)"', body) for head, body in definitions(CUTS).items()}
    found = rows(CUTS, "rows", r'(\w+) "([\w:]+)"(?: \([^()]*\))?')
    return [Named(text, figures[text] if maker == "figure" else makers[f"{maker} t f"][1]) for maker, text in found]


def cut_numbers():
    return source(
        "The names of a herd's cuts by number: `cuts.cut_off[names::TAN_EXCRETION]`. Made by docs/tables from the rows"
        " of specs/Names.antt.",
        numbered(name.text for name in cut_names()),
        count(cut_names(), "How many names there are."),
    )


def cut_texts():
    names = cut_names()
    return source(
        "What stands in a line of cuts between its owner and its numbers, by the number of the name, one after the"
        " other, and where each starts. A constant table is built anew at each use: a call builds it once and lends it."
        " Made by docs/tables from the rows of cuts/specs/Names.antt.",
        text_table("MIDDLES", "STARTS", middles(names)),
        array(
            "LINES",
            "usize",
            [f"names::{constant(name.text)}" for name in names],
            "The names, in the order in which they are listed.",
        ),
        uses=["cuts::names"],
    )


# ---- refusals, and the texts of the program

LIMITS = "limits/src/lib.rt"
INPUT, COOPERATIVE = "INPUT", "COOPERATIVE"  # whose limits: standard input's, a cooperative's file's
OPTION = "--cooperative"
LIMIT = re.compile(r"\b(BYTES|HERDS)\b")


def limit(name):
    """A limit as it is read, 65,536."""
    found = re.search(rf"^pub const {name}: usize = (\d+);$", (CRATES / LIMITS).read_text(), re.M)
    if not found:
        faults.append(f"crates/{LIMITS}: it has no limit {name}")
    return f"{int(found[1]):,}" if found else "0"


def within(whose, words):
    """Words with the limits for BYTES and HERDS."""
    return LIMIT.sub(lambda of: limit(f"{whose}_{of[1]}"), words)


def refusal_rows():
    """Number, words and record of each refusal, the words with no limits in them yet."""
    found = (ROOT / "docs" / "refusals.txt").read_text().splitlines()
    return [row.split(" | ") for row in found if not row.startswith("#")]


def refusal_table():
    """Number, words and record of each refusal, with both limits where it has one."""
    rows = []
    for number, words, record in refusal_rows():
        for of in LIMIT.findall(words):
            words += f"; with `{OPTION}` {limit(f'{COOPERATIVE}_{of}')}"
        rows.append((number, within(INPUT, words), record))
    return rows


def command_numbers():
    """The enum of commands, and which command a page is of."""
    of_program = [command.name for command in commands() if not command.is_of_launcher]
    variants = "".join(f"    {name.capitalize()},\n" for name in of_program)
    arms = "".join(f"        texts::{constant(name)} => Command::{name.capitalize()},\n" for name in of_program)
    return source(
        "The commands of the program by the numbers of their pages of help. Made by docs/tables from docs/help.txt.",
        comment("A command of the program, or one of those that ./urvendlo alone has.")
        + f"#[derive(Clone, Copy)]\npub enum Command {{\n{variants}    OfLauncher,\n}}\n",
        f"pub fn command_of(page: usize) -> Command {{\n    match page {{\n{arms}"
        "        _ => Command::OfLauncher,\n    }\n}\n",
    )


def program_texts():
    refusals, pages = refusal_rows(), help_pages()
    if [int(row[0]) for row in refusals] != list(range(1, len(refusals) + 1)):
        faults.append("docs/refusals.txt: the numbers do not go up from 1")
    words = ["", *(row[1] for row in refusals)]
    limited = [place for place, said in enumerate(words) if LIMIT.search(said)]
    larger = {place: len(words) + i for i, place in enumerate(limited)}
    said = [within(INPUT, of) for of in words] + [within(COOPERATIVE, words[place]) for place in limited]
    return source(
        "The texts that the program prints beside its answers. Made by docs/tables from docs/refusals.txt,"
        " docs/help.txt and the limits of crate `limits`.",
        text_table(
            "WORDS",
            "WORDS_STARTS",
            said,
            "A refusal in words, by its number; there is none of the number 0. Behind the last those of a cooperative's"
            " file that name another limit.",
        ),
        comment("The last number, and the last place.")
        + constants([("REFUSALS", len(refusals)), ("WORDS_LAST", len(said) - 1)]),
        array(
            "COOPERATIVE_WORDS",
            "usize",
            [larger.get(place, place) for place in range(len(words))],
            "Where the words for a cooperative's file stand, by the refusal's number.",
        ),
        text(
            "LARGER",
            [within(COOPERATIVE, f"{OPTION} FILE takes up to BYTES bytes and HERDS herds")],
            "What takes a file that is too large for standard input.",
        ),
        text_table(
            "PAGES",
            "PAGES_STARTS",
            ["".join(page.lines) for page in pages.values()],
            "The pages of help, one for each command.",
        ),
        text_table("NAMES", "NAMES_STARTS", list(pages), "The commands' names, by the numbers of their pages."),
        comment("The numbers of the pages, and the last of them.")
        + constants([*((name.upper(), place) for place, name in enumerate(pages)), ("PAGE_LAST", len(pages) - 1)]),
        is_root=True,
    )
