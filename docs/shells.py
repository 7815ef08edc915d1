"""The man page and the completion for bash and zsh, which docs/tables makes from the table of commands (docs/commands.py).

They stand in share/, and `./urvendlo install` puts them in place.
"""

import re

from commands import HELP, commands, help_pages, listed, usage_of
from common import ROOT

SHARE = ROOT / "share"
MADE = f"Made by docs/tables from {HELP}."


def made():
    """The text of each file of share/ that is made, by its path."""
    return {SHARE / "urvendlo.1": manual(), SHARE / "urvendlo.bash": bash(), SHARE / "_urvendlo": zsh()}


# ---- the man page


def manual():
    first, *others = paragraphs("help")
    sections = {"DESCRIPTION": [], "OPTIONS": [], "EXIT STATUS": [], "NOTES": []}
    for lines in others:
        sections[section(lines)] += definitions(lines) if lines[0].startswith("  ") else prose(lines)
    usages = [usage_of(page).removeprefix("usage: ") for page in help_pages().values()]
    pages = [line for name in help_pages() if name != "help" for line in command_page(name)]
    parts = [
        f'.\\" {MADE}',
        '.TH URVENDLO 1 "" Urvendlo "User Commands"',
        ".SH NAME",
        "urvendlo \\- nitrogen and ammonia flows of livestock herds from a farm file",
        ".SH SYNOPSIS",
        *(line for usage in usages for line in (escaped(usage), ".br")),
        ".SH DESCRIPTION",
        *sections.pop("DESCRIPTION"),
        ".SH COMMANDS",
        *pages,
        *(line for title, lines in sections.items() for line in (f'.SH "{title}"', *lines)),
    ]
    return "\n".join(parts) + "\n"


def paragraphs(name):
    """The lines of each paragraph of a page."""
    return [part.splitlines() for part in "".join(help_pages()[name].lines).split("\n\n")]


def section(lines):
    """Where a paragraph of the page of help stands."""
    begins = {"  -": "OPTIONS", "The status is": "EXIT STATUS", "The bare program": "NOTES"}
    return next((title for begin, title in begins.items() if lines[0].startswith(begin)), "DESCRIPTION")


def command_page(name):
    """A command's page without its usage; what is set in stands as it is."""
    lines = [f".SS {name}"]
    for paragraph in paragraphs(name)[1:]:
        is_example = paragraph[0].startswith("  ")
        lines += [".PP", ".EX", *map(example, paragraph), ".EE"] if is_example else prose(paragraph)
    return lines


def prose(lines):
    return [".PP", *map(escaped, lines)]


def definitions(lines):
    """A list of words and what they are: a word stands two blanks in, and what is said of it further in."""
    rows = []
    for line in lines:
        word, said = re.fullmatch(r"  (?:(\S+(?: [A-Z]+)?)(?: {2,}|$))? *(.*)", line).groups()
        rows += [".TP", f".B {escaped(word)}"] if word else []
        rows += [escaped(said)] if said else []
    return rows


def escaped(text):
    """Text as it stands in a man page."""
    text = text.replace("\\", "\\e").replace("-", "\\-")
    return re.sub(r"^(?=[.'])", r"\\&", text)


def example(line):
    """A line that is to be typed or was printed, with the quotes that are on a keyboard."""
    return escaped(line).replace("'", "\\(aq").replace("`", "\\(ga")


# ---- completion

PLACES = {"COMMAND": "commands", "PREFIX": "folders", **dict.fromkeys(("FILE", "FARM", "LOG", "OLD", "NEW"), "files")}
ALWAYS = ("--help",)


def place(operand):
    """What can be completed where an operand stands: a kind of thing, or the words `de|fr` themselves, or nothing."""
    word = operand.rstrip(".")
    return word.replace("|", " ") if word.islower() else PLACES.get(word, "nothing")


def places(command):
    """What can be completed at each operand of a command; the last counts for all that follow where it has dots."""
    named = [place(operand) for operand in command.operands]
    repeats = bool(command.operands) and command.operands[-1].endswith("..")
    return named if repeats else [*named, "nothing"]


def arguments():
    """What can be completed behind each option that has an argument."""
    found = {option.name: place(option.argument) for of in commands() for option in of.options if option.argument}
    return dict(sorted(found.items()))


def option_names(command):
    return " ".join([*(option.name for option in command.options), *ALWAYS])


def bash():
    names = " ".join(command.name for command in commands())
    arms = "".join(
        f"    {command.name}) flags='{option_names(command)}' places=({' '.join(map(quoted, places(command)))}) ;;\n"
        for command in commands()
    )
    behind = "".join(f"    {option}) behind={quoted(what)} ;;\n" for option, what in arguments().items())
    return BASH.format(made=MADE, names=names, arms=arms, behind=behind)


def zsh():
    names = "".join(f"    {quoted(f'{command.name}:{zsh_words(command.says)}')}\n" for command in commands())
    said = {**listed("-"), **listed("--"), "--help": "what the command is for"}
    options = "".join(f"    {quoted(f'{name}:{zsh_words(words)}')}\n" for name, words in said.items())
    arms = "".join(
        f"    {command.name}) flags=({option_names(command)}) places=({' '.join(map(quoted, places(command)))}) ;;\n"
        for command in commands()
    )
    behind = "".join(f"    {option}) behind={quoted(what)} ;;\n" for option, what in arguments().items())
    return ZSH.format(made=MADE, names=names, options=options, arms=arms, behind=behind)


def quoted(text):
    return text if text.isalpha() else "'" + text.replace("'", "'\\''") + "'"


def zsh_words(said):
    """What is said, to its first stop, with the colons that would end it marked."""
    return said.partition(";")[0].replace(":", "\\:")


BASH = """\
# Completion of urvendlo for bash: commands, options and files. {made}

# What may stand for the word at the cursor, a line each.
_urvendlo_words() {{ # WHAT BEGIN
    case $1 in
    nothing) ;;
    files) compgen -f -- "$2" ;;
    folders) compgen -d -- "$2" ;;
    commands) compgen -W '{names}' -- "$2" ;;
    *) compgen -W "$1" -- "$2" ;;
    esac
}}

# What is completed behind an option; nothing is set for one without an argument.
_urvendlo_behind() {{ # OPTION
    behind=
    case $1 in
{behind}    esac
}}

# The options of a command, and what is completed at each of its operands.
_urvendlo_of() {{ # COMMAND
    case $1 in
{arms}    *) return 1 ;;
    esac
}}

_urvendlo() {{
    local begin=${{COMP_WORDS[COMP_CWORD]}} word at command= only= behind= operands=0 flags places what
    _urvendlo_of figures
    for ((at = 1; at < COMP_CWORD; at++)); do
        word=${{COMP_WORDS[at]}}
        if [ -n "$only" ]; then
            operands=$((operands + 1))
        elif [ -n "$behind" ]; then
            behind=
        elif [ "$word" = -- ]; then
            only=1
        elif [[ $word == -?* ]]; then
            _urvendlo_behind "$word"
        elif [ -z "$command" ] && [ "$operands" -eq 0 ] && _urvendlo_of "$word"; then
            command=$word
        else
            operands=$((operands + 1))
        fi
    done
    what=${{places[operands < ${{#places[@]}} ? operands : ${{#places[@]}} - 1]}}
    if [ -n "$behind" ]; then
        what=$behind
    elif [ -z "$only" ] && [[ $begin == -* ]]; then
        what=$flags
    fi
    [[ $what != @(files|folders) ]] || compopt -o filenames 2>/dev/null
    mapfile -t COMPREPLY < <(
        _urvendlo_words "$what" "$begin"
        [[ -n $command$only$behind || $operands -gt 0 || $begin == -* ]] || _urvendlo_words commands "$begin"
    )
}}

complete -F _urvendlo urvendlo
"""

ZSH = """\
#compdef urvendlo
# Completion of urvendlo for zsh: commands, options and files. {made}

_urvendlo_commands=(
{names})

_urvendlo_options=(
{options})

# What may stand for the word at the cursor.
_urvendlo_words() {{ # WHAT
    case $1 in
    nothing) ;;
    files) _files ;;
    folders) _files -/ ;;
    commands) _describe command _urvendlo_commands ;;
    *) compadd -- ${{=1}} ;;
    esac
}}

# What is completed behind an option; nothing is set for one without an argument.
_urvendlo_behind() {{ # OPTION
    behind=
    case $1 in
{behind}    esac
}}

# The options of a command, and what is completed at each of its operands.
_urvendlo_of() {{ # COMMAND
    case $1 in
{arms}    *) return 1 ;;
    esac
}}

_urvendlo() {{
    local word at command= only= behind= operands=0 what
    local -a flags places said
    _urvendlo_of figures
    for ((at = 2; at < CURRENT; at++)); do
        word=$words[at]
        if [[ -n $only ]]; then
            operands=$((operands + 1))
        elif [[ -n $behind ]]; then
            behind=
        elif [[ $word == -- ]]; then
            only=1
        elif [[ $word == -?* ]]; then
            _urvendlo_behind $word
        elif [[ -z $command && $operands -eq 0 ]] && _urvendlo_of $word; then
            command=$word
        else
            operands=$((operands + 1))
        fi
    done
    if [[ -n $behind ]]; then
        _urvendlo_words $behind
    elif [[ -z $only && $words[CURRENT] == -* ]]; then
        said=(${{(M)_urvendlo_options:#(${{(~j.|.)flags}}):*}})
        _describe -o option said
    else
        [[ -n $command$only || $operands -gt 0 ]] || _urvendlo_words commands
        at=$((operands + 1))
        ((at <= $#places)) || at=-1
        _urvendlo_words $places[at]
    fi
}}

_urvendlo "$@"
"""
