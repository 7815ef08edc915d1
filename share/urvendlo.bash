# Completion of urvendlo for bash: commands, options and files. Made by docs/tables from docs/help.txt.

# What may stand for the word at the cursor, a line each.
_urvendlo_words() { # WHAT BEGIN
    case $1 in
    nothing) ;;
    files) compgen -f -- "$2" ;;
    folders) compgen -d -- "$2" ;;
    commands) compgen -W 'help figures notes cuts chart report why line write edit gate mend changes explain template inputs outputs install uninstall version' -- "$2" ;;
    *) compgen -W "$1" -- "$2" ;;
    esac
}

# What is completed behind an option; nothing is set for one without an argument.
_urvendlo_behind() { # OPTION
    behind=
    case $1 in
    --by) behind='file ammonia' ;;
    --language) behind='en de fr' ;;
    -o) behind=files ;;
    esac
}

# The options of a command, and what is completed at each of its operands.
_urvendlo_of() { # COMMAND
    case $1 in
    help) flags='--help' places=(commands nothing) ;;
    figures) flags='-o --cooperative --help' places=(files nothing) ;;
    notes) flags='-o --cooperative --help' places=(files nothing) ;;
    cuts) flags='-o --cooperative --help' places=(files nothing) ;;
    chart) flags='--by --language -o --cooperative --help' places=(files nothing) ;;
    report) flags='--by --language -o --cooperative --help' places=(files nothing) ;;
    why) flags='--words -o --cooperative --help' places=(files nothing) ;;
    line) flags='--words -o --cooperative --help' places=(nothing files nothing) ;;
    write) flags='-o --cooperative --help' places=(files nothing) ;;
    edit) flags='--farm -o --cooperative --help' places=(files nothing) ;;
    gate) flags='-o --help' places=(files nothing) ;;
    mend) flags='-o --help' places=(files nothing) ;;
    changes) flags='-o --help' places=(files nothing) ;;
    explain) flags='-o --help' places=(nothing nothing) ;;
    template) flags='-o --help' places=(nothing) ;;
    inputs) flags='-o --help' places=(nothing) ;;
    outputs) flags='-o --help' places=(nothing) ;;
    install) flags='--help' places=(folders nothing) ;;
    uninstall) flags='--help' places=(folders nothing) ;;
    version) flags='--help' places=(nothing) ;;
    *) return 1 ;;
    esac
}

_urvendlo() {
    local begin=${COMP_WORDS[COMP_CWORD]} word at command= only= behind= operands=0 flags places what
    _urvendlo_of figures
    for ((at = 1; at < COMP_CWORD; at++)); do
        word=${COMP_WORDS[at]}
        if [ -n "$only" ]; then
            operands=$((operands + 1))
        elif [ -n "$behind" ]; then
            behind=
        elif [ "$word" = -- ]; then
            only=1
        elif [[ $word == -?* ]]; then
            _urvendlo_behind "$word"
        elif [ -z "$command" ] && [ "$operands" -eq 0 ] && _urvendlo_of "$word"; then
            command=$word
        else
            operands=$((operands + 1))
        fi
    done
    what=${places[operands < ${#places[@]} ? operands : ${#places[@]} - 1]}
    if [ -n "$behind" ]; then
        what=$behind
    elif [ -z "$only" ] && [[ $begin == -* ]]; then
        what=$flags
    fi
    [[ $what != @(files|folders) ]] || compopt -o filenames 2>/dev/null
    mapfile -t COMPREPLY < <(
        _urvendlo_words "$what" "$begin"
        [[ -n $command$only$behind || $operands -gt 0 || $begin == -* ]] || _urvendlo_words commands "$begin"
    )
}

complete -F _urvendlo urvendlo
