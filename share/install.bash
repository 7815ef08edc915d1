# What `./urvendlo install` and `uninstall` do; ./urvendlo reads it where one of them is asked for. Below a prefix
# lib/urvendlo is the command's own: a small tree like this one, with the names of all that was put in place, below the
# prefix, in its file `installed`.
own=lib/urvendlo

# What goes with the program into that tree, where it is there: files, and folders with their files.
goes_along=(urvendlo docs/help.txt docs/refusals.txt share/install.bash LICENSE chart advice)

# The files that are put in place: each file here, a tab, and its name below the prefix.
to_install() {
    local part file
    printf '%s\t%s\n' target/bin/urvendlo "$own/bin/urvendlo" \
        share/urvendlo.1 share/man/man1/urvendlo.1 \
        share/urvendlo.bash share/bash-completion/completions/urvendlo \
        share/_urvendlo share/zsh/site-functions/_urvendlo
    for part in "${goes_along[@]}"; do
        [ -e "$root/$part" ] || continue
        while IFS= read -r file; do printf '%s\t%s\n' "${file#"$root"/}" "$own/${file#"$root"/}"; done \
            < <(find "$root/$part" -type f ! -path '*/__pycache__/*' | sort)
    done
}

# A program may be run by everyone, and any file read, whatever the umask.
put_in_place() { # FILE NAME
    local mode=644
    [ ! -x "$root/$1" ] || mode=755
    command install -D -m "$mode" -- "$root/$1" "$prefix/$2" 2>/dev/null \
        || fail "$(shown "$prefix/$2"): it cannot be written"
}

# The whole folder that a name says; it may not be there yet.
absolute() { # NAME
    [[ $1 != -* ]] || set -- "./$1"
    readlink -m "$1"
}

# The prefix that is meant where none is given.
usual_prefix() {
    if [ -e "$installed" ]; then
        dirname "$(dirname "$root")"
    else
        [ -n "${HOME-}" ] || misused "$asked takes a folder, since no HOME is known"
        printf '%s\n' "$HOME/.local"
    fi
}

# What an earlier install put in place goes, and each of its folders that is empty then.
remove() {
    local name names
    mapfile -t names <"$prefix/$own/installed" || fail "$(shown "$prefix/$own/installed"): it cannot be read"
    for name in "${names[@]}"; do
        case /$name/ in */../*) fail "$(shown "$prefix/$own/installed"): it has a name of elsewhere" ;; esac
        rm -f -- "$prefix/$name" 2>/dev/null || fail "$(shown "$prefix/$name"): it cannot be removed"
        (cd "$prefix" && rmdir -p --ignore-fail-on-non-empty -- "$(dirname "$name")") 2>/dev/null
    done
    printf '%s\n' "${names[@]}"
}

told() { printf '%s\n' "$@" 2>/dev/null || fail 'the output cannot be written'; }

install() { # [PREFIX]
    local prefix file name names=()
    [ ! -e "$installed" ] || fail 'an installed command cannot be installed once more; it is done from the sources'
    prefix=$(absolute "${1-$(usual_prefix)}") || fail "$(shown "$1"): there is no such folder"
    if ! is_fresh; then
        build
        exec 9>&-
    fi
    if [ -e "$prefix/$own/installed" ]; then
        remove >/dev/null
    elif [ -e "$prefix/bin/urvendlo" ] || [ -L "$prefix/bin/urvendlo" ]; then
        fail "$(shown "$prefix/bin/urvendlo"): it is there, and no install put it there"
    fi
    umask 022
    mapfile -t names < <(to_install | cut -f2)
    names+=("$own/version" "$own/installed" bin/urvendlo)
    { mkdir -p "$prefix/$own" "$prefix/bin" && printf '%s\n' "${names[@]}" >"$prefix/$own/installed"; } 2>/dev/null \
        || fail "$(shown "$prefix"): it cannot be written"
    while IFS=$'\t' read -r file name; do put_in_place "$file" "$name"; done < <(to_install)
    { (version) >"$prefix/$own/version" && ln -s "../$own/urvendlo" "$prefix/bin/urvendlo" \
        && chmod 644 "$prefix/$own/version" "$prefix/$own/installed"; } 2>/dev/null \
        || fail "$(shown "$prefix"): it cannot be written"
    told "${names[@]/#/$prefix/}"
    [[ :$PATH: == *":$prefix/bin:"* ]] || say "$(shown "$prefix/bin") is not on the path yet"
    exit 0
}

uninstall() { # [PREFIX]
    local prefix names
    prefix=$(absolute "${1-$(usual_prefix)}") || fail "$(shown "$1"): there is no such folder"
    [ -e "$prefix/$own/installed" ] || fail "$(shown "$prefix"): nothing is installed there"
    names=$(remove) || exit 2
    mapfile -t names <<<"$names"
    told "${names[@]/#/$prefix/}"
    exit 0
}
