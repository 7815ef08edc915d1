#!/usr/bin/env python3
"""Brings the repository's own definitions and lemmas to the spelling of today's Rattle.

usage: python3 tools/respell.py        at the top, once, after the kit's port/port.py

tools/respelled.tsv has the names, old and new: words in snake case, a dash only between two names. Functions of src/,
exported names, strings, inputs and outputs keep theirs. The texts of must-fail edits go over too, and the names that
the pages cite between backquotes.
"""

import os
import re

HERE = os.path.dirname(os.path.abspath(__file__))
TOP = os.path.dirname(HERE)
WORD = re.compile(r"[A-Za-z0-9_'◌≤≡→←⊖⊕⊗×∷²³-]+")
STRING_OR_COMMENT = re.compile(r'"[^"\n]*"|--.*|//.*')
QUOTED = re.compile(r"`[^`\n]+`")


def table():
    with open(os.path.join(HERE, "respelled.tsv"), encoding="utf-8") as f:
        return dict(line.rstrip("\n").split("\t") for line in f if line.strip())


def functions():
    """The functions of src/: a step of a proof by hand is named by the function it calls, and keeps that name."""
    found = set()
    for folder, _, files in os.walk(os.path.join(TOP, "crates")):
        for name in files:
            if name.endswith(".rt"):
                with open(os.path.join(folder, name), encoding="utf-8") as f:
                    found |= set(re.findall(r"\bfn (\w+)", f.read()))
    return found


def respelled(text, names, kept=(), source=False):
    def one(m):
        word = m.group(0)
        before = text[max(0, m.start() - 4):m.start()]
        if source and word in kept:
            return word
        if before.endswith("tie.") or word.startswith("Need-"):
            return word
        if before.endswith(".") and word.replace("-", "_") in kept:
            return word
        return names.get(word, word)

    return WORD.sub(one, text)


def outside(text, names, kept, source=False):
    """Respelled but for strings and comments, where a name between backquotes is respelled alone."""
    parts, at = [], 0
    for m in STRING_OR_COMMENT.finditer(text):
        parts.append(respelled(text[at:m.start()], names, kept, source))
        said = m.group(0)
        parts.append(said if said.startswith('"') else QUOTED.sub(lambda q: respelled(q.group(0), names), said))
        at = m.end()
    parts.append(respelled(text[at:], names, kept, source))
    return "".join(parts)


def edit(text, names):
    lines = []
    for line in text.split("\n"):
        if line.startswith(("old:", "new:")):
            line = outside(line, names, ())
        elif line.startswith("#"):
            line = QUOTED.sub(lambda q: respelled(q.group(0), names), line)
        lines.append(line)
    return "\n".join(lines)


def page(text, names):
    return QUOTED.sub(lambda q: respelled(q.group(0), names), text)


def main():
    names = table()
    kept = functions()
    changed = 0
    for folder, dirs, files in os.walk(TOP):
        dirs[:] = [d for d in dirs if d not in (".git", "out", "target", "second", "tools")]
        for name in files:
            path = os.path.join(folder, name)
            if name.endswith(".rt"):
                turn = lambda text: outside(text, names, kept, source=True)
            elif name.endswith(".antt"):
                by_hand = kept if name == "Proof.antt" else ()
                turn = lambda text: outside(text, names, by_hand)
            elif name.endswith(".edit"):
                turn = lambda text: edit(text, names)
            elif name.endswith(".md"):
                turn = lambda text: page(text, names)
            else:
                continue
            with open(path, encoding="utf-8") as f:
                was = f.read()
            now = turn(was)
            if now != was:
                changed += 1
                with open(path, "w", encoding="utf-8") as f:
                    f.write(now)
    print(f"respell: {changed} files changed")


if __name__ == "__main__":
    main()
