"""CHANGELOG.md, which docs/tables makes from the pages of docs/changes: a line a change, the newest first."""

import re
import subprocess
import textwrap

from common import ROOT, faults

CHANGES = "docs/changes"
CHANGELOG = ROOT / "CHANGELOG.md"
HEAD = """\
# Changes

What came since the first program, the newest first. The page behind each says what moved, what stayed, and what it
cost. Made by docs/tables from docs/changes.

"""
WIDTH = 120


def made():
    names = sorted(path.stem for path in (ROOT / CHANGES).glob("*.md"))
    order = landed()
    newest_first = sorted(names, key=lambda name: order.index(name) if name in order else -1)
    return {CHANGELOG: HEAD + "".join(map(entry, newest_first))}


def landed():
    """The pages in the order in which git has them, the newest first; where it does not tell, as the file has them."""
    if git("rev-parse", "--is-shallow-repository").strip() == "false":
        log = git("log", "--topo-order", "--diff-filter=A", "--name-only", "--format=", "--", CHANGES)
        return list(dict.fromkeys(re.findall(rf"^{CHANGES}/([\w-]+)\.md$", log, re.M)))
    return re.findall(rf"\]\({CHANGES}/([\w-]+)\.md\)", CHANGELOG.read_text()) if CHANGELOG.exists() else []


def git(*words):
    """What git prints; nothing where it fails or is not there."""
    try:
        return subprocess.run(["git", "-C", ROOT, *words], capture_output=True, text=True, check=False).stdout
    except OSError:
        return ""


def entry(name):
    """A page's title, and its first sentence."""
    text = (ROOT / CHANGES / f"{name}.md").read_text()
    title = re.match("# (.+)\n", text)
    prose = re.search(r"\n\n(\w.*?|`.*?)\n\n", text, re.S)
    if not title or not prose:
        faults.append(f"{CHANGES}/{name}.md: it has no title, or no sentence")
        return ""
    said = re.match(r".*?\.(?= |$)|.*", " ".join(prose[1].split()))[0]
    return textwrap.fill(
        f"- [{title[1]}]({CHANGES}/{name}.md): {said}",
        WIDTH,
        subsequent_indent="  ",
        break_long_words=False,
        break_on_hyphens=False,
    ) + "\n"
