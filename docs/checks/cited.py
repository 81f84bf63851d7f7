"""The pages and headings that the code, the scripts and the pages cite are there.

A heading is cited by the page, a comma, and the heading in quotes, with or without the back quotes, in a comment, a text of
a program or a script; a line feed within it, with the marks of a comment after it, is a space.
"""

import re
from pathlib import Path

import markdown

# The files that cite pages.
CITING = ("crates/*/src/**/*.rt", "crates/*/specs/**/*.antt", "crates/*/proofs/**/*.antt", "tools/*", "tools/*/*.py", "docs/*",
          "docs/checks/*.py", "examples/*", "examples/*/*", ".ci/*")
PAGE = re.compile(r"\b((?:docs|tools|examples)/[A-Z]+\.md)\b")
HEADING = re.compile(PAGE.pattern + r"[\])`]*, \\?\"([^\"\\]+)\\?\"")


def prose(text: str) -> str:
    """A text in one line, without the marks at the begin of a comment's line."""
    return re.sub(r"\n[ \t]*(?:///?!?|--|#)?[ \t]*", " ", text)


def headings(root: Path):
    """Each page that is cited is there, and has the heading that is cited of it."""
    count, faults = 0, []
    known: dict[str, set[str]] = {}
    for path in sorted(path for pattern in CITING for path in root.glob(pattern)):
        if not path.is_file() or path.suffix in (".md", ".transcript", ".script", ".svg", ".log", ".capture"):
            continue
        text = prose(path.read_text())
        place = path.relative_to(root)
        for name in PAGE.findall(text):
            if name not in known:
                page = root / name
                lines = page.read_text().splitlines() if page.exists() else []
                known[name] = {line.lstrip("# ") for line in lines if line.startswith("#")}
            if not known[name]:
                count += 1
                faults.append(f"{place}: there is no {name}")
        for name, heading in HEADING.findall(text):
            count += 1
            if known[name] and heading not in known[name]:
                faults.append(f"{place}: {name} has no heading {heading}")
    return count, list(dict.fromkeys(faults))


def anchors(text: str) -> set[str]:
    """The anchors of a page's headings."""
    return {re.sub(r"[^\w\- ]", "", heading.lower()).replace(" ", "-")
            for heading in re.findall(r"^#+ (.*)$", text, re.MULTILINE)}


def links(root: Path):
    """Each link of a page leads to a file or a folder of the clone, and to a heading of it."""
    count, faults = 0, []
    for path in markdown.pages(root):
        for number, line in enumerate(path.read_text().splitlines(), 1):
            for name, anchor in re.findall(r"\]\((?!\w+:)([^)#\s]*)(?:#([^)\s]*))?\)", re.sub(r"`[^`]*`", "`", line)):
                count += 1
                target = (path.parent / name) if name else path
                if not target.exists() or anchor and anchor not in anchors(target.read_text()):
                    faults.append(f"{path.relative_to(root)}:{number}: {name}{anchor and '#' + anchor} isn't there")
    return count, faults
