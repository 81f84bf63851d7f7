"""How the pages are written: for whom, the words that aren't used in them, and how many words they have.

What stands in back quotes, in a block, in a heading's link or in a printed table isn't looked at: names and output are as
they are. A word is what has a letter or a digit, between two spaces; the words of printed tables aren't counted.
"""

import re
from pathlib import Path

import markdown
import printed

MOST_OF_A_PAGE = 3500
MOST_OF_ALL = 40000

# By what isn't written, what is written in its place. Each is a pattern of whole words.
INSTEAD = {
    r"behind": "after",
    r"at the most": "at most",
    r"untold": "opaque, or that doesn't show its bytes",
    r"told": "reported, said, asked",
    r"(?:stands?|stood|standing) for": "is, means, represents",
    r"befalls?|befell|befallen": "happens to",
    r"loss(?:es)? of power": "power cut",
    r"in the midst of": "in, within",
    r"at the desk": "with the operator's session",
    r"wild": "of any host",
    r"sayable|doses?|takers?|owing|fitted|freed": "the thing itself, in the words of PROTOCOL's glossary",
}


def prose(text: str) -> list[str]:
    """The lines of a page, without what isn't prose."""
    text = printed.BLOCK.sub(lambda found: "\n" * found[0].count("\n"), text)
    lines, is_block = [], False
    for line in text.split("\n"):
        if line.startswith("```"):
            is_block = not is_block
        is_code = is_block or line.startswith(("```", "    "))
        lines.append("" if is_code else re.sub(r"\]\([^)]*\)|`[^`]*`", "`", line))
    return lines


def words(root: Path):
    """No page has a word that isn't used."""
    count, faults = 0, []
    for path in markdown.pages(root):
        for number, line in enumerate(prose(path.read_text()), 1):
            count += len(line.split())
            for pattern, instead in INSTEAD.items():
                faults += [f"{path.relative_to(root)}:{number}: {found}; better: {instead}"
                           for found in re.findall(rf"\b(?:{pattern})\b", line, re.IGNORECASE)]
    return count, faults


def readers(root: Path):
    """Each page but README says first for whom it is."""
    firsts = {path.relative_to(root): path.read_text().split("\n\n")[1] for path in markdown.pages(root)
              if path.name != "README.md" or path.parent != root}
    return len(firsts), [f"{name} doesn't begin with whom it is for" for name, text in firsts.items() if not text.startswith("For ")]


def many(text: str) -> int:
    """How many words a page has that are written by hand."""
    return len(re.findall(r"\S*\w\S*", printed.BLOCK.sub("", text)))


def lengths(root: Path):
    """Each page, and all of them, have few enough words."""
    counts = {path.relative_to(root): many(path.read_text()) for path in markdown.pages(root)}
    faults = [f"{name}: {count:,} words, at most {MOST_OF_A_PAGE:,}" for name, count in counts.items()
              if count > MOST_OF_A_PAGE]
    whole = sum(counts.values())
    if whole > MOST_OF_ALL:
        faults.append(f"all pages: {whole:,} words, at most {MOST_OF_ALL:,}")
    return whole, faults
