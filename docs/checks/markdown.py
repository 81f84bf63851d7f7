"""The parts of a document that are compared: its tables and its fenced blocks, each with the line at which it begins."""

import re
from dataclasses import dataclass
from pathlib import Path


@dataclass
class Row:
    line: int
    cells: list[str]


@dataclass
class Table:
    path: Path
    # the heading of two marks that it stands below
    section: str
    header: list[str]
    rows: list[Row]
    # the last line of prose above it
    above: str


@dataclass
class Block:
    path: Path
    section: str
    line: int
    # the words after the opening fence
    words: str
    lines: list[str]
    # the last line of prose above it
    above: str


def pages(root: Path) -> list[Path]:
    """All documents: README, and those of tools/, crates/, docs/ and examples/."""
    return [root / "README.md", *sorted(root.glob("*/*.md"))]


def cells(line: str) -> list[str]:
    """The cells of a table's line; `\\|` is a bar within a cell."""
    return [cell.strip().replace("\\|", "|") for cell in re.split(r"(?<!\\)\|", line.strip())[1:-1]]


def quoted(text: str) -> list[str]:
    """The words in back quotes."""
    return re.findall(r"`([^`]+)`", text)


def read(path: Path) -> tuple[list[Table], list[Block]]:
    """The tables and the fenced blocks of a document, in their order."""
    tables, blocks = [], []
    section = above = ""
    table = block = None
    for number, line in enumerate(path.read_text().splitlines(), 1):
        if block is not None:
            if line.startswith("```"):
                block = None
            else:
                block.lines.append(line)
            continue
        if line.startswith("```"):
            block = Block(path, section, number, line[3:].strip(), [], above)
            blocks.append(block)
        elif line.startswith("|"):
            if table is None:
                table = Table(path, section, cells(line), [], above)
                tables.append(table)
            elif not line.startswith("|---"):
                table.rows.append(Row(number, cells(line)))
            continue
        elif line.startswith("## "):
            section = line[3:]
        elif line.strip():
            above = line
        table = None
    return tables, blocks
