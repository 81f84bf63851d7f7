"""What documents quote of files and of programs stands there."""

import re
from pathlib import Path

import markdown
import played

# A document, its section, and the program, the words and the file of standard input that write the section's first block,
# or a longer text in which it stands.
SHOWN = [
    ("docs/TRANSCRIPT.md", "A load", "cct_main", ["load", "7", "20"], None),
    ("docs/SHOW.md", "An example", "cct_show", ["text"], "examples/one_coin.transcript"),
    ("README.md", "", "cct_show", ["text"], "examples/lost_acknowledgement_of_a_dispense.transcript"),
]


def holds(whole: list[str], part: list[str]) -> bool:
    """The part's lines stand in the whole, one after the other."""
    return any(whole[at:at + len(part)] == part for at in range(len(whole) - len(part) + 1))


def stands(root: Path, block: markdown.Block, name: str) -> list[str]:
    """The block's lines stand in the file, at whatever margin."""
    lines = (root / name).read_text().splitlines()
    margins = range(0, 13, 4)
    if block.lines and any(holds([line[margin:] if line[:margin].isspace() or not margin else line for line in lines],
                                 block.lines) for margin in margins):
        return []
    return [f"{block.path.name}:{block.line}: doesn't stand in {name}"]


def bytes_of(table: markdown.Table) -> str:
    """The bytes of a table's first column, in hexadecimal."""
    return "".join(markdown.quoted(row.cells[0])[0].replace(" ", "") for row in table.rows)


def code(root: Path):
    """Each block of Rust or of definitions that a document shows below the name of a file stands in that file, and each
    table of bytes below one spells a string of bytes in a block of its section."""
    count, faults = 0, []
    for path in [root / "README.md", *sorted(root.glob("docs/*.md"))]:
        tables, blocks = markdown.read(path)
        shown = {}
        for block in blocks:
            named = [name for name in markdown.quoted(block.above) if re.fullmatch(r"crates/.*\.(rt|antt)", name)]
            if block.words in ("rust", "antt") and named:
                count += 1
                shown[block.section] = shown.get(block.section, "") + "\n".join(block.lines)
                faults += stands(root, block, named[-1])
        for table in tables:
            if table.header[0] == "Bytes" and table.section in shown:
                count += 1
                spelt = '"' + re.sub("(..)", r"\\x\1", bytes_of(table)) + '"'
                if spelt not in shown[table.section]:
                    faults.append(f"{path.name}:{table.rows[0].line}: {spelt} isn't in the code above")
    return count, faults


def transcripts(root: Path):
    """Each block of docs/TRANSCRIPT.md below the name of an example stands in its transcript, and each table of bytes below
    it spells the bytes above the table, which stand in that block."""
    count, faults = 0, []
    tables, blocks = markdown.read(root / "docs/TRANSCRIPT.md")
    shown = {}
    for block in blocks:
        for name in re.findall(r"^This is `(examples/\w+)\.script`", block.above):
            count += 1
            shown[block.section] = "\n".join(block.lines)
            faults += stands(root, block, name + ".transcript")
    for table in tables:
        if table.header[0] in ("Byte", "Bytes") and table.section in shown:
            count += 1
            said = markdown.quoted(table.above)[-1].replace(" ", "")
            if bytes_of(table) != said or said not in shown[table.section]:
                faults.append(f"TRANSCRIPT.md:{table.rows[0].line}: {bytes_of(table)} beside {said}")
    return count, faults


def shown(root: Path, programs: dict[str, Path]):
    """Each block that a document shows of a program is what that writes."""
    faults = []
    for document, section, program, words, given in SHOWN:
        blocks = [block for block in markdown.read(root / document)[1] if block.section == section]
        if not blocks or program not in programs:
            faults.append(f"{document}: no block in {section}, or no program {program} was given")
            continue
        _, got = played.run(programs[program], words, (root / given).read_bytes() if given else b"")
        if not blocks[0].lines or not holds(got, blocks[0].lines):
            faults.append(f"{document}:{blocks[0].line}: isn't what {program} {' '.join(words)} writes")
    return len(SHOWN), faults
