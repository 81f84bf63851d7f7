"""The examples of the documents play as they are written, on the built programs.

- A table with the columns `Line` and `Written` is one script, line by line. After each line stand the lines that it
  brings about, in back quotes and joined by `, `; `: ` and what follows it is prose.
- A table with the columns `Script` and `Last line written` has a whole script in each row, in which `\\n` is a line feed,
  `\\r` a carriage return and `\\t` a tab.
- A table with the columns `Kind`, `Setup lines` and `Step lines` has lines that are refused with this kind: a setup line
  as the first of a script, a step line as the first after `begin`.
- A fenced block whose opening fence says `script` is a script that is played to its end.
"""

import re
import subprocess
import tempfile
from dataclasses import dataclass, field
from pathlib import Path

import markdown

# What no example brings about: a journal is full after 4,294,967,295 records.
WITHOUT_EXAMPLE = {"no COMMAND journalfull USED HELD NEED"}


@dataclass
class Played:
    """What was compared: how many examples, the lines that they wrote, and where something else was written."""
    count: int = 0
    written: list[str] = field(default_factory=list)
    faults: list[str] = field(default_factory=list)

    def compare(self, place: str, got: list[str], wanted: list[str]) -> None:
        self.count += 1
        if got == wanted:
            return
        first = next((i for i, pair in enumerate(zip(got, wanted)) if pair[0] != pair[1]), min(len(got), len(wanted)))
        self.faults.append(f"{place}: line {first + 1} is {got[first:first + 1]}, wanted {wanted[first:first + 1]}")


def call(program: Path, words: list[str], given: bytes) -> subprocess.CompletedProcess:
    """One call of the program, in a new empty folder, where its journal stays."""
    with tempfile.TemporaryDirectory() as folder:
        return subprocess.run([program, *words], input=given, cwd=folder, capture_output=True, timeout=60, check=False)


def run(program: Path, words: list[str], given: bytes) -> tuple[int, list[str]]:
    """The exit status of the program and the lines that it wrote."""
    done = call(program, words, given)
    return done.returncode, done.stdout.decode().splitlines()


def unescaped(text: str) -> bytes:
    for name, meant in (("\\n", "\n"), ("\\r", "\r"), ("\\t", "\t")):
        text = text.replace(name, meant)
    return text.encode()


def play_lines(table: markdown.Table, program: Path, played: Played) -> None:
    """One script, whose lines and whose transcript stand side by side."""
    line, written = table.header.index("Line"), table.header.index("Written")
    script = [markdown.quoted(row.cells[line])[0] for row in table.rows]
    wanted = [each for row in table.rows
              for each in markdown.quoted(re.sub(r"(?<=`): .*", "", row.cells[written]))]
    status, got = run(program, ["run"], "".join(each + "\n" for each in script).encode())
    place = f"{table.path.name}:{table.rows[0].line}: exit status {status}"
    played.written += got
    played.compare(place, got, wanted)
    if status != 0:
        played.faults.append(place)


def play_scripts(table: markdown.Table, program: Path, played: Played) -> None:
    """Whole scripts, each with its last line."""
    script, last = table.header.index("Script"), table.header.index("Last line written")
    for row in table.rows:
        given = "".join(markdown.quoted(row.cells[script]))
        _, got = run(program, ["run"], unescaped(given))
        played.written += got
        played.compare(f"{table.path.name}:{row.line}", got[-1:], markdown.quoted(row.cells[last]))


def play_refused(table: markdown.Table, program: Path, played: Played) -> None:
    """Single lines, each refused as the first of its part of a script."""
    kind = table.header.index("Kind")
    for title, front, number in (("Setup lines", "", 1), ("Step lines", "begin\n", 2)):
        for row in table.rows:
            for line in markdown.quoted(row.cells[table.header.index(title)]):
                _, got = run(program, ["run"], f"{front}{line}\n".encode())
                played.written += got
                wanted = f"refused {number} {markdown.quoted(row.cells[kind])[0]}"
                played.compare(f"{table.path.name}:{row.line}: {line}", got, [wanted])


def play_block(block: markdown.Block, program: Path, played: Played) -> None:
    """A script of which only the last line of the transcript is looked at."""
    given = "".join(line + "\n" for line in block.lines).encode()
    status, got = run(program, ["run"], given)
    played.compare(f"{block.path.name}:{block.line}", [f"exit status {status}"], ["exit status 0"])
    played.written += got


def examples(root: Path, program: Path) -> Played:
    """All examples of all documents."""
    played = Played()
    ways = {("Line", "Written"): play_lines, ("Script", "Last line written"): play_scripts,
            ("Kind", "Setup lines", "Step lines"): play_refused}
    for path in [root / "README.md", *sorted(root.glob("docs/*.md"))]:
        tables, blocks = markdown.read(path)
        for table in tables:
            for columns, way in ways.items():
                if set(columns) <= set(table.header):
                    way(table, program, played)
        for block in blocks:
            if block.words == "script":
                play_block(block, program, played)
    return played


def form(text: str) -> re.Pattern:
    """A line of the transcript as docs/TRANSCRIPT.md spells it, where words in capitals stand for something."""
    words = [word if word != word.upper() else ".+" if word in ("COMMAND", "REASON", "RECORD") else r"\S+"
             for word in text.split(" ")]
    return re.compile(" ".join(words))


def forms(root: Path) -> dict[str, re.Pattern]:
    """The kinds of lines of docs/TRANSCRIPT.md, and the reasons and the kinds of refused lines of docs/SCRIPT.md."""
    found = {}
    for table in markdown.read(root / "docs/TRANSCRIPT.md")[0]:
        if table.header[0] in ("Line", "Last line"):
            for row in table.rows:
                found.update({text: form(text) for text in markdown.quoted(row.cells[0])})
    for table in markdown.read(root / "docs/SCRIPT.md")[0]:
        front = {("Reason", "Where"): "no COMMAND ", ("Kind", "Exactly where", "Number"): "refused NUMBER "}.get(
            tuple(table.header))
        if front:
            texts = [front + markdown.quoted(row.cells[0])[0] for row in table.rows]
            found.update({text: form(text) for text in texts})
    return found


def bare(line: str) -> str:
    """A line without what the plays of examples/ write around it: a remark or a number before it, a status after it."""
    return re.sub(r",? status \d+$", "", re.sub(r"^(?:.*: |\d+ )", "", line))


def kinds(root: Path, played: Played):
    """Each kind of line, each reason and each kind of refused line has an example: a played one of a document, or a line in
    a transcript of examples/."""
    lines = set(played.written)
    for path in root.glob("examples/*.transcript"):
        for line in path.read_text().splitlines():
            lines.update((line, bare(line)))
    wanted = {text: pattern for text, pattern in forms(root).items() if text not in WITHOUT_EXAMPLE}
    return len(wanted), [f"`{text}` has no example" for text, pattern in wanted.items()
                         if not any(pattern.fullmatch(line) for line in lines)]


def known_lines(root: Path, played: Played):
    """Each line that the examples of the documents and the scripts of examples/ write is of a kind that docs/TRANSCRIPT.md has."""
    lines = played.written + [line for path in root.glob("examples/*.script")
                              for line in path.with_suffix(".transcript").read_text().splitlines()]
    patterns = forms(root).values()
    return len(lines), [f"no kind of line: {line}" for line in sorted(set(lines))
                        if not any(pattern.fullmatch(line) for pattern in patterns)]
