"""The tables of docs/SCRIPT.md and docs/AUDIT.md are those by which the program reads a line of a script or
of a capture, and by which it explains one that it refuses.

The program is asked: a line with a wrong field is played, and what it writes and what it says on standard error are
compared with the tables. So no table of the source is read here. A field of a table is a word in capitals; a byte that
doesn't print is none of any kind.
"""

import re
from dataclasses import dataclass
from pathlib import Path

import markdown
import played

# What represents a field that has no range.
SAMPLES = {"`simple` or `crc`": "simple", "exactly six": "ABCDEF", "1 to 24 printing": "TEXT", "four hexadecimal": "0001",
           "`-` or two": "-", "two hexadecimal": "00", "`acceptor` or `hopper`": "acceptor", "`acceptor` or `bills`": "acceptor",
           "`acceptor`, `bills` or": "acceptor"}
BAD = "\x01"


@dataclass
class Part:
    # as the tables name it, and as the program does in the singular
    name: str
    singular: str
    # the word of the command line by which it is read
    word: str
    # what stands before a line that is the first of its part
    front: str
    # the forms of its lines, each with its place in a document
    forms: list[tuple[str, str]]

    def word_forms(self, word: str) -> list[str]:
        return [form for _, form in self.forms if form.split(" ")[0] == word]

    def words(self) -> list[str]:
        return list(dict.fromkeys(form.split(" ")[0] for _, form in self.forms))


@dataclass
class Field:
    names: list[str]
    # the part of which it is, or fronts of forms; all if it is empty
    of: str
    rule: str
    used: bool = False

    def is_in(self, part: Part, form: str) -> bool:
        fronts = markdown.quoted(self.of)
        return not self.of or self.of == part.name or any((form + " ").startswith(front + " ") for front in fronts)

    def text(self) -> str:
        """The rule as the program says it."""
        return re.sub(r"(?<=\d),(?=\d{3})", "", self.rule.replace("`", ""))

    def ends(self) -> list[int]:
        """The least and the greatest number, if it is one."""
        return [int(each) for each in re.findall(r"\d+", self.text())] if self.rule.startswith("a number, ") else []

    def sample(self) -> str:
        return str(self.ends()[0]) if self.ends() else next(
            (sample for front, sample in SAMPLES.items() if self.rule.startswith(front)), BAD)


def tables(root: Path) -> tuple[list[Part], list[Field]]:
    parts = [Part("setup lines", "setup line", "run", "", []), Part("step lines", "step line", "run", "begin\n", []),
             Part("watch lines", "watch line", "audit", "", []), Part("tap lines", "tap line", "audit", "begin\n", [])]
    fields = []
    for table in markdown.read(root / "docs/SCRIPT.md")[0] + markdown.read(root / "docs/AUDIT.md")[0]:
        if table.header[:3] == ["Field", "Of", "It is"]:
            fields += [Field(markdown.quoted(row.cells[0]), row.cells[1], row.cells[2]) for row in table.rows]
        for part in parts:
            if table.header[0] == "Line" and table.section.lower().startswith(part.name):
                part.forms += [(f"{table.path.name}:{row.line}", form)
                               for row in table.rows for form in markdown.quoted(row.cells[0])]
    return parts, fields


def said(program: Path, part: Part, line: str) -> tuple[str, str]:
    """The last line that is written if this line is the first of its part, and what standard error says of it."""
    done = played.call(program, [part.word], f"{part.front}{line}\n".encode())
    number = part.front.count("\n") + 1
    explained = done.stderr.decode().rstrip("\n")
    return (done.stdout.decode().splitlines() or [""])[-1], explained.removeprefix(f"line {number}: ")


def word_faults(program: Path, part: Part) -> list[str]:
    """The words of the part are those that the program names, and each has the forms that it names."""
    unknown = f'"?" is no word of a {part.singular}; they are {", ".join(part.words())}'
    wanted = [("?", unknown)]
    for word in part.words():
        forms = " or ".join(part.word_forms(word))
        wanted.append((f"{word} {BAD}", f'{forms}; "\\x01" stands after {word}, where the line has to end')
                      if forms == word else (word, f"{forms}; "))
    faults = []
    for line, start in wanted:
        _, explained = said(program, part, line)
        if not explained.startswith(start):
            faults.append(f"{part.name}: {line!r}: {explained}, wanted {start}")
    return faults


def field_faults(program: Path, part: Part, place: str, form: str, fields: list[Field]) -> list[str]:
    """Each field of a form is explained by its rule, and a number is taken at its ends and not past them."""
    word, *names = form.split(" ")
    rules = [next((field for field in fields if name in field.names and field.is_in(part, form)), None) for name in names]
    samples = [field.sample() if field else name for name, field in zip(names, rules)]
    faults = []
    for at, (name, field) in enumerate(zip(names, rules)):
        if field is None:
            if name != name.lower():
                faults.append(f"{place}: no row for {name}")
            continue
        field.used = True

        def line(text: str) -> str:
            return " ".join([word, *samples[:at], text, *samples[at + 1:]])

        forms = " or ".join(part.word_forms(word)) if at == 0 else form
        _, explained = said(program, part, line(BAD))
        if not re.match(re.escape(f"{forms}; {name} is {field.text()}") + "(,|$)", explained):
            faults.append(f"{place}: {name}: {explained}")
        for number, refused in zip([*field.ends(), *(end + step for end, step in zip(field.ends(), (-1, 1)))],
                                   (False, False, True, True)):
            last, _ = said(program, part, line(str(number)))
            if last.endswith(" form") != refused:
                faults.append(f"{place}: {name} {number}: {last}")
    return faults


def help_faults(program: Path, parts: list[Part]) -> list[str]:
    """The forms that the program writes for whoever asks are those of the tables, in their order."""
    faults = []
    for text, names in (("script", ("setup lines", "step lines")), ("capture", ("watch lines", "tap lines"))):
        written = played.call(program, ["--help", text], b"").stdout.decode().splitlines()[1:]
        wanted = [form for part in parts if part.name in names for _, form in part.forms]
        if [line for line in written if not line.startswith(" ")] != wanted:
            faults.append(f"cct_main --help {text} writes other forms")
    return faults


def forms(root: Path, program: Path):
    """The words, the forms and the fields of docs/SCRIPT.md and docs/AUDIT.md are those of the program."""
    parts, fields = tables(root)
    count, faults = 0, help_faults(program, parts)
    for part in parts:
        faults += word_faults(program, part)
        for place, form in part.forms:
            count += 1
            faults += field_faults(program, part, place, form, fields)
    faults += [f"{field.names} {field.of}: of no line" for field in fields if not field.used]
    return count, faults
