"""What the source of a crate says of its functions and records: their names, their clauses or fields, and the comments
above each."""

import re
from dataclasses import dataclass, field
from pathlib import Path


@dataclass
class Clause:
    """A `requires` or an `ensures`, a ghost of a type or a trait, or a field of a record."""
    kind: str
    name: str
    text: str
    comment: str
    # the line of the file at which it begins, from 0 on
    line: int


@dataclass
class Function:
    path: Path
    line: int
    name: str
    # the type and the trait of its block, or the trait alone
    owners: list[str]
    is_public: bool
    comment: str
    clauses: list[Clause] = field(default_factory=list)

    def names(self, kind: str) -> list[str]:
        return [clause.name for clause in self.clauses if clause.kind == kind]

    def full_name(self) -> str:
        return "::".join([*self.owners[-1:], self.name])


@dataclass
class Block:
    """A type or a trait with its ghosts, or a record of specs/ with its fields."""
    path: Path
    line: int
    name: str
    comment: str
    clauses: list[Clause] = field(default_factory=list)


def owners_of(line: str) -> list[str]:
    """The names of a line that opens a block of a type or a trait: the trait before the type that has it."""
    bare = line
    while re.search(r"<[^<>]*>", bare):
        bare = re.sub(r"<[^<>]*>", "", bare)
    names = re.match(r"(?:pub )?(?:trait (\w+)|impl (?:(\w+) for )?(\w+))", bare)
    return [name for name in names.groups() if name] if names else []


def braced(lines: list[str], at: int, column: int) -> tuple[str, int]:
    """What stands between the brace at this place and the one that closes it, and the line of the latter."""
    depth, text = 0, []
    for number in range(at, len(lines)):
        line = lines[number][column if number == at else 0:]
        for place, letter in enumerate(line):
            depth += (letter == "{") - (letter == "}")
            if depth == 0 and letter == "}":
                text.append(line[:place])
                return " ".join(" ".join(text).split())[1:].strip(), number
        text.append(line)
    return "", at


def comment_above(lines: list[str], at: int, mark: str) -> str:
    """The comment right above a line, without its marks; attributes between the two are passed over."""
    while at > 0 and lines[at - 1].lstrip().startswith("#["):
        at -= 1
    first = at
    while first > 0 and re.match(rf"\s*{mark}(?: |$)", lines[first - 1]):
        first -= 1
    return " ".join(re.sub(rf"^\s*{mark} ?", "", line).strip() for line in lines[first:at]).strip()


def ends_head(line: str, margin: str) -> bool:
    """Whether a line without a clause ends the head of a function with this margin: by the body's brace or a semicolon."""
    return bool(line.startswith(margin + "{") or re.match(margin + r"\).*[;{]$", line)
                or re.search(r"\bfn\b.*[;}{]$", line))


def clauses_from(lines: list[str], at: int, margin: str) -> list[Clause]:
    """The clauses of the function whose head begins at this line."""
    clauses = []
    while at < len(lines):
        found = re.match(r"\s*(ensures|requires)\*?(?: (\w+))? (\{)", lines[at])
        if found is None:
            if ends_head(lines[at], margin):
                return clauses
            at += 1
            continue
        text, last = braced(lines, at, found.start(3))
        clauses.append(Clause(found[1], found[2] or "", text, comment_above(lines, at, "//"), at))
        if lines[last].endswith("};"):
            return clauses
        at = last + 1
    return clauses


def functions_in(path: Path) -> list[Function]:
    """The functions of a file of src/."""
    lines = path.read_text().splitlines()
    owners, is_open, functions = [], False, []
    for number, line in enumerate(lines):
        if re.match(r"(?:pub )?(?:impl|trait)\b", line):
            owners = owners_of(line)
            # of a trait, and of its impl for a type, each function is as public as the trait
            is_open = line.startswith("pub trait") or len(owners) == 2
        elif line.startswith("}"):
            owners, is_open = [], False
        named = re.match(r'(\s*)(pub(?:\(\w+\))? )?(?:const |unsafe |extern "C" )*fn (\w+)', line)
        if named:
            functions.append(Function(path, number, named[3], owners, named[2] == "pub " or is_open,
                                      comment_above(lines, number, "///"), clauses_from(lines, number, named[1])))
    return functions


def ghosts_in(path: Path) -> list[Block]:
    """The types and traits of a file of src/ that have ghosts; one that has two blocks is there twice."""
    lines = path.read_text().splitlines()
    blocks, owners = [], []
    for number, line in enumerate(lines):
        named = re.match(r"(?:pub(?:\(\w+\))? )?(?:struct|enum) (\w+)", line)
        if named:
            owners = [named[1]]
        elif re.match(r"(?:pub )?(?:impl|trait)\b", line):
            owners = owners_of(line)
        if owners and line and not line.startswith((" ", "}")):
            blocks += [Block(path, number, owner, comment_above(lines, number, "///")) for owner in owners]
        ghost = re.match(r"\s*ghost (?!use\b)(\w+)", line)
        if ghost:
            clause = Clause("ghost", ghost[1], line.strip(), comment_above(lines, number, "//[/]?"), number)
            for block in blocks[-len(owners):] if owners else []:
                block.clauses.append(clause)
        if line.startswith("}"):
            owners = []
    return [block for block in blocks if block.clauses]


def records_in(path: Path) -> list[Block]:
    """The records of a file of specs/."""
    lines = path.read_text().splitlines()
    records, margin = [], ""
    for number, line in enumerate(lines):
        named = re.match(r"(\s*)(?:pub )?record (\w+)", line)
        if named:
            margin = named[1]
            records.append(Block(path, number, named[2], comment_above(lines, number, "--")))
        elif line.strip() and not line.startswith(margin + "  "):
            margin = "\0"
        part = re.match(r"\s+pub (\w+) : (.*)", line)
        if part and records and line.startswith(margin + "  "):
            text = [part[2]]
            for more in lines[number + 1:]:
                if not more.startswith(margin + "   "):
                    break
                text.append(more.strip())
            records[-1].clauses.append(
                Clause("field", part[1], " ".join(text), comment_above(lines, number, "--"), number))
    return records


def functions_of(folder: Path) -> list[Function]:
    """The functions of a crate, without its tests."""
    return [function for path in sorted(folder.glob("src/**/*.rt")) if not path.name.endswith("tests.rt")
            for function in functions_in(path)]


def records_of(folder: Path) -> list[Block]:
    """The records of a crate's definitions."""
    return [record for path in sorted(folder.glob("specs/**/*.antt")) for record in records_in(path)]
