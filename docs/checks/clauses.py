"""The clauses that docs/PROOFS.md names stand in the crates.

A row of a table with the columns `Function` (or `Law`) and `Clause` names hosts, and what stands at each of them. A host is
a function, a type with its ghosts, or a record of `specs/`, also of a crate below; `the lemma` names one of proofs/. A
clause is a clause or a condition of the function, a ghost of the type, or a field of the record; a name with a capital is a
definition or a type, also of a crate below. `all` asks that each host has a clause, `the one` that it has exactly one
`ensures`. The crate is that of the row's first column, if that is one, or else that of the section.
"""

import re
from dataclasses import dataclass, field
from pathlib import Path

import markdown
import source


@dataclass
class Crate:
    functions: list[source.Function] = field(default_factory=list)
    # by the type or trait, the names of its ghosts
    ghosts: dict[str, set[str]] = field(default_factory=dict)
    types: set[str] = field(default_factory=set)
    # by the definition, the fields of a record
    definitions: dict[str, set[str]] = field(default_factory=dict)
    lemmas: set[str] = field(default_factory=set)


def read_crate(folder: Path) -> Crate:
    crate = Crate(source.functions_of(folder))
    for path in folder.glob("src/**/*.rt"):
        crate.types.update(re.findall(r"^\s*pub (?:struct|enum|trait|type|const) (\w+)", path.read_text(), re.MULTILINE))
        for block in source.ghosts_in(path):
            crate.ghosts.setdefault(block.name, set()).update(ghost.name for ghost in block.clauses)
    for path in folder.glob("specs/**/*.antt"):
        for name in re.findall(r"^\s*(?:(?:pub|abbrev|unfoldable|record|data|mod) )+(\w+)", path.read_text(), re.MULTILINE):
            crate.definitions.setdefault(name, set())
        for record in source.records_in(path):
            crate.definitions.setdefault(record.name, set()).update(part.name for part in record.clauses)
    for path in folder.glob("proofs/**/*.antt"):
        crate.lemmas.update(re.findall(r"^pub (\w+) :", path.read_text(), re.MULTILINE))
    return crate


def functions_of(crate: Crate, name: str) -> list[source.Function]:
    """Those that a name means: `function`, `Type::function`, or all of a type."""
    owner, _, base = name.rpartition("::")
    named = [each for each in crate.functions if each.name == base and (not owner or owner in each.owners)]
    return named or [each for each in crate.functions if name in each.owners]


def names_of(crate: Crate, host: str) -> set[str]:
    """What stands in a host: the clauses of a function and the ghosts beside it, the functions too of a type, or the fields
    of a record."""
    names = set(crate.definitions.get(host, set())) | crate.ghosts.get(host, set())
    for function in functions_of(crate, host):
        names.update(clause.name for clause in function.clauses)
        names.update(*(crate.ghosts.get(owner, set()) for owner in function.owners))
        if host in function.owners:
            names.add(function.name)
    return names


def is_there(crate: Crate, host: str) -> bool:
    return bool(functions_of(crate, host)) or host in crate.definitions or host in crate.ghosts


def host_faults(crate: Crate, host: str, clause: str) -> list[str]:
    """A host that isn't there, or hasn't what the row says of all its clauses."""
    functions = functions_of(crate, host)
    if not is_there(crate, host):
        return [f"`{host}`"]
    if clause == "the one" and not all(len(each.names("ensures")) == 1 for each in functions):
        return [f"the one clause of `{host}`"]
    if clause == "all" and not any(each.clauses for each in functions):
        return [f"a clause of `{host}`"]
    return []


def row_faults(cell: str, clause: str, crate: Crate, below: list[Crate]) -> list[str]:
    """The names of a row that don't stand where it says. A record may be one of a crate below."""
    hosts = markdown.quoted(cell)
    if cell.startswith("the lemma "):
        return [f"`{name}`" for name in hosts if name not in crate.lemmas]
    faults = [] if hosts else ["no function"]
    if clause not in ("all", "the one") and not markdown.quoted(clause):
        faults.append("no clause")
    homes = {host: next((each for each in [crate, *below] if is_there(each, host)), crate) if host[0].isupper() else crate
             for host in hosts}
    for host, home in homes.items():
        faults += host_faults(home, host, clause)
    for name in markdown.quoted(clause):
        if name[0].isupper():
            known = any(name in each.definitions or name in each.types for each in [crate, *below])
        else:
            known = all(name in names_of(home, host) for host, home in homes.items())
        if not known:
            faults.append(f"`{name}`")
    return faults


def clauses(root: Path, below: dict[str, list[str]]):
    """The names of the column `Clause` of docs/PROOFS.md stand in the crate of their row."""
    crates = {name: read_crate(root / "crates" / name) for name in below}
    count, faults = 0, []
    for table in markdown.read(root / "docs/PROOFS.md")[0]:
        if "Clause" not in table.header:
            faults.append(f"docs/PROOFS.md: a table without clauses in {table.section}")
            continue
        at = table.header.index("Clause")
        section = re.search(r"cct_\w+", table.section)
        for row in table.rows:
            own = re.fullmatch(r"`(cct_\w+)`", row.cells[0])
            name = own[1] if own else section and section[0]
            cell, clause = row.cells[at - 1:at + 1]
            count += len(markdown.quoted(cell)) + len(markdown.quoted(clause))
            wrong = row_faults(cell, clause, crates[name], [crates[each] for each in below[name]])
            faults += [f"docs/PROOFS.md:{row.line}: {each} isn't in {name}: {cell}: {clause}" for each in wrong]
    return count, faults
