"""Lists and names that stand in a document and in the tree: crates, must-fail edits, examples, files."""

import re
import subprocess
from pathlib import Path

import markdown


def stands_on(root: Path) -> dict[str, list[str]]:
    """By each crate of crates.txt, the libraries that its line names."""
    lines = (root / "crates.txt").read_text().splitlines()
    return {line.split(":")[0].split()[0]: line.split(":")[1].split() for line in lines if ":" in line and not line.startswith("#")}


def below(root: Path) -> dict[str, list[str]]:
    """By each crate, all crates of the repository below it."""
    direct = stands_on(root)

    def reach(name: str) -> list[str]:
        found = []
        for each in direct[name]:
            if each in direct:
                found += [each, *reach(each)]
        return list(dict.fromkeys(found))

    return {name: reach(name) for name in direct}


def difference(left: str, lefts: set[str], right: str, rights: set[str]) -> list[str]:
    return ([f"{each}: in {left} alone" for each in sorted(lefts - rights)]
            + [f"{each}: in {right} alone" for each in sorted(rights - lefts)])


def crates(root: Path):
    """The crates of crates/README.md are those of crates.txt."""
    told = {row.cells[0].strip("`") for table in markdown.read(root / "crates/README.md")[0]
            if table.header[:2] == ["Crate", "What it has"] for row in table.rows}
    return len(told), difference("crates.txt", set(stands_on(root)), "crates/README.md", told)


def edits(root: Path):
    """The must-fail edits that docs/PROOFS.md names, each in the section of its crate, are those that are there."""
    there = {f"{path.parent.parent.name} {path.stem}" for path in root.glob("crates/*/must-fail/*.*")}
    named = set()
    for table in markdown.read(root / "docs/PROOFS.md")[0]:
        section = re.search(r"cct_\w+", table.section)
        if "Edit" in table.header and section:
            column = table.header.index("Edit")
            for row in table.rows:
                own = re.fullmatch(r"`(cct_\w+)`", row.cells[0])
                crate = own[1] if own else section[0]
                named.update(f"{crate} {edit}" for edit in markdown.quoted(row.cells[column])
                             if not edit.startswith("cct_"))
    return len(named), difference("crates/*/must-fail", there, "docs/PROOFS.md", named)


def statuses(root: Path):
    """The exit statuses of docs/OPERATING.md, each with the first word of its last line, are those that `Status` of cct_bench
    tells."""
    code = (root / "crates/cct_bench/src/outcome.rt").read_text()
    there = {f"{number} {''.join(re.findall('`([a-z]+)', told)[:1])}".strip()
             for number, told in re.findall(r"^    /// (\d+): (.*(?:\n    ///.*)*)", code, re.MULTILINE)}
    most = max(int(each.split()[0]) for each in there)
    told = set()
    for table in markdown.read(root / "docs/OPERATING.md")[0]:
        for row in table.rows if table.header[0] == "Status" else []:
            found = re.fullmatch(r"(\d+)(?:, `(\w+).*`)?", row.cells[0])
            if found and int(found[1]) <= most:
                told.add(f"{found[1]} {found[2] or ''}".strip())
    return len(told), difference("crates/cct_bench/src/outcome.rt", there, "docs/OPERATING.md", told)


def examples(root: Path):
    """Each example has its row in examples/README.md, each row its example, and each line to look at stands in its
    transcript."""
    there = {path.stem for path in root.glob("examples/*.status")}
    told, faults = [], []
    for table in markdown.read(root / "examples/README.md")[0]:
        for row in table.rows:
            name = markdown.quoted(row.cells[0])[0]
            told.append(name)
            transcript = root / f"examples/{name}.transcript"
            written = transcript.read_text() if transcript.exists() else ""
            faults += [f"examples/README.md:{row.line}: {name} doesn't write {line}"
                       for line in markdown.quoted(row.cells[table.header.index("Look at")]) if line not in written]
    faults += [f"{name}: two rows" for name in sorted(set(told)) if told.count(name) > 1]
    return len(told), difference("examples/", there, "examples/README.md", set(told)) + faults


def paths(root: Path):
    """Each file and folder that a document names is there, and has the word that is said to stand in it."""
    count, faults = 0, []
    for path in [root / "README.md", *sorted(root.glob("*/*.md"))]:
        for number, line in enumerate(path.read_text().splitlines(), 1):
            for word, name in re.findall(r"(?:`(\w+)` in )?`((?:crates|docs|tools|examples)/[^` ]*[^` .])`", line):
                # those that represent any name, and what is built
                if re.search(r"NAME|EDIT|\*|/out\b", name):
                    continue
                count += 1
                if not (root / name).exists():
                    faults.append(f"{path.name}:{number}: {name} isn't there")
                elif word and (root / name).is_file() and word not in (root / name).read_text():
                    faults.append(f"{path.name}:{number}: {word} isn't in {name}")
    return count, faults


def definitions(root: Path) -> dict[tuple[str, str], str]:
    """By its file and its name the sentence of each definition of specs/, as docs/index prints it."""
    listed = subprocess.run([root / "docs/index"], capture_output=True, text=True).stdout.splitlines()
    found, place = {}, ""
    for line in listed:
        name, colon, sentence = line.strip().partition(": ")
        if line.startswith("crates/"):
            place = line
        elif colon:
            found[place, name] = sentence
    return found


def sentences(root: Path):
    """Each definition of specs/ has its sentence (docs/index)."""
    listed = definitions(root)
    return len(listed), [f"{place}: {name}" for (place, name), sentence in listed.items()
                         if sentence.startswith("NO SENTENCE")]


def promises(root: Path) -> list[tuple[str, list[tuple[str, str]]]]:
    """The definitions on which the promises rest, in an order in which they can be read: of each subject, the file and the
    name of each."""
    found: list[tuple[str, list[tuple[str, str]]]] = []
    for line in (root / "docs/checks/promises.txt").read_text().splitlines():
        if line.startswith("# "):
            found.append((line[2:], []))
        else:
            place, names = line.split(": ")
            crate, file = place.split(" ")
            found[-1][1].extend((f"crates/{crate}/specs/{file}.antt", name) for name in names.split(" "))
    return found


def rested_on(root: Path):
    """Each definition of docs/checks/promises.txt is there."""
    known = definitions(root)
    named = [each for _, group in promises(root) for each in group]
    return len(named), [f"docs/checks/promises.txt: no {name} in {place}" for place, name in named if (place, name) not in known]


def first_page(text: str, anchor: str) -> str:
    """The part of a document below the heading with this anchor, up to the next heading; without one, its part above the
    first heading of two marks."""
    for part in re.split(r"^(?=##+ )", text, flags=re.MULTILINE):
        slug = re.sub(r"[^\w\- ]", "", part.splitlines()[0].lstrip("# ").lower()).replace(" ", "-") if part else ""
        if not anchor or slug == anchor:
            return part
    return ""


def first_pages(root: Path):
    """The first page of each reader, which README names, is there and has fewer than 1,000 words."""
    count, faults = 0, []
    for table in markdown.read(root / "README.md")[0]:
        if "First page" not in table.header:
            continue
        for row in table.rows:
            for name, anchor in re.findall(r"\]\(([^)#]+)#?([^)]*)\)", row.cells[table.header.index("First page")]):
                count += 1
                words = len(first_page((root / name).read_text(), anchor).split())
                if not 0 < words < 1000:
                    faults.append(f"README.md:{row.line}: {name}#{anchor} has {words} words")
    return count, faults


def names(root: Path):
    """Each name of code in back quotes stands in the source: a word with a low line, or with a capital and a small letter;
    it may also be that of an edit, an example, a measure or a crate."""
    known = {path.stem for pattern in ("crates/*/must-fail/*.*", "crates/*", "examples/*", "tools/*", "docs/*")
             for path in root.glob(pattern)}
    for pattern in ("src/**/*.rt", "specs/**/*.antt", "proofs/**/*.antt", "*.h"):
        for path in root.glob(f"crates/*/{pattern}"):
            known.update(re.findall(r"\w+", path.read_text()))
    count, faults = 0, []
    for path in [root / "README.md", *sorted(root.glob("*/*.md"))]:
        for number, line in enumerate(path.read_text().splitlines(), 1):
            for quoted in re.findall(r"`((?!__)\w+(?:::\w+)*)`", line):
                for name in re.findall(r"[A-Z]\w*[a-z]\w*|[a-z]+_\w+", quoted):
                    count += 1
                    if name not in known:
                        faults.append(f"{path.name}:{number}: `{quoted}` is nowhere in the source")
    return count, faults
