"""What is printed and not written: tables of the crates, of the edits, and of what stands once in code.

A page keeps a copy of one between `<!-- printed: NAME -->` and `<!-- end -->`. `docs/print --write` writes these blocks
anew, and `docs/check` finds those that differ.
"""

import re
from pathlib import Path

import lists
import markdown
import source

# The families of crates, in the order of their layers. A crate belongs to the family that names it, without `cct_`, or else to
# the one that has the first words of its name.
FAMILIES = {
    "Definitions": "model",
    "The wire": "check frame wire msg",
    "Devices": "device ident ring sorter acceptor bill life hopper bus",
    "Disk and journal": "disk record journal",
    "The host": "epoch order jobs plan ledger host poll",
    "Laws": "laws",
    "Text": "edge script text gen advice",
    "The bench": "world monitor audit bench main",
    "On a line": "live devices probe",
    "Shown to people": "show",
    "In other languages": "c web",
    "Examples and measures": "example measure",
    "Tests alone": "test",
}

# By its test in `tests_of` of cct_model, the reason for which a command is refused where the test fails.
REASONS = {
    "AtADevice": "nodevice", "AtATaker": "wrongkind", "AtAnAcceptor": "wrongkind", "AtABillAcceptor": "wrongkind",
    "AtAHopper": "wrongkind", "WithNoJob": "busy", "WithNoEpoch": "epochruns", "WithAnEpoch": "noepoch",
    "WithValues": "novalue PLACE", "WithNoOrder": "orderopen ORDER", "WithAnOrder": "noorder",
    "WithAPayout": "nopayout", "WithNewId": "oldid LAST", "WithCoins": "short HAVE", "WithPrice": "short HAVE",
}

# By its name in a definition of cct_record, what a field of a record is. Those that have no row are called as there.
FIELDS = {
    "addr": "address", "accepts": "accept counter", "counter": "event counter", "lost": "how many coins were lost",
    "mask_seen": "the mask that was seen", "life": "life count", "life_before": "life count before",
    "life_after": "life count after", "count": "number of coins", "paid": "coins paid", "unpaid": "coins unpaid",
    "c.last_id": "the greatest id", "c.value": "the value of all coins posted", "c.paid_value": "of all coins paid",
    "c.odd_value": "of the orders closed as `odd`", "c.posted": "coins posted", "c.lost": "coins lost",
    "c.sold": "the sum of all prices",
}

# By its definition in cct_record, what a body of a carry is.
CARRY_BODIES = {
    "first_sums": "first sums", "second_sums": "second sums", "third_sums": "third sums", "epoch_body": "an epoch that runs",
    "order_body": "an open order",
}

# How many crates stand in the table of the gate's time.
DEAREST = 12

# A sentence of more letters is a long one, and one of fewer says too little.
LONG = 140
SHORT = 16


def table(header: list[str], rows: list[list[str]]) -> list[str]:
    """The lines of a table."""
    lines = ["| " + " | ".join(header) + " |", "|" + "---|" * len(header)]
    return lines + ["|" + "|".join(f" {cell} ".replace("  ", " ") for cell in row) + "|" for row in rows]


def first_sentence(text: str) -> str:
    """The first sentence of a text, without the page that has more. A long one ends at its colon, or at its last comma that
    leaves it short enough."""
    sentence = re.split(r"\.(?: (?=[A-Z`])|$)", " ".join(text.split()))[0]
    sentence = re.sub(r" \(`docs/[^)]*\)", "", sentence)
    if len(sentence) <= LONG:
        return sentence
    front = sentence.split(": ")[0]
    return front if SHORT <= len(front) <= LONG else re.split(r"[,;] ?(?!.*[,;])", sentence[:LONG + 1])[0]


def crate_head(folder: Path) -> str:
    """The first paragraph of what a crate says of itself."""
    path = next(path for path in (folder / "src/lib.rt", folder / "src/main.rt") if path.exists())
    return re.sub(r"^//! ", "", re.match(r"(?://! .*\n)*", path.read_text())[0], flags=re.MULTILINE)


def script_head(path: Path) -> str:
    """What a script says of itself, up to the calls that it shows or to an empty line."""
    text = path.read_text().split("\n", 1)[1]
    if text.startswith('"""'):
        head = text[3:].split('"""')[0]
    else:
        head = re.sub(r"^# ?", "", re.match(r"(?:#.*\n)*", text)[0], flags=re.MULTILINE)
    return re.split(r"^(?:  |$)", head, flags=re.MULTILINE)[0]


def family_of(name: str) -> str:
    """The family of a crate: the one that names it or the longest front of its words."""
    words = name.removeprefix("cct_").split("_")
    fronts = ["_".join(words[:length]) for length in range(len(words), 0, -1)]
    for front in fronts:
        for family, named in FAMILIES.items():
            if front in named.split():
                return family
    raise ValueError(f"in no family of docs/checks/printed.py: {name}")


def families(names: list[str]) -> dict[str, list[str]]:
    """By each family its crates, of these, in their order."""
    found: dict[str, list[str]] = {family: [] for family in FAMILIES}
    for name in names:
        found[family_of(name)].append(name)
    return found


def crates(root: Path) -> list[str]:
    """Each crate by its family, with its first sentence, and how many crates a change of it proves again (docs/above)."""
    below = lists.below(root)
    lines = []
    for family, names in families(list(lists.stands_on(root))).items():
        rows = [[f"`{name}`", first_sentence(crate_head(root / f"crates/{name}")),
                 str(1 + sum(name in those for those in below.values()))] for name in names]
        lines += [f"## {family}", "", *table(["Crate", "What it has", "Proved again"], rows), ""]
    return lines[:-1]


def edits(root: Path) -> list[str]:
    """The must-fail edits by the clause that each breaks, as its first line says: those that the gate tries and those that are
    kept to be read."""
    found: dict[tuple[str, str, str], list[str]] = {}
    for name in lists.stands_on(root):
        for path in sorted(root.glob(f"crates/{name}/must-fail/*.*")):
            head = re.match(r"breaks: (.*) \| (.*)\n", path.read_text())
            function, clause = head.groups() if head else ("not said", "not said")
            kept = "" if path.suffix == ".edit" else " (kept)"
            found.setdefault((f"`{name}`", function, clause), []).append(f"`{path.stem}`{kept}")
    return table(["Crate", "Function", "Clause", "Edit"], [[*front, ", ".join(names)] for front, names in found.items()])


def scripts(root: Path) -> list[str]:
    """Each script of tools/, and the one that plays the examples, with the first sentence of its head."""
    paths = [root / "examples/check", *(path for path in sorted(root.glob("tools/*")) if path.is_file() and not path.suffix)]
    rows = [[f"`{path.relative_to(root)}`", first_sentence(script_head(path))] for path in paths]
    return table(["Script", "What it does"], rows)


def results(root: Path) -> list[str]:
    """The first table that tools/measure printed, with the sentence before it."""
    sentence, table, *_ = (root / "tools/results/measure.md").read_text().strip().split("\n\n")
    return [sentence, "", *table.split("\n")]


def gate(root: Path) -> list[str]:
    """What `tools/gate_times` wrote of the gate: the DEAREST crates, and the sums."""
    path = root / "tools/results/gate.md"
    if not path.exists():
        return ["The gate wasn't timed since the newest crates came."]
    head, line, *rows = path.read_text().split("\n\n")[0].strip().split("\n")
    crates = [row for row in rows if row.startswith("| `")]

    def seconds(row: str) -> int:
        return sum(int(cell.replace(",", "")) for cell in markdown.cells(row)[1:4] if cell)

    crates.sort(key=seconds, reverse=True)
    return [head, line, *crates[:DEAREST], *(row for row in rows if not row.startswith("| `"))]


def constants(root: Path) -> dict[str, int]:
    """The numbers that the public constants of cct_model_wire and cct_model_lines, and those of the table of forms, are."""
    found = {"u64::MAX": 2 ** 64 - 1}
    texts = [path.read_text() for name in ("cct_model_wire", "cct_model_lines", "cct_advice")
             for path in sorted((root / f"crates/{name}/src").glob("**/*.rt"))]
    for _ in range(2):
        for text in texts:
            for name, value in re.findall(r"^(?:pub(?:\(crate\))? )?const (\w+): \w+ =\s*([^;]+);", text, re.MULTILINE):
                number = number_of(value, found)
                if number is not None:
                    found[name] = number
    return found


def number_of(text: str, known: dict[str, int]) -> int | None:
    """The number that a constant says: as digits, or as the name of another one."""
    text = re.sub(r" as \w+$", "", text.strip())
    digits = text.replace("_", "")
    return int(digits) if digits.isdecimal() else known.get(text)


def rule_text(rule: str, known: dict[str, int]) -> str:
    """What a field may be, by its rule in the table of forms."""
    name, given = re.match(r"Rule::(\w+)(?:\((.*)\))?$", rule).groups()
    numbers = [number_of(each, known) for each in given.split(",")] if given else []
    if None in numbers:
        raise ValueError(f"a number of {rule} isn't known")
    most = numbers[-1] if numbers else 0
    return {
        "Number": f"a number, {numbers[0]:,} to {most:,}" if len(numbers) == 2 else "",
        "Check": "`simple` or `crc`",
        "Text": f"1 to {known['MOST_NAME']} printing characters (bytes 21 to 7e)",
        "Id": "exactly six printing characters (bytes 21 to 7e)",
        "Mask": "four hexadecimal digits other than `0000`",
        "Piece": f"`-` or two hexadecimal digits for each byte, at most {most} bytes",
        "Bytes": f"two hexadecimal digits for each byte, 1 to {most} bytes",
        "Kind": "`acceptor` or `hopper`",
    }[name]


def forms_in(root: Path) -> list[tuple[str, str, list[tuple[str, str]]]]:
    """The table of forms of cct_advice: of each form its part, its word, and its fields with their rules, where a word that
    stands as it is has none."""
    text = (root / "crates/cct_advice/src/forms.rt").read_text()
    fields = {name: (named, rule) for name, named, rule in
              re.findall(r'^const (\w+): Field = Field\("(\w+)", (Rule::\w+(?:\([^)]*\))?)\);', text, re.MULTILINE)}
    groups = {name: re.findall(r"\w+", names)
              for name, names in re.findall(r"^const (\w+): &\[Field\] = &\[([^\]]*)\];", text, re.MULTILINE)}
    body = text[text.index("FORMS: &[Form] = &["):]
    found = []
    for part, word, own, group in re.findall(r'Form\(\s*Part::(\w+),\s*"(\w+)",\s*(?:&\[([^\]]*)\]|(\w+)),?\s*\)', body):
        names = groups[group] if group else re.findall(r"\w+", own)
        found.append((part, word, [(fields[name][0], "" if fields[name][1].startswith("Rule::Only") else fields[name][1])
                                   for name in names]))
    return found


def lines_of(root: Path, parts: str) -> list[str]:
    """The forms of the lines of these parts, as they are written."""
    return [" ".join([word, *(name for name, _ in fields)]) for part, word, fields in forms_in(root) if part in parts.split()]


def fields(root: Path) -> list[str]:
    """The fields of a script's lines, each with what it may be. Of a name that means two things stands of which lines each
    is: of the setup lines, of the step lines, or of these words."""
    known = constants(root)
    forms = [form for form in forms_in(root) if form[0] in ("Setup", "Steps")]
    # by name and rule, the parts and the words of the lines that have it
    users: dict[tuple[str, str], list[tuple[str, str]]] = {}
    for part, word, named in forms:
        front = word
        for name, rule in named:
            if rule:
                users.setdefault((name, rule), []).append((part, front))
            else:
                front += " " + name
    rows = []
    for (name, rule), places in users.items():
        rivals = [places for (other, its), places in users.items() if other == name and its != rule]
        words = list(dict.fromkeys(f"`{word}`" for _, word in places))
        parts = {part for part, _ in places}
        of = "" if not rivals else ", ".join(words) if any(parts & {part for part, _ in each} for each in rivals) else (
            "setup lines" if parts == {"Setup"} else "step lines")
        same = next((row for row in rows if row[1] == of == "" and row[2] == rule_text(rule, known)), None)
        if same:
            same[0] += f", `{name}`"
        else:
            rows.append([f"`{name}`", of, rule_text(rule, known)])
    names = [row[0] for row in rows]
    rows.sort(key=lambda row: names.index(row[0]))
    return table(["Field", "Of", "It is"], rows)


def definition(text: str, name: str) -> dict[str, str]:
    """By constructor, the body of each case of a definition."""
    return {case: " ".join(body.split()) for case, body in re.findall(
        rf"^{name} (?:\w+ )?\(?(?:\w+\.)?([A-Z]\w*)[^=]*=((?:.*)(?:\n +.*)*)", text, re.MULTILINE)}


def reasons(root: Path) -> list[str]:
    """Of each command the reasons for which it is refused, in the order in which they are tested."""
    tests = definition((root / "crates/cct_model/specs/Refusal.antt").read_text(), "tests_of")
    rows_text = (root / "crates/cct_model/specs/Rows.antt").read_text()
    jobs = definition(rows_text, "rows_of") | definition(rows_text, "rows_of_sale")
    rows = []
    for command in sorted(tests, key=list(tests).index):
        told = []
        for test in re.findall(r"\b(?:At|With)[A-Z]\w+", tests[command]):
            if test != "WithRoom":
                told.append(REASONS[test])
            elif need := room_of(jobs[command]):
                told.append(f"journalfull USED HELD {need}")
        rows.append([f"`{command.lower()}`", ", ".join(f"`{each}`" for each in told)])
    return table(["Command", "Reasons, in the order in which they are tested"], rows)


def room_of(job: str) -> int:
    """How many records a job wants room for: those that it puts, but for one that closes an order which it doesn't open."""
    puts = len(re.findall(r"\bputs_due\b", job))
    return puts + ("new_order" in job and "settling" in job)


def bytes_of(body: str) -> tuple[str, str]:
    """The kind of a body, and its bytes by their places, where the definition spells it so."""
    for front, width in (("to_le_bytes w16", 2), ("three_bytes", 3), ("to_le_bytes w32", 4), ("to_le_bytes w64", 8)):
        body = re.sub(rf"{front} ([\w.]+)", rf"\1:{width}", body)
    kind, *parts = [part for part in re.findall(r"coins_fields|[\w:.]+", body) if part not in ("posted", "filled")]
    at, told = 1, []
    for part in parts:
        name, _, width = part.partition(":")
        if name == "coins_fields":
            told.append(f"{at}: number of coins, 0 to 5; from {at + 1} on: place and path of each, oldest first")
            continue
        last = at + int(width or 1) - 1
        bare = name.rpartition(".")[2]
        told.append(f"{at}{f' to {last}' if last > at else ''}: {FIELDS.get(name, FIELDS.get(bare, bare))}")
        at = last + 1
    return kind, "; ".join(told)


def bodies(root: Path, file: str, name: str) -> list[str]:
    """Of each record that this definition of cct_record has a case of, the bytes of its body."""
    text = (root / f"crates/cct_record/specs/{file}.antt").read_text()
    rows = []
    for case, body in definition(text, name).items():
        kind, told = bytes_of(body)
        rows.append([kind, f"`{case.lower()}`", told])
    return table(["Kind", "Record", "Bytes of the body"], rows)


def carry_bodies(root: Path) -> list[str]:
    """The bodies of a carry, in their order."""
    text = (root / "crates/cct_record/specs/CarryBody.antt").read_text()
    rows = []
    for name, what in CARRY_BODIES.items():
        body = re.search(rf"^{name} \w+ =((?:.*)(?:\n +.*)*)", text, re.MULTILINE)[1]
        kind, told = bytes_of(body)
        rows.append([kind, what, told])
    return table(["Kind", "Body", "Bytes of the body"], rows)


def promises(root: Path) -> list[str]:
    """The definitions on which the promises rest, each with its sentence."""
    sentences = lists.definitions(root)
    lines, last = [], ""
    for subject, named in lists.promises(root):
        lines += ["", f"{subject[0].upper()}{subject[1:]}:"]
        for place, name in named:
            lines += ["", f"  {place}"] if place != last else []
            last = place
            lines.append(f"    {name}: {sentences[place, name]}")
        last = ""
    return lines[1:]


def is_law(function: source.Function) -> bool:
    """Whether a function is a law: it takes nothing, is of no type, and has clauses."""
    head = function.path.read_text().splitlines()[function.line]
    return bool(function.is_public and function.clauses and not function.owners and re.search(r"fn \w+(?:<.*>)?\(\)", head))


def laws_by_crate(root: Path) -> dict[str, list[source.Function]]:
    """By each crate that has some, its laws."""
    found = {name: [each for each in source.functions_of(root / f"crates/{name}") if is_law(each)]
             for name in lists.stands_on(root)}
    return {name: laws for name, laws in found.items() if laws}


def told_laws(root: Path):
    """Each law has its sentence."""
    found = [each for laws in laws_by_crate(root).values() for each in laws]
    return len(found), [f"{each.path.relative_to(root)}: {each.name} has no sentence" for each in found if not each.comment]


def laws(root: Path) -> list[str]:
    """Each law by its crate, with what it says and the names of its clauses, if it has several."""
    lines = []
    for crate, found in laws_by_crate(root).items():
        lines.append(crate)
        for each in found:
            names = ", ".join(clause.name for clause in each.clauses if clause.name)
            lines.append(f"  {each.name}{f' ({names})' if names else ''}: {first_sentence(each.comment)}")
    return lines


# By its name, what is printed.
PRINTED = {
    "crates": crates,
    "edits": edits,
    "scripts": scripts,
    "results": results,
    "gate": gate,
    "setup lines": lambda root: lines_of(root, "Setup"),
    "step lines": lambda root: lines_of(root, "Steps"),
    "capture lines": lambda root: lines_of(root, "Watches Taps"),
    "live lines": lambda root: lines_of(root, "Live"),
    "fields": fields,
    "reasons": reasons,
    "bodies": lambda root: bodies(root, "Body", "fields_of"),
    "carry bodies": carry_bodies,
    "old bodies": lambda root: bodies(root, "OldBody", "old_fields_of"),
    "promises": promises,
    "laws": laws,
}

BLOCK = re.compile(r"^<!-- printed: (.*?) -->\n(.*?)^<!-- end -->$", re.MULTILINE | re.DOTALL)


def written(text: str, root: Path) -> str:
    """A page with each of its blocks printed anew. One of a name that isn't known stays."""
    def block(found: re.Match) -> str:
        if found[1] not in PRINTED:
            return found[0]
        return "\n".join([f"<!-- printed: {found[1]} -->", "", *PRINTED[found[1]](root), "", "<!-- end -->"])

    return BLOCK.sub(block, text)


def blocks(root: Path):
    """Each block of a page that is said to be printed is what docs/print prints."""
    count, faults = 0, []
    for path in markdown.pages(root):
        text = path.read_text()
        names = BLOCK.findall(text)
        count += len(names)
        faults += [f"{path.relative_to(root)}: nothing prints {name}" for name, _ in names if name not in PRINTED]
        if len(names) != len(re.findall(r"<!-- (?:printed|end)\b", text)) / 2:
            faults.append(f"{path.relative_to(root)}: a block has no end")
        try:
            printed = written(text, root)
        except ValueError as why:
            faults.append(f"{path.relative_to(root)}: {why}")
            continue
        if printed != text:
            faults.append(f"{path.relative_to(root)}: isn't as printed; docs/print --write writes it")
    return count, faults
