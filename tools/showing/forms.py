"""The forms of all lines that the programs write, and those of setups and captures, as the documents' tables have them, each
with lines of that form."""

import itertools
import re
import sys
from pathlib import Path

root = Path(__file__).resolve().parents[2]
sys.path.insert(0, str(root / "docs/checks"))

import markdown

# By a field, its column where that isn't the field in small letters (docs/SHOW.md).
RENAMED = {
    "A": "address", "ORDER": "order_id", "SALE": "sale_id", "ID": "order_id", "INDEX": "record_index", "PIECE": "bytes",
    "CHECK": "check_kind", "BEFORE": "life_before", "AFTER": "life_after", "FIRST": "first_tap", "LAST": "last_tap",
    "N": "count", "SEED": "number", "LENGTH": "number", "HEX": "sent", "NAME": "trial", "WHY": "reason", "WHAT": "reason",
    "REST": "owed", "FOUND": "records", "PUT": "count", "USED": "records"}
# The same by the field with what stands before it.
RENAMED_AFTER = {
    "change ok FIRST": "first_order", "balance AVAILABLE RESERVED PAID": "paid_amount", "short PAID": "paid_amount",
    "oldid LAST": "last_id", "short HAVE": "available", "orderopen ORDER": "open_order", "last ID": "last_id", "last ORDER": "last_id",
    "room N": "records", "upgraded N": "records", "notblank PLACE": "number", "serial N": "serial", "kind TEXT": "category",
    "coin PLACE TEXT": "coin", "JOB EPOCH": "mask", "PLACE VALUE ID": "coin", "watch A CHECK KIND": "category"}
# After these words all that is left stands in one column, and so it does after those of a text.
LEFT = {"texts A": "rest", "do A": "rest", "journalfull": "rest"}
# What represents a field, where it isn't a number of its own.
SAMPLES = {
    "PLACE": "5", "PATH": "3", "WAY": "1", "PIECE": "0100", "SENT": "020001e617", "HEARD": "020001e617010202003f00bc",
    "HEX": "020001e617", "COINS": "5/1,3/2", "MASK": "001f", "EPOCH": "00ff", "LIST": "2/simple,3/crc",
    "CHECK": "crc", "JOB": "round", "NAME": "busy", "PREMISE": "rises", "PROMISE": "coins", "TRIAL": "pay",
    "WHY": "hands", "WHAT": "serial", "ACT": "power", "TEXT": "Coin Acceptor", "MAKER": "MON", "PRODUCT": "SR5",
    "SOFTWARE": "S1", "BUILD": "B1"}
# What LIVE has outside of its tables.
IN_LIVE = ["protocol 1", "made 0 0 0", "found RECORDS ORDERS EPOCHS", "device A JOB EPOCH ORDER", "last ID", "room N", "adopted",
           "setupkept", "noterminal", "unset", "othersetup A WHAT", "setupbad NUMBER", "inuse journal", "inuse port"]
def first_cells(page: str, *headers: str) -> list[str]:
    """What stands in back quotes in the first column of the page's tables with such a first heading."""
    tables, _ = markdown.read(root / page)
    return [text for table in tables if table.header[0] in headers for row in table.rows
            for text in markdown.quoted(row.cells[0])]


def after(front: str, texts: list[str]) -> list[str]:
    return [text.removeprefix(front) for text in texts if text.startswith(front)]


def commands() -> list[str]:
    """The commands that a host takes, as SCRIPT has their lines."""
    words = {"start", "round", "stop", "pay", "settle", "halt", "vend", "ident", "path", "route", "scan"}
    found = [text for text in first_cells("docs/SCRIPT.md", "Line") if text.split(" ")[0] in words]
    assert {text.split(" ")[0] for text in found} == words, found
    return found


def reasons() -> list[str]:
    found = [markdown.quoted(row.cells[0])[0] for table in markdown.read(root / "docs/SCRIPT.md")[0]
             if table.header == ["Reason", "Where"] for row in table.rows]
    assert len(found) > 10, found
    return [*found, "othercoin", "otherserial"]


def kinds() -> list[str]:
    return [markdown.quoted(row.cells[0])[0] for table in markdown.read(root / "docs/SCRIPT.md")[0]
            if table.header == ["Kind", "Exactly where", "Number"] for row in table.rows]


def all_forms() -> list[str]:
    """Each form once, with records, commands, reasons and kinds written out."""
    found = first_cells("docs/TRANSCRIPT.md", "Line")
    records = after("put ", found)
    live = (root / "docs/LIVE.md").read_text()
    missing = [form for form in IN_LIVE if f"`{form}" not in live]
    assert not missing, missing
    found += first_cells("docs/LIVE.md", "Line") + IN_LIVE + first_cells("docs/PROBE.md", "Line")
    found += first_cells("docs/AUDIT.md", "Line", "Watch line")
    found += [text for text in first_cells("docs/SCRIPT.md", "Line", "Setup line")
              if text.split(" ")[0] in ("acceptor", "hopper", "bills", "value", "texts")]
    whole = []
    for form in dict.fromkeys(found):
        if "COMMAND REASON" in form:
            whole += [form.replace("COMMAND REASON", f"{command} {reason}")
                      for command, reason in itertools.product(commands(), reasons())]
        elif "COMMAND" in form:
            whole += [form.replace("COMMAND", command) for command in commands()]
        elif form == "refused NUMBER KIND":
            whole += [f"refused NUMBER {kind}" for kind in kinds()]
        elif form.endswith("RECORD"):
            whole += [form.replace("RECORD", record) for record in records]
        else:
            whole.append(form)
    return list(dict.fromkeys(whole))


def value_of(words: list[str], at: int) -> str:
    """What stands in a line for the field at this place of a form."""
    word = words[at]
    if word == "A":
        return "2"
    if word == "KIND":
        return "hopper"
    if word == "ID" and words[0] == "value" or word == "TEXT" and words[-3:-1] == ["coin", "PLACE"]:
        return "EU100A"
    return SAMPLES.get(word, str(41 + at))


def line_of(form: str) -> tuple[str, dict[str, str]]:
    """A line of a form, and what stands in its columns."""
    words = form.split(" ")
    line = [value_of(words, at) if re.fullmatch("[A-Z]+", word) else word for at, word in enumerate(words)]
    columns: dict[str, str] = {}
    for at, word in enumerate(words):
        front = " ".join(words[:at + 1])
        left = next((column for end, column in LEFT.items() if f" {front}".endswith(f" {end}")), None)
        if re.fullmatch("[A-Z]+", word):
            renamed = (column for end, column in RENAMED_AFTER.items() if f" {front}".endswith(f" {end}"))
            columns[next(renamed, RENAMED.get(word, word.lower()))] = line[at]
        if left:
            columns[left] = " ".join(line[at + 1:])
            break
    return " ".join(line), columns
