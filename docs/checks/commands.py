"""The command lines that the pages show are run.

An indented block of a page is a list of commands, and so is a fence that says `sh`. Other fences have none. It is
played from the first line to the last in a copy of what a clone has: the examples, and the built programs where `rt
run` leaves them and by their bare names. `rt try` is played with the built program of its crate. Each command has to
end well. In a block with lines that begin with `$ ` the others are what the command above them writes. A line that
can't be played stands in WITHOUT, with the reason.

So is a command in back quotes that calls a program and has a pipe or a redirection: it is played after the blocks of its
page, and after what PREPARED lays there.
"""

import os
import re
import shutil
import signal
import subprocess
import tempfile
from concurrent.futures import ThreadPoolExecutor
from dataclasses import dataclass
from pathlib import Path

import markdown

# By the page, where in the clone its blocks are played. Else it is at the root.
PLACES = {"docs/AUDIT.md": "examples/other_host", "docs/LIVE.md": "machine"}

# By the page, what is laid into that folder: a file, and the one of which it is a copy.
LAID = {"docs/SHOW.md": {"host.log": "examples/other_host/missed.log"}}

# The pages on which the next fence begins what a block writes.
SHOWING = ("docs/AUDIT.md",)

# What isn't played: the page, the lines, and why not.
WITHOUT = [
    ("docs/LIVE.md", r"stty -F /dev/ttyUSB0 .*", "there is no such port; tools/check_live sets its own so"),
    ("docs/LIVE.md", r"cct_(?:live|devices) (?:setup|adopt)?[A-Z ]* (?:SETUP|PORT|EVENTS|\[).*|\[--quiet\].*",
     "these are forms of words; the programs name the same ones"),
    ("docs/SHOW.md", r"cct_show json .*\| jq .*", "jq may be missing; tools/check_show plays it where it is there"),
    ("docs/PROBE.md", r"stty -F /dev/ttyUSB0 .*|cct_probe machine /dev/ttyUSB0 .*",
     "there is no such port; tools/check_probe plays it over another one"),
    ("docs/CALLERS.md", r"stty -F /dev/ttyS0 .*|cct_devices setup events /dev/ttyS0",
     "there is no such port; tools/check_devices plays it over another one"),
    ("docs/PROBE.md", r"cct_live setup /dev/ttyUSB0 > machine", "there is no such port; tools/check_live plays it over another one"),
    ("docs/OPERATING.md", r"cct_main upgrade < SETUP", "it wants a journal of an older program; examples/older_journal.play plays it"),
    ("docs/EMBED.md", r"\(cd crates/cct_c && rt lib\)|gcc -I.*|\./one_coin|\./read_coins .*",
     "the library isn't one of the programs; tools/check_c builds and plays it"),
    ("docs/WEB.md", r"web/build|tools/check_web", "they take the kit and Chromium"),
    *((f"docs/{page}.md", r"cct_live \.\. \| ts(?: '[^']*')?", "it is a form of words, and `ts` need not be there")
      for page in ("SHOW", "LIVE", "OPERATING")),
]

# By a command in back quotes, what makes its files.
PREPARED = {
    "{ cat FILE; echo; } | cct_main run": r"printf 'begin\nend' > FILE",
    r"tr -d '\r' <FILE | cct_main run": r"printf 'begin\r\nend\r\n' > FILE",
    "grep . FILE | cct_main run": r"printf 'begin\n\nend\n' > FILE",
    "grep -v '^#' FILE | cct_main run": r"printf '# a machine\nbegin\nend\n' > FILE",
    "cct_main check < SCRIPT": "cp examples/one_coin.script SCRIPT",
    "cct_main state < SETUP": "cct_main run < examples/one_coin.script > /dev/null; { sed '/^begin$/q' examples/one_coin.script; echo end; } > SETUP",
}

# How a line begins that is a command.
COMMAND = re.compile(r"\(?(?:cd|rt|stty|printf|mkdir|\$|\.?\.?/?(?:crates|tools|docs|examples)/\S+|cct_\w+ [a-z].*<) ")

# What takes the place of the kit's command.
KIT = """#!/bin/sh
program=$(command -v "$(basename "$PWD")") || exit 127
[ "$1 $2" = "try --" ] || exit 127
shift 2
cd "$(mktemp -d)" && exec "$program" "$@"
"""


@dataclass
class Block:
    page: str
    line: int
    lines: list[str]
    # the fence that comes next on the page
    shown: list[str]

    def place(self) -> str:
        return f"{self.page}:{self.line}"


def blocks_of(path: Path, page: str) -> list[Block]:
    """The blocks of commands of a page."""
    found: list[Block] = []
    fence = None
    before = ""
    for number, line in enumerate(path.read_text().splitlines(), 1):
        if line.startswith("```"):
            if fence is None:
                fence = Block(page, number, [], [])
                if line[3:].strip() == "sh":
                    found.append(fence)
            else:
                if found and fence is not found[-1] and not found[-1].shown:
                    found[-1].shown = fence.lines
                fence = None
        elif fence is not None:
            fence.lines.append(line)
        elif line.startswith("    ") and not re.match(r" *[-*\d]", line):
            if before.startswith("    ") and found:
                found[-1].lines.append(line[4:])
            else:
                found.append(Block(page, number, [line[4:]], []))
        before = line
    return found


def inline_of(path: Path, page: str) -> list[Block]:
    """The commands in back quotes of a page that have a pipe or a redirection, each as a block."""
    found = []
    for number, line in enumerate(path.read_text().splitlines(), 1):
        for text in re.findall(r"`([^`]+)`", line.replace("\\|", "|")):
            if re.search(r"\bcct_\w+ \S", text) and re.search(r"[|<>] ?\S", text) and not line.startswith("    "):
                found.append(Block(page, number, [text], []))
    return found


def reason(page: str, line: str) -> tuple | None:
    """The entry of WITHOUT by which a line isn't played."""
    return next((entry for entry in WITHOUT if entry[0] == page and re.fullmatch(entry[1], line.strip())), None)


class Clone:
    """A copy of what a clone has, with the built programs."""

    def __init__(self, root: Path, folder: Path, programs: dict[str, Path]):
        self.folder = folder / "clone"
        shutil.copytree(root / "examples", self.folder / "examples")
        for name in ("tools", "docs"):
            (self.folder / name).symlink_to(root / name)
        tools = folder / "tools"
        tools.mkdir()
        for name, program in programs.items():
            (tools / name).symlink_to(program)
            built = self.folder / f"crates/{name}/out"
            built.mkdir(parents=True)
            (built / name).symlink_to(program)
        (tools / "rt").write_text(KIT)
        (tools / "rt").chmod(0o755)
        (folder / "tmp").mkdir()
        self.environment = {**os.environ, "PATH": f"{tools}:{os.environ['PATH']}", "TMPDIR": str(folder / "tmp")}

    def play(self, page: str, script: str) -> tuple[int, str, str]:
        """Plays some lines of a page, and ends what they leave running. Gives the status and what was written."""
        place = self.folder / PLACES.get(page, ".")
        place.mkdir(exist_ok=True)
        for name, source in LAID.get(page, {}).items():
            shutil.copy(self.folder / source, place / name)
        with tempfile.TemporaryFile() as out, tempfile.TemporaryFile() as errors:
            shell = subprocess.Popen(["bash", "-e", "-o", "pipefail", "-c", script], cwd=place, env=self.environment,
                                     stdin=subprocess.DEVNULL, stdout=out, stderr=errors, start_new_session=True)
            try:
                status = shell.wait(120)
            except subprocess.TimeoutExpired:
                status = -1
            try:
                os.killpg(shell.pid, signal.SIGKILL)
            except ProcessLookupError:
                pass
            shell.wait()
            out.seek(0)
            errors.seek(0)
            return status, out.read().decode(errors="replace"), errors.read().decode(errors="replace")


def dialogue_faults(clone: Clone, block: Block) -> list[str]:
    """Of a block with what is written: each command writes the lines below it, on standard output or as errors."""
    faults = []
    for part in re.split(r"^\$ ", "\n".join(block.lines), flags=re.MULTILINE)[1:]:
        command, *wanted = part.rstrip("\n").split("\n")
        _, out, errors = clone.play(block.page, command)
        if (out + errors).splitlines() != wanted:
            faults.append(f"{block.place()}: {command} writes {(out + errors).splitlines()}")
    return faults


def block_faults(clone: Clone, block: Block, programs: dict[str, Path]) -> list[str]:
    if any(line.startswith("$ ") for line in block.lines):
        return dialogue_faults(clone, block)
    lines = [line for line in block.lines if not reason(block.page, line)]
    missing = sorted(set(re.findall(r"\bcct_\w+", "\n".join(lines))) - set(programs))
    if missing:
        return [f"{block.place()}: no program {', '.join(missing)} was given"]
    if not lines:
        return []
    front = ["rm -f cctalk.jnl", PREPARED[lines[0]]] if lines[0] in PREPARED else []
    status, out, errors = clone.play(block.page, "\n".join(front + lines))
    if status != 0:
        return [f"{block.place()}: status {status}: {errors.strip()[-300:]}"]
    if block.page in SHOWING and block.shown and out.splitlines()[:len(block.shown)] != block.shown:
        return [f"{block.place()}: what it writes doesn't begin as the next block says"]
    return []


def page_faults(root: Path, blocks: list[Block], programs: dict[str, Path]) -> list[str]:
    """Those of a page, which has a clone of its own. It is played once more if there are some, in case the machine stood still
    while a program waited for a line."""
    faults = []
    for _ in range(2):
        with tempfile.TemporaryDirectory() as folder:
            clone = Clone(root, Path(folder), programs)
            faults = [fault for block in blocks for fault in block_faults(clone, block, programs)]
        if not faults:
            break
    return faults


def commands(root: Path, programs: dict[str, Path]):
    """Each command line that a page shows is played, or has the reason why it isn't."""
    pages = [blocks_of(path, page) + inline_of(path, page)
             for path, page in ((path, str(path.relative_to(root))) for path in markdown.pages(root))]
    pages = [blocks for blocks in pages if blocks]
    lines = [(block.page, line) for blocks in pages for block in blocks for line in block.lines]
    used = {reason(page, line) for page, line in lines}
    faults = [f"{page}: no line is {pattern}" for page, pattern, why in WITHOUT if (page, pattern, why) not in used]
    faults += [f"{block.path.relative_to(root)}:{block.line}: a fence of commands says `sh`" for path in markdown.pages(root)
               for block in markdown.read(path)[1] if not block.words and COMMAND.match(" ".join(block.lines[:1]))]
    with ThreadPoolExecutor() as pool:
        for found in pool.map(lambda blocks: page_faults(root, blocks, programs), pages):
            faults += found
    return len(lines), faults
