"""The journal's file: its bytes are there when it is made, so a full disk is met before the first coin."""

import os
import shutil
import subprocess
from pathlib import Path

from devices import Acceptor
from host import MOST_SECONDS, Line
from tally import want

JOURNAL_BYTES = 2_097_152


def full(programs: dict[str, Path], short: bool) -> None:
    """A new journal takes its room on the disk. Where the disk has none, the host ends before it tells that one is made."""
    line = Line(programs["cct_live"], [Acceptor(2)])
    host = line.start()
    want("a new journal", host.first(), "made 0 0 0")
    want("a new journal: the exit status", host.end(), 0)
    told = os.stat(Path(line.folder, "journal"))
    want("a new journal takes its room", (told.st_size, told.st_blocks * 512 >= JOURNAL_BYTES), (JOURNAL_BYTES, True))
    on_a_full_disk(line)
    line.close()


def on_a_full_disk(line: Line) -> None:
    """The same on a disk of a megabyte, where this system lets a script have one of its own."""
    small = Path(line.folder, "small")
    small.mkdir()
    mount = ["unshare", "--map-root-user", "--mount", "sh", "-c",
             f'mount -t tmpfs -o size=1M tmpfs "{small}" && "$@"', "sh"]
    if shutil.which("unshare") is None or subprocess.run([*mount, "true"], capture_output=True).returncode != 0:
        print("a full disk: this system gives no disk to try it on")
        small.rmdir()
        return
    words = [line.program, "./setup", "./port", "--journal", "small/journal", "--echo", "no"]
    done = subprocess.run([*mount, *map(str, words)], cwd=line.folder, stdin=subprocess.DEVNULL, capture_output=True, text=True,
                          timeout=MOST_SECONDS)
    want("a full disk: the lines", done.stdout.splitlines(), ["protocol 1", "diskfault"])
    want("a full disk: the exit status", done.returncode, 5)
    want("a full disk: standard error says what may be full", "full" in done.stderr, True)
    small.rmdir()
