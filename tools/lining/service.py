"""The unit of systemd in examples/live: systemd takes it, and its command lines do what they say."""

import os
import re
import select
import shutil
import subprocess
import time
from pathlib import Path

from devices import Acceptor
from host import MOST_SECONDS, Line
from tally import want

UNIT = Path(__file__).resolve().parents[2] / "examples/live/litchihull.service"
# What `ts` does, where it isn't installed.
TS = """#!/bin/bash
while read -r line; do printf '%(%F %T)T %s\\n' -1 "$line"; done
"""


def unit(programs: dict[str, Path], short: bool) -> None:
    """systemd finds nothing wrong with the unit."""
    want("the unit is there", UNIT.exists(), True)
    if shutil.which("systemd-analyze") is None:
        print("the unit: no systemd-analyze is here")
        return
    done = subprocess.run(["systemd-analyze", "verify", UNIT], capture_output=True, text=True)
    said = [text for text in done.stderr.splitlines() if UNIT.name in text]
    want("the unit: systemd-analyze verify", (done.returncode, said), (0, []))


def commands_of(line: Line, key: str) -> list[str]:
    """The command lines of the unit under a key, as systemd hands them to the system, with this line's files."""
    told = re.findall(rf"^{key}=(.*)$", UNIT.read_text(), re.MULTILINE)
    for one, other in (("$$", "$"), ("%%", "%"), ("/dev/ttyUSB0", "port"), ("/usr/local/bin/cct_live", str(line.program)),
                       ("/etc/litchihull/machine", "./setup")):
        told = [text.replace(one, other) for text in told]
    return told


def read_until(pipe: int, text: str, seconds: float = 20) -> list[str]:
    """The lines of a pipe up to one that begins so, and what comes with it."""
    heard, last = "", time.monotonic() + seconds
    while not re.search(rf"^{text}.*\n", heard, re.MULTILINE) and (rest := last - time.monotonic()) > 0:
        if select.select([pipe], [], [], rest)[0]:
            heard += os.read(pipe, 4096).decode()
    return heard.splitlines()


def command(programs: dict[str, Path], short: bool) -> None:
    """The host is started as the unit does it; a driver comes, goes and comes again; and it is stopped."""
    line = Line(programs["cct_live"], [Acceptor(2)], echoes=True)
    line.unplug()
    line.plug(0)
    surroundings = dict(os.environ)
    if shutil.which("ts") is None:
        stand_in = Path(line.folder, "bin/ts")
        stand_in.parent.mkdir()
        stand_in.write_text(TS)
        stand_in.chmod(0o755)
        surroundings["PATH"] = f"{stand_in.parent}:{os.environ['PATH']}"
    for text in commands_of(line, "ExecStartPre"):
        want(f"the unit: {text.split(' ')[0]}", subprocess.run(text, shell=True, cwd=line.folder).returncode, 0)
    run = subprocess.Popen(commands_of(line, "ExecStart")[0], shell=True, cwd=line.folder, env=surroundings)
    drive(line)
    surroundings["MAINPID"] = str(run.pid)
    ended = subprocess.Popen(commands_of(line, "ExecStop")[0], shell=True, cwd=line.folder, env=surroundings)
    want("the unit: the exit status", run.wait(MOST_SECONDS), 0)
    want("the unit: it is stopped", ended.wait(MOST_SECONDS), 0)
    want("the unit: the acceptor is stopped", line.devices[2].master, 0)
    time.sleep(0.2)
    log = Path(line.folder, "log").read_text().splitlines()
    times = [text for text in log if not re.match(r"\d{4}-\d\d-\d\d \d\d:\d\d:\d\d \w", text)]
    want("the unit: each line of the log has its time", times, [])
    want("the unit: the log has all lines", [text.split(" ", 2)[2] for text in log][:2], ["protocol 1", "made 0 0 0"])
    want("the unit: the log has the end", any(text.endswith("stopped 2") for text in log), True)
    line.close()


def drive(line: Line) -> None:
    """Two drivers, one after the other, by the pair of pipes."""
    for number, text in enumerate(("start 2 0010", "round 2")):
        lines = os.open(Path(line.folder, "lines"), os.O_RDONLY | os.O_NONBLOCK)
        with open(Path(line.folder, "commands"), "w") as commands:
            if number:
                line.devices[2].take(5)
            print(text, "do 2", "balance", sep="\n", file=commands, flush=True)
            told = read_until(lines, "balance")
            want(f"a driver by pipes: {text}", told[-2:], [("started 2", "posted 2")[number], f"balance {100 * number} 0 0 0"])
        os.close(lines)
