#!/usr/bin/env python3
"""Drives cct_live by two pipes: a coin comes in, something is sold, and four coins are paid.

    examples/live/drive.py LIVE PORT [WORD..]      with the program, its port, and further words for it
"""

import subprocess
import sys
import time
from pathlib import Path

# How a job ends.
ENDS = {"started", "unsure", "unquiet", "posted", "clean", "moved", "broke", "stopped", "closed", "oddlife", "noanswer"}

host = subprocess.Popen([sys.argv[1], Path(__file__).resolve().with_name("setup"), *sys.argv[2:]],
                        stdin=subprocess.PIPE, stdout=subprocess.PIPE, text=True)


def listen() -> str:
    """Shows the next line that is written."""
    line = host.stdout.readline()
    print(line, end="", flush=True)
    return line.rstrip("\n") if line else sys.exit("cct_live has ended")


def ask(command: str) -> list[str]:
    """What is written for a command; the last line is the balance."""
    print(command, "balance", sep="\n", file=host.stdin, flush=True)
    lines = [listen()]
    while not lines[-1].startswith("balance "):
        lines.append(listen())
    return lines


def ends_in(lines: list[str], address: int) -> list[str]:
    """How a job at this address ended, or why there is none."""
    fields = [line.split(" ") for line in lines]
    return [each[0] for each in fields if each[0] in ("sold", "no", "refused")
            or each[0] in ENDS and each[1] == str(address)]


def work(command: str, address: int) -> str:
    """Gives a command, and polls until its job ends: the word of the end. So acceptors are read while a hopper pays."""
    ends = ends_in(ask(command), address)
    while not ends:
        ends = ends_in(ask("poll"), address)
    return ends[-1]


if listen() != "protocol 1":
    sys.exit("these lines have another version")
work("settle 3", 3)
for _ in range(3):
    if work("start 2 0010", 2) != "unquiet":
        break
for _ in range(400):
    if not ask("poll")[-1].startswith("balance 0 "):
        break
# Ids rise: these are the seconds of a clock.
work(f"vend {int(time.time())} 30", 1)
time.sleep(1)
work(f"pay 3 {int(time.time())} 4", 3)
while work("stop 2", 2) not in ("stopped", "broke", "no"):
    pass
print("end", file=host.stdin, flush=True)
sys.exit(host.wait())
