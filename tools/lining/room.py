"""A journal that is nearly full, by all the records that it may ever have: commands that would put more are refused, no put."""

import subprocess
from pathlib import Path

from devices import Acceptor, Hopper
from host import MOST_SECONDS, Line, start
from tally import want

EXAMPLES = Path(__file__).resolve().parents[2] / "examples"
MOST = 4_294_967_295
# A journal that takes four records more, after as many as were put before. They had no sum.
NEARLY_FULL = f""". ./journal_by_hand
{{ start 2 {MOST - 4} $nothing; head -c 1048576 /dev/zero; }} | head -c 1048576
head -c 1048576 /dev/zero"""


def full(used: int, held: int, need: int) -> str:
    return f"journalfull {used} {held} {need}"


def refused(host, what: str, wanted: dict[str, str]) -> None:
    """These commands are refused for these reasons."""
    for command, why in wanted.items():
        want(f"{what}: {command}", host.told(command), [f"no {command} {why}"])


def nearly_full(programs: dict[str, Path], short: bool) -> None:
    """Two records more fit in once a coin is posted: those of one order, which holds the room for what closes it, over a hopper
    that falls silent, too. The next life knows the same."""
    hopper = Hopper(3)
    line = Line(programs["cct_live"], [Acceptor(2), hopper, Acceptor(4)])
    made = subprocess.run(["bash", "-c", NEARLY_FULL], cwd=EXAMPLES, capture_output=True, timeout=MOST_SECONDS)
    Path(line.folder, "journal").write_bytes(made.stdout)
    host = line.start("--answer", "2")
    want("a nearly full journal: its setup is kept", host.first(), "setupkept")
    want("a nearly full journal: it is found", host.first(), f"found {MOST - 4} 0 0")
    want("a nearly full journal: start", start(host, 2)[-1], "started 2")
    line.devices[2].take(5)
    want("a nearly full journal: a coin", host.work("round 2", 2)[-1], "posted 2")
    want("a nearly full journal: pay", host.told("pay 3 1 2"), ["ok pay 3 1 2"])
    refused(host, "an order is accepted", {"round 2": full(MOST - 2, 2, 1), "start 4 0010": full(MOST - 2, 2, 1),
                                           "stop 2": full(MOST - 2, 2, 2)})
    lines = []
    while not any(text.startswith("put opened 1 ") for text in lines):
        lines += host.ask("next 3")
    refused(host, "an order is open", {"round 2": full(MOST - 1, 1, 1)})
    host.ask("next 3")
    hopper.is_dead = True
    want("an order is open: its hopper is silent", host.ask("do 3")[-2], "noanswer 3")
    refused(host, "the hopper was silent", {"round 2": full(MOST - 1, 1, 1)})
    hopper.is_dead = False
    want("an order is open: settle", host.work("settle 3", 3)[-2:], ["put closed 1 2 0", "closed 3"])
    has_all(host)
    want("a full journal: the exit status", host.end(), 0)
    host = line.start("--answer", "2")
    want("a full journal: it is found", host.first(), f"found {MOST} 0 1")
    has_all(host)
    want("a full journal, found: the exit status", host.end(), 0)
    line.close()


def has_all(host) -> None:
    """The journal has all its records: a coin of 100 was posted, and two of 10 were paid."""
    refused(host, "a full journal", {"round 2": full(MOST, 0, 1), "pay 3 2 1": full(MOST, 0, 2), "pay 3 1 1": "oldid 1",
                                     "settle 3": "noorder"})
    want("a full journal: the balance", host.balance(), [80, 0, 20, 0])
