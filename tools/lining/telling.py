"""What is told to whoever drives the host: held bills, orders, the last id, refused lines, the version, and no exchanges where
they aren't wanted."""

import subprocess
import time
from pathlib import Path

from devices import Acceptor, Bills, Hopper
from host import MOST_SECONDS, Line, start
from tally import want

EXAMPLES = Path(__file__).resolve().parents[2] / "examples"


def bills(programs: dict[str, Path], short: bool) -> None:
    """A held bill is told once, and in each status as long as it is held. It is routed once."""
    acceptor = Bills(6)
    line = Line(programs["cct_live"], [acceptor, Acceptor(2)])
    host = line.start()
    host.first()
    want("a bill: start", start(host, 6, "0003")[-1], "started 6")
    for _ in range(3):
        host.ask("poll")
    want("no bill: nothing is told as held", host.count("held "), 0)
    acceptor.take(2)
    for _ in range(5):
        host.ask("poll")
    want("a held bill is told once", [text for text in host.out.lines if text.startswith("held")], ["held 6 2"])
    status = host.told("status")
    at = next((at for at, text in enumerate(status) if text.startswith("device 6 ")), 0)
    want("a held bill is in the status, after its device", status[at + 1:at + 2], ["held 6 2"])
    want("a bill is routed", host.work("route 6 1", 6)[-1], "routed 6")
    want("a bill is posted", [text.split(" ")[-1] for text in host.work("round 6", 6) if text.startswith("put")], ["2/0"])
    want("a bill that is stacked isn't held", [text for text in host.told("status") if text.startswith("held")], [])
    acceptor.take(1)
    for _ in range(5):
        host.ask("poll")
    want("the next held bill", [text for text in host.out.lines if text.startswith("held")][-1:], ["held 6 1"])
    want("the next held bill is given back", host.work("route 6 0", 6)[-1], "routed 6")
    for _ in range(5):
        host.ask("poll")
    want("both are routed once", (acceptor.times(154), host.balance()), (2, [1000, 0, 0, 0]))
    want("a bill: the exit status", host.end(), 0)
    line.close()


def held_over_a_start(programs: dict[str, Path], short: bool) -> None:
    """A bill that an earlier life left held is told by the next one."""
    acceptor = Bills(6)
    line = Line(programs["cct_live"], [acceptor])
    host = line.start()
    host.first()
    start(host, 6, "0003")
    acceptor.take(1)
    host.ask("poll")
    host.clear()
    host = line.start()
    host.first()
    for _ in range(5):
        host.ask("poll")
    want("after a kill a held bill is told once", host.count("held 6 1"), 1)
    want("after a kill it is routed", host.work("route 6 1", 6)[-1], "routed 6")
    want("after a kill: the exit status", host.end(), 0)
    line.close()


def orders(programs: dict[str, Path], short: bool) -> None:
    """What the journal knows of an order, in the life that paid it and in the next one; and the last id."""
    line = Line(programs["cct_live"], [Acceptor(2), Hopper(3)])
    host = line.start()
    host.first()
    want("no id was used", [text for text in host.told("status") if text.startswith("last")], ["last 0"])
    want("no order", host.told("order 7"), ["order 7 unknown"])
    start(host, 2)
    line.devices[2].take(5)
    host.work("round 2", 2)
    host.work("vend 4 10", 1)
    host.work("pay 3 7 2", 3)
    want("a closed order", host.told("order 7"), ["order 7 closed 2 0"])
    want("a sale is no order", host.told("order 4"), ["order 4 unknown"])
    lines = host.ask("pay 3 9 3")
    while not any(text.startswith("put opened 9 ") for text in lines):
        lines += host.ask("next 3")
    want("an open order", host.told("order 9"), ["order 9 open 3 3"])
    status = host.told("status")
    want("the last id stands before the room", [text.split(" ")[0] for text in status][-2:], ["last", "room"])
    want("the last id", [text for text in status if text.startswith("last")], ["last 9"])
    host.clear()
    host = line.start()
    want("after a kill an order is open", host.first().split(" ")[2], "1")
    want("after a kill: an open order", host.told("order 9"), ["order 9 open 3 3"])
    want("after a kill: a closed order", host.told("order 7"), ["order 7 closed 2 0"])
    want("after a kill: settled", host.work("settle 3", 3)[-1], "closed 3")
    want("after a kill: it is closed", host.told("order 9")[0].split(" ")[:3], ["order", "9", "closed"])
    want("after a kill: no other is known", host.told("order 8"), ["order 8 unknown"])
    want("after a kill: the last id", [text for text in host.told("status") if text.startswith("last")], ["last 9"])
    want("orders: the exit status", host.end(), 0)
    line.close()


def of_main(programs: dict[str, Path], line: Line) -> list[str]:
    """What `cct_main state` tells of the journal that the host goes on with, by its setup."""
    script = Path(line.folder, "setup").read_text() + "end\n"
    done = subprocess.run([programs["cct_main"], "state", "--journal", "journal"], cwd=line.folder, input=script,
                          capture_output=True, text=True, timeout=MOST_SECONDS)
    want("cct_main state: the exit status", done.returncode, 0)
    return done.stdout.splitlines()


def states(programs: dict[str, Path], short: bool) -> None:
    """What the journal knows now is told in the lines of `cct_main state`, in the midst of a day: nothing is lost by it, and
    nothing else is told. It ends with the money; where the journal can't be read it is one line."""
    line = Line(programs["cct_live"], [Acceptor(2), Hopper(3)])

    def agree(what: str) -> list[str]:
        told, before = host.state(), Path(line.folder, "journal").read_bytes()
        want(f"{what}: as cct_main has it", told, of_main(programs, line))
        want(f"{what}: it only reads", Path(line.folder, "journal").read_bytes(), before)
        want(f"{what}: the money is the host's", told[-1], "balance " + " ".join(str(part) for part in host.balance()))
        return told

    host = line.start()
    host.first()
    want("a state without records", agree("a state without records"), ["last 0", "total 0 0 0 0 0", "balance 0 0 0 0"])
    start(host, 2)
    line.devices[2].take(5)
    host.work("round 2", 2)
    want("a state of an epoch", [text.split(" ")[:3] for text in agree("a state of an epoch")][:2],
         [["epoch", "2", "0010"], ["since", "2", "1"]])
    host.work("pay 3 7 2", 3)
    host.work("vend 8 10", 1)
    lines = host.ask("pay 3 9 3")
    while not any(text.startswith("put opened 9 ") for text in lines):
        lines += host.ask("next 3")
    told = agree("a state of an open order")
    want("a state of an open order", [text.rpartition(" ")[0] for text in told if text.startswith("order")], ["order 9 open 3 3"])
    want("a state: what came to the hopper", [text for text in told if text.startswith("since 3")], ["since 3 0 0 2"])
    want("a state: the last id", [text for text in told if text.startswith("last")], ["last 9"])
    want("a state: a field too many", host.told("state 2"), [f"refused {host.asked - 1} form"])
    host.clear()
    host = line.start()
    host.first()
    agree("a state of the next life")
    host.work("settle 3", 3)
    want("a state: the order is settled", [text for text in agree("a settled order") if text.startswith("order")], [])
    Path(line.folder, "journal").rename(Path(line.folder, "away"))
    want("a state without the file", host.state(), ["state unread"])
    want("an order without the file", host.told("order 7"), ["order 7 unread"])
    Path(line.folder, "away").rename(Path(line.folder, "journal"))
    agree("a state of the file that came back")
    want("states: the exit status", host.end(), 0)
    line.close()


# A journal that turned after 40,000 records: an epoch of acceptor 2 runs, and order 41 is open; then a coin is posted.
TURNED = """. ./journal_by_hand
head -c 1048576 /dev/zero
{ start 1 40000 $(sums 77 30000 500 0 300 1 50 2 900) 0c02$(low 2 16)09$(low 3 300) 0503$(low 4 41)04$(low 3 16777214)
  slot "a502020a$(low 3 0)$(low 3 301)010501"; head -c 1048576 /dev/zero; } | head -c 1048576"""


def states_after_a_turn(programs: dict[str, Path], short: bool) -> None:
    """Of a journal that turned the state tells what stands in its carry, too, and what came since."""
    line = Line(programs["cct_live"], [Acceptor(2), Hopper(3)])
    made = subprocess.run(["bash", "-c", TURNED], cwd=EXAMPLES, capture_output=True, timeout=MOST_SECONDS)
    Path(line.folder, "journal").write_bytes(made.stdout)
    host = line.start()
    want("a turned journal: its setup is kept", host.first(), "setupkept")
    want("a turned journal: it is found", host.first(), "found 40001 1 1")
    told = host.state()
    want("a turned journal: as cct_main has it", told, of_main(programs, line))
    want("a turned journal: the epoch, what came since, and the order", told[:3],
         ["epoch 2 0010 10 301", "since 2 1 0 0", "order 41 open 3 4 16777214"])
    host.work("settle 3", 3)
    told = host.state()
    want("a turned journal, and an order settled: as cct_main has it", told, of_main(programs, line))
    want("a turned journal, and an order settled", [text for text in told if text.startswith("order")], [])
    want("states after a turn: the exit status", host.end(), 0)
    line.close()


def refusals(programs: dict[str, Path], short: bool) -> None:
    """Why a line is refused is on standard error at once, and the next line is read."""
    line = Line(programs["cct_live"], [Acceptor(2), Hopper(3)])
    host = line.start()
    host.first()
    wrong = {"pay 3 1": "form", "start 2 00XX": "form", "coins": "word", "order": "form", "coin 2 5": "word", "change 1 0": "form"}
    for number, (text, kind) in enumerate(wrong.items(), 1):
        # The line of the balance counts too.
        told = host.told(text)
        want(f"{text}: it is refused", told, [f"refused {2 * number - 1} {kind}"])
        # The line of the balance was answered, so standard error has its own already.
        time.sleep(0.05)
        want(f"{text}: standard error has one line more", len(host.said()), number)
        want(f"{text}: it names the line", f"line {2 * number - 1}: " in host.said()[-1:][0] if host.said() else "", True)
    want("standard error says what the field is", "00XX" in " ".join(host.errors.lines), True)
    want("refusals: the exit status", host.end(), 0)
    line.close()


def quiet(programs: dict[str, Path], short: bool) -> None:
    """Without its exchanges a life tells all else."""
    line = Line(programs["cct_live"], [Acceptor(2)])
    host = line.start("--quiet")
    host.first()
    start(host, 2)
    line.devices[2].take(5)
    host.ask("poll")
    want("quiet: the end of a round", host.count("posted 2"), 1)
    want("quiet: no exchange is told", host.count("wire "), 0)
    want("quiet: the exit status", host.end(), 0)
    line.close()


def versions(programs: dict[str, Path], short: bool) -> None:
    """The version, and that of the lines, which comes first."""
    done = subprocess.run([programs["cct_live"], "--version"], capture_output=True, text=True, timeout=MOST_SECONDS)
    want("--version", (done.returncode, done.stderr), (0, ""))
    want("--version names the program and the protocol", [word for word in ("cct_live", "protocol 1")
                                                          if word not in done.stdout], [])
    line = Line(programs["cct_live"], [Acceptor(2)])
    host = line.start()
    want("the first line", host.line(), "protocol 1")
    want("the first line: the exit status", host.end(), 0)
    line.close()


def stops_at_end(programs: dict[str, Path], short: bool) -> None:
    """At the end of the input acceptors are left as they are, or stopped where that is asked for."""
    for words, last, stops in (((), "end", 0), (("--stop-at-end",), "end", 1), (("--stop-at-end",), "", 1)):
        what = f"{' '.join(words) or 'no word'}, {last or 'the end of the input'}"
        acceptor, dead = Acceptor(2), Acceptor(4)
        line = Line(programs["cct_live"], [acceptor, dead])
        host = line.start(*words)
        host.first()
        for device in (acceptor, dead):
            want(f"{what}: start", start(host, device.address)[-1], f"started {device.address}")
        acceptor.take(5)
        dead.is_dead = True
        begun = time.monotonic()
        want(f"{what}: the exit status", host.end(last), 0)
        want(f"{what}: it ends soon", time.monotonic() - begun < 20, True)
        want(f"{what}: whether it takes coins, and how many stops are told", (acceptor.master, host.count("stopped 2")),
             (1 - stops, stops))
        want(f"{what}: the last coin is posted", host.count("put reading 2 1 0 1 5/1"), stops)
        line.close()
