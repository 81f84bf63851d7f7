"""Who the devices are: a coin that isn't the setup's, and a setup that is written of what is on the line."""

import subprocess
import time
from pathlib import Path

from devices import Acceptor, Bills, Device, Hopper, setup_of
from host import MOST_SECONDS, Line, is_hint, start
from tally import want


def other_coins(programs: dict[str, Path], short: bool) -> None:
    """A place whose coin is another one than the setup's isn't started, unless that is trusted."""
    setup = setup_of([Acceptor(2, coins={5: ("EU100A", 100), 6: ("EU200A", 200)})])
    acceptor = Acceptor(2, coins={5: ("EU100A", 100), 6: ("EU050A", 50)})
    line = Line(programs["cct_live"], [acceptor])
    line.write_setup(setup)
    host = line.start()
    want("another coin is told", [host.line(), host.line(), host.line()],
         ["protocol 1", "device 2 coin 6 EU050A", "made 0 0 0"])
    want("another coin: its start is withheld", host.told("start 2 0030"), ["no start 2 0030 othercoin"])
    want("another coin: the others are started", start(host, 2, "0010")[-1], "started 2")
    want("another coin: the exit status", host.end(), 0)
    asked = acceptor.times(184)
    want("coins are asked for", asked, 2)
    host = line.start("--trust-setup")
    want("--trust-setup: nothing is told", [host.line(), host.line()], ["protocol 1", "found 1 0 1"])
    host.work("stop 2", 2)
    want("--trust-setup: all are started", start(host, 2, "0030")[-1], "started 2")
    want("--trust-setup: no coin is asked for", acceptor.times(184), asked)
    want("--trust-setup: the exit status", host.end(), 0)
    line.close()


def come_late(programs: dict[str, Path], short: bool) -> None:
    """A device that is switched on after the start is asked then, and a coin of it that is another one is told."""
    setup = setup_of([Acceptor(2), Acceptor(4)])
    late = Acceptor(4, coins={5: ("EU050A", 50)})
    line = Line(programs["cct_live"], [Acceptor(2), late])
    line.write_setup(setup)
    late.is_dead = True
    host = line.start()
    want("a late device: a new journal", host.first(), "made 0 0 0")
    late.is_dead = False
    want("a late device: its start is withheld", host.told("start 4 0010")[-1:], ["no start 4 0010 othercoin"])
    want("a late device: its coin is told", host.count("device 4 coin 5 EU050A"), 1)
    want("a late device: the exit status", host.end(), 0)
    line.close()


def come_very_late(programs: dict[str, Path], short: bool) -> None:
    """A device that was told to be absent, and is switched on with another coin, isn't started either."""
    setup = setup_of([Acceptor(2), Acceptor(4)])
    late = Acceptor(4, coins={5: ("EU050A", 50)})
    line = Line(programs["cct_live"], [Acceptor(2), late])
    line.write_setup(setup)
    late.is_dead = True
    host = line.start()
    host.first()
    begun = time.monotonic()
    while time.monotonic() - begun < 30 and not host.out.has("device 4 absent"):
        host.ask("poll")
    want("an absent device is told", host.count("device 4 absent"), 1)
    late.is_dead = False
    want("an absent device that is back: its start is withheld", host.told("start 4 0010")[-1:],
         ["no start 4 0010 othercoin"])
    want("an absent device that is back: the exit status", host.end(), 0)
    line.close()


# What is drafted of `there`, and what it doesn't say, after the line of its address. The coin of place 6 shows no whole number;
# hopper 3 tells the value of its coins, hopper 4 one coin, hopper 5 two, hopper 6 none. Of the bills place 3 has none, the scaling
# of the fifth isn't told, and the places after it aren't either.
DRAFT = """acceptor 2 simple 1002 0
value 2 1 5 EU005A
value 2 5 100 EU100A
hopper 3 simple 1003 0 50
hopper 4 simple 1004 0 20
hopper 5 simple 1005 0 0
hopper 6 crc 1006 0 0
bills 40 simple 1040 0
value 40 1 500 EU0005
value 40 2 1000 EU0010
value 40 4 100000 EU1000
acceptor 50 crc 1050 0
begin
"""
NOTES = {2: ["value 2 6: EU.20A tells no value"],
         5: ["hopper 5: it has several coins, write the value of the one that it pays for the last 0"],
         6: ["hopper 6: write the value of its coins for the last 0"],
         40: ["value 40 5: CH0020A tells no value", "bills 40: write a value line for each other bill"]}
# The addresses that are asked: the usual ones, and one more that answers a poll.
ASKED = [*range(2, 18), *range(40, 48), 50]


def there() -> list[Device]:
    hoppers = [Hopper(3), Hopper(4), Hopper(5), Hopper(6, "crc")]
    hoppers[0].answers[171] = 0, lambda data: (0, b"EU050A")
    for hopper, second in ((hoppers[1], b"......\x00\x00"), (hoppers[2], b"EU200A\xc8\x00")):
        coins = {1: b"EU020A\x14\x00", 2: second}
        hopper.answers[131] = 1, lambda data, coins=coins: (0, coins[data[0]]) if data[0] in coins else None
    bills = Bills(40, "simple")
    bills.coins |= {4: ("EU1000A", 0), 5: ("CH0020A", 0)}
    bills.answers[157] = 1, lambda data: bills.tell_bill(data) if data[0] <= 5 else None
    bills.answers[156] = 2, lambda data: (0, bytes([100, 0, 2])) if data == b"EU" else None
    coins = {1: ("EU005A", 5), 5: ("EU100A", 100), 6: ("EU.20A", 20)}
    return [Acceptor(2, coins=coins), *hoppers, bills, Acceptor(50, "crc", {})]


def draft_of(line: Line) -> subprocess.CompletedProcess:
    words = [line.program, "setup", "./port", "--echo", "yes" if line.echoes else "no", "--answer", "2"]
    return subprocess.run(words, cwd=line.folder, stdin=subprocess.DEVNULL, capture_output=True, text=True,
                          timeout=MOST_SECONDS * 3)


def drafts(programs: dict[str, Path], short: bool) -> None:
    """A setup of what is on the line, with coins, bills and the value of a hopper's coin where they are told. Standard error
    has its progress, and what is to be filled in; until then the setup is refused."""
    line = Line(programs["cct_live"], there())
    done = draft_of(line)
    want("a draft: the exit status", done.returncode, 0)
    want("a draft: the setup", done.stdout, DRAFT)
    notes = [note for number, address in enumerate(ASKED, 1)
             for note in (f"address {number} of {len(ASKED)}", *NOTES.get(address, []))]
    want("a draft: its progress and its notes", [text for text in done.stderr.splitlines() if not is_hint(text)], notes)
    line.write_setup(done.stdout)
    refused = subprocess.run(line.words(), cwd=line.folder, stdin=subprocess.DEVNULL, capture_output=True, text=True)
    want("a draft that isn't filled in", (refused.stdout.splitlines(), refused.returncode), (["protocol 1"], 1))
    want("a draft that isn't filled in: standard error names the line", "line 6" in refused.stderr, True)
    line.write_setup(DRAFT.replace("1005 0 0", "1005 0 20").replace("1006 0 0", "1006 0 10"))
    host = line.start()
    want("a draft that is filled in", host.first(), "made 0 0 0")
    want("a draft that is filled in: the exit status", host.end(), 0)
    line.close()


def nobody_answers(programs: dict[str, Path], echoes: bool) -> None:
    acceptor = Acceptor(2)
    acceptor.is_dead = True
    line = Line(programs["cct_live"], [acceptor], echoes)
    done = draft_of(line)
    want("a dead line: the exit status, and what is drafted", (done.returncode, done.stdout), (14, "begin\n"))
    want("a dead line: standard error says so", bool(done.stderr), True)
    line.close()


def dead_line(programs: dict[str, Path], short: bool) -> None:
    """A line where nobody answers is told."""
    nobody_answers(programs, False)


def dead_line_with_echo(programs: dict[str, Path], short: bool) -> None:
    nobody_answers(programs, True)


def other_serials(programs: dict[str, Path], short: bool) -> None:
    """A hopper with another serial number pays nothing; another one isn't withheld."""
    line = Line(programs["cct_live"], [Acceptor(2), Hopper(3), Hopper(4)])
    line.write_setup(setup_of([Acceptor(2), Hopper(3), Hopper(4)]).replace(" 1003 ", " 1008 "))
    host = line.start()
    told = [host.first(), *host.told("balance")]
    want("another serial number: a new journal", told, ["made 0 0 0"])
    want("another serial number: it withholds", host.told("pay 3 1 1")[-1:], ["no pay 3 1 1 otherserial"])
    want("another serial number is told once", host.count("device 3 serial 1003"), 1)
    want("another serial number: other devices are asked", host.told("pay 4 1 1"), ["no pay 4 1 1 short 0"])
    want("another serial number: the exit status", host.end(), 0)
    line.close()


def put_off(programs: dict[str, Path], short: bool) -> None:
    """Behind a device that is silent at the start the others are asked by polls, four questions at most in each."""
    silent, hoppers = Acceptor(2), [Hopper(address) for address in range(3, 9)]
    line = Line(programs["cct_live"], [silent, *hoppers])
    silent.is_dead = True
    host = line.start("--answer", "2")
    host.first()
    counts = []
    while sum(counts) < 12 and len(counts) < 12:
        before = sum(len(hopper.heard) for hopper in hoppers)
        host.ask("poll")
        counts.append(sum(len(hopper.heard) for hopper in hoppers) - before)
    want("questions are put off: a poll asks at most", max(counts), 4)
    want("questions are put off: each is asked once", [(hopper.times(242), hopper.times(245)) for hopper in hoppers], 6 * [(1, 1)])
    want("questions are put off: the exit status", host.end(), 0)
    line.close()
