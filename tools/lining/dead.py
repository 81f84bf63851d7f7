"""Devices that don't answer, beside an acceptor that takes coins at a customer's pace."""

import time
from pathlib import Path

from devices import Acceptor, Device, Hopper
from host import Host, Line, lost_in, posted_in, start
from pace import EVERY, Fed, collected
from tally import want, want_at_most

HEALTHY = 2
# Every so many seconds a command goes to a device that may be dead, in turn, and not right after a try that wasn't answered:
# such a poll takes longer than this.
AGAIN = 2.0
QUICK = 0.35
# Where devices die in mid-run, so many seconds lie between two deaths.
APART = 4
# Of a line with two absent devices the first command is answered within so many seconds.
FIRST_ANSWER = 3.0


class Orders:
    """The commands to devices that may be dead: an acceptor is started, a hopper is to pay, and to settle what is open."""

    def __init__(self, host: Host, devices: list[Device]):
        self.host, self.devices = host, devices
        self.last = time.monotonic()
        self.id = self.turn = 0

    def poll(self) -> None:
        """A poll, and a command after it where one is due."""
        begun = time.monotonic()
        self.host.ask("poll")
        ended = time.monotonic()
        if ended - begun < QUICK and ended - self.last >= AGAIN:
            self.last = ended
            self.turn += 1
            self.give(self.devices[self.turn % len(self.devices)])

    def give(self, device: Device) -> None:
        """What is to be done at a device, unless a job is there."""
        job, epoch, order = self.standing(device)
        if job == "-" and epoch == "-" and order == "-":
            self.id += 1
            self.host.ask(f"start {device.address} 0010" if device.word == "acceptor" else f"pay {device.address} {self.id} 50")
        elif job == "-" and order != "-":
            self.host.ask(f"settle {device.address}")

    def standing(self, device: Device) -> list[str]:
        """Its job, its epoch and its order."""
        return next(line for line in self.host.ask("status") if line.startswith(f"device {device.address} ")).split(" ")[2:]


def run_beside(program: Path, others: list[Device], dies_after: float, seconds: float, echoes: bool) -> Fed:
    """Coins fall into a healthy acceptor. The other devices are dead from the beginning, or die after so many seconds, one
    after the other."""
    healthy = Acceptor(HEALTHY)
    for device in others:
        device.is_dead = dies_after == 0
    line = Line(program, [healthy, *others], echoes)
    host = line.start()
    want("beside the dead: a new journal", host.first(), "made 0 0 0")
    want("beside the dead: start", start(host, HEALTHY)[-1], f"started {HEALTHY}")
    begun, orders = time.monotonic(), Orders(host, others)
    healthy.feed(begun + EVERY, EVERY, begun + seconds)
    while time.monotonic() < begun + seconds:
        for index, device in enumerate(others):
            device.is_dead = time.monotonic() >= begun + dies_after + (APART * index if dies_after else 0)
        orders.poll()
    rounds = host.count(f"clean {HEALTHY}", f"posted {HEALTHY}", f"moved {HEALTHY}")
    want("beside the dead: some job ends for want of an answer", host.count("noanswer ") > 0, True)
    collected(host, [healthy])
    lines = [line for line in host.out.lines if line.startswith("put ") and line.split(" ")[2] == str(HEALTHY)]
    fed = Fed(healthy.accepts, posted_in(lines), lost_in(lines), rounds, seconds)
    want("beside the dead: the exit status", host.end(), 0)
    line.close()
    return fed


def check(what: str, fed: Fed) -> None:
    want(f"{what}: coins are accepted", fed.accepted > 0, True)
    want(f"{what}: accepted, posted and lost", (fed.accepted, fed.posted, fed.lost), (fed.accepted, fed.accepted, 0))
    print(f"{what}: {fed.accepted} accepted, {fed.posted} posted, {fed.lost} told as lost, "
          f"{fed.rounds / fed.seconds:.1f} rounds a second", flush=True)


def dead_ones(count: int) -> dict[str, list[Device]]:
    return {f"{count} dead acceptor(s)": [Acceptor(4 + index) for index in range(count)],
            f"{count} dead hopper(s)": [Hopper(8 + index) for index in range(count)],
            f"{count} dead acceptor(s) and {count} dead hopper(s)":
                [*(Acceptor(4 + index) for index in range(count)), *(Hopper(8 + index) for index in range(count))]}


def dead_acceptor(programs: dict[str, Path], short: bool) -> None:
    what, others = list(dead_ones(1).items())[0]
    check(what, run_beside(programs["cct_live"], others, 0, 15 if short else 60, False))


def dead_hopper(programs: dict[str, Path], short: bool) -> None:
    what, others = list(dead_ones(1).items())[1]
    check(what, run_beside(programs["cct_live"], others, 0, 15 if short else 60, False))


def two_of_each(programs: dict[str, Path], short: bool) -> None:
    what, others = list(dead_ones(2).items())[2]
    check(what, run_beside(programs["cct_live"], others, 0, 30 if short else 60, False))


def dead_with_echo(programs: dict[str, Path], short: bool) -> None:
    what, others = list(dead_ones(2).items())[2]
    check(f"{what}, with the echo", run_beside(programs["cct_live"], others, 0, 60, True))


def dying(programs: dict[str, Path], short: bool) -> None:
    """An acceptor whose epoch runs, and a hopper that pays, die in mid-run."""
    what, others = list(dead_ones(1).items())[2]
    check(f"{what} that die in mid-run", run_beside(programs["cct_live"], others, 6, 25 if short else 60, False))


def absent(programs: dict[str, Path], short: bool) -> None:
    """Of 32 devices two are absent: the first command is answered soon, these two are told in time, and coins fall in meanwhile
    without a loss."""
    acceptors = [Acceptor(address) for address in range(2, 10)]
    hoppers = [Hopper(address) for address in range(10, 34)]
    for device in (acceptors[3], hoppers[7]):
        device.is_dead = True
    line = Line(programs["cct_live"], [*acceptors, *hoppers])
    host = line.start()
    host.ask("balance")
    want_at_most("two of 32 are absent: the first answer", time.monotonic() - host.began, FIRST_ANSWER)
    want("two of 32 are absent: start", start(host, HEALTHY)[-1], f"started {HEALTHY}")
    begun = time.monotonic()
    acceptors[0].feed(begun + EVERY, EVERY, begun + 15)
    while time.monotonic() < begun + 15:
        host.ask("poll")
    told = [line for line in host.out.lines if line.endswith(" absent")]
    want("two of 32 are absent: these are told, once each", sorted(told), ["device 17 absent", "device 5 absent"])
    collected(host, acceptors[:1])
    want("two of 32 are absent: accepted, posted and lost", (posted_in(host.out.lines), lost_in(host.out.lines)),
         (acceptors[0].accepts, 0))
    want("two of 32 are absent: the exit status", host.end(), 0)
    line.close()


def polled(host: Host, count: int) -> list[list[str]]:
    """What is written at each of so many polls."""
    return [host.ask("poll") for _ in range(count)]


def asked(polls: list[list[str]], *addresses: int) -> list[int]:
    """How many exchanges with one of these addresses each poll makes."""
    fronts = tuple(f"wire {address} " for address in addresses)
    return [sum(line.startswith(fronts) for line in lines) for lines in polls]


def left_alone(programs: dict[str, Path], short: bool) -> None:
    """Two acceptors whose epochs run fall silent. No poll makes more than one try there, and the healthy one is read in each but
    those that begin with a silent try. After a job ended for want of an answer its device is left alone for sixteen polls, unless
    a command asks at once."""
    acceptors = [Acceptor(address) for address in (HEALTHY, 4, 5)]
    line = Line(programs["cct_live"], [*acceptors, Hopper(3)])
    host = line.start("--answer", "2")
    want("left alone: a new journal", host.first(), "made 0 0 0")
    for acceptor in acceptors:
        want("left alone: start", start(host, acceptor.address)[-1], f"started {acceptor.address}")
    acceptors[1].is_dead = True
    polls = polled(host, 40)
    ended = next(number for number, lines in enumerate(polls) if "noanswer 4" in lines)
    tries = asked(polls, 4)
    want("one is silent: sixteen polls without it", tries[ended + 1:ended + 18], 16 * [0] + [1])
    host.ask("ident 4")
    want("one is silent: a command asks at once", asked(polled(host, 1), 4), [1])
    acceptors[2].is_dead = True
    polls = polled(host, 60)
    want("two are silent: the tries of a poll", max(asked(polls, 4, 5)), 1)
    want("two are silent: how many jobs end", [sum(text in lines for lines in polls) >= 2 for text in ("noanswer 4", "noanswer 5")],
         [True, True])
    want("two are silent: the third is read", sum(f"clean {HEALTHY}" in lines for lines in polls) >= 59, True)
    want("left alone: the exit status", host.end(), 0)
    line.close()
