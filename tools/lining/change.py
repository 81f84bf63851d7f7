"""Sessions of change over hoppers of which one may jam, or be dead: the coins that fall are worth what is told, also over lives
that are killed."""

import random
from pathlib import Path

from devices import Acceptor, Hopper
from host import Line, start
from tally import want

PLACE, COIN = 5, 500
VALUES = {3: 10, 5: 50, 7: 20}
STOCK = 8
# A session is at its end after so many polls at the latest.
MOST_POLLS = 400


def is_of_order(text: str) -> bool:
    """Whether a line tells a record of an order."""
    return text.startswith(("put opened ", "put closed "))


class JammingHopper(Hopper):
    """A hopper that jams once so many coins more fell, if it is told to: the rest of its payout stays unpaid."""

    FALL_SECONDS = 0.02
    jams_after = None

    def catch_up(self, now: float) -> None:
        while self.left and self.next_fall <= now:
            if self.jams_after == 0:
                self.jams_after = None
                self.end()
                return
            if self.jams_after is not None:
                self.jams_after -= 1
            self.left, self.paid = self.left - 1, self.paid + 1
            self.life += 1
            self.next_fall += self.FALL_SECONDS


class Till:
    """A line with an acceptor and three hoppers, and what was told of its sessions."""

    def __init__(self, programs: dict[str, Path]):
        self.acceptor = Acceptor(2, coins={PLACE: ("EU500A", COIN)})
        self.hoppers = {address: JammingHopper(address, value=value) for address, value in VALUES.items()}
        self.line = Line(programs["cct_live"], [self.acceptor, *self.hoppers.values()])
        self.host = self.line.start()
        self.host.first()
        self.first = 1

    def fund(self, coins: int = 2) -> None:
        """Coins fall in, and are posted."""
        if not self.acceptor.lets_in(PLACE):
            start(self.host, 2)
        for _ in range(coins):
            self.acceptor.take(PLACE)
        self.host.work("round 2", 2)

    def fallen(self) -> int:
        """What all coins are worth that fell out of the hoppers."""
        return sum(hopper.life * hopper.value for hopper in self.hoppers.values())

    def count(self, stock: int = STOCK) -> None:
        """The operator counts the hoppers."""
        for address in VALUES:
            want(f"stock {address}", self.host.told(f"stock {address} {stock}"), [f"stock {address} {stock}"])

    def change(self, amount: int) -> None:
        """A session begins, whose ids are above all others."""
        last = next(text for text in self.host.told("status") if text.startswith("last "))
        self.first = int(last.split(" ")[1]) + 1
        want("a session begins", self.host.told(f"change {self.first} {amount}"), [f"change ok {self.first} {amount}"])

    def go_on(self) -> str:
        """Polls until the session is over, or waits for an order that has no job: that line."""
        for _ in range(MOST_POLLS):
            for text in self.host.told("poll"):
                if text.startswith(("served ", "short ", "serve ")):
                    return text
        return "no end"

    def payments(self) -> list[list[str]]:
        """The address and the count of each payment that was taken."""
        return [[fields[2], fields[4]] for fields in (text.split(" ") for text in self.host.out.lines) if fields[:2] == ["ok", "pay"]]

    def close(self, what: str) -> None:
        _, reserved, paid, _ = self.host.balance()
        want(f"{what}: what fell is what is told as paid", (reserved, paid), (0, self.fallen()))
        want(f"{what}: the exit status", self.host.end(), 0)
        self.line.close()


def three_hoppers(programs: dict[str, Path], short: bool) -> None:
    """A driver says `change` and polls: the session pays by its hoppers, one after the other, with the fewest coins."""
    till = Till(programs)
    till.fund()
    want("no session runs", till.host.told("serve"), ["serve idle"])
    want("a poll without a session tells none", till.host.told("poll")[-1:], ["clean 2"])
    till.count()
    till.change(180)
    want("a second session", till.host.told(f"change {till.first} 10"), ["change no busy"])
    want("a session is served", till.go_on(), "served 180")
    want("by the fewest coins", till.payments(), [["3", "1"], ["5", "3"], ["7", "1"]])
    want("what fell is its amount", till.fallen(), 180)
    till.change(10 * STOCK + 50 * STOCK)
    want("without money a payment is refused, and the session ends", till.go_on().startswith("short "), True)
    want("after it no session runs", till.host.told("serve"), ["serve idle"])
    want("a stock of what is no hopper", [text.split(" ")[::2] for text in till.host.told("stock 2 5")], [["refused", "device"]])
    till.close("three hoppers")


def word_by_word(programs: dict[str, Path], short: bool) -> None:
    """The same by `serve` and `do`, as on the bench."""
    till = Till(programs)
    till.fund()
    till.count()
    till.change(70)
    want("serve pays", till.host.told("serve"), [f"ok pay 5 {till.first} 1"])
    want("serve waits", till.host.told("serve"), ["serve wait 5"])
    till.host.ask("do 5")
    want("serve pays the rest", till.host.told("serve"), [f"ok pay 7 {till.first + 1} 1"])
    till.host.ask("do 7")
    want("serve ends it", till.host.told("serve"), ["served 70"])
    till.close("word by word")


def a_jam(programs: dict[str, Path], short: bool) -> None:
    """A hopper jams within a payment: the session goes on by the others, and has it for empty."""
    till = Till(programs)
    till.fund()
    till.count()
    till.hoppers[5].jams_after = 1
    till.change(150)
    want("with a jam: served", till.go_on(), "served 150")
    want("with a jam: what fell is its amount", (till.fallen(), till.hoppers[5].life), (150, 1))
    till.change(50)
    want("the hopper that jammed isn't asked", (till.go_on(), till.hoppers[5].life), ("served 50", 1))
    till.close("a jam")


def a_dead_hopper(programs: dict[str, Path], short: bool) -> None:
    """A hopper is dead: the session goes on by the others. One that dies once its order is open is waited for, until it is
    settled."""
    till = Till(programs)
    till.fund()
    till.count()
    till.hoppers[5].is_dead = True
    till.change(50)
    want("beside a dead hopper: served", (till.go_on(), till.fallen()), ("served 50", 50))
    till.hoppers[5].is_dead = False
    till.count()
    till.change(150)
    while not till.host.out.has(f"put opened {till.first} 5 "):
        till.host.ask("poll")
    till.hoppers[5].is_dead = True
    want("a hopper that dies within its payment is waited for", till.go_on(), "serve wait 5")
    till.hoppers[5].is_dead = False
    till.host.work("settle 5", 5)
    want("once it is settled the session goes on", (till.go_on(), till.fallen()), ("served 150", 200))
    till.close("a dead hopper")


def killed_at(programs: dict[str, Path], put: int) -> bool:
    """A life is killed once its session told so many puts. The next life settles what is open, and a new session pays what is
    still owed. Whether there were so many puts."""
    till, amount = Till(programs), 180
    till.fund()
    till.count()
    till.change(amount)
    told = len(till.host.out.lines)
    till.host.say("poll\n" * MOST_POLLS)
    reached = till.host.out.counts(is_of_order, told, put)
    till.host.clear()
    till.host = till.line.start()
    till.host.first()
    what = f"killed at put {put}"
    want(f"{what}: no session runs after a start", till.host.told("serve"), ["serve idle"])
    for address in VALUES:
        till.host.work(f"settle {address}", address)
    _, reserved, paid, _ = till.host.balance()
    want(f"{what}: what fell is what is told as paid", (reserved, paid), (0, till.fallen()))
    if paid < amount:
        till.count()
        till.change(amount - paid)
        want(f"{what}: the rest is served", till.go_on(), f"served {amount - paid}")
    want(f"{what}: in all its amount fell", till.fallen(), amount)
    till.close(what)
    return reached


def kills_at_puts(programs: dict[str, Path], short: bool) -> None:
    """A life is killed at each put of its session."""
    for put in (1, 2) if short else range(1, 7):
        want(f"put {put} of a session comes", killed_at(programs, put), True)


def sessions(programs: dict[str, Path], short: bool) -> None:
    """Many sessions, in which hoppers jam: what is told as paid fell, each time, and what isn't paid is told as the rest."""
    till, chance = Till(programs), random.Random(7)
    till.fund(4)
    for turn in range(4 if short else 100):
        if till.host.balance()[0] < 300:
            till.fund(4)
        till.count(chance.randrange(0, 5))
        hopper = till.hoppers[chance.choice(list(VALUES))]
        hopper.jams_after = chance.choice((None, 0, 1, 2))
        amount, before = 10 * chance.randrange(1, 25), till.fallen()
        till.change(amount)
        told = till.go_on().split(" ")
        fell = till.fallen() - before
        want(f"session {turn}: what fell is what it tells", told,
             ["served", str(amount)] if fell == amount else ["short", str(fell), str(amount - fell)])
    till.close("many sessions")
