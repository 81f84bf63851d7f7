"""Coins at a customer's pace: how many of them are posted, how many are told as lost, and what a round takes."""

import time
from concurrent.futures import ProcessPoolExecutor
from dataclasses import dataclass
from pathlib import Path

from devices import Acceptor
from host import Host, Line, lost_in, posted_in, start
from tally import results, want, want_at_most

# A customer gives a coin in so many seconds.
EVERY = 0.33
# A round takes at most so many seconds.
MOST_ROUND = 0.2
# How many acceptors the table has, and how many coins a second fall into each.
COUNTS = (1, 2, 4, 8)
RATES = (0.5, 1, 1.5, 2, 3, 4, 5, 6)
TABLE_SECONDS = 20
TRIES = 2
ENDS = ("clean ", "posted ", "moved ", "broke ", "noanswer ")


@dataclass
class Fed:
    """What came of coins that fell in for a while."""
    accepted: int
    posted: int
    lost: int
    # How many rounds were made in how many seconds.
    rounds: int
    seconds: float

    def round_seconds(self) -> float:
        return self.seconds / max(1, self.rounds)


def poll_until(host: Host, moment: float, each=lambda: None) -> None:
    """Polls without a pause."""
    while time.monotonic() < moment:
        host.ask("poll")
        each()


def collected(host: Host, acceptors: list[Acceptor]) -> None:
    """Reads what is left, and stops."""
    for _ in range(3):
        host.ask("poll")
    for acceptor in acceptors:
        for _ in range(5):
            if host.work(f"stop {acceptor.address}", acceptor.address)[-1].split(" ")[0] in ("stopped", "broke", "no"):
                break


def feed(program: Path, count: int, every: float, seconds: float, echoes: bool, *words: str) -> Fed:
    """A coin falls into each acceptor in so many seconds, one acceptor after the other, and the host polls without a pause."""
    acceptors = [Acceptor(2 + index, ("simple", "crc")[index % 2]) for index in range(count)]
    line = Line(program, acceptors, echoes)
    host = line.start(*words)
    want("feed: a new journal", host.first(), "made 0 0 0")
    for acceptor in acceptors:
        want("feed: start", start(host, acceptor.address)[-1], f"started {acceptor.address}")
    begun, ends = time.monotonic(), host.count(*ENDS)
    for index, acceptor in enumerate(acceptors):
        acceptor.feed(begun + every * (index + 1) / count, every, begun + seconds)
    poll_until(host, begun + seconds)
    spent, rounds = time.monotonic() - begun, host.count(*ENDS) - ends
    collected(host, acceptors)
    lines = host.out.lines
    fed = Fed(sum(acceptor.accepts for acceptor in acceptors), posted_in(lines), lost_in(lines), rounds, spent)
    want("feed: the balance is that of the posts", sum(host.balance()), 100 * fed.posted)
    want("feed: the exit status", host.end(), 0)
    line.close()
    return fed


def want_all(what: str, fed: Fed) -> None:
    want(f"{what}: coins are accepted", fed.accepted > 0, True)
    want(f"{what}: accepted, posted and lost", (fed.accepted, fed.posted, fed.lost), (fed.accepted, fed.accepted, 0))
    print(f"{what}: {fed.accepted} accepted, {fed.posted} posted, {fed.lost} told as lost, {fed.rounds} rounds, "
          f"{fed.round_seconds():.3f} s each", flush=True)


def one_acceptor(programs: dict[str, Path], short: bool, echoes: bool) -> None:
    what = f"one acceptor, a coin each {EVERY} s, with{'' if echoes else 'out'} the echo"
    fed = feed(programs["cct_live"], 1, EVERY, 15 if short else 60, echoes)
    want_all(what, fed)
    want_at_most(f"{what}: a round", fed.round_seconds(), MOST_ROUND)


def without_echo(programs: dict[str, Path], short: bool) -> None:
    one_acceptor(programs, short, False)


def with_echo(programs: dict[str, Path], short: bool) -> None:
    one_acceptor(programs, short, True)


def four_acceptors(programs: dict[str, Path], short: bool) -> None:
    for echoes in (False,) if short else (False, True):
        want_all(f"four acceptors, each a coin a second, with{'' if echoes else 'out'} the echo",
                 feed(programs["cct_live"], 4, 1.0, 15 if short else 60, echoes))


def takes_all(program: Path, count: int, gap: int, rate: float) -> tuple[list[bool], bool, float]:
    """Whether no coin is lost at so many a second at each acceptor, in the best of some tries: whatever else the machine does
    only makes it worse. And what the reading of all acceptors takes."""
    results.clear()
    for _ in range(TRIES):
        fed = feed(program, count, 1 / rate, TABLE_SECONDS, False, "--gap", str(gap))
        if fed.lost == 0 and fed.posted == fed.accepted:
            break
    return list(results), fed.lost == 0 and fed.posted == fed.accepted, fed.round_seconds() * count


def greatest(runs: list[tuple[float, bool]]) -> str:
    """The greatest pace up to which none was lost."""
    taken = []
    for rate, is_whole in runs:
        if not is_whole:
            break
        taken.append(rate)
    return f"{taken[-1]:g}{' or more' if len(taken) == len(runs) else ''}" if taken else "-"


def table(programs: dict[str, Path], lines: int) -> None:
    """How many coins a second may fall into each acceptor, by the number of acceptors and the gap."""
    print("| Acceptors | `--gap 0`: a reading of all | coins a second at each "
          "| `--gap 1`: a reading of all | coins a second at each |")
    print("|--:|--:|--:|--:|--:|")
    with ProcessPoolExecutor(lines) as pool:
        asked = {(count, gap): [pool.submit(takes_all, programs["cct_live"], count, gap, rate) for rate in RATES]
                 for count in COUNTS for gap in (0, 1)}
        for count in COUNTS:
            cells = [str(count)]
            for gap in (0, 1):
                told = [run.result() for run in asked[count, gap]]
                for wanted, _, _ in told:
                    results.extend(wanted)
                cells += [f"{min(spent for _, _, spent in told):.2f} s",
                          greatest([(rate, is_whole) for rate, (_, is_whole, _) in zip(RATES, told)])]
            print(f"| {' | '.join(cells)} |", flush=True)
