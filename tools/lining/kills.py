"""Lives of the host that are killed at random moments, each over the journal of those before it, on several lines side by side.
The devices are those of cct_devices."""

import random
import threading
import time
from concurrent.futures import ProcessPoolExecutor
from pathlib import Path

from day import ACCEPTORS, HOPPERS, ProvedLine, agree, stop
from host import Gone, Host, start
from tally import results, want

# A life is killed so many seconds after its start at the latest.
LATEST = 8.0


class Ids:
    """Ids that rise over all lives, and how many coins each order has."""

    def __init__(self):
        self.counts = {}

    def next(self, count: int = 0) -> int:
        self.counts[len(self.counts) + 1] = count
        return len(self.counts)


def closed_in(line: ProvedLine, ids: Ids) -> dict[int, int]:
    """By each order that a line of some life tells as closed, how many of its coins fell."""
    closed = {}
    for fields in (each.split(" ") for each in line.kept()):
        if fields[:2] == ["put", "closed"]:
            order, paid, unpaid = map(int, fields[2:])
            want(f"order {order} is closed once", order in closed, False)
            want(f"order {order} is closed whole", paid + unpaid, ids.counts[order])
            closed[order] = paid
    return closed


def settle(host: Host) -> None:
    """Settles what an earlier life left open."""
    for address in HOPPERS:
        lines = host.work(f"settle {address}", address)
        want(f"settle {address}", lines[-1] in (f"closed {address}", f"no settle {address} noorder"), True)


def live(host: Host, ids: Ids, chance: random.Random) -> None:
    """A host's work, until it is killed: acceptors run, hoppers pay and something is sold. Jobs go on by
    turns, or one of them to its end."""
    while True:
        for address in ACCEPTORS:
            # It is refused where the epoch runs.
            start(host, address)
        for address in HOPPERS:
            count = chance.randrange(1, 6)
            host.ask(f"pay {address} {ids.next(count)} {count}")
        for _ in range(chance.randrange(1, 8)):
            host.ask(chance.choice(("poll", "next 3", "next 5", "do 3", "do 5")))
        host.work(f"vend {ids.next()} 5", 1)


def told_in(line: ProvedLine) -> tuple[int, int]:
    """How many orders are open and how many epochs run, by all records that some life told as put."""
    orders = epochs = 0
    for fields in (each.split(" ") for each in line.kept()):
        if fields[0] == "put":
            orders += {"opened": 1, "closed": -1, "odd": -1}.get(fields[1], 0)
            epochs += {"epoch": 1, "epochend": -1, "broken": -1}.get(fields[1], 0)
    return orders, epochs


def found(line: ProvedLine, host: Host, puts: int) -> int:
    """How many records a life finds, which are those told as put, or one more. By these the orders are open and the epochs
    run that it tells."""
    word, *numbers = host.first().split(" ")
    records, *standing = map(int, numbers)
    want("the journal is gone on with", word, "found")
    more = records - puts
    want(f"{puts} records or one more are found", more in (0, 1), True)
    differ = sum(abs(one - other) for one, other in zip(standing, told_in(line), strict=True))
    want("open orders and running epochs are those of the records", differ <= more, True)
    return records


def killed(line: ProvedLine, puts: int, ids: Ids, chance: random.Random) -> tuple[int, int, bool]:
    """A life that is killed: how many records stand, how many exchanges were told, and whether all was settled before."""
    host = line.start()
    end = threading.Timer(chance.uniform(0, LATEST), host.run.kill)
    end.start()
    is_settled = False
    try:
        puts = found(line, host, puts)
        settle(host)
        _, reserved, paid, _ = host.balance()
        want("nothing is reserved once all is settled", reserved, 0)
        want("what was paid fell", paid, 10 * line.fallen())
        is_settled = True
        live(host, ids, chance)
    except Gone:
        pass
    end.join()
    host.clear()
    return puts + host.count("put "), host.count("wire "), is_settled


def kill_on(programs: dict[str, Path], count: int, seed: str) -> tuple[list[bool], str]:
    """Lives that are killed, over one journal and one line, and one that isn't, in a process of their own: what was wanted, and
    what came of them."""
    results.clear()
    line, ids, chance = ProvedLine(programs), Ids(), random.Random(seed)
    # A kill within the making of the journal would leave none to go on with.
    host = line.start()
    want("a new journal", host.first(), "made 0 0 0")
    host.clear()
    puts = exchanges = settled = 0
    for _ in range(count):
        puts, more, is_settled = killed(line, puts, ids, chance)
        exchanges += more
        settled += is_settled
    host = line.start()
    found(line, host, puts)
    settle(host)
    stop(host)
    balance = host.balance()
    agree(line, "after all kills", balance)
    want("the exit status after all kills", host.end(), 0)
    closed = closed_in(line, ids)
    want("what orders were closed with was paid", sum(closed.values()) * 10 <= balance[2], True)
    told = (f"{count} kills in {exchanges} exchanges, {settled} after all was settled: {sum(balance) // 100} coins posted, "
            f"{balance[2] // 10} fallen, {len(closed)} orders told as closed")
    line.close()
    return list(results), told


def kills(programs: dict[str, Path], count: int, lines: int, seed: int) -> None:
    """Kills on several lines side by side, each with its own process, devices and moments."""
    shares = [count // lines + (index < count % lines) for index in range(lines)]
    begun = time.monotonic()
    with ProcessPoolExecutor(lines) as pool:
        runs = [pool.submit(kill_on, programs, share, f"{seed} {index}") for index, share in enumerate(shares) if share]
        for run in runs:
            wanted, told = run.result()
            results.extend(wanted)
            print(told, flush=True)
    print(f"{count} kills in {time.monotonic() - begun:.0f} seconds")
