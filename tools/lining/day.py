"""Days with the devices of cct_devices on the line: one without a kill, the drivers of examples/live, and how many exchanges a
second there are."""

import os
import select
import subprocess
import time
from contextlib import contextmanager
from pathlib import Path

from host import MOST_SECONDS, Host, clear_folder, lost_in, new_folder, posted_in, start
from line import BYTE_SECONDS, End, Pump
from tally import want
from wire import HOST, message, number, spell

# Acceptors and hoppers under each check, and the value of their coins.
ACCEPTORS = {2: ("simple", 100), 4: ("crc", 100)}
HOPPERS = {3: ("simple", 10), 5: ("crc", 10)}
SETUP = """acceptor 2 simple 1 0
value 2 5 100 EU100A
hopper 3 simple 197121 0 10
acceptor 4 crc 2 0
value 4 5 100 EU100A
hopper 5 crc 197122 7 10
begin
"""
# The life counts at the start.
LIVES = {3: 0, 5: 7}
# At each silence one of these happens to the devices: coins of orders fall soon, and a coin falls in seldom enough that no
# reading meets more than five.
EVENTS = ("fall 3\nfall 5\n" * 6 + "coin 2 5\n" + "fall 3\nfall 5\n" * 6 + "coin 4 5\n") * 5000
# So many silent reads are the longest time in which these devices answer, which they do at once.
ANSWER = 2
# So many rounds are timed, so many times. In the best of these they may take so many times what the wire and the devices take:
# whatever else the machine does only makes them longer.
ROUNDS = 20
TRIES = 5
MOST_OVER = 1.10


class ProvedLine:
    """A host and the devices of cct_devices at the two ends of a line, and the journal of the host, in a folder."""

    def __init__(self, programs: dict[str, Path], echoes: bool = False, events: str = EVENTS):
        self.live, self.echoes = programs["cct_live"], echoes
        self.folder = new_folder()
        for name, text in (("setup", SETUP), ("events", events)):
            Path(self.folder, name).write_text(text)
        self.near, self.far = End(), End()
        self.pump = Pump(self.near, self.far, echoes)
        self.pump.start()
        self.devices = subprocess.Popen([programs["cct_devices"], "setup", "events", self.far.port], cwd=self.folder,
                                        stdin=subprocess.DEVNULL, stderr=subprocess.DEVNULL)

    def start(self, gap: int = 1) -> Host:
        """A life of the host, over the journal of those before it. A gap before each message lets events befall the
        devices."""
        words = ["./setup", self.near.port, "--journal", "journal", "--echo", "yes" if self.echoes else "no",
                 "--answer", str(ANSWER), "--gap", str(gap)]
        return Host([self.live, *words], self.folder)

    def ask(self, address: int, check: str, header: int) -> int:
        """The number that a device tells, asked by this script while the host is still. What a host sent is answered first. A
        device that had no time is asked again."""
        with self.pump.still():
            for _ in range(3):
                while select.select([self.far.ours], [], [], 0.2)[0]:
                    os.read(self.far.ours, 600)
                os.write(self.far.ours, spell(check, address, HOST, header))
                heard = b""
                while message(check, heard) is None and select.select([self.far.ours], [], [], 1.0)[0]:
                    heard += os.read(self.far.ours, 600)
                reply = message(check, heard)
                if reply and reply[1] in (address, None):
                    return number(reply[3])
        return -1

    def accepted(self) -> int:
        """How many coins all acceptors accepted."""
        return sum(self.ask(address, check, 225) for address, (check, _) in ACCEPTORS.items())

    def fallen(self) -> int:
        """How many coins fell out of all hoppers."""
        return sum(self.ask(address, check, 168) - LIVES[address] for address, (check, _) in HOPPERS.items())

    def kept(self) -> list[str]:
        """The lines of all lives so far."""
        return Path(self.folder, "lines").read_text().splitlines()

    def close(self) -> None:
        self.pump.stop()
        self.near.close()
        self.far.close()
        want("the devices end with their line", self.devices.wait(30), 3)
        clear_folder(self.folder)


def stop(host: Host) -> list[str]:
    """Stops each acceptor whose epoch is running. A stop that isn't answered is given again."""
    lines = []
    for address in ACCEPTORS:
        for _ in range(5):
            lines += host.work(f"stop {address}", address)
            if lines[-1].split(" ")[0] in ("no", "stopped", "broke"):
                break
    return lines


def agree(line: ProvedLine, what: str, balance: list[int]) -> None:
    """Once all acceptors are stopped and all orders closed, the money is that of the coins that the devices tell, without those
    told to be lost."""
    available, reserved, paid, sold = balance
    want(f"{what}: nothing is reserved", reserved, 0)
    want(f"{what}: what was paid fell", paid, 10 * line.fallen())
    want(f"{what}: what was accepted is posted", available + paid + sold, 100 * (line.accepted() - lost_in(line.kept())))


def play_day(programs: dict[str, Path], echoes: bool) -> None:
    """A day without a kill."""
    what = "a day with the echo" if echoes else "a day"
    line = ProvedLine(programs, echoes)
    host = line.start()
    want(f"{what}: a new journal", host.first(), "made 0 0 0")
    for address in (2, 3, 4, 5):
        want(f"{what}: ident {address}", host.work(f"ident {address}", address)[-1], f"told {address}")
    for address in ACCEPTORS:
        want(f"{what}: start {address}", start(host, address)[-1], f"started {address}")
    posted = 0
    for _ in range(60):
        for address in ACCEPTORS:
            posted += posted_in(host.work(f"round {address}", address))
        if posted >= 4:
            break
    want(f"{what}: coins are posted", host.balance()[0], 100 * posted)
    posted += pay_and_sell(host, what)
    balance = host.balance()
    want(f"{what}: the balance", balance, [100 * posted - 110, 0, 80, 30])
    agree(line, what, balance)
    want(f"{what}: the exit status", host.end(), 0)
    line.close()


def pay_and_sell(host: Host, what: str) -> int:
    """Something is sold, two orders are paid and what is wrong is refused; then all stops: how many coins the stops posted."""
    want(f"{what}: vend", host.work("vend 1 30", 1)[-2:], ["put sold 1 30", "sold"])
    for order, address in ((2, 3), (3, 5)):
        want(f"{what}: pay {address}", host.work(f"pay {address} {order} 4", address)[-2:],
             [f"put closed {order} 4 0", f"closed {address}"])
    want(f"{what}: no order is open", host.work("settle 3", 3), ["no settle 3 noorder"])
    want(f"{what}: pay at an acceptor", host.work("pay 2 4 1", 2), ["no pay 2 4 1 wrongkind"])
    return posted_in(stop(host))


def without_echo(programs: dict[str, Path], short: bool) -> None:
    play_day(programs, False)


def with_echo(programs: dict[str, Path], short: bool) -> None:
    play_day(programs, True)


@contextmanager
def first_of_all():
    """Where this script may, it and the programs that it starts go before all others on this machine."""
    before = os.sched_getscheduler(0), os.sched_getparam(0)
    try:
        os.sched_setscheduler(0, os.SCHED_FIFO, os.sched_param(1))
    except PermissionError:
        pass
    yield
    os.sched_setscheduler(0, *before)


def timed(line: ProvedLine, host: Host) -> tuple[float, float, float]:
    """How many times longer rounds take than they have to, by what the wire and the devices take; and how many exchanges a
    second they make, and would make then."""
    exchanges, size, delay, begun = host.count("wire "), line.pump.bytes, line.pump.delay, time.monotonic()
    lines = host.ask("\n".join(["poll"] * ROUNDS))
    spent = time.monotonic() - begun
    exchanges, size, delay = host.count("wire ") - exchanges, line.pump.bytes - size, line.pump.delay - delay
    want("all rounds are clean", lines.count("clean 2"), ROUNDS)
    least = size * BYTE_SECONDS + delay
    return spent / least, exchanges / spent, exchanges / least


def speed(programs: dict[str, Path], echoes: bool) -> None:
    """How many exchanges a second the host makes without a gap, in rounds of an acceptor that is idle. They take hardly longer
    than their bytes take on the wire, and the devices to begin their answers."""
    line = ProvedLine(programs, echoes, events="")
    host = line.start(gap=0)
    host.first()
    want("start 2", start(host, 2)[-1], "started 2")
    over, rate, least = min(timed(line, host) for _ in range(TRIES))
    print(f"polling with{'' if echoes else 'out'} the echo: {rate:.1f} exchanges a second; by the wire and the devices "
          f"{least:.1f}, {100 * (over - 1):.1f} % more time", flush=True)
    want("polling takes no longer than it may", over <= MOST_OVER, True)
    want("the exit status after polling", host.end(), 0)
    line.close()


def speeds(programs: dict[str, Path], short: bool) -> None:
    with first_of_all():
        for echoes in (False, True):
            speed(programs, echoes)


def drivers(programs: dict[str, Path], short: bool) -> None:
    """The drivers of examples/live have a coin posted, something sold and four coins paid."""
    for name in ("drive.sh", "drive.py"):
        line = ProvedLine(programs)
        words = [Path(__file__).resolve().parents[2] / "examples/live" / name, line.live, line.near.port, "--echo", "no",
                 "--gap", "1"]
        done = subprocess.run(words, cwd=line.folder, capture_output=True, text=True, timeout=MOST_SECONDS)
        want(f"{name}: the exit status", done.returncode, 0)
        want(f"{name}: the first line", done.stdout.splitlines()[:1], ["protocol 1"])
        want(f"{name}: the balance", (done.stdout.splitlines() or [""])[-1].split(" ")[2:], ["0", "40", "30"])
        line.close()
