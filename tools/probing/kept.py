"""Right devices keep all: those of cct_devices, which are proved, and those of this script without a wrong habit."""

import array
import fcntl
import os
import subprocess
import termios
import threading
import time
from collections import deque
from pathlib import Path

from devices import NAK
from host import clear_folder, new_folder
from line import End, Pump
from premises import PROMISES, of_all, promised
from run import ANSWER, OBJECTS, Bench, Run, left_well
from tally import want, want_at_most
from tried import Coins, Notes, Payer

ALL = ("--hands", "--long", "--coins", "10")


def want_all_kept(what: str, run: Run, devices: list, untried: set[tuple[str, str, str]]) -> None:
    """Nothing is broken, and each premise is kept but those that weren't tried. Of the promises those hold that rest on
    none of these."""
    want(f"{what}: what is broken", run.broken(), set())
    want(f"{what}: what isn't tried", {tuple(fields) for fields in run.fields("untried")}, untried)
    want(f"{what}: what is kept", sorted(run.fields("kept")),
         sorted(list(pair) for pair in of_all(devices) - {fields[:2] for fields in untried}))
    want(f"{what}: what is promised", run.promises(), promised(set(), {fields[:2] for fields in untried}))
    want(f"{what}: the exit status", run.status, 0)
    want(f"{what}: standard error", run.said, [])
    want(f"{what}: the first line", run.lines[:1], ["protocol 1"])


def all_hold(what: str, run: Run) -> None:
    want(f"{what}: the last lines", run.told()[-3:], [f"holds {promise}" for promise in PROMISES])


def good(program: Path, what: str, device, echoes: bool, at_pace: bool, rest: tuple = ALL) -> None:
    """A device of this script without a wrong habit keeps all, is left well, and its coins are told."""
    bench = Bench(program, [device], echoes, at_pace=at_pace)
    run = bench.run(*rest, hands=bench.hands)
    want_all_kept(what, run, [device], set())
    all_hold(what, run)
    left_well(what, [device])
    if device.word == "hopper":
        want(f"{what}: what fell is told", run.fields("fell"), [[str(device.address), str(device.fallen)]])
        want_at_most(f"{what}: the coins that fell", device.fallen, 10)
        want(f"{what}: coins fell", device.fallen > 0, True)
    else:
        want(f"{what}: what was taken is told", run.fields("took"), [[str(device.address), str(device.come())]])
    times = [[int(field) for field in fields[1:]] for fields in run.fields("time")]
    want(f"{what}: one time is told", len(times), 1)
    for longest, mean in times:
        # It answers after 5 ms. Of a line at once the bytes take no time, and at 9600 baud ten take 10 ms.
        want(f"{what}: {longest} and {mean} ms are a time to answer", 5 <= mean <= longest <= 1000 and mean <= 60, True)
    bench.close()


class ProvedLine:
    """The devices of cct_devices, of which a script's person does what is asked: what befalls them comes by a pipe. A spare
    acceptor, which isn't in the setup of the program, takes what fills the pipe while nothing is to befall."""

    SPARE, FILL = "acceptor 200 simple 1 0\n", "alien 200\n"

    def __init__(self, programs: dict[str, Path], setup: str, echoes: bool):
        self.program, self.echoes = programs["cct_probe"], echoes
        self.folder = new_folder()
        for name, text in (("setup", setup), ("devices", setup.replace("begin\n", f"{self.SPARE}begin\n"))):
            Path(self.folder, name).write_text(text, encoding="utf-8")
        os.mkfifo(Path(self.folder, "events"))
        self.events = os.open(Path(self.folder, "events"), os.O_RDWR)
        self.near, self.far = End(), End()
        self.pump = Pump(self.near, self.far, echoes)
        self.pump.start()
        self.waiting, self.is_over = deque(), threading.Event()
        self.feeder = threading.Thread(target=self.feed, daemon=True)
        self.feeder.start()
        self.devices = subprocess.Popen([programs["cct_devices"], "devices", "events", self.far.port], cwd=self.folder,
                                        stdin=subprocess.DEVNULL, stderr=subprocess.DEVNULL)

    def is_taken(self) -> bool:
        """Whether the devices took all that befalls them."""
        room = array.array("i", [0])
        fcntl.ioctl(self.events, termios.FIONREAD, room)
        return room[0] == 0

    def feed(self) -> None:
        while not self.is_over.is_set():
            if self.is_taken():
                os.write(self.events, (self.waiting.popleft() if self.waiting else self.FILL).encode())
            time.sleep(0.002)

    def befall(self, text: str, times: int = 1) -> None:
        """This befalls the devices, before this is over."""
        self.waiting.extend([text] * times)
        while self.waiting:
            time.sleep(0.005)
        # What comes next is taken only at a silence after that.
        time.sleep(0.3)

    def hands(self, address: int, act: str, place: int) -> bool:
        text = {"power": f"reset {address}\n", "bill": f"bill {address} {place}\n", "bills": f"bill {address} {place}\n"}
        self.befall(text.get(act, f"coin {address} {place}\n"), OBJECTS[act] or 1)
        return True

    def watch(self, run: Run) -> bool:
        """Coins fall once a dispense was acknowledged."""
        fields = run.lines[-1].split(" ")
        sent, heard = (bytes.fromhex(field) if field != "-" else b"" for field in (fields + ["-", "-"])[2:4]) \
            if fields[0] == "wire" else (b"", b"")
        if len(sent) == 9 and sent[3] == 167 and len(heard) == 14 and heard[12] == 0:
            self.waiting.extend([f"fall {sent[0]}\n"] * sent[7])
        return False

    def run(self, *rest: str) -> Run:
        words = [self.program, "./setup", self.near.port, "--echo", "yes" if self.echoes else "no", "--answer", ANSWER, *rest]
        return Run(words, self.folder, self.hands, self.watch)

    def close(self) -> None:
        self.is_over.set()
        self.feeder.join()
        self.pump.stop()
        self.near.close()
        self.far.close()
        os.write(self.events, self.FILL.encode())
        want("the devices end with their line", self.devices.wait(30), 3)
        os.close(self.events)
        clear_folder(self.folder)


# Devices of cct_devices, by what is tried.
LINES = {
    "acceptor": "acceptor 2 simple 1 0\nvalue 2 5 100 EU100A\nvalue 2 7 50 EU050A\n",
    "crc_acceptor": "acceptor 4 crc 2 0\nvalue 4 12 200 EU200A\n",
    "hopper": "hopper 3 simple 197121 0 10\n",
    "crc_hopper": "hopper 5 crc 197122 7 10\n",
    "bills": "bills 6 crc 5 0\nvalue 6 2 500 EU0005\n",
    "simple_bills": "bills 7 simple 6 0\nvalue 7 1 500 EU0005\n",
}


class Named:
    """A device of a setup line."""

    def __init__(self, line: str):
        self.word, address = line.split(" ")[:2]
        self.address = int(address)


def named_in(setup: str) -> list[Named]:
    return [Named(line) for line in setup.splitlines() if line.split(" ")[0] in ("acceptor", "hopper", "bills")]


def proved(programs: dict[str, Path], what: str, names: list[str], echoes: bool, rest: tuple) -> None:
    setup = "".join(LINES[name] for name in names) + "begin\n"
    line = ProvedLine(programs, setup, echoes)
    run = line.run(*rest)
    devices = named_in(setup)
    # Header 157 isn't known to them.
    untried = {(str(one.address), "places", "silent") for one in devices if one.word == "bills"}
    if "--long" not in rest:
        untried |= {(str(one.address), "wrap", "long") for one in devices if one.word != "hopper"}
    want_all_kept(what, run, devices, untried)
    if not untried:
        all_hold(what, run)
    line.close()


def machine(programs: dict[str, Path], short: bool) -> None:
    """All six devices on one line."""
    proved(programs, "a machine of cct_devices", list(LINES), False, ("--hands", "--coins", "20"))


def machine_with_echo(programs: dict[str, Path], short: bool) -> None:
    proved(programs, "a machine of cct_devices with the echo", list(LINES), True, ("--hands", "--coins", "20"))


def proved_part(name: str, echoes: bool, is_long: bool):
    def part(programs: dict[str, Path], short: bool) -> None:
        rest = ("--hands", "--coins", "10") + (("--long",) if is_long else ())
        proved(programs, f"{name} of cct_devices", [name], echoes, rest)
    return part


def good_part(make, what: str, echoes: bool, at_pace: bool):
    def part(programs: dict[str, Path], short: bool) -> None:
        good(programs["cct_probe"], what, make(), echoes, at_pace)
    return part


# How long after a person who says at once that it is done an object falls in, and how long after it the next one.
LATE, EVERY = 0.4, 0.02


def said_at_once(device):
    """A person who says that it is done while what was put in is on its way."""
    def hands(address: int, act: str, place: int) -> bool:
        now = time.monotonic()
        device.due.extend((now + LATE + EVERY * many, place) for many in range(OBJECTS[act]))
        if act == "power":
            device.power()
        return True
    return hands


def quick_part(make, what: str):
    def part(programs: dict[str, Path], short: bool) -> None:
        device = make()
        bench = Bench(programs["cct_probe"], [device])
        run = bench.run(*ALL, hands=said_at_once(device))
        want_all_kept(what, run, [device], set())
        want(f"{what}: what was taken is told", run.fields("took"), [[str(device.address), str(device.come())]])
        left_well(what, [device])
        bench.close()
    return part


def quick_proved(programs: dict[str, Path], short: bool) -> None:
    """So too with an acceptor of cct_devices, which takes one object at each silence."""
    line = ProvedLine(programs, LINES["acceptor"] + "begin\n", False)
    line.befall = lambda text, times=1: line.waiting.extend([text] * times)
    run = line.run("--hands")
    want_all_kept("a quick person at cct_devices", run, named_in(LINES["acceptor"]), {("2", "wrap", "long")})
    line.close()


class SilentOnBills(Notes):
    """It doesn't answer when it is asked for its bills."""

    def answer(self, header, data, now):
        return None if header == 157 else super().answer(header, data, now)


class RefusesBills(Notes):
    """It refuses to tell its bills."""

    def tell_bill(self, data):
        return NAK


class FewBills(Notes):
    """It tells its bills, and doesn't answer for a place that has none."""

    def answer(self, header, data, now):
        return None if header == 157 and data[0] not in self.coins else super().answer(header, data, now)


def bills_told(programs: dict[str, Path], short: bool) -> None:
    """Where a bill acceptor doesn't tell its bills they aren't tried; where it has no bill it need not say so."""
    for make, untold in ((SilentOnBills, True), (RefusesBills, True), (FewBills, False)):
        device = make(6)
        bench = Bench(programs["cct_probe"], [device])
        run = bench.run()
        untried = {*(("6", premise, "hands") for premise in ("accepts", "power", "count", "empty", "route")), ("6", "wrap", "long"),
                   *([("6", "places", "silent")] if untold else [])}
        want_all_kept(make.__name__, run, [device], untried)
        left_well(make.__name__, [device])
        bench.close()


PARTS = {
    "machine": machine, "machine_with_echo": machine_with_echo,
    "bills_told": bills_told, "quick_coins": quick_part(lambda: Coins(2), "a quick person"),
    "quick_notes": quick_part(lambda: Notes(6, "crc"), "a quick person at a bill acceptor"), "quick_proved": quick_proved,
    "long_acceptor": proved_part("acceptor", False, True), "long_bills": proved_part("bills", True, True),
    **{name: proved_part(name, "crc" in name, False) for name in LINES},
    **{f"good_{what}": good_part(make, f"a good {what}", echoes, at_pace) for what, make, echoes, at_pace in (
        ("coins", lambda: Coins(2), False, True), ("crc_coins", lambda: Coins(2, "crc"), True, False),
        ("notes", lambda: Notes(6, "crc"), True, True), ("simple_notes", lambda: Notes(6, "simple"), False, False),
        ("payer", lambda: Payer(3), True, True), ("crc_payer", lambda: Payer(3, "crc"), False, False))},
}
SHORT = ("acceptor", "bills", "bills_told", "quick_coins", "quick_notes", "crc_hopper", "good_crc_coins", "good_simple_notes", "good_payer")
