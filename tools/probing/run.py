"""A run of cct_probe, with a person whom the script plays, on a line with devices of the script."""

import os
import subprocess
import threading
from pathlib import Path

from devices import setup_of
from host import clear_folder, is_hint, new_folder
from line import End, Pump
from tally import want
from tried import TriedBus

# A run takes at most so many seconds.
MOST_SECONDS = 500
# In so many silent reads each device answers that isn't late.
ANSWER = 3


class Run:
    """A run of the program to its end: its lines, those of standard error and its exit status. `hands` does what a line `do`
    asks for, and tells whether it did; without it nobody answers. `watch` sees each line, and may close the output."""

    def __init__(self, words: list, folder: str, hands=None, watch=None):
        self.lines, self.said = [], []
        self.run = subprocess.Popen([str(word) for word in words], cwd=folder, stdin=subprocess.PIPE, stdout=subprocess.PIPE,
                                    stderr=subprocess.PIPE, text=True)
        timer = threading.Timer(MOST_SECONDS, self.run.kill)
        timer.start()
        errors = threading.Thread(target=lambda: self.said.extend(self.run.stderr.read().splitlines()))
        errors.start()
        if hands is None:
            self.run.stdin.close()
        with open(Path(folder, "lines"), "a", encoding="utf-8") as kept:
            while line := self.run.stdout.readline():
                kept.write(line)
                kept.flush()
                self.lines.append(line.rstrip("\n"))
                if watch and watch(self):
                    break
                if line.startswith("do ") and hands:
                    self.obey(hands, line.split(" "))
        self.run.stdout.close()
        self.shut()
        self.status = self.run.wait()
        timer.cancel()
        errors.join()
        self.run.stderr.close()
        self.said = [line for line in self.said if not is_hint(line)]

    def obey(self, hands, fields: list[str]) -> None:
        done = hands(int(fields[1]), fields[2], int(fields[3]))
        try:
            self.run.stdin.write("done\n" if done else "skip\n")
            self.run.stdin.flush()
        except BrokenPipeError:
            pass

    def shut(self) -> None:
        try:
            self.run.stdin.close()
        except BrokenPipeError:
            pass

    def fields(self, word: str) -> list[list[str]]:
        """The fields of each line that begins with a word, without this."""
        return [line.split(" ")[1:] for line in self.lines if line.split(" ")[0] == word]

    def broken(self) -> set[tuple[int, str]]:
        """The premises that are told to be broken, with the address of each."""
        return {(int(fields[0]), fields[1]) for fields in self.fields("broken")}

    def shown(self) -> dict[str, str]:
        """What shows a premise broken: the line after each line `broken`, by the trial."""
        return {line.split(" ")[3]: self.lines[at + 1] if at + 1 < len(self.lines) else ""
                for at, line in enumerate(self.lines) if line.startswith("broken ")}

    def untried(self) -> set[tuple[str, str]]:
        """The premises that weren't tried, with the address of each."""
        return {(fields[0], fields[1]) for fields in self.fields("untried")}

    def promises(self) -> set[tuple[str, ...]]:
        """What is told of the promises."""
        return {(word, *fields) for word in ("holds", "open", "fails") for fields in self.fields(word)}

    def told(self) -> list[str]:
        """Its lines without the exchanges."""
        return [line for line in self.lines if not line.startswith("wire ")]

    def last(self) -> str:
        return self.lines[-1] if self.lines else ""


class Bench:
    """A line with devices of the script, and a folder for the setup of the program. `setup` has other devices, where what it
    says isn't so. A line goes at the pace of 9600 baud, or at once."""

    def __init__(self, program: Path, devices: list, echoes: bool = False, setup: list | None = None, at_pace: bool = False,
                 tenths: int = 1):
        self.program, self.devices, self.echoes = program, devices, echoes
        self.folder = new_folder()
        self.write_setup(setup_of(devices if setup is None else setup))
        self.near = End(tenths)
        self.far = End() if at_pace else None
        self.pump = Pump(self.near, self.far, echoes) if at_pace else None
        self.port = os.open(self.far.port, os.O_RDWR | os.O_NOCTTY) if at_pace else self.near.ours
        self.bus = TriedBus(self.port, devices, echoes and not at_pace)
        for thread in (self.bus, self.pump):
            if thread:
                thread.start()
        self.is_plugged = True

    def write_setup(self, text: str) -> None:
        Path(self.folder, "setup").write_text(text, encoding="utf-8")

    def words(self, *more, answer: int = ANSWER) -> list:
        return [self.program, "./setup", self.near.port, "--echo", "yes" if self.echoes else "no", "--answer", answer, *more]

    def run(self, *more, hands=None, watch=None, answer: int = ANSWER) -> Run:
        return Run(self.words(*more, answer=answer), self.folder, hands, watch)

    def hands(self, address: int, act: str, place: int) -> bool:
        """Does what a person is asked to do, at each device of this address."""
        for device in self.devices:
            if device.address == address:
                play(device, act, place)
        return True

    def unplug(self) -> None:
        """The program's end of the line is gone."""
        self.is_plugged = False
        for thread in (self.pump, self.bus):
            if thread:
                thread.stop()
        self.near.close()

    def close(self) -> None:
        if self.is_plugged:
            self.unplug()
        if self.far:
            os.close(self.port)
            self.far.close()
        clear_folder(self.folder)


# How many objects fall in by what a person is asked to do.
OBJECTS = {"coin": 1, "coins": 6, "many": 256, "bill": 1, "bills": 256, "power": 0}


def play(device, act: str, place: int) -> None:
    """Does what a person is asked to do."""
    if act == "power":
        device.power()
    for _ in range(OBJECTS[act]):
        device.take(place)


def left_well(what: str, devices: list) -> None:
    """Each acceptor was told last to accept nothing, and each hopper is off."""
    for device in devices:
        if device.word == "hopper":
            want(f"{what}: the hopper at {device.address} is off", (device.is_on, device.left), (False, 0))
        else:
            want(f"{what}: the acceptor at {device.address} accepts nothing", (device.mask, device.master), (bytes(2), 0))
