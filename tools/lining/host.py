"""A life of the host, as a script drives it by two pipes, and the line that it stands on."""

import os
import subprocess
import sys
import tempfile
import threading
import time
from pathlib import Path

from devices import Bus, Device, setup_of
from line import End, Pump
from tally import results, want

# In so many seconds a line comes, else the host hangs.
MOST_SECONDS = 60


class Gone(Exception):
    """The host ended, or was killed since it hung."""


def is_hint(line: str) -> bool:
    """Whether a line of standard error only names how a port is set up, before it is read."""
    return "looks at the port" in line


class Heard(threading.Thread):
    """The lines that come from a pipe, each with the moment at which it came. A line that is cut off isn't one."""

    def __init__(self, pipe, kept=None):
        super().__init__(daemon=True)
        self.pipe, self.kept = pipe, kept
        self.lines, self.moments = [], []
        self.changed = threading.Condition()
        self.is_over = False
        self.start()

    def run(self) -> None:
        for line in self.pipe:
            if line.endswith("\n"):
                self.add(line)
        with self.changed:
            self.is_over = True
            self.changed.notify_all()

    def add(self, line: str) -> None:
        if self.kept:
            self.kept.write(line)
            self.kept.flush()
        with self.changed:
            self.lines.append(line[:-1])
            self.moments.append(time.monotonic())
            self.changed.notify_all()

    def reaches(self, count: int, seconds: float) -> bool:
        """Whether so many lines came within so many seconds."""
        with self.changed:
            self.changed.wait_for(lambda: len(self.lines) >= count or self.is_over, seconds)
            return len(self.lines) >= count

    def comes(self, text: str, seconds: float) -> bool:
        """Whether a line that begins so came within so many seconds, or before."""
        with self.changed:
            self.changed.wait_for(lambda: self.has(text) or self.is_over, seconds)
            return self.has(text)

    def counts(self, is_wanted, after: int, count: int) -> bool:
        """Whether so many lines of a kind came after the first so many, before the pipe was closed."""
        with self.changed:
            self.changed.wait_for(lambda: self.is_over or sum(map(is_wanted, self.lines[after:])) >= count, MOST_SECONDS)
            return sum(map(is_wanted, self.lines[after:])) >= count

    def has(self, text: str) -> bool:
        return any(line.startswith(text) for line in self.lines)


class Host:
    """A life of the host."""

    def __init__(self, words: list, folder: str):
        self.kept = open(Path(folder, "lines"), "a", encoding="utf-8")
        self.began = time.monotonic()
        self.run = subprocess.Popen(words, cwd=folder, stdin=subprocess.PIPE, stdout=subprocess.PIPE, stderr=subprocess.PIPE,
                                    text=True)
        self.out, self.errors = Heard(self.run.stdout, self.kept), Heard(self.run.stderr)
        # How many of its lines were taken.
        self.taken = 0
        # How many lines were said to it.
        self.asked = 0
        self.hang = False

    def say(self, text: str) -> None:
        self.asked += text.count("\n") + 1
        try:
            self.run.stdin.write(text + "\n")
            self.run.stdin.flush()
        except BrokenPipeError:
            raise Gone from None

    def line(self) -> str:
        """The next line that the host writes."""
        if not self.out.reaches(self.taken + 1, MOST_SECONDS):
            self.hang = not self.out.is_over
            self.run.kill()
            raise Gone
        self.taken += 1
        return self.out.lines[self.taken - 1]

    def ask(self, command: str) -> list[str]:
        """What the host writes for a command, and the line of a balance, which is asked for after it."""
        self.say(f"{command}\nbalance" if command != "balance" else "balance")
        lines = [self.line()]
        while not lines[-1].startswith("balance "):
            lines.append(self.line())
        return lines

    def told(self, command: str) -> list[str]:
        """The same without the exchanges and the balance."""
        return [line for line in self.ask(command)[:-1] if not line.startswith(("wire ", "unsent "))]

    def state(self) -> list[str]:
        """What it tells for the line `state`, which ends with a balance of its own."""
        self.say("state")
        lines = [self.line()]
        while not lines[-1].startswith(("balance ", "state unread")):
            lines.append(self.line())
        return lines

    def first(self) -> str:
        """The first line that tells of the journal. Before it the host tells the version of its lines, and which devices aren't
        as the setup says."""
        line = self.line()
        while line.startswith(("protocol ", "device ")):
            line = self.line()
        return line

    def work(self, command: str, address: int, turn: str = "do") -> list[str]:
        """What the host writes for a command and for its job up to its end; its last line is the end."""
        lines = self.ask(command)[:-1]
        if not any(line.startswith("ok ") for line in lines):
            return lines
        for _ in range(100):
            lines += self.ask(f"do {address}" if turn == "do" else turn)[:-1]
            ends = [at for at, line in enumerate(lines) if line.split(" ")[0] in ENDS and is_at(line, address)]
            if ends:
                return lines[:ends[-1] + 1]
        return lines

    def balance(self) -> list[int]:
        return [int(part) for part in self.ask("balance")[-1].split(" ")[1:]]

    def count(self, *texts: str) -> int:
        """How many of its lines begin so."""
        return sum(line.startswith(texts) for line in self.out.lines)

    def said(self) -> list[str]:
        """What standard error has, without the line that names the port before it is read."""
        return [line for line in self.errors.lines if not is_hint(line)]

    def spent(self) -> float:
        """How many seconds of a processor it took."""
        fields = Path(f"/proc/{self.run.pid}/stat").read_text().rpartition(")")[2].split()
        return sum(int(field) for field in fields[11:13]) / os.sysconf("SC_CLK_TCK")

    def leave(self, seconds: float = MOST_SECONDS) -> int:
        """Waits for the host's end: the exit status, -1 if it goes on."""
        try:
            code = self.run.wait(seconds)
        except subprocess.TimeoutExpired:
            self.run.kill()
            self.run.wait()
            code = -1
        for heard in (self.out, self.errors):
            heard.join()
        self.shut()
        self.run.stdout.close()
        self.run.stderr.close()
        self.kept.close()
        return code

    def shut(self, last: str = "") -> None:
        """Closes the input, after some last bytes. A host that is gone takes none."""
        try:
            self.run.stdin.write(last)
            self.run.stdin.close()
        except (BrokenPipeError, ValueError):
            pass

    def end(self, last: str = "end") -> int:
        """The script's end: the exit status."""
        self.shut(f"{last}\n" if last else "")
        return self.leave()

    def clear(self) -> None:
        """Takes away what is left of a life that is over."""
        self.run.kill()
        self.kept.write("killed\n")
        self.leave()
        want("the host hangs", self.hang, False)


# How a job ends.
ENDS = {"started", "unsure", "unquiet", "clean", "posted", "broke", "moved", "stopped", "closed", "oddlife", "noanswer", "sold",
        "told", "pathset", "listed", "idle", "routed", "routeunsure"}


def is_at(end: str, address: int) -> bool:
    """Whether an end of a job is of this address: a sale has none."""
    return end == "sold" or end.split(" ")[1] == str(address)


def posted_in(lines: list[str]) -> int:
    """How many coins the records of these lines post."""
    return sum(len(line.split(" ")[-1].split(",")) for line in lines
               if line.startswith(("put reading ", "put broken ")) and not line.endswith(" -"))


def lost_in(lines: list[str]) -> int:
    """How many coins the records of these lines tell to be lost."""
    records = [line.split(" ") for line in lines if line.startswith(("put reading ", "put broken "))]
    return sum(int(fields[{"reading": 4, "broken": 5}[fields[1]]]) for fields in records)


def start(host: Host, address: int, mask: str = "0010") -> list[str]:
    """Starts an acceptor. Where an object fell in between, it is started again."""
    for _ in range(10):
        lines = host.work(f"start {address} {mask}", address)
        if not lines[-1].startswith("unquiet "):
            break
    return lines


class Line:
    """A line between a host and devices of this script, with a folder for the setup and the journal of the host. The host knows
    its port by the link `port`, as that of an adapter."""

    def __init__(self, program: Path, devices: list[Device], echoes: bool = False):
        self.program, self.echoes = program, echoes
        self.folder = new_folder()
        self.devices = {device.address: device for device in devices}
        self.write_setup(setup_of(devices))
        self.far = End()
        self.bus = Bus(self.far, devices)
        self.plug()
        self.bus.start()

    def write_setup(self, text: str) -> None:
        Path(self.folder, "setup").write_text(text)

    def plug(self, tenths: int = 1) -> None:
        """The host's end is there."""
        self.near = End(tenths)
        Path(self.folder, "port.new").symlink_to(self.near.port)
        Path(self.folder, "port.new").rename(Path(self.folder, "port"))
        self.pump = Pump(self.near, self.far, self.echoes)
        self.pump.start()

    def unplug(self) -> None:
        """The host's end is gone, and its name with it: another end may be given the same number."""
        Path(self.folder, "port").unlink()
        self.pump.stop()
        self.near.close()

    def words(self, *more: str) -> list:
        """The words of a life of the host."""
        return [self.program, "./setup", "./port", "--journal", "journal", "--echo", "yes" if self.echoes else "no", *more]

    def start(self, *more: str) -> Host:
        return Host(self.words(*more), self.folder)

    def journal(self) -> bytes:
        return Path(self.folder, "journal").read_bytes()

    def close(self) -> None:
        self.unplug()
        self.bus.stop()
        self.far.close()
        clear_folder(self.folder)


def new_folder() -> str:
    """A new folder, in memory where this system has one there: how long a sync takes there is no matter of the line."""
    memory = Path("/dev/shm")
    return tempfile.mkdtemp(prefix="check_live.", dir=memory if os.access(memory, os.W_OK) else None)


def clear_folder(folder: str) -> None:
    """Takes a folder away unless something differed."""
    if all(results):
        for path in sorted(Path(folder).rglob("*"), reverse=True):
            path.rmdir() if path.is_dir() and not path.is_symlink() else path.unlink()
        Path(folder).rmdir()
    else:
        print(f"the setup, the journal and the lines are in {folder}", file=sys.stderr)
