"""The port: one that is no terminal or isn't set up, and one that is unplugged and comes back."""

import subprocess
import termios
import time
from pathlib import Path

from devices import Acceptor, Hopper
from host import MOST_SECONDS, Line, start
from line import End
from owners import refused
from tally import want, want_at_most

# What the line for the port has to say.
STTY = ("stty -F", "9600", "raw", "-echo", "min 0 time 1", "clocal", "-crtscts", "-hupcl")
# While the port is gone the host may take so much of a processor, and write so many lines a second beside balances.
MOST_BUSY = 0.25
MOST_LINES = 30
GONE_SECONDS = 6


def files(programs: dict[str, Path], short: bool) -> None:
    """Nothing is written into what is no terminal."""
    line = Line(programs["cct_live"], [Acceptor(2)])
    Path(line.folder, "text").write_text("kept\n")
    for port in ("text", "/dev/null"):
        words = [line.program, "./setup", port, "--journal", "journal", "--echo", "no"]
        refused(f"the port {port}", line, words, ["protocol 1", "noterminal"], 12)
        done = subprocess.run([line.program, "setup", port], cwd=line.folder, stdin=subprocess.DEVNULL, capture_output=True,
                              text=True, timeout=MOST_SECONDS)
        want(f"a setup by the port {port}", (done.returncode, "begin" in done.stdout), (12, False))
    want("the port text: it is as it was", Path(line.folder, "text").read_bytes(), b"kept\n")
    line.close()


def mistaken(programs: dict[str, Path], short: bool) -> None:
    """A setup that isn't there, or that has a refused line: standard error says what was meant, and what is wrong."""
    line = Line(programs["cct_live"], [Acceptor(2)])
    Path(line.folder, "wrong").write_text("acceptor 2 simple 1 0\nvalue 2 5 100 EU10\n")
    for setup, code, wanted in (
        ("setpu", 3, "the setup setpu can't be opened; did you mean the word setup?"),
        ("adotp", 3, "did you mean the word adopt?"),
        ("none.txt", 3, "the setup none.txt can't be opened\n"),
        ("wrong", 1, 'setup line 2: value A PLACE VALUE ID; ID is exactly six printing characters (bytes 21 to 7e), not "EU10"\n'),
    ):
        done = subprocess.run([line.program, setup, "/dev/null"], cwd=line.folder, stdin=subprocess.DEVNULL, capture_output=True,
                              text=True, timeout=MOST_SECONDS)
        want(f"the setup {setup}", (done.returncode, done.stderr.startswith("cct_live: ") and wanted in done.stderr), (code, True))
    line.close()


# Words that ask for nothing.
WRONG_WORDS = ("", "machine", "machine tty more", "machine tty --answer 1001", "machine tty --gap -1", "machine tty --echo maybe",
               "setup", "setup tty --journal day.jnl", "adopt", "adopt machine tty", "adopt machine --quiet")
# Every option of a host at a time; the setup isn't there.
ALL_WORDS = "none --journal day.jnl --echo find --answer 1000 --gap 1 --quiet --trust-setup --stop-at-end tty"


def words(programs: dict[str, Path], short: bool) -> None:
    """Words that ask for nothing are refused, before a file is looked for."""
    line = Line(programs["cct_live"], [Acceptor(2)])
    for text, code in [(text, 2) for text in WRONG_WORDS] + [(ALL_WORDS, 3), ("setup none --echo no", 3), ("adopt none", 3)]:
        done = subprocess.run([line.program, *text.split()], cwd=line.folder, stdin=subprocess.DEVNULL, capture_output=True,
                              timeout=MOST_SECONDS)
        want(f"the words {text}", done.returncode, code)
    line.close()


def cooked(end: End) -> None:
    """Sets a port as a terminal that is new: whole lines, and an echo."""
    mode = termios.tcgetattr(end.theirs)
    mode[0] |= termios.ICRNL
    mode[1] |= termios.OPOST
    mode[3] |= termios.ICANON | termios.ECHO | termios.ISIG
    mode[6][termios.VMIN], mode[6][termios.VTIME] = 1, 0
    termios.tcsetattr(end.theirs, termios.TCSANOW, mode)


def unset(programs: dict[str, Path], short: bool) -> None:
    """A port whose reads take no time is told at once, with the line that sets it."""
    line = Line(programs["cct_live"], [Acceptor(2)], echoes=True)
    line.unplug()
    line.plug(0)
    messages = line.bus.messages
    said = refused("a port with time 0", line, line.words(), ["protocol 1", "unset"], 12)
    want("a port with time 0: the line that sets it", [part for part in STTY if part not in said], [])
    want("a port with time 0: nothing is sent", line.bus.messages, messages)
    line.close()


def cooked_mode(programs: dict[str, Path], short: bool) -> None:
    """A port in cooked mode: standard error has the line that sets it, since a read may never come back."""
    line = Line(programs["cct_live"], [Acceptor(2)], echoes=True)
    line.unplug()
    line.plug()
    cooked(line.near)
    messages = line.bus.messages
    host = line.start()
    host.errors.reaches(1, 4)
    said = host.errors.lines[:1]
    want("cooked mode: standard error has a line that sets it", [part for part in STTY if part not in "".join(said)], [])
    want("cooked mode: no journal is told as made", host.out.comes("made", 2), False)
    want("cooked mode: nothing is sent", line.bus.messages, messages)
    host.clear()
    line.close()


def gone(programs: dict[str, Path], short: bool) -> None:
    """A port that is unplugged is told once, and no exchange is told that wasn't made. When it is back, the host goes on."""
    line = Line(programs["cct_live"], [Acceptor(2), Hopper(3)])
    host = line.start()
    want("unplugged: a new journal", host.first(), "made 0 0 0")
    want("unplugged: start", start(host, 2)[-1], "started 2")
    line.devices[2].take(5)
    host.work("round 2", 2)
    line.unplug()
    begun, spent, lines = time.monotonic(), host.spent(), len(host.out.lines)
    while time.monotonic() - begun < GONE_SECONDS:
        host.ask("poll")
    told = [text for text in host.out.lines[lines:] if not text.startswith("balance ")]
    want("unplugged: it is told once", told.count("linefault"), 1)
    want("unplugged: no exchange is told", [text for text in told if text.startswith("wire ") and not text.endswith(" -")], [])
    want("unplugged: what wasn't sent is told", any(text.startswith("unsent 2 ") for text in told), True)
    want_at_most("unplugged: the share of a processor", (host.spent() - spent) / GONE_SECONDS, MOST_BUSY)
    want_at_most("unplugged: lines a second", len(told) / GONE_SECONDS, MOST_LINES)
    back(line, host)


def back(line: Line, host) -> None:
    """The port is there again, under its name."""
    line.plug()
    begun = time.monotonic()
    while time.monotonic() - begun < 6 and not host.out.has("lineback"):
        host.ask("poll")
    want("plugged in again: it is told", host.count("lineback"), 1)
    line.devices[2].take(5)
    for _ in range(20):
        host.ask("poll")
        if host.balance()[0] == 200:
            break
        time.sleep(0.1)
    want("plugged in again: coins are posted", host.balance(), [200, 0, 0, 0])
    want("plugged in again: pay", host.work("pay 3 1 2", 3)[-1], "closed 3")
    want("plugged in again: stop", host.work("stop 2", 2)[-1], "stopped 2")
    want("plugged in again: the exit status", host.end(), 0)
    line.close()


def not_set_again(programs: dict[str, Path], short: bool) -> None:
    """A port that comes back and isn't set up isn't used until it is."""
    line = Line(programs["cct_live"], [Acceptor(2)])
    host = line.start()
    host.first()
    start(host, 2)
    line.unplug()
    host.ask("poll")
    line.plug(0)
    messages = line.bus.messages
    begun = time.monotonic()
    while time.monotonic() - begun < 4:
        host.ask("poll")
    want("not set up again: nothing is sent", line.bus.messages, messages)
    want("not set up again: it isn't told as back", host.count("lineback"), 0)
    mode = termios.tcgetattr(line.near.theirs)
    mode[6][termios.VTIME] = 1
    termios.tcsetattr(line.near.theirs, termios.TCSANOW, mode)
    begun = time.monotonic()
    while time.monotonic() - begun < 6 and not host.out.has("lineback"):
        host.ask("poll")
    want("set up again: it is told as back", host.count("lineback"), 1)
    want("set up again: the exit status", host.end(), 0)
    line.close()
