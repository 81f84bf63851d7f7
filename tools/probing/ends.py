"""How a run ends: on a dead line, at a port that is none, and where the port, the person or the reader of its lines goes."""

import signal
import subprocess
import time
from pathlib import Path

from host import MOST_SECONDS
from run import Bench, Run, left_well
from tally import want, want_at_most
from tried import Coins, Notes, Payer

# What the line for the port has to say.
STTY = ("stty -F", "9600", "raw", "-echo", "min 0 time 1", "clocal", "-crtscts", "-hupcl")
SETUP = "acceptor 2 simple 1002 0\nvalue 2 5 100 EU100A\nbegin\n"


def open_all(devices: list) -> None:
    """Whoever was there before left all devices on."""
    for device in devices:
        if device.word == "hopper":
            device.is_on = True
        else:
            device.mask, device.master = b"\xff\xff", 1


def words_of(bench: Bench, *words, status: int, last: str | None, what: str) -> subprocess.CompletedProcess:
    done = subprocess.run([str(word) for word in words], cwd=bench.folder, stdin=subprocess.DEVNULL, capture_output=True,
                          text=True, timeout=MOST_SECONDS)
    want(f"{what}: the exit status", done.returncode, status)
    want(f"{what}: the last line", done.stdout.splitlines()[-1:], [] if last is None else [last])
    return done


def dead_line(programs: dict[str, Path], short: bool) -> None:
    """Nobody answers."""
    devices = [Coins(2), Payer(3, "crc")]
    for device in devices:
        device.is_dead = True
    bench = Bench(programs["cct_probe"], devices)
    run = bench.run("--hands", "--coins", "10", hands=bench.hands)
    want("a dead line: the exit status", run.status, 14)
    want("a dead line: what is broken", {(*fields[:2],) for fields in run.fields("broken")}, {("2", "answers"), ("3", "answers")})
    want("a dead line: why nothing is tried", {fields[2] for fields in run.fields("untried")}, {"absent"})
    want("a dead line: nothing is kept", run.fields("kept"), [])
    want("a dead line: nobody is asked, and nothing ordered", (run.fields("do"), run.fields("pays")), ([], []))
    want("a dead line: no promise holds", run.fields("holds") + run.fields("fails"), [])
    want("a dead line: standard error says so", len(run.said) > 0, True)
    bench.close()


def one_absent(programs: dict[str, Path], short: bool) -> None:
    """One of two devices doesn't answer."""
    devices = [Coins(2), Payer(3)]
    devices[0].is_dead = True
    bench = Bench(programs["cct_probe"], devices)
    run = bench.run("--coins", "10", "--hands", hands=bench.hands)
    want("one is absent: what is broken", run.broken(), {(2, "answers")})
    want("one is absent: the exit status", run.status, 15)
    want("one is absent: why it isn't tried", {fields[2] for fields in run.fields("untried")}, {"absent"})
    want("one is absent: the other is tried", len([fields for fields in run.fields("kept") if fields[0] == "3"]), 17)
    want("one is absent: no promise of coins holds", run.fields("holds"), [["disk"]])
    want("one is absent: none fails by it", run.fields("fails"), [])
    left_well("one is absent", devices[1:])
    bench.close()


def dead_wire(programs: dict[str, Path], short: bool) -> None:
    """Nothing comes at all, not even the echo that the line should give: that isn't told trial after trial."""
    devices = [Coins(2), Payer(3, "crc")]
    bench = Bench(programs["cct_probe"], devices, echoes=True)
    bench.bus.echoes = False
    for device in devices:
        device.is_dead = True
    begun = time.monotonic()
    run = bench.run("--hands", "--coins", "10", hands=bench.hands)
    want_at_most("a dead wire: it ends soon", time.monotonic() - begun, 30)
    want("a dead wire: the exit status", run.status, 14)
    want("a dead wire: what is broken", run.fields("broken"), [["2", "answers", "here"], ["3", "answers", "here"]])
    want("a dead wire: why nothing is tried", {fields[2] for fields in run.fields("untried")}, {"absent"})
    bench.close()


def fell_silent(at: str):
    """A device falls silent in the middle: that is told once, and it isn't tried any more. The other one is."""
    def part(programs: dict[str, Path], short: bool) -> None:
        devices = [Coins(2), Payer(3)]
        bench = Bench(programs["cct_probe"], devices)
        moments = {}

        def watch(run: Run) -> bool:
            moments.setdefault(run.last(), time.monotonic())
            devices[0].is_dead = at in moments
            return False

        run = bench.run("--coins", "10", "--hands", hands=bench.hands, watch=watch)
        what = f"silent from {at}"
        want(f"{what}: what is broken", [fields[:2] for fields in run.fields("broken")], [["2", "answers"]])
        want(f"{what}: the exit status", run.status, 15)
        untried = {fields[1] for fields in run.fields("untried") if fields[0] == "2" and fields[2] == "absent"}
        want(f"{what}: what isn't tried then", {"prompt", "form", "accepts", "power"} - untried, set())
        want(f"{what}: nothing that isn't tried is told as kept",
             [fields for fields in run.fields("kept") if fields[0] == "2" and fields[1] in untried], [])
        want(f"{what}: nobody is asked at it", [fields for fields in run.fields("do") if fields[0] == "2"], [])
        want(f"{what}: the other is tried", len([fields for fields in run.fields("kept") if fields[0] == "3"]), 17)
        want_at_most(f"{what}: that is told soon", moments["trial 3 here"] - moments[at], 12)
        left_well(what, devices[1:])
        bench.close()
    return part


def killed(programs: dict[str, Path], short: bool) -> None:
    """A run that is killed leaves the devices as they are; the next one leaves them well."""
    devices = [Coins(2), Payer(3)]
    open_all(devices)
    bench = Bench(programs["cct_probe"], devices)

    def watch(run: Run) -> bool:
        if run.last() == "trial 2 bits":
            run.run.send_signal(signal.SIGTERM)
        return False

    want("killed: it ends by the signal", bench.run(watch=watch).status, -signal.SIGTERM)
    want("killed: a hopper that it didn't reach is on", devices[1].is_on, True)
    run = bench.run()
    want("killed: the next run breaks nothing", (run.status, run.broken()), (0, set()))
    left_well("killed", devices)
    bench.close()


def no_terminal(programs: dict[str, Path], short: bool) -> None:
    """Nothing is written into what is no terminal; a port that isn't set up is told with the line that sets it."""
    bench = Bench(programs["cct_probe"], [Coins(2)])
    Path(bench.folder, "text").write_text("kept\n")
    for port in ("text", "/dev/null"):
        words_of(bench, bench.program, "./setup", port, status=12, last="noterminal", what=f"the port {port}")
    want("the port text: it is as it was", Path(bench.folder, "text").read_bytes(), b"kept\n")
    words_of(bench, bench.program, "./setup", "./nothing", status=3, last="protocol 1", what="a port that isn't there")
    want("no terminal: nothing is sent", bench.bus.messages, 0)
    bench.close()


def unset(programs: dict[str, Path], short: bool) -> None:
    bench = Bench(programs["cct_probe"], [Coins(2)], tenths=0)
    done = words_of(bench, *bench.words(), status=12, last="unset", what="a port with time 0")
    want("a port with time 0: the line that sets it", [part for part in STTY if part not in done.stderr], [])
    want("a port with time 0: nothing is sent", bench.bus.messages, 0)
    bench.close()


def words(programs: dict[str, Path], short: bool) -> None:
    """Wrong words, a setup that can't be read, and one that is refused."""
    bench = Bench(programs["cct_probe"], [Coins(2)])
    program, port = bench.program, bench.near.port
    for more in ([], ["./setup"], ["./setup", port, "--coins", "1001"], ["./setup", port, "--coins", "-1"],
                 ["./setup", port, "--echo", "find"], ["./setup", port, "--answer", "0"], ["./setup", port, "--journal", "j"]):
        done = words_of(bench, program, *more, status=2, last=None, what=f"the words {more}")
        want(f"the words {more}: standard error", bool(done.stderr), True)
    words_of(bench, program, "./none", port, status=3, last="protocol 1", what="no setup")
    bench.write_setup("acceptor 2 simple 1002 0\nvalue 2 5 none EU100A\n")
    done = words_of(bench, program, "./setup", port, status=1, last="protocol 1", what="a wrong setup")
    want("a wrong setup: its line is told", "line 2" in done.stderr, True)
    words_of(bench, program, "--version", status=0, last="cct_probe 1.0.0 protocol 1", what="--version")
    done = subprocess.run([program, "--help"], capture_output=True, text=True, timeout=MOST_SECONDS)
    want("--help", (done.returncode, [word for word in ("--coins", "--hands", "--long", "--echo", "--answer", "--quiet")
                                      if word not in done.stdout]), (0, []))
    want("words: nothing is sent", bench.bus.messages, 0)
    want("words: no journal is made", sorted(path.name for path in Path(bench.folder).iterdir()), ["setup"])
    bench.close()


def in_use(programs: dict[str, Path], short: bool) -> None:
    """A second one leaves the port alone."""
    devices = [Coins(2)]
    bench = Bench(programs["cct_probe"], devices)

    def second(run: Run) -> bool:
        if run.last() == "trial 2 begin":
            words_of(bench, *bench.words(), status=11, last="inuse port", what="a second one")
        return False

    run = bench.run(watch=second)
    want("beside a second one: the exit status", run.status, 0)
    bench.close()


def unplugged(programs: dict[str, Path], short: bool) -> None:
    """The port is gone in the middle."""
    devices = [Coins(2), Payer(3)]
    bench = Bench(programs["cct_probe"], devices)
    gone = []

    def watch(run: Run) -> bool:
        if run.last() == "trial 2 bits":
            bench.unplug()
            gone.append(time.monotonic())
        return False

    run = bench.run("--coins", "10", watch=watch)
    want("unplugged: the last line", run.last(), "linefault")
    want("unplugged: it is told once", run.lines.count("linefault"), 1)
    want("unplugged: the exit status", run.status, 16)
    want("unplugged: nothing is said to be broken", run.broken(), set())
    want("unplugged: standard error says so", len(run.said) > 0, True)
    want_at_most("unplugged: it ends soon", time.monotonic() - gone[0], 10)
    bench.close()


def left_at(at: str):
    """Whoever reads the lines goes in the middle: acceptors are inhibited all the same."""
    def part(programs: dict[str, Path], short: bool) -> None:
        devices = [Coins(2, "crc"), Payer(3), Notes(6)]
        open_all(devices)
        bench = Bench(programs["cct_probe"], devices)
        run = bench.run("--coins", "10", "--hands", hands=bench.hands, watch=lambda run: run.last().startswith(at))
        want(f"left at {at}: the exit status", run.status, 4)
        left_well(f"left at {at}", devices)
        bench.close()
    return part


def left_from_the_start(programs: dict[str, Path], short: bool) -> None:
    """Devices that were on are off at the end of a run that nobody answers."""
    devices = [Coins(2), Notes(6, "crc"), Payer(3, "crc")]
    open_all(devices)
    bench = Bench(programs["cct_probe"], devices, echoes=True)
    run = bench.run("--hands", "--coins", "10")
    want("a person who is gone: what is broken", run.broken(), set())
    want("a person who is gone: the exit status", run.status, 0)
    want("a person who is gone: why something isn't tried", {fields[2] for fields in run.fields("untried")}, {"skipped", "long"})
    left_well("a person who is gone", devices)
    bench.close()


PARTS = {"left_from_the_start": left_from_the_start, "left_early": left_at("trial 2 serial"), "left_in_masks": left_at("trial 2 bits"),
         "left_at_a_prompt": left_at("do 2 coin"), "one_absent": one_absent, "dead_line": dead_line,
         "dead_wire": dead_wire, "silent_in_masks": fell_silent("trial 2 bits"), "silent_at_first": fell_silent("trial 2 serial"),
         "killed": killed, "no_terminal": no_terminal,
         "unset": unset, "words": words, "in_use": in_use, "unplugged": unplugged}
SHORT = ("left_in_masks", "dead_line", "dead_wire", "silent_in_masks", "one_absent", "no_terminal", "unset", "words", "in_use", "unplugged")
