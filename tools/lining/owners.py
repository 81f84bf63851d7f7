"""A journal and a port belong to one process, and a journal to its setup."""

import hashlib
import os
import subprocess
from pathlib import Path

from devices import Acceptor, Hopper
from host import MOST_SECONDS, Host, Line, is_hint, start
from line import End
from tally import want

SETUP = """acceptor 2 simple 1002 0
value 2 5 100 EU100A
hopper 3 simple 1003 0 10
begin
"""
# Setups that differ, and what is told of the first difference.
OTHERS = {
    "a coin of another value": (SETUP.replace("5 100", "5 500"), "2 value"),
    "a coin more": (SETUP.replace("hopper", "value 2 6 200 EU200A\nhopper"), "2 value"),
    "a coin less": (SETUP.replace("value 2 5 100 EU100A\n", ""), "2 value"),
    "another serial number": (SETUP.replace("1003", "1004"), "3 serial"),
    "another check": (SETUP.replace("2 simple", "2 crc"), "2 check"),
    "another kind": (SETUP.replace("acceptor", "bills"), "2 kind"),
    "a hopper's coin of another value": (SETUP.replace("0 10", "0 20"), "3 value"),
    "a device less": (SETUP.replace("hopper 3 simple 1003 0 10\n", ""), "3 missing"),
    "a device more": (SETUP.replace("begin", "hopper 9 simple 1009 0 10\nbegin"), "9 new"),
    "another address": (SETUP.replace("hopper 3", "hopper 7"), "3 missing"),
    "two differences": (SETUP.replace("1003", "1004").replace("5 100", "5 500"), "2 value"),
}


def a_line(programs: dict[str, Path]) -> Line:
    line = Line(programs["cct_live"], [Acceptor(2), Hopper(3)])
    line.write_setup(SETUP)
    return line


def with_a_coin(line: Line) -> None:
    """A life in which a coin is posted and something is sold."""
    host = line.start()
    want("a coin: a new journal", host.first(), "made 0 0 0")
    start(host, 2)
    line.devices[2].take(5)
    host.work("round 2", 2)
    host.work("vend 1 30", 1)
    host.work("stop 2", 2)
    want("a coin: the balance", host.balance(), [70, 0, 0, 30])
    want("a coin: the exit status", host.end(), 0)


def refused(what: str, line: Line, words: list, wanted: list[str], status: int) -> str:
    """Words for which the program ends with this line, and changes no file that is there: what standard error says."""
    before = kept(line.folder)
    done = subprocess.run(words, cwd=line.folder, stdin=subprocess.DEVNULL, capture_output=True, text=True,
                          timeout=MOST_SECONDS)
    want(f"{what}: the lines", done.stdout.splitlines(), wanted)
    want(f"{what}: the exit status", done.returncode, status)
    said = [text for text in done.stderr.splitlines() if not is_hint(text)]
    want(f"{what}: standard error says why in one line", len(said), 1)
    after = kept(line.folder)
    want(f"{what}: no file changed", [name for name, told in before.items() if after.get(name) != told], [])
    return " ".join(said)


def kept(folder: str) -> dict[str, str]:
    """The files of a folder by their sums, without the lines of its lives."""
    return {path.name: hashlib.sha256(path.read_bytes()).hexdigest() for path in Path(folder).iterdir()
            if path.is_file() and not path.is_symlink() and path.name != "lines"}


def two_hosts(programs: dict[str, Path], short: bool) -> None:
    """A second host on the journal or on the port of one that runs is refused, and the first goes on. One that was killed
    leaves no lock."""
    line = a_line(programs)
    host = line.start()
    host.first()
    start(host, 2)
    other = End()
    messages = line.bus.messages
    words = [line.program, "./setup", other.port, "--journal", "journal"]
    refused("one journal", line, words, ["protocol 1", "inuse journal"], 11)
    words = [line.program, "./setup", "./port", "--journal", "other"]
    refused("one port", line, words, ["protocol 1", "inuse port"], 11)
    want("one port: nothing is sent", line.bus.messages, messages)
    line.devices[2].take(5)
    host.work("round 2", 2)
    want("beside others: the balance", host.balance(), [100, 0, 0, 0])
    host.clear()
    host = line.start()
    want("a killed one leaves no lock", host.first(), "found 2 0 1")
    want("a killed one leaves no lock: the exit status", host.end(), 0)
    other.close()
    line.close()


def beside_main(programs: dict[str, Path], short: bool) -> None:
    """cct_main waits for no journal that a host uses, and a host for none that cct_main uses; a report needs no lock."""
    line = a_line(programs)
    os.rename(Path(line.folder, "setup"), Path(line.folder, "machine"))
    main, words = programs["cct_main"], [line.program, "machine", "./port", "--echo", "no"]
    host = Host(words, line.folder)
    want("beside cct_main: a new journal", host.first(), "made 0 0 0")
    for word in (["run"], ["load", "1", "1"], ["upgrade"]):
        refused(f"cct_main {word[0]} beside a host", line, [main, *word], ["inuse journal"], 11)
    done = subprocess.run([main, "report"], cwd=line.folder, capture_output=True, text=True)
    want("a report beside a host", (done.returncode, done.stdout), (0, "total 0 0 0 0 0\n"))
    want("beside cct_main: the exit status", host.end(), 0)
    Path(line.folder, "cctalk.jnl").unlink()
    run = subprocess.Popen([main, "run"], cwd=line.folder, stdin=subprocess.PIPE, stdout=subprocess.PIPE, text=True)
    run.stdin.write(SETUP + "balance\n")
    run.stdin.flush()
    want("a run's line", run.stdout.readline(), "balance 0 0 0 0\n")
    refused("a host beside a run", line, words, ["protocol 1", "inuse journal"], 11)
    run.stdin.write("end\n")
    run.stdin.close()
    want("the run's end", (run.stdout.read(), run.wait(MOST_SECONDS)), ("", 0))
    run.stdout.close()
    line.close()


def reports(programs: dict[str, Path], short: bool) -> None:
    """A report of a journal by its name."""
    line = a_line(programs)
    with_a_coin(line)
    done = subprocess.run([programs["cct_main"], "report", "--journal", "journal"], cwd=line.folder, capture_output=True,
                          text=True)
    want("report --journal", (done.returncode, done.stdout.splitlines()[-1:]), (0, ["total 1 0 0 0 30"]))
    line.close()


def other_setups(programs: dict[str, Path], short: bool) -> None:
    """A journal isn't gone on with by another setup, and the first difference is told."""
    line = a_line(programs)
    with_a_coin(line)
    for what, (text, told) in OTHERS.items():
        line.write_setup(text)
        refused(what, line, line.words(), ["protocol 1", f"othersetup {told}"], 13)
    line.write_setup("hopper 3 simple 1003 0 10\nacceptor 2 simple 1002 0\nvalue 2 5 100 EU100A\nbegin\n")
    host = line.start()
    want("the same setup in another order", host.first(), "found 4 0 0")
    want("the same setup in another order: the balance", host.balance(), [70, 0, 0, 30])
    want("the same setup in another order: the exit status", host.end(), 0)
    line.close()


def adopt(programs: dict[str, Path], short: bool) -> None:
    """The operator takes another setup over, once: the balance is told before and after."""
    line = a_line(programs)
    with_a_coin(line)
    line.write_setup(SETUP.replace("5 100", "5 500"))
    words = [line.program, "adopt", "./setup", "--journal", "journal"]
    done = subprocess.run(words, cwd=line.folder, capture_output=True, text=True)
    told = [text for text in done.stdout.splitlines() if "balance" in text]
    want("adopt: the exit status", done.returncode, 0)
    want("adopt: the balance before and after", [text.split(" ")[-4:] for text in told],
         [["70", "0", "0", "30"], ["470", "0", "0", "30"]])
    host = line.start()
    want("adopt: the journal goes on", host.first(), "found 4 0 0")
    want("adopt: the balance", host.balance(), [470, 0, 0, 30])
    refused("adopt beside a host", line, words, ["inuse journal"], 11)
    want("adopt: the exit status of a life", host.end(), 0)
    line.write_setup(SETUP)
    refused("the setup before", line, line.words(), ["protocol 1", "othersetup 2 value"], 13)
    line.close()


def kept_setups(programs: dict[str, Path], short: bool) -> None:
    """The setup beside an older journal is taken along. A kill between the two files leaves neither a refusal nor a mix."""
    line = a_line(programs)
    with_a_coin(line)
    beside = Path(line.folder, "journal.setup")
    beside.unlink()
    host = line.start()
    want("an older journal", [host.line(), host.line(), host.line()], ["protocol 1", "setupkept", "found 4 0 0"])
    want("an older journal: the exit status", host.end(), 0)
    want("an older journal: its setup is there", beside.exists(), True)
    other = SETUP.replace("5 100", "5 500")
    whole = beside.read_bytes()
    # What a kill may leave before there is a journal: the setup, a part of it, or an empty file.
    for what, text in (("the setup alone", whole), ("a part of the setup", whole[:20]), ("an empty setup", b"")):
        for words, setup in (("the same", SETUP), ("another", other)):
            Path(line.folder, "journal").unlink(missing_ok=True)
            beside.write_bytes(text)
            made_anew(line, f"{what}, then {words}", setup)
    Path(line.folder, "journal").unlink()
    beside.unlink()
    line.write_setup(SETUP)
    with_a_coin(line)
    beside.write_bytes(whole[:20])
    done = subprocess.run(line.words(), cwd=line.folder, stdin=subprocess.DEVNULL, capture_output=True, text=True)
    want("a part of the setup beside a journal", (done.stdout.splitlines()[1][:9], done.returncode), ("setupbad ", 13))
    line.close()


def made_anew(line: Line, what: str, setup: str) -> None:
    """There is no journal yet: one is made for the setup that is given."""
    line.write_setup(setup)
    host = line.start()
    want(f"{what}: a new journal", host.first(), "made 0 0 0")
    want(f"{what}: the exit status", host.end(), 0)
    line.write_setup(SETUP.replace("1003", "1004"))
    refused(f"{what}: the journal has a setup", line, line.words(), ["protocol 1", "othersetup 2 value"]
            if setup != SETUP else ["protocol 1", "othersetup 3 serial"], 13)


# Setups of each kind of device, check and line, with the least and the greatest numbers; and one of 32 devices.
KEPT = (
    "begin\n",
    "acceptor 2 simple 0 0\nbegin\n",
    "acceptor 255 crc 16777215 16777215\nvalue 255 1 1 !!!!!!\nvalue 255 16 1000000 ~~~~~~\nbegin\n",
    "bills 40 simple 123456 7\nvalue 40 3 500 EU0005\nvalue 40 4 1000 EU0010\nbegin\n",
    "hopper 3 simple 197121 0 10\nhopper 4 crc 1 16777215 1000000\nbegin\n",
    "hopper 8 crc 9 0 1\ntexts 8 M PRODUCT SOFTWARE 123456789012345678901234\nbegin\n",
    "acceptor 7 simple 1 0\nvalue 7 9 20 EU020A\ntexts 7 A B C D\nhopper 3 crc 2 0 10\n"
    "bills 5 crc 3 0\nvalue 5 2 500 EU0005\ntexts 5 E F G H\nbegin\n",
    "".join(f"bills {address} crc 1 0\n" for address in range(2, 34)) + "begin\n")


def copies(programs: dict[str, Path], short: bool) -> None:
    """A setup is kept as its lines, and read back by the next life."""
    line = Line(programs["cct_live"], [])
    for number, text in enumerate(KEPT):
        line.write_setup(text)
        for first in ("made 0 0 0", "found 0 0 0"):
            words = [line.program, "./setup", "./port", "--journal", f"journal{number}", "--echo", "no", "--answer", "2"]
            done = subprocess.run(words, cwd=line.folder, input="end\n", capture_output=True, text=True)
            want(f"{text}: {first}", (done.stdout.splitlines()[-1], done.returncode), (first, 0))
            want(f"{text}: it is kept", Path(line.folder, f"journal{number}.setup").read_text(), text)
    line.close()


def cut_copies(programs: dict[str, Path], short: bool) -> None:
    """A setup that was cut off, or goes on after its end, isn't taken for one."""
    line = a_line(programs)
    with_a_coin(line)
    beside = Path(line.folder, "journal.setup")
    whole = beside.read_text()
    cuts = {whole[:count]: whole[:count].count("\n") + 1 for count in range(1, len(whole))}
    lines = whole.count("\n")
    wrong = {whole + "\n": lines, whole + "end\n": lines, whole.replace(" 10\n", " 0\n"): 3, whole.removesuffix("begin\n"): lines}
    for text, number in (cuts | wrong).items():
        beside.write_text(text)
        refused(f"a copy {text!r}", line, line.words(), ["protocol 1", f"setupbad {number}"], 13)
    line.close()
