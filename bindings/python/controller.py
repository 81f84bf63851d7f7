#!/usr/bin/env python3
"""A host on a serial line at 9600 baud, over a journal in a file: bindings/c/controller.c says its words after LIBRARY, its input
and its statuses.

    controller.py LIBRARY SETUP PORT JOURNAL [echo]
"""

import os
import sys
import termios
from pathlib import Path

import litchihull as lh
from read_coins import open_port

MOST_STEPS = 4096


class Over(Exception):
    """The journal failed, so the host is over."""


class Machine:
    """A host, its line and its journal."""

    def __init__(self, library: str, setup: str, port: str, journal: str, *words: str):
        self.host = lh.Host(lh.Library(library), Path(setup).read_bytes(), Path(journal).read_bytes())
        self.port, self.journal, self.echoes = open_port(port), os.open(journal, os.O_RDWR), "echo" in words

    def exchange(self, sent: bytes) -> None:
        """Sends a message, once, and hears what comes up to a silence: the echo, and then a reply."""
        termios.tcflush(self.port, termios.TCIFLUSH)
        heard, left = b"" if self.echoes else sent, sent
        while left:
            left = left[os.write(self.port, left):]
        while len(heard) < lh.MOST_HEARD and (came := os.read(self.port, lh.MOST_HEARD - len(heard))):
            heard += came
        self.host.heard(heard)

    def keep(self, what: int, at: int, octets: bytes) -> None:
        """Makes a call on the journal. What isn't sure to be kept is lost."""
        try:
            if what == lh.SYNC:
                os.fdatasync(self.journal)
            while octets:
                count = os.pwrite(self.journal, octets, at)
                at, octets = at + count, octets[count:]
        except OSError as why:
            self.host.lost()
            raise Over(str(why)) from why
        self.host.done()

    def serve(self, address: int) -> None:
        """Does what the host asks for, at an address, until nothing is left to do there. At address 1 nothing is sent: there
        records of sales are put."""
        for _ in range(MOST_STEPS):
            what, at, octets = self.host.ask(address)
            if what == lh.IDLE:
                break
            if what in (lh.WRITE, lh.SYNC):
                self.keep(what, at, octets)
            elif what == lh.TAKE:
                print(octets.decode("ascii"), end="", flush=True)
                self.host.taken()
            elif what == lh.SEND:
                self.exchange(octets)
            else:
                raise Over("the host is over")

    def take_line(self, line: str) -> None:
        """Does what a line of input says."""
        if line.startswith("do "):
            self.serve(int(line[3:]))
        elif line == "balance":
            has = self.host.totals()
            print("balance", has.available, has.reserved, has.paid, has.sold, flush=True)
        else:
            try:
                self.host.command(line.encode())
            except lh.Refused as refused:
                if refused.code != lh.BAD_COMMAND:
                    raise
                print(f"refused: {line}", file=sys.stderr)
            else:
                self.serve(1)


def main() -> int:
    if len(sys.argv) < 5:
        print(__doc__, file=sys.stderr)
        return 2
    try:
        machine = Machine(*sys.argv[1:])
    except (OSError, termios.error, lh.Refused) as why:
        print(f"no host: {why}", file=sys.stderr)
        return 2
    with machine.host:
        try:
            machine.serve(1)
            for line in sys.stdin:
                machine.take_line(line.rstrip("\n"))
        except (OSError, Over) as why:
            print(why, file=sys.stderr)
            return 1
    return 0


if __name__ == "__main__":
    sys.exit(main())
