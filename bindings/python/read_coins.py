#!/usr/bin/env python3
"""Reads the coins of an acceptor on a serial line at 9600 baud, and shows them, as bindings/c/read_coins.c does.

    read_coins.py LIBRARY PORT ADDRESS READINGS [echo]
"""

import os
import sys
import termios
import time
import tty

import litchihull as lh

TRIES, PAUSE = 3, 0.15


def open_port(path: str) -> int:
    """A raw line at 9600 baud, 8 bits, no parity, whose read gives up after a fifth of a second."""
    port = os.open(path, os.O_RDWR | os.O_NOCTTY)
    tty.setraw(port)
    mode = termios.tcgetattr(port)
    mode[2] |= termios.CLOCAL | termios.CREAD
    mode[4] = mode[5] = termios.B9600
    mode[6][termios.VMIN], mode[6][termios.VTIME] = 0, 2
    termios.tcsetattr(port, termios.TCSANOW, mode)
    return port


class Acceptor:
    """An acceptor on a line."""

    def __init__(self, library: lh.Library, path: str, address: int, echoes: bool):
        self.library, self.address, self.echoes, self.port = library, address, echoes, open_port(path)

    def hear(self, echo: int) -> bytes:
        """An echo of so many bytes and what follows it, up to a whole message or a silence."""
        heard, framer = b"", self.library.framer(lh.SIMPLE)
        while octet := os.read(self.port, 1):
            heard += octet
            if len(heard) > echo and self.library.feed(framer, octet[0]):
                break
        return heard

    def ask(self, header: int, form: int, data: bytes = b"") -> lh.Reply:
        """The reply to a request, which is asked three times at most."""
        sent = self.library.request(lh.SIMPLE, self.address, header, data)
        echo = sent if self.echoes else b""
        for left in reversed(range(TRIES)):
            termios.tcflush(self.port, termios.TCIFLUSH)
            os.write(self.port, sent)
            try:
                return self.library.reply(lh.SIMPLE, self.address, form, echo, self.hear(len(echo)))
            except lh.Refused as refused:
                if not left or refused.code == lh.NAK:
                    raise
        raise AssertionError

    def begin(self) -> None:
        """Shows who answers, and lets all coins in."""
        self.ask(lh.POLL, lh.ACK)
        category, serial = self.ask(lh.CATEGORY, lh.TEXT).text, self.ask(lh.SERIAL, lh.SERIAL_NUMBER).number
        print(f"{self.address}: {category}, serial number {serial}", flush=True)
        self.ask(lh.SET_MASK, lh.ACK, b"\xff\xff")
        self.ask(lh.SET_MASTER, lh.ACK, b"\x01")


def main(library: str, port: str, address: str, readings: str, *words: str) -> None:
    acceptor = Acceptor(lh.Library(library), port, int(address), "echo" in words)
    acceptor.begin()
    before = acceptor.ask(lh.READ_CREDITS, lh.CREDITS).counter
    for _ in range(int(readings)):
        time.sleep(PAUSE)
        reply = acceptor.ask(lh.READ_CREDITS, lh.CREDITS)
        if reply.counter == 0 and before != 0:
            print("reset", flush=True)
            acceptor.begin()
        else:
            count = (reply.counter - before) % 255
            if count > 5:
                print(f"{count - 5} events are lost")
            for event in reversed(reply.events[:min(count, 5)]):
                print(f"coin of place {event.a} by path {event.b}" if event.a else f"error {event.b}", flush=True)
        before = reply.counter


if __name__ == "__main__":
    if len(sys.argv) < 5:
        sys.exit(__doc__)
    main(*sys.argv[1:])
