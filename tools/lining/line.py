"""A line of pseudo-terminals in raw mode, what runs at its ends, and the wire between them with the pace of a real one."""

import os
import select
import sys
import termios
import threading
import time
import tty
from collections import deque
from contextlib import contextmanager

# So many seconds a thread of a script goes on at most while another one waits: half the time of a byte.
sys.setswitchinterval(0.0005)
# On a wire of so many bits a second a byte has ten: a start bit, eight of data, and a stop bit.
BAUD = 9600
BYTE_SECONDS = 10 / BAUD


class End:
    """A pseudo-terminal: a program opens `port`, and `ours` has the bytes of the line. A read of the program gives 0 bytes
    where none came for so many tenths of a second, as `stty raw -echo min 0 time TENTHS` sets it."""

    def __init__(self, tenths: int = 1):
        self.ours, self.theirs = os.openpty()
        tty.setraw(self.ours)
        tty.setraw(self.theirs)
        mode = termios.tcgetattr(self.theirs)
        mode[6][termios.VMIN] = 0
        mode[6][termios.VTIME] = tenths
        termios.tcsetattr(self.theirs, termios.TCSANOW, mode)
        self.port = os.ttyname(self.theirs)

    def close(self) -> None:
        os.close(self.theirs)
        os.close(self.ours)


class Pump(threading.Thread):
    """The one data wire of ccTalk between a host's end and the devices': one byte goes over it at a time, whoever sends it, in
    the time of a byte. Where it echoes, the host hears its own bytes as they go by. Devices never hear theirs."""

    def __init__(self, host: End, devices: End, echoes: bool = False):
        super().__init__(daemon=True)
        self.host, self.devices = host.ours, devices.ours
        self.echoes = echoes
        # The bytes that weren't sent yet: whose each is, what it is, and when it came.
        self.queue = deque()
        # When the last byte that went over the wire was over.
        self.over = 0.0
        # Whose that byte was, how many went over the wire, and how long the devices took to begin their answers, in all.
        self.last = None
        self.bytes = 0
        self.delay = 0.0
        self.is_over = threading.Event()
        self.wants_still = threading.Event()
        self.is_still = threading.Event()

    def run(self) -> None:
        while not self.is_over.is_set():
            if self.wants_still.is_set() and not self.queue:
                self.is_still.set()
                time.sleep(0.001)
                continue
            self.is_still.clear()
            # At the longest so long, so that what is asked of this thread is seen.
            self.take(max(0.0, self.due() - time.monotonic()) if self.queue else 0.01)
            while self.queue and self.due() <= time.monotonic():
                self.give()

    def due(self) -> float:
        """When the first byte that waits will be over."""
        return max(self.over, self.queue[0][2]) + BYTE_SECONDS

    def take(self, seconds: float) -> None:
        """What comes from either end within so many seconds waits for the wire."""
        for end in select.select([self.host, self.devices], [], [], seconds)[0]:
            now = time.monotonic()
            self.queue.extend((end, byte, now) for byte in os.read(end, 600))

    def give(self) -> None:
        """The first byte that waits has gone over the wire."""
        over = self.due()
        end, byte, came = self.queue.popleft()
        if end == self.devices and self.last == self.host:
            self.delay += max(0.0, came - self.over)
        self.over, self.last = over, end
        self.bytes += 1
        piece = bytes([byte])
        if end == self.devices or self.echoes:
            os.write(self.host, piece)
        if end == self.host:
            os.write(self.devices, piece)

    @contextmanager
    def still(self, seconds: float = 0.15):
        """The wire is left alone once nothing went over it for so long: what the ends send waits."""
        while time.monotonic() - self.over < seconds or self.queue:
            time.sleep(0.005)
        self.wants_still.set()
        self.is_still.wait(10)
        try:
            yield
        finally:
            self.wants_still.clear()

    def stop(self) -> None:
        self.is_over.set()
        self.join()
