"""Devices by docs/PROTOCOL.md for the other end of a line: they take coins at given moments, answer after a time of their own,
and fall silent when a script says so. cct_devices has the proved ones, which do neither."""

import os
import select
import threading
import time
from collections import deque

from line import End
from wire import CHECKS, HOST, message, spell

ACK = (0, b"")
NAK = (5, b"")
# So many events an acceptor keeps.
EVENTS = 5
# A device begins its answer so long after the last byte of what it was asked.
ANSWER_SECONDS = 0.005
# After so long a silence within a message the rest of it is a new one.
CUT_SECONDS = 0.05


def low_first(number: int, size: int = 3) -> bytes:
    return number.to_bytes(size, "little")


class Device:
    """What each device has. `answers` has, by the header, how many bytes of data are wanted, and what answers."""

    word = category = ""

    def __init__(self, address: int, check: str = "simple"):
        self.address, self.check = address, check
        self.serial = 1000 + address
        self.is_dead = False
        # The headers that it heard, with their data.
        self.heard = []
        self.answers = {254: (0, self.agree), 1: (0, self.begin), 4: (0, lambda data: (0, bytes([1, 4, 0]))),
                        242: (0, lambda data: (0, low_first(self.serial))), 245: (0, lambda data: (0, self.category.encode()))}
        for header, text in ((246, b"BENCH"), (244, b"CCT"), (241, b"1"), (192, b"1")):
            self.answers[header] = 0, lambda data, text=text: (0, text)

    def agree(self, data: bytes) -> tuple[int, bytes]:
        return ACK

    def begin(self, data: bytes) -> tuple[int, bytes]:
        """The device is reset."""
        return ACK

    def catch_up(self, now: float) -> None:
        """What befell the device up to now."""

    def answer(self, header: int, data: bytes, now: float) -> tuple[int, bytes] | None:
        self.heard.append((header, data))
        size, tell = self.answers.get(header, (None, None))
        if size != len(data):
            return None
        self.catch_up(now)
        return tell(data)

    def times(self, header: int) -> int:
        """How many times it heard a header."""
        return [each for each, _ in self.heard].count(header)


class Acceptor(Device):
    """A coin acceptor. Its coins have, by their place, their text and their value."""

    word, category = "acceptor", "Coin Acceptor"

    def __init__(self, address: int, check: str = "simple", coins: dict[int, tuple[str, int]] | None = None):
        super().__init__(address, check)
        self.coins = {5: ("EU100A", 100)} if coins is None else coins
        self.accepts = 0
        # When objects fall in, and of which place each is.
        self.due = deque()
        self.answers |= {231: (2, self.set_mask), 230: (0, lambda data: (0, self.mask)), 228: (1, self.set_master),
                         227: (0, lambda data: (0, bytes([self.master]))), 225: (0, lambda data: (0, low_first(self.accepts))),
                         229: (0, self.tell_events), 184: (1, self.tell_coin)}
        self.begin(b"")

    def lines(self) -> list[str]:
        """Its lines of a setup."""
        return [f"{self.word} {self.address} {self.check} {self.serial} 0",
                *(f"value {self.address} {place} {value} {text}" for place, (text, value) in self.coins.items() if value)]

    def begin(self, data: bytes) -> tuple[int, bytes]:
        self.mask, self.master, self.counter = bytes(2), 1, 0
        self.events = deque([(0, 0)] * EVENTS, EVENTS)
        return ACK

    def feed(self, first: float, every: float, last: float, place: int = 5) -> None:
        """A coin falls in at each of these moments."""
        while first < last:
            self.due.append((first, place))
            first += every

    def catch_up(self, now: float) -> None:
        while self.due and self.due[0][0] <= now:
            self.take(self.due.popleft()[1])

    def lets_in(self, place: int) -> bool:
        return bool(self.master and int.from_bytes(self.mask, "little") >> (place - 1) & 1)

    def take(self, place: int) -> None:
        """A coin falls in now."""
        is_accepted = self.lets_in(place)
        self.accepts += is_accepted
        self.tell((place, 1) if is_accepted else (0, 2))

    def tell(self, event: tuple[int, int]) -> None:
        self.counter = self.counter % 255 + 1
        self.events.appendleft(event)

    def set_mask(self, data: bytes) -> tuple[int, bytes]:
        self.mask = data
        return ACK

    def set_master(self, data: bytes) -> tuple[int, bytes]:
        self.master = data[0] & 1
        return ACK

    def tell_events(self, data: bytes) -> tuple[int, bytes]:
        return 0, bytes([self.counter, *(part for event in self.events for part in event)])

    def tell_coin(self, data: bytes) -> tuple[int, bytes]:
        place = data[0]
        return (0, self.coins.get(place, ("......", 0))[0].encode()) if 1 <= place <= 16 else NAK


class Bills(Acceptor):
    """A bill acceptor: the text of a bill has seven letters."""

    word, category = "bills", "Bill Validator"

    def __init__(self, address: int, check: str = "crc"):
        super().__init__(address, check, {1: ("EU0005A", 500), 2: ("EU0010A", 1000)})
        del self.answers[229], self.answers[184]
        self.answers |= {159: (0, self.tell_events), 154: (1, self.route), 157: (1, self.tell_bill),
                         156: (2, lambda data: (0, bytes([100, 0, 2])))}

    def lines(self) -> list[str]:
        """A setup has six letters of a text."""
        return [super().lines()[0], *(f"value {self.address} {place} {value} {text[:6]}"
                                      for place, (text, value) in self.coins.items())]

    def begin(self, data: bytes) -> tuple[int, bytes]:
        self.held = None
        return super().begin(data)

    def take(self, place: int) -> None:
        is_held = self.held is None and self.lets_in(place)
        if is_held:
            self.held = place
        self.tell((place, 1) if is_held else (0, 2))

    def route(self, data: bytes) -> tuple[int, bytes]:
        if self.held is None or data[0] > 1:
            return NAK
        self.accepts += data[0]
        self.tell((self.held, 0) if data[0] else (0, 1))
        self.held = None
        return ACK

    def tell_bill(self, data: bytes) -> tuple[int, bytes]:
        return (0, self.coins.get(data[0], (".......", 0))[0].encode()) if 1 <= data[0] <= 16 else NAK


class Hopper(Device):
    """A hopper, out of which a coin falls each tenth of a second while it pays."""

    word, category = "hopper", "Payout"
    FALL_SECONDS = 0.1

    def __init__(self, address: int, check: str = "simple", value: int = 10):
        super().__init__(address, check)
        self.value, self.life = value, 0
        self.answers |= {164: (1, self.enable), 163: (0, self.test), 166: (0, self.status), 167: (4, self.dispense),
                         168: (0, lambda data: (0, low_first(self.life))), 172: (0, self.stop)}
        self.begin(b"")

    def lines(self) -> list[str]:
        return [f"hopper {self.address} {self.check} {self.serial} 0 {self.value}"]

    def begin(self, data: bytes) -> tuple[int, bytes]:
        self.counter = self.left = self.paid = self.unpaid = 0
        self.is_on, self.is_new, self.next_fall = False, True, 0.0
        return ACK

    def catch_up(self, now: float) -> None:
        while self.left and self.next_fall <= now:
            self.left, self.paid = self.left - 1, self.paid + 1
            self.life += 1
            self.next_fall += self.FALL_SECONDS

    def end(self) -> None:
        """A payout is over: what is left stays unpaid."""
        self.unpaid, self.left = self.unpaid + self.left, 0

    def enable(self, data: bytes) -> tuple[int, bytes]:
        self.is_on = data[0] == 165
        if not self.is_on:
            self.end()
        return ACK

    def test(self, data: bytes) -> tuple[int, bytes]:
        told = 64 * self.is_new + 128 * (not self.is_on)
        self.is_new = False
        return 0, bytes([told])

    def status(self, data: bytes) -> tuple[int, bytes]:
        return 0, bytes([self.counter, self.left, self.paid, self.unpaid])

    def dispense(self, data: bytes) -> tuple[int, bytes]:
        if not self.is_on or self.left or data[:3] != low_first(self.serial) or not data[3]:
            return NAK
        self.counter = self.counter % 255 + 1
        self.left, self.paid, self.unpaid = data[3], 0, 0
        self.next_fall = time.monotonic() + self.FALL_SECONDS
        return ACK

    def stop(self, data: bytes) -> tuple[int, bytes]:
        told = self.left
        self.end()
        return 0, bytes([told])


def setup_of(devices: list[Device]) -> str:
    """The setup of a machine with these devices."""
    return "\n".join([*(line for device in devices for line in device.lines()), "begin", ""])


class Bus(threading.Thread):
    """The devices at the end of a line. A dead one doesn't answer."""

    def __init__(self, end: End, devices: list[Device]):
        super().__init__(daemon=True)
        self.devices = sorted(devices, key=lambda device: device.address)
        self.port = os.open(end.port, os.O_RDWR | os.O_NOCTTY)
        self.is_over = threading.Event()
        # How many messages were heard, for whomever.
        self.messages = 0

    def run(self) -> None:
        heard = b""
        while not self.is_over.is_set():
            if not select.select([self.port], [], [], CUT_SECONDS)[0]:
                heard = b""
                continue
            heard += os.read(self.port, 600)
            while len(heard) > 1 and len(heard) >= heard[1] + 5:
                size = heard[1] + 5
                self.reply(heard[:size])
                heard = heard[size:]

    def reply(self, piece: bytes) -> None:
        """Answers a message, after a while."""
        now = time.monotonic()
        self.messages += 1
        told = self.polled(piece) or b"".join(self.told(device, piece, now) for device in self.devices)
        if told:
            time.sleep(max(0.0, now + ANSWER_SECONDS - time.monotonic()))
            os.write(self.port, told)

    def polled(self, piece: bytes) -> bytes:
        """The answers to an address poll, bare addresses."""
        checks = [check for check in CHECKS if piece == spell(check, 0, HOST, 253)]
        return bytes(device.address for device in self.devices if device.check in checks and not device.is_dead)

    @staticmethod
    def told(device: Device, piece: bytes, now: float) -> bytes:
        """A device's answer to a message for it."""
        asked = message(device.check, piece)
        if device.is_dead or asked is None or asked[0] != device.address:
            return b""
        answer = device.answer(asked[2], asked[3], now)
        return spell(device.check, HOST, device.address, *answer) if answer else b""

    def stop(self) -> None:
        self.is_over.set()
        self.join()
        os.close(self.port)
