"""The devices that are tried, by docs/PROTOCOL.md: those of `tools/lining`, with what a person does to them, and with room for
a wrong habit. Each of them is right."""

import os
import select
import threading
import time

from devices import ANSWER_SECONDS, CUT_SECONDS, Acceptor, Bills, Bus, Hopper


class Tried:
    """What each device has beside what it answers. A wrong one has in `stays` what a reset leaves of it, and in `lasts` what
    a power cut leaves, which each should clear."""

    stays = lasts = ()

    def __init__(self, *words, **named):
        super().__init__(*words, **named)
        # How many coins were ordered of it, by whatever dispense.
        self.ordered = 0

    def begin(self, data: bytes) -> tuple[int, bytes]:
        return self.begin_but(self.stays, data)

    def power(self) -> None:
        """It is switched off and on."""
        self.begin_but(self.lasts, b"")

    def begin_but(self, names: tuple, data: bytes) -> tuple[int, bytes]:
        """It starts again, but for what has these names."""
        kept = {name: getattr(self, name) for name in names if hasattr(self, name)}
        told = super().begin(data)
        vars(self).update(kept)
        return told

    def answer(self, header: int, data: bytes, now: float) -> tuple[int, bytes] | None:
        if header == 167 and len(data) == 4:
            self.ordered += data[3]
        return super().answer(header, data, now)

    def replies(self, piece: bytes, now: float) -> list[tuple[float, bytes]]:
        """What it sends to a message, and how long after it or after what was sent before."""
        told = Bus.told(self, piece, now)
        return [(ANSWER_SECONDS, told)] if told else []

    def at_cut(self, heard: bytes) -> list[tuple[float, bytes]]:
        """What it sends where a silence cuts a message off."""
        return []

    def unasked(self, silence: float) -> bytes:
        """What it sends where nothing was heard for so long."""
        return b""


class Coins(Tried, Acceptor):
    """A coin acceptor that accepted coins before."""

    def __init__(self, *words, **named):
        super().__init__(*words, **named)
        self.accepts = self.before = 700

    def come(self) -> int:
        """How many coins it accepted since."""
        return self.accepts - self.before


class Notes(Tried, Bills):
    """A bill acceptor that accepted bills before."""

    def __init__(self, *words, **named):
        super().__init__(*words, **named)
        self.accepts = self.before = 300

    def come(self) -> int:
        return self.accepts - self.before


class Payer(Tried, Hopper):
    """A hopper that paid coins before."""

    def __init__(self, *words, **named):
        super().__init__(*words, **named)
        self.life, self.fallen = 65_000, 0

    def catch_up(self, now: float) -> None:
        paid = self.paid
        super().catch_up(now)
        self.fallen += self.paid - paid


class TriedBus(threading.Thread):
    """The devices at the end of a line, by the descriptor of it, each of which sends what its habit says. It gives back all
    that it hears where the line echoes."""

    def __init__(self, line: int, devices: list, echoes: bool):
        super().__init__(daemon=True)
        self.line, self.devices, self.echoes = line, devices, echoes
        self.is_over = threading.Event()
        # How many messages were heard, for whomever.
        self.messages = 0

    def run(self) -> None:
        heard, last = b"", time.monotonic()
        while not self.is_over.is_set():
            if select.select([self.line], [], [], CUT_SECONDS)[0]:
                piece = os.read(self.line, 600)
                if self.echoes:
                    os.write(self.line, piece)
                heard, last = self.whole(heard + piece), time.monotonic()
                continue
            if heard:
                self.each(lambda device, bytes_heard=heard: device.at_cut(bytes_heard))
                heard = b""
            silence = time.monotonic() - last
            if self.each(lambda device: [(0.0, device.unasked(silence))]):
                last = time.monotonic()

    def whole(self, heard: bytes) -> bytes:
        """Has the messages answered that are whole: what is left of the bytes."""
        while len(heard) > 1 and len(heard) >= heard[1] + 5:
            size, now = heard[1] + 5, time.monotonic()
            self.messages += 1
            self.each(lambda device, piece=heard[:size]: device.replies(piece, now))
            heard = heard[size:]
        return heard

    def each(self, told) -> bool:
        """Sends what each device tells that isn't dead: whether there was something."""
        sent = False
        for device in self.devices:
            for seconds, piece in [] if device.is_dead else told(device):
                time.sleep(seconds)
                if piece:
                    os.write(self.line, piece)
                    sent = True
        return sent

    def stop(self) -> None:
        self.is_over.set()
        self.join()
