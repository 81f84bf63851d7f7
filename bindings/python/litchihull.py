"""litchihull.h for Python, by ctypes, without further packages: the parts, device cores and the host.

The library is one shared object, which tools/check_c builds as docs/EMBED.md says: pass its path to `Library`. Each call gives
what it read or wrote, or raises `Refused` with the code of litchihull.h.
"""

import ctypes
from ctypes import POINTER, Structure, byref, c_size_t, c_uint8, c_uint16, c_uint32, c_uint64, c_void_p

SIMPLE, CRC = 0, 1
MOST = 260
OK, TOO_LONG, SHORT, BAD_LENGTH, DAMAGED, BAD_ECHO = 0, 3, 6, 7, 8, 9
SILENCE, NAK, BUSY, OTHER, MORE = 10, 11, 12, 13, 14
READ_CREDITS, SET_MASTER, SET_MASK, SERIAL, CATEGORY, POLL = 229, 228, 231, 242, 245, 254
ACK, CREDITS, TEXT, SERIAL_NUMBER = 0, 1, 10, 11
BAD_SETUP, BAD_RECORD, BAD_COMMAND, NOT_NOW = 27, 30, 31, 32
IDLE, SEND, HEAR, WRITE, SYNC, TAKE, ENDED = range(7)
MOST_HEARD, MOST_ASKED = 520, 3000


class Refused(Exception):
    """A call that did nothing, with its code; `where` is the number of the refused line, or the index of the bad record."""

    def __init__(self, code: int, where: int = 0):
        super().__init__(f"code {code} of litchihull.h" + (f", at {where}" if code in (BAD_SETUP, BAD_RECORD) else ""))
        self.code, self.where = code, where


class Event(Structure):
    _fields_ = [("a", c_uint8), ("b", c_uint8)]


class Reply(Structure):
    _fields_ = [("number", c_uint32), ("mask", c_uint16), ("counter", c_uint8), ("value", c_uint8),
                ("remaining", c_uint8), ("paid", c_uint8), ("unpaid", c_uint8),
                ("release", c_uint8), ("major", c_uint8), ("minor", c_uint8),
                ("events", Event * 5), ("id", c_uint8 * 6), ("count", c_uint8), ("text_bytes", c_uint8 * 255)]

    @property
    def text(self) -> str:
        return bytes(self.text_bytes[:self.count]).decode("ascii")


class Framer(Structure):
    _fields_ = [("check", c_uint8), ("count", c_uint16), ("bytes", c_uint8 * MOST)]


class Settings(Structure):
    _fields_ = [("family", c_uint8), ("check", c_uint8), ("address", c_uint8), ("serial", c_uint32), ("count", c_uint32),
                ("maker", c_uint8 * 24), ("product", c_uint8 * 24), ("software", c_uint8 * 24), ("build", c_uint8 * 24),
                ("ids", c_uint8 * 6 * 16)]


class Asked(Structure):
    _fields_ = [("at", c_uint64), ("count", c_size_t), ("what", c_uint8)]


class Totals(Structure):
    _fields_ = [(name, c_uint64) for name in ("available", "reserved", "paid", "sold")]


class Handle(Structure):
    _fields_ = [("at", c_void_p)]


def checked(code: int, where: int = 0) -> None:
    if code != OK:
        raise Refused(code, where)


class Library:
    """The library at a path. Bytes are Python's own, so no pointer is null and each count is right."""

    def __init__(self, path: str):
        raw = ctypes.CDLL(path)
        octets, code, count = ctypes.c_char_p, c_uint8, c_size_t
        for name, words, gives in (
            ("crc16", [octets, count], c_uint16),
            ("request_write", [code, code, code, octets, count, c_void_p, count, POINTER(count)], c_uint32),
            ("reply_read", [code, code, code, octets, count, octets, count, POINTER(Reply)], c_uint32),
            ("framer_gap", [POINTER(Framer), code], c_uint32),
            ("framer_feed", [POINTER(Framer), code], c_uint32),
            ("settings_new", [POINTER(Settings), POINTER(c_void_p)], c_uint32),
            ("core_new", [Handle, POINTER(c_void_p)], c_uint32),
            ("core_byte", [Handle, code, POINTER(c_void_p)], c_uint32),
            ("core_gap", [Handle, c_void_p, count, POINTER(count), POINTER(c_void_p)], c_uint32),
            ("core_put", [Handle, code, POINTER(c_uint8), POINTER(c_void_p)], c_uint32),
            ("machine_new", [octets, count, POINTER(c_uint32), POINTER(c_void_p)], c_uint32),
            ("host_new", [Handle, octets, count, POINTER(c_uint32), POINTER(c_void_p)], c_uint32),
            ("host_ask", [Handle, code, POINTER(Asked), c_void_p, count, POINTER(c_void_p)], c_uint32),
            *((f"host_{word}", [Handle, POINTER(c_void_p)], c_uint32) for word in ("done", "lost", "taken")),
            *((f"host_{word}", [Handle, octets, count, POINTER(c_void_p)], c_uint32) for word in ("heard", "command")),
            ("host_totals", [Handle, POINTER(Totals), POINTER(c_void_p)], c_uint32),
            ("free", [Handle], None),
        ):
            call = getattr(raw, f"lh_raw_{name}")
            call.argtypes, call.restype = words, gives
            setattr(self, f"_{name}", call)

    def crc16(self, octets: bytes) -> int:
        return self._crc16(octets, len(octets))

    def request(self, check: int, address: int, header: int, data: bytes = b"") -> bytes:
        """The message by which the host asks this."""
        room, written = (c_uint8 * MOST)(), c_size_t()
        checked(self._request_write(check, address, header, data, len(data), room, MOST, byref(written)))
        return bytes(room[:written.value])

    def reply(self, check: int, address: int, form: int, sent: bytes, heard: bytes) -> Reply:
        """The reply in a form after what was sent; without an echo on the line, pass no bytes as `sent`."""
        reply = Reply()
        checked(self._reply_read(check, address, form, sent, len(sent), heard, len(heard), byref(reply)))
        return reply

    def framer(self, check: int) -> Framer:
        """A framer after a gap."""
        framer = Framer()
        checked(self._framer_gap(byref(framer), check))
        return framer

    def feed(self, framer: Framer, octet: int) -> bool:
        """Whether the bytes since the gap are a message with this one more."""
        return self._framer_feed(byref(framer), octet) == OK


class Owned:
    """What the library made over something that it borrows. Close it, or use it in a `with`."""

    def __init__(self, library: Library, lend, make):
        self.library, self.made, self.lent, self.where = library, Handle(), Handle(), c_uint32()
        at = c_void_p()
        checked(lend(byref(at)), self.where.value)
        self.lent.at = at.value
        code = make(self.lent, byref(at))
        if code != OK:
            library._free(self.lent)
        checked(code, self.where.value)
        self.made.at = at.value

    def close(self) -> None:
        if self.made.at:
            self.library._free(self.made)
            self.library._free(self.lent)
            self.made.at = self.lent.at = None

    def _call(self, call, *words) -> int:
        """The code of a call, which gives what was made back as it was."""
        if not self.made.at:
            raise ValueError("it is closed")
        return call(self.made, *words, byref(c_void_p()))

    def __enter__(self):
        return self

    def __exit__(self, *_) -> None:
        self.close()


class Core(Owned):
    """A device core."""

    def __init__(self, library: Library, settings: Settings):
        super().__init__(library, lambda out: library._settings_new(byref(settings), out), library._core_new)

    def hear(self, octets: bytes) -> bytes:
        """The answer to bytes and a gap; no bytes where it is silent."""
        room, written = (c_uint8 * MOST)(), c_size_t()
        for octet in octets:
            self._call(self.library._core_byte, octet)
        code = self._call(self.library._core_gap, room, MOST, byref(written))
        return bytes(room[:written.value]) if code == OK else b""

    def put(self, place: int) -> int:
        """The sorter path of a coin that is accepted; raises `Refused` where it comes back."""
        path = c_uint8()
        checked(self._call(self.library._core_put, place, byref(path)))
        return path.value


class Host(Owned):
    """A host of the machine that setup lines say, over the bytes that its part holds now. It copies both, and calls nothing:
    `ask` says what it wants, and docs/EMBED.md by which method each is answered."""

    def __init__(self, library: Library, setup: bytes, part: bytes):
        super().__init__(library, lambda out: library._machine_new(setup, len(setup), byref(self.where), out),
                         lambda machine, out: library._host_new(machine, part, len(part), byref(self.where), out))
        self.room = (c_uint8 * MOST_ASKED)()

    def ask(self, address: int) -> tuple[int, int, bytes]:
        """What is to be done next, at an address if nothing else is due: IDLE to ENDED, where a write goes, and the bytes."""
        asked = Asked()
        checked(self._call(self.library._host_ask, address, byref(asked), self.room, MOST_ASKED))
        return asked.what, asked.at, bytes(self.room[:asked.count])

    def done(self) -> None:
        """The write or the sync was made."""
        checked(self._call(self.library._host_done))

    def lost(self) -> None:
        """It failed, or it isn't known whether it was made: the host is over."""
        checked(self._call(self.library._host_lost))

    def taken(self) -> None:
        """The line was taken."""
        checked(self._call(self.library._host_taken))

    def heard(self, octets: bytes) -> None:
        """After the message that was sent these bytes came, its echo first."""
        checked(self._call(self.library._host_heard, octets, len(octets)))

    def command(self, line: bytes) -> None:
        """The operator gives a command, a line without its line feed."""
        checked(self._call(self.library._host_command, line, len(line)))

    def totals(self) -> Totals:
        """What the operator has, in units of value."""
        totals = Totals()
        checked(self._call(self.library._host_totals, byref(totals)))
        return totals
