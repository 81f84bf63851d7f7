"""Devices with one wrong habit each: what breaks, in which trial at least, and what an exchange has to be to show it. What is
right and wrong is by docs/PROTOCOL.md. The same devices without the habit are those of `tried`."""

import time
from dataclasses import dataclass
from typing import Callable

from devices import ACK, NAK, low_first
from tried import Coins, Notes, Payer
from wire import HOST, message, number, spell

# Later than each device has to answer, and before the program has listened twice as long.
LATE_SECONDS = 0.45


@dataclass
class Habit:
    """A device with a wrong habit; `shows` says of what was sent, and of what came after the echo, whether it shows it. `rest`
    are the words of the program beside the port's. `setup` and `others` are the devices of the setup and those that are there
    too, where they aren't the device alone."""

    device: object
    premise: str
    trial: str
    shows: Callable[[bytes, bytes], bool]
    rest: tuple = ()
    address: int | None = None
    setup: list | None = None
    others: tuple = ()


def asked(device, header: int, tells: Callable[[bytes], bool] = lambda data: True, data: bytes | None = None):
    """Whether this was asked of the device, and it told that."""
    def shows(sent: bytes, rest: bytes) -> bool:
        question, answer = message(device.check, sent), message(device.check, rest)
        return bool(question and answer and question[0] == device.address and question[2] == header
                    and data in (None, question[3]) and answer[0] == HOST and answer[2] == 0 and tells(answer[3]))
    return shows


def is_(wanted: bytes):
    return lambda data: data == wanted


HANDS = ("--hands",)
COINS = ("--coins", "10")


class LowMask(Coins):
    """Its mask has eight bits."""

    def set_mask(self, data):
        return super().set_mask(data[:1] + b"\x00")


class Normal(Coins):
    """It always tells normal operation."""

    def __init__(self, *words):
        super().__init__(*words)
        self.answers[227] = 0, lambda data: (0, b"\x01")


class NoCount(Coins):
    """Its accept counter doesn't rise."""

    def take(self, place):
        kept = self.accepts
        super().take(place)
        self.accepts = kept


class CountCleared(Coins):
    """A reset clears its accept counter."""

    def begin(self, data):
        self.accepts = 0
        return super().begin(data)


class CountLost(Coins):
    """Its accept counter is gone with the power."""

    def power(self):
        self.accepts = 0
        super().power()


class ThroughZero(Coins):
    """Its event counter goes from 255 to 0."""

    def tell(self, event):
        before = self.counter
        super().tell(event)
        self.counter = (before + 1) % 256


class StandsStill(Coins):
    """Its event counter stands still once it has five events that weren't read."""

    unread = 0

    def tell(self, event):
        before, self.unread = self.counter, self.unread + 1
        super().tell(event)
        if self.unread > 5:
            self.counter = before

    def tell_events(self, data):
        self.unread = 0
        return super().tell_events(data)


class SixEvents(Coins):
    """It tells six events."""

    def tell_events(self, data):
        header, told = super().tell_events(data)
        return header, told + bytes(2)


class BesideMask(Coins):
    """It accepts what its mask doesn't let in."""

    def lets_in(self, place):
        return bool(self.master)


class BesideMaster(Coins):
    """It accepts at master inhibit."""

    def lets_in(self, place):
        return bool(int.from_bytes(self.mask, "little") >> (place - 1) & 1)


class RoutesAgain(Notes):
    """It acknowledges a route though it holds no bill."""

    def route(self, data):
        super().route(data)
        return ACK


class LateBills(Notes):
    """It tells its bills late."""

    def replies(self, piece, now):
        asked_of = message(self.check, piece)
        return [(seconds + LATE_SECONDS * bool(asked_of and asked_of[2] == 157), told) for seconds, told in super().replies(piece, now)]


class StacksAll(Notes):
    """It stacks a bill that is to be given back."""

    def route(self, data):
        return super().route(b"\x01")


class LifeStays(Payer):
    """Its life count doesn't rise."""

    def catch_up(self, now):
        kept = self.life
        super().catch_up(now)
        self.life = kept


class LifeTwice(Payer):
    """Its life count rises by two for each coin."""

    def catch_up(self, now):
        paid = self.fallen
        super().catch_up(now)
        self.life += self.fallen - paid


class LifeCleared(Payer):
    """Its life count falls at a reset."""

    def begin(self, data):
        self.life = 0
        return super().begin(data)


class LifeLost(Payer):
    """Its life count falls with the power."""

    def power(self):
        self.life = 0
        super().power()


class AnySerial(Payer):
    """It pays under any serial number."""

    def dispense(self, data):
        return super().dispense(low_first(self.serial) + data[3:])


class PaysRefused(Payer):
    """It refuses a dispense under another serial number, and pays it."""

    def dispense(self, data):
        told = super().dispense(low_first(self.serial) + data[3:])
        return told if data[:3] == low_first(self.serial) else NAK


class AlwaysOn(Payer):
    """It pays before it is enabled."""

    def dispense(self, data):
        self.is_on = True
        return super().dispense(data)


class TakesMore(Payer):
    """It takes a dispense while it pays, and pays both."""

    FALL_SECONDS = 0.5

    def dispense(self, data):
        left, self.left = self.left, 0
        told = super().dispense(data)
        self.left += left
        return told


class PaysOn(Payer):
    """It tells what is left at a stop, and pays on."""

    FALL_SECONDS = 0.7

    def stop(self, data):
        return 0, bytes([self.left])


class PaysOnHidden(Payer):
    """It tells that a stop ended the payout, and lets one coin more fall after a while."""

    FALL_SECONDS, MORE_SECONDS = 0.7, 0.6
    more_at = float("inf")

    def stop(self, data):
        self.more_at = time.monotonic() + self.MORE_SECONDS if self.left else self.more_at
        return super().stop(data)

    def catch_up(self, now):
        super().catch_up(now)
        if self.more_at <= now:
            self.more_at, self.life, self.fallen = float("inf"), self.life + 1, self.fallen + 1


class Late(Payer):
    """It tells its serial number late."""

    def replies(self, piece, now):
        asked_of = message(self.check, piece)
        is_late = asked_of and asked_of[2] == 242
        return [(seconds + LATE_SECONDS * is_late, told) for seconds, told in super().replies(piece, now)]


class LateInAll(Payer):
    """It answers everything late."""

    def replies(self, piece, now):
        return [(seconds + LATE_SECONDS, told) for seconds, told in super().replies(piece, now)]


class Twice(Payer):
    """It sends each reply once more, after a while."""

    AGAIN_SECONDS = 0.01

    def replies(self, piece, now):
        return [part for _, told in super().replies(piece, now) for part in ((0.005, told), (self.AGAIN_SECONDS, told))]


class TwiceAtOnce(Twice):
    """It sends each reply once more, at once."""

    AGAIN_SECONDS = 0.0


class Second(Payer):
    """It answers a little later than another device of its address, which has another serial number."""

    LATER_SECONDS = 0.03

    def __init__(self, *words):
        super().__init__(*words)
        self.serial = 7777

    def replies(self, piece, now):
        return [(self.LATER_SECONDS, told) for _, told in super().replies(piece, now)]


class SecondAtOnce(Second):
    """It answers right after the other device."""

    LATER_SECONDS = 0.0


class AnyCheck(Payer):
    """It doesn't look at the last byte of a message."""

    def replies(self, piece, now):
        if message(self.check, piece) is None and self.check == "simple":
            piece = piece[:-1] + bytes([-sum(piece[:-1]) % 256])
        return super().replies(piece, now)


class BothChecks(Payer):
    """It answers under either check."""

    def replies(self, piece, now):
        told, other = super().replies(piece, now), "crc" if self.check == "simple" else "simple"
        asked_of = message(other, piece)
        if told or asked_of is None or asked_of[0] != self.address:
            return told
        answer = self.answer(asked_of[2], asked_of[3], now)
        return [(0.005, spell(other, HOST, self.address, *answer))] if answer else []


class FourBytes(Payer):
    """It answers a message of which the last byte is missing."""

    def at_cut(self, heard):
        whole = spell(self.check, self.address, HOST, heard[3]) if len(heard) == 4 else b""
        return self.replies(whole, 0.0) if whole[:4] == heard else []


class DeafAfterCut(Payer):
    """After a message that was cut off it doesn't hear the next one."""

    is_deaf = False

    def at_cut(self, heard):
        self.is_deaf = True
        return []

    def replies(self, piece, now):
        told, self.is_deaf = [] if self.is_deaf else super().replies(piece, now), False
        return told


class AfterNoise(Payer):
    """It finds a message after noise."""

    def at_cut(self, heard):
        return [part for start in range(1, len(heard)) for part in self.replies(heard[start:], 0.0)]


class AnyHeader(Payer):
    """It acknowledges each header that it doesn't know."""

    def answer(self, header, data, now):
        return super().answer(header, data, now) if header in self.answers else ACK


class OtherCategory(Payer):
    """It says that it is another kind of device."""

    category = "Coin Acceptor"


class AnyAddress(Payer):
    """It answers at each address."""

    def replies(self, piece, now):
        asked_of = message(self.check, piece)
        if asked_of is None or asked_of[0] in (0, self.address):
            return super().replies(piece, now)
        return [(0.005, spell(self.check, HOST, asked_of[0], 0))]


class Speaks(Coins):
    """It sends a byte where the line was silent for long."""

    def unasked(self, silence):
        return b"\x55" if silence > 1.3 else b""


class Deaf(Coins):
    """It doesn't answer one question."""

    def answer(self, header, data, now):
        return None if header == 227 else super().answer(header, data, now)


class NamesAnother(Coins):
    """One of its replies names another source."""

    def replies(self, piece, now):
        asked_of = message(self.check, piece)
        if asked_of is None or asked_of[0] != self.address or asked_of[2] != 230:
            return super().replies(piece, now)
        return [(0.005, spell(self.check, HOST, self.address + 1, 0, self.mask))]


class Busy(Coins):
    """It answers one question with header 6."""

    def answer(self, header, data, now):
        return (6, b"") if header == 225 else super().answer(header, data, now)


def with_stays(device, *names: str):
    """The device, of which a reset leaves what has these names."""
    device.stays = names
    return device


def with_lasts(device, *names: str):
    """The device, of which a power cut leaves what has these names."""
    device.lasts = names
    return device


def of_acceptors() -> dict[str, Habit]:
    """Habits of acceptors of coins, each under one of the checks."""
    def habit(device, premise, trial, header, tells, rest=HANDS, data=None, setup=None):
        return Habit(device, premise, trial, asked(device, header, tells, data), rest, setup=setup)
    other = Coins(2, "crc", {5: ("EU100A", 100), 6: ("EU050A", 50)})
    return {
        "events_over_a_reset": habit(with_stays(Coins(2), "counter", "events"), "empty", "emptied", 229, lambda data: data[0]),
        "mask_over_a_reset": habit(with_stays(Coins(2, "crc"), "mask"), "inhibited", "remask", 230, is_(b"\xff\xff"), ()),
        "master_over_a_reset": habit(with_stays(Coins(2), "master"), "master", "remaster", 227, is_(b"\x00"), ()),
        "normal_always": habit(Normal(2, "crc"), "master", "onoff", 227, is_(b"\x01"), ()),
        "mask_of_eight_bits": habit(LowMask(2), "mask", "bits", 230, is_(bytes(2)), ()),
        "count_stays": habit(NoCount(2, "crc"), "count", "counted", 225, lambda data: number(data) == 700),
        "count_over_a_reset": habit(CountCleared(2), "count", "recount", 225, is_(bytes(3)), ()),
        "count_over_power": habit(CountLost(2, "crc"), "power", "again", 225, is_(bytes(3))),
        "mask_over_power": habit(with_lasts(Coins(2), "mask"), "power", "again", 230, is_(b"\xff\xff")),
        "events_over_power": habit(with_lasts(Coins(2, "crc"), "counter", "events"), "power", "again", 229,
                                   lambda data: data[0]),
        "counter_through_0": habit(ThroughZero(2), "wrap", "wrap", 229, lambda data: data[0] == 0, ("--hands", "--long")),
        "counter_stands_still": habit(StandsStill(2, "crc"), "events", "six", 229, lambda data: data[1:] == b"\x05\x01" * 5),
        "six_events": habit(SixEvents(2), "form", "reset", 229, lambda data: len(data) == 13, ()),
        "coin_beside_the_mask": habit(BesideMask(2, "crc"), "accepts", "refused", 229, lambda data: data[1:3] == b"\x05\x01"),
        "coin_at_master_0": habit(BesideMaster(2), "accepts", "off", 229, lambda data: data[1:3] == b"\x05\x01"),
        "another_coin": habit(other, "places", "places", 184, is_(b"EU050A"), (), b"\x06",
                              [Coins(2, "crc", {5: ("EU100A", 100), 6: ("EU200A", 200)})]),
    }


def of_bills() -> dict[str, Habit]:
    """Habits of bill acceptors."""
    def habit(device, premise, trial, header, tells, rest=HANDS, data=None):
        return Habit(device, premise, trial, asked(device, header, tells, data), rest)
    late, other = LateBills(6, "simple"), Notes(6, "crc")
    other.coins = {1: ("EU0005A", 500), 2: ("EU0020A", 2000)}
    return {
        "another_bill": Habit(other, "places", "places", asked(other, 157, is_(b"EU0020A"), b"\x02"), (), setup=[Notes(6, "crc")]),
        "late_bills": Habit(late, "prompt", "places", listened(late, 0)),
        "second_route": habit(RoutesAgain(6, "simple"), "route", "stack", 154, is_(b""), data=b"\x01"),
        "second_route_back": habit(RoutesAgain(6, "crc"), "route", "back", 154, is_(b""), data=b"\x00"),
        "stacks_all": habit(StacksAll(6, "simple"), "route", "back", 159, lambda data: data[1:3] == b"\x01\x00"),
        "bills_mask_over_power": habit(with_lasts(Notes(6, "crc"), "mask"), "power", "again", 230, is_(b"\xff\xff")),
        "bills_events_over_a_reset": habit(with_stays(Notes(6, "simple"), "counter", "events"), "empty", "emptied", 159,
                                           lambda data: data[0]),
    }


def of_hoppers() -> dict[str, Habit]:
    """Habits of hoppers."""
    def habit(device, premise, trial, header, tells, rest=COINS, data=None):
        return Habit(device, premise, trial, asked(device, header, tells, data), rest)
    strange = [low_first(1004) + b"\x01", low_first(1003) + b"\x01"]
    return {
        "life_stays": habit(LifeStays(3), "rises", "pay", 168, lambda data: number(data) == 65_000),
        "life_by_two": habit(LifeTwice(3, "crc"), "rises", "pay", 168, lambda data: number(data) == 65_002),
        "life_over_a_reset": habit(LifeCleared(3), "life", "relife", 168, is_(bytes(3)), ()),
        "life_over_power": habit(LifeLost(3, "crc"), "lasts", "again", 168, is_(bytes(3)), HANDS),
        "any_serial": habit(AnySerial(3), "serial", "stranger", 167, is_(b""), data=strange[0]),
        "pays_what_it_refused": habit(PaysRefused(3, "crc"), "serial", "stranger", 168, lambda data: number(data) == 65_001),
        "before_enabling": habit(AlwaysOn(3), "enable", "early", 167, is_(b""), data=strange[1]),
        "while_it_pays": habit(TakesMore(3, "crc"), "busy", "busy", 167, is_(b""), data=strange[1]),
        "pays_on": habit(PaysOn(3), "stop", "stop", 166, lambda data: data[1] > 0),
        "pays_on_hidden": habit(PaysOnHidden(3, "crc"), "stop", "stop", 168, lambda data: True),
        "status_over_a_reset": habit(with_stays(Payer(3), "counter", "paid", "unpaid"), "status", "restatus", 166,
                                     lambda data: any(data)),
    }


def listened(device, header: int):
    """Whether nothing was sent, and such a reply of the device came."""
    def shows(sent: bytes, rest: bytes) -> bool:
        answer = message(device.check, rest)
        return sent == b"" and answer is not None and answer[0] == HOST and answer[2] == header
    return shows


def two_replies(first: bytes, second: bytes):
    """Whether one of these came after the other, or alone where nothing was sent."""
    return lambda sent, rest: rest == first + second if sent else rest == second


def of_all() -> dict[str, Habit]:
    """Habits that any device may have."""
    late, late_in_all, twice, at_once, second = Late(3), LateInAll(3, "crc"), Twice(3), TwiceAtOnce(3, "crc"), Second(3)
    beside, close_by = Payer(3, "crc"), SecondAtOnce(3, "crc")
    first, any_check, both, four, noisy = Payer(3), AnyCheck(3), BothChecks(3, "crc"), FourBytes(3), AfterNoise(3, "crc")
    keeps, header, wrong, kind = DeafAfterCut(3), AnyHeader(3), Coins(2), OtherCategory(3, "crc")
    address, speaks, deaf, named, busy = AnyAddress(3), Speaks(2, "crc"), Deaf(2), NamesAnother(2), Busy(2, "crc")
    told = [spell(one.check, HOST, 3, 0, low_first(one.serial)) for one in (twice, at_once, first, second)]
    poll, crc_poll = spell("simple", 3, HOST, 254), spell("crc", 3, HOST, 254)
    acks = [spell(check, HOST, 3, 0) for check in ("simple", "crc")]
    expected = Coins(2)
    expected.serial = 4321
    return {
        "late": Habit(late, "prompt", "serial", listened(late, 0)),
        "late_in_all": Habit(late_in_all, "prompt", "here", listened(late_in_all, 0)),
        "twice": Habit(twice, "once", "twice", two_replies(told[0], told[0])),
        "twice_at_once": Habit(at_once, "once", "twice", two_replies(told[1], told[1])),
        "two_at_one_address": Habit(first, "alone", "alone", two_replies(told[2], told[3]), others=(second,)),
        "two_at_once": Habit(beside, "alone", "alone", two_replies(
            *(spell("crc", HOST, 3, 0, low_first(one.serial)) for one in (beside, close_by))), others=(close_by,)),
        "any_check_byte": Habit(any_check, "check", "damaged",
                                lambda sent, rest: sent == poll[:-1] + bytes([(poll[-1] + 1) % 256]) and rest == acks[0]),
        "both_checks": Habit(both, "check", "other", lambda sent, rest: sent == poll and rest == acks[0]),
        "four_bytes": Habit(four, "cut", "cut", lambda sent, rest: sent == poll[:4] and rest == acks[0]),
        "after_noise": Habit(noisy, "cut", "noise", lambda sent, rest: sent == b"\x55" + crc_poll and rest == acks[1]),
        "deaf_after_a_cut": Habit(keeps, "cut", "cut", lambda sent, rest: rest == b""),
        "any_header": Habit(header, "unknown", "header", asked(header, 55, is_(b""))),
        "another_serial": Habit(wrong, "identity", "serial", asked(wrong, 242, is_(low_first(1002))), setup=[expected]),
        "another_category": Habit(kind, "identity", "category", asked(kind, 245, is_(b"Coin Acceptor"))),
        "any_address": Habit(address, "others", "nobody", lambda sent, rest: sent == spell("simple", 2, HOST, 254)
                             and rest == spell("simple", HOST, 2, 0), address=0),
        "a_byte_unasked": Habit(speaks, "quiet", "unasked", lambda sent, rest: sent == b"" and rest == b"\x55", address=0),
        "deaf_to_one_question": Habit(deaf, "answers", "onoff", lambda sent, rest: rest == b""),
        "names_another": Habit(named, "form", "bits", lambda sent, rest: sent == spell("simple", 2, HOST, 230)
                               and rest[:4] == bytes([HOST, 2, 3, 0])),
        "busy_to_one_question": Habit(busy, "form", "recount", lambda sent, rest: sent == spell("crc", 2, HOST, 225)
                                      and rest == spell("crc", HOST, 2, 6)),
    }


def all_habits() -> dict[str, Habit]:
    return {**of_all(), **of_acceptors(), **of_bills(), **of_hoppers()}
