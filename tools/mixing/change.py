"""Sessions of change, by the words of docs/SCRIPT.md: what the desk of the operator knows of one, and what it pays next."""
import functools

# A payment takes no more coins of a hopper.
MOST_COINS = 255
MOST_ID = 4294967295
# What became of a payment: its job is to open its order, its order is open, it never was, or its life counts don't fit it. A
# closed order is told by its paid and unpaid coins.
BEGUN, OPENED, LOST, ODD = 'begun', 'opened', 'lost', 'odd'


@functools.lru_cache(maxsize=100000)
def chosen(trays, amount):
    """How many coins of each tray, a value and a stock, pay an amount: by the fewest coins, and of those as many of the first
    tray as there can be, then of the second, and so on. None if no coins pay it."""
    if not trays:
        return None if amount else ()
    (value, stock), later = trays[0], trays[1:]
    best = None
    for count in range(min(stock, MOST_COINS, amount // value), -1, -1):
        others = chosen(later, amount - count * value)
        if others is not None and (best is None or count + sum(others) < sum(best)):
            best = (count, *others)
    return best


class Payment:
    """A payment of a session, and what became of it."""

    def __init__(self, addr, order, count):
        self.addr, self.id, self.count, self.phase = addr, order, count, BEGUN


class Session:
    """A session: its amount, what of it isn't paid yet, the id of its next payment, and the last one if it isn't settled. What
    the coins are worth that fell for its orders is counted apart."""

    def __init__(self, first, amount):
        self.amount, self.rest, self.next, self.due, self.fell = amount, amount, first, None, 0


class Desk:
    """The stock of each hopper as the operator told it, and the session that runs."""

    def __init__(self, devices):
        self.devices, self.stock, self.session = devices, {}, None

    def due(self):
        """The payment of the session that isn't settled yet, or None."""
        return self.session.due if self.session else None

    def record(self, record):
        """A record was put or kept: by it the order of the payment is opened or closed."""
        due, (kind, *fields) = self.due(), record.split(' ')
        if due is None:
            return
        if due.phase == BEGUN and kind == 'opened' and [int(field) for field in fields[:3]] == [due.id, due.addr, due.count]:
            due.phase = OPENED
        elif due.phase == OPENED and kind in ('closed', 'odd') and int(fields[0]) == due.id:
            due.phase = (int(fields[1]), int(fields[2])) if kind == 'closed' else ODD

    def ended(self, addr=None):
        """The job at an address ended, or all did by a power cut. An order that isn't opened then never will be."""
        due = self.due()
        if due and due.phase == BEGUN and addr in (None, due.addr):
            due.phase = LOST

    def fell(self, addr):
        """A coin fell out of a hopper: what all coins are worth that fell for the session's orders, and its amount."""
        if self.due() and self.due().phase == OPENED and self.due().addr == addr:
            self.session.fell += self.devices[addr].value
        return (self.session.fell, self.session.amount) if self.session else (0, 0)

    def settle(self):
        """Takes off what the last payment paid. Its hopper isn't trusted if it paid too little, or if its order never was."""
        session, due = self.session, self.session.due
        session.due = None
        if due is None:
            return
        paid, unpaid = (0, 1) if due.phase == LOST else due.phase
        session.rest = max(session.rest - paid * self.devices[due.addr].value, 0)
        self.stock[due.addr] = 0 if unpaid else max(self.stock.get(due.addr, 0) - paid, 0)

    def pays(self):
        """What the session pays next, or None if it can't."""
        hoppers = sorted(addr for addr, device in self.devices.items() if device.kind == 'hopper')
        trays = tuple((self.devices[addr].value, self.stock.get(addr, 0)) for addr in hoppers)
        counts = chosen(trays, self.session.rest)
        if counts is None or self.session.next > MOST_ID:
            return None
        at = next(at for at, count in enumerate(counts) if count)
        return Payment(hoppers[at], self.session.next, counts[at])
