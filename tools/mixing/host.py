"""What the host does, by the words of docs/SCRIPT.md: what its records say, and what its jobs send and put."""
from wire import CHECKS, HOST, POLLS, SIZES, message, number, spell


class Wrong(Exception):
    """What was written isn't right."""


def expect(holds, why):
    """Something that has to hold."""
    if not holds:
        raise Wrong(why)


# ---- The records

# By each kind of device that takes money, the request for its last events.
READS = {'acceptor': 229, 'bills': 159}


class Device:
    """A device of the setup: its kind, its check, its serial number, and what its coins or bills are worth."""

    def __init__(self, kind, check, serial, start, value='0'):
        self.kind, self.check, self.serial, self.value, self.values = kind, check, int(serial), int(value), {}


class Books:
    """What the records say, each of which has to follow those before it: epochs, open orders, ids and money."""

    def __init__(self):
        self.devices, self.records, self.ids = {}, [], {0}
        # By address: of an epoch its mask, the recorded event counter and the recorded accept counter, of an open order its id,
        # count and life count.
        self.epochs, self.orders = {}, {}
        self.value = self.paid = self.sold = self.odd = 0
        self.posted = self.lost = self.coins_paid = self.unpaid = 0

    def reserved(self):
        """What is reserved by open orders, and by those closed with life counts that don't fit."""
        return self.odd + sum(count * self.devices[addr].value for addr, (_, count, _) in self.orders.items())

    def available(self):
        return self.value - self.reserved() - self.paid - self.sold

    def put(self, record):
        """Takes in a record."""
        kind, *fields = record.split(' ')
        expect(getattr(self, 'put_' + kind)(*fields), f'the record {record} does not follow those before it')
        self.records.append(record)

    def put_epoch(self, addr, mask, accepts):
        places, values = places_of(mask), self.devices[int(addr)].values
        follows = int(addr) not in self.epochs and places and set(places) <= set(values)
        self.epochs[int(addr)] = int(mask, 16), 0, int(accepts)
        return follows

    def post(self, addr, coins):
        """Posts the coins of a record, within an epoch."""
        places = [int(coin.split('/')[0]) for coin in coins.split(',')] if coins != '-' else []
        self.value += sum(self.devices[int(addr)].values.get(place, 0) for place in places)
        self.posted += len(places)
        return int(addr) in self.epochs and len(places) <= 5 and 0 not in places

    def put_reading(self, addr, counter, lost, accepts, coins):
        self.lost += int(lost)
        follows = self.post(addr, coins)
        self.epochs[int(addr)] = self.epochs.get(int(addr), (0, 0, 0))[0], int(counter), int(accepts)
        return follows

    def put_broken(self, addr, seen, counter, lost, accepts, coins):
        self.lost += int(lost)
        return self.post(addr, coins) and self.epochs.pop(int(addr))

    def put_epochend(self, addr):
        return self.epochs.pop(int(addr), None)

    def is_new(self, number):
        """Whether an id is used for the first time."""
        used, self.ids = self.ids, self.ids | {int(number)}
        return len(self.ids) > len(used)

    def put_opened(self, order, addr, count, life):
        cost = int(count) * self.devices[int(addr)].value
        follows = self.is_new(order) and int(addr) not in self.orders and 0 < cost <= self.available()
        self.orders[int(addr)] = int(order), int(count), int(life)
        return follows

    def close(self, order):
        """The hopper of an open order, and its count; the order is closed. None if there is none."""
        for addr, (number, count, _) in self.orders.items():
            if number == int(order):
                del self.orders[addr]
                return self.devices[addr], count
        return None, None

    def put_closed(self, order, paid, unpaid):
        hopper, count = self.close(order)
        self.paid += int(paid) * hopper.value if hopper else 0
        self.coins_paid, self.unpaid = self.coins_paid + int(paid), self.unpaid + int(unpaid)
        return count == int(paid) + int(unpaid)

    def put_odd(self, order, before, after):
        hopper, count = self.close(order)
        self.odd += count * hopper.value if hopper else 0
        return hopper

    def put_sold(self, sale, price):
        follows = self.is_new(sale) and 0 < int(price) <= self.available()
        self.sold += int(price)
        return follows

    def report(self):
        """The lines of the report of a journal that never turned."""
        total = f'total {self.posted} {self.lost} {self.coins_paid} {self.unpaid} {self.sold}'
        return [f'record {at} {record}' for at, record in enumerate(self.records)] + [total]


def places_of(mask):
    """The coin places of an inhibit mask."""
    return [place for place in range(1, 17) if int(mask, 16) >> place - 1 & 1]


# What a reading means in which a coin was accepted.
MOVED = 'moved'


def judged(addr, epoch, before, credits, seen, now):
    """The record that a reading between two accept counters means, None if nothing is new, or that it has to be made again.
    After event counter 255 comes 1, after the greatest accept counter 0."""
    mask, recorded, accepts = epoch
    if seen == mask and before != now:
        return MOVED
    counter, accepted = credits[0], (now - accepts) % 2 ** 24
    new = counter if recorded == 0 else 0 if counter == 0 else (counter - recorded) % 255
    events = [credits[at:at + 2] for at in range(1, 11, 2)][:new]
    posted = [f'{place}/{path}' for place, path in reversed(events) if place]
    lost, coins = max(accepted - len(posted), 0), ','.join(posted) or '-'
    if seen != mask or (counter == 0 and recorded):
        return f'broken {addr} {seen:04x} {counter} {lost} {now} {coins}'
    return f'reading {addr} {counter} {lost} {now} {coins}' if new or accepted else None


# ---- The jobs

class NoAnswer(Exception):
    """A row got no wanted reply in three tries."""


class Halt(Exception):
    """A halt comes to a job that is about to look whether coins are left."""


class Ask:
    """What a job sends: bytes to an address, and whether they are sent again without the wanted reply."""

    def __init__(self, check, addr, header, data=b'', again=False):
        self.check, self.addr, self.header, self.data, self.again = check, addr, header, data, again
        self.sent = spell(check, addr, HOST, header, data)

    def wanted(self, heard):
        """The data of the wanted reply, None without it. Of an address poll it is all that follows the echo."""
        if not heard.startswith(self.sent):
            return None
        rest = heard[len(self.sent):]
        if self.sent in POLLS.values():
            return rest
        to, source, header, data = message(self.check, rest) or (None, None, None, b'')
        is_wanted = (to, header) == (HOST, 0) and source in (None, self.addr) and SIZES[self.header] in (None, len(data))
        return data if is_wanted else None


def tried(*ask):
    """A row of three tries; the data of its wanted reply."""
    for _ in range(3):
        data = yield Ask(*ask, again=True)
        if data is not None:
            return data
    raise NoAnswer


class Job:
    """A job: the row at which it stands, an Ask or the record that it puts, and its end. Each command is a method that
    yields its rows, is given what each asked for, and returns the end."""

    def __init__(self, books, addr, word, *fields):
        self.books, self.addr, self.device = books, addr, books.devices.get(addr)
        self.id, self.reserved, self.halted, self.can_halt = 0, 0, False, word in ('pay', 'settle')
        self.rows, self.row, self.end = getattr(self, word)(*fields), None, None
        self.go(None)

    def go(self, data):
        """Goes on to the next row, or to the end, with what the last row gave."""
        try:
            self.row = self.rows.throw(data) if isinstance(data, Halt) else self.rows.send(data)
        except StopIteration as stopped:
            self.end = stopped.value
        except NoAnswer:
            self.end = f'noanswer {self.addr}'

    def halt(self):
        """Marks the job. If it is about to look whether coins are left, it stops the payout before."""
        marked, self.halted = self.halted, True
        if not marked and isinstance(self.row, Ask) and self.row.header == 166:
            self.go(Halt())

    def events(self):
        """The event counter and the last five pairs. A pair (a, 1) of a bill acceptor is no money yet: its bill is held."""
        told = yield from self.asks(READS[self.device.kind])
        if self.device.kind == 'bills':
            pairs = [told[at:at + 2] for at in range(1, 11, 2)]
            told = told[:1] + b''.join(b'\0\1' if pair[1] == 1 else pair for pair in pairs)
        return told

    def asks(self, header, data=b''):
        return tried(self.device.check, self.addr, header, data)

    def once(self, header, data):
        return (yield Ask(self.device.check, self.addr, header, data))

    def start(self, a, mask):
        yield from self.asks(1)
        credits = yield from self.events()
        if credits[0]:
            return f'unquiet {a} {credits[0]}'
        accepts = number((yield from self.asks(225)))
        yield f'epoch {a} {mask} {accepts}'
        heard = yield from self.once(231, int(mask, 16).to_bytes(2, 'little'))
        return f'unsure {a}' if heard is None else f'started {a}'

    def reading(self):
        before = number((yield from self.asks(225)))
        credits = yield from self.events()
        seen = number((yield from self.asks(230)))
        now = number((yield from self.asks(225)))
        return judged(self.addr, self.books.epochs[self.addr], before, credits, seen, now)

    def round(self, a):
        record = yield from self.reading()
        if record is None:
            return f'clean {a}'
        if record == MOVED:
            return f'moved {a}'
        yield record
        return f'broke {a}' if record.startswith('broken') else f'posted {a}'

    def stop(self, a):
        yield from self.asks(228, b'\0')
        record = yield from self.reading()
        if record == MOVED:
            return f'moved {a}'
        if record is not None:
            yield record
            if record.startswith('broken'):
                return f'broke {a}'
        yield f'epochend {a}'
        return f'stopped {a}'

    def route(self, a, way):
        heard = yield from self.once(154, bytes([int(way)]))
        return f'routeunsure {a}' if heard is None else f'routed {a}'

    def pay(self, a, order, count):
        self.id, self.reserved = int(order), int(count) * self.device.value
        yield from self.asks(164, b'\xa5')
        life = number((yield from self.asks(168)))
        yield f'opened {order} {a} {count} {life}'
        self.reserved = 0
        yield from self.once(167, self.device.serial.to_bytes(3, 'little') + bytes([int(count)]))
        return (yield from self.settle(a))

    def settle(self, a):
        yield from self.payout_over()
        self.can_halt = False
        after = number((yield from self.asks(168)))
        order, count, before = self.books.orders[self.addr]
        fell = (after - before) % 2 ** 24
        yield f'closed {order} {fell} {count - fell}' if fell <= count else f'odd {order} {before} {after}'
        return f'closed {a}' if fell <= count else f'oddlife {a}'

    def payout_over(self):
        """Waits until no coin is left to pay. After a halt the payout is stopped first."""
        while True:
            try:
                if self.halted:
                    raise Halt
                status = yield from self.asks(166)
                if status[1] == 0:
                    return
            except Halt:
                yield from self.asks(172)
                self.halted = False

    def vend(self, sale, price):
        self.id, self.reserved = int(sale), int(price)
        yield f'sold {sale} {price}'
        return 'sold'

    def ident(self, a):
        own = {'hopper': (163,), 'bills': (227, 225), 'acceptor': (227, 188, 225)}
        for header in (246, 245, 244, 242, 241, 192, 4) + own[self.device.kind]:
            yield from self.asks(header)
        for place in range(1, 17) if self.device.kind == 'acceptor' else ():
            yield from self.asks(184, bytes([place]))
        return f'told {a}'

    def path(self, a, place, path):
        at = bytes([int(place)]) if place != '0' else b''
        yield from self.asks(210 if at else 189, at + bytes([int(path)]))
        told = yield from self.asks(209 if at else 188, at)
        return f'pathset {a} {place} {told[0]}'

    def scan(self):
        """Polls all devices under both checks, and then each address that was heard."""
        noted, listed = set(), []
        for check in CHECKS:
            noted.update((yield from tried(check, 0, 253)))
        for addr in sorted(noted - {0, HOST}):
            for check in CHECKS:
                if (yield Ask(check, addr, 254)) is not None:
                    listed.append(f'{addr}/{check}')
                    break
        return f'listed {",".join(listed) or "-"}'
