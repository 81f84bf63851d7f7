"""Judges what the program wrote and reported. The Laws are the promises of README.md, read off the lines alone; the Judge
holds each line against its step, and those of the host against what it does (host.py)."""
from change import BEGUN, ODD, OPENED, Desk, Session
from host import READS, Ask, Books, Device, Job, Wrong, expect, places_of
from wire import hexed, is_forged


# ---- The promises

class Track:
    """What came to a device. Of an acceptor: its accepted coins or stacked bills, and the place of a bill that it holds; how
    many coins there were at its last readings; how many coins its last item counts; whether the mask of its epoch is set. Of
    a hopper: its order, and what fell for it."""

    def __init__(self):
        self.coins, self.mark, self.is_set, self.held = [], 0, False, None
        self.at_count, self.at_count_before, self.at_credits, self.at_mask = 0, 0, 0, 0
        self.order, self.count, self.dispensed, self.fell = None, 0, False, 0


class Laws:
    """Those that need an honest wire hold until a fault is forged. An item is a record of an acceptor, or a clean round."""

    def __init__(self):
        self.tracks, self.honest = {}, True

    def at(self, addr):
        return self.tracks.setdefault(int(addr), Track())

    def holds(self, holds, why):
        expect(holds or not self.honest, why)

    def object(self, addr, coin):
        """An object fell into an acceptor: a coin that it accepted, or another one. It accepts none without an epoch."""
        track = self.at(addr)
        if coin:
            track.coins.append(coin)
            self.holds(track.is_set, 'a coin is accepted, though no epoch set its mask since the reset')

    def bill(self, addr, place, is_held):
        """A bill was put in. At most one is held at a time, and none without an epoch."""
        track = self.at(addr)
        if is_held:
            self.holds(track.is_set and not track.held, 'a bill is held, though no epoch runs or another bill is held')
            track.held = place

    def route(self, addr, way):
        """A bill that is held is stacked, or given back."""
        track = self.at(addr)
        if way and track.held:
            self.object(addr, f'{track.held}/0')
        track.held = None

    def reset(self, addr):
        """A reset clears the mask, and gives a held bill back."""
        self.at(addr).is_set, self.at(addr).held = False, None

    def fell(self, addr):
        self.at(addr).fell += 1
        self.holds(self.at(addr).order and self.at(addr).fell <= self.at(addr).count, 'a coin falls for no open order')

    def exchange(self, ask, data, arrived):
        """An exchange with what it gave, and whether what was sent arrived. No order is dispensed twice on any wire."""
        track = self.at(ask.addr)
        if ask.header == 225 and data is not None:
            track.at_count = len(track.coins)
        if ask.header in READS.values() and data is not None:
            track.at_credits, track.at_count_before = len(track.coins), track.at_count
        if ask.header == 230 and data is not None:
            track.at_mask = len(track.coins)
        if ask.header == 231 and arrived:
            track.is_set = True
        if ask.header == 154 and arrived:
            self.holds(data is None or track.held, 'a bill is routed, though none is held')
            self.route(ask.addr, ask.data[0])
        if ask.header == 1 and arrived:
            self.reset(ask.addr)
        if ask.header == 167:
            expect(track.order and not track.dispensed, 'a dispense is sent twice, or without an open order')
            expect(ask.data[3] == track.count, 'a dispense has another count than its order')
            track.dispensed = True

    def record(self, record):
        """A record was put or kept."""
        kind, *fields = record.split(' ')
        if kind == 'opened':
            track = self.at(fields[1])
            track.order, track.count, track.dispensed, track.fell = fields[0], int(fields[2]), False, 0
        elif kind in ('closed', 'odd'):
            track = next(track for track in self.tracks.values() if track.order == fields[0])
            self.holds(kind == 'closed' and track.fell == int(fields[1]), f'{track.fell} coins fell for order {fields[0]}')
            track.order = None
        elif kind != 'sold':
            self.item(kind, *fields)

    def item(self, kind, addr, *fields):
        """The part of an item is the coins after the mark of the item before it, up to its own mark. It posts the last ones
        that its reading could show, and exactly as many others are missing as it tells to be lost."""
        track = self.at(addr)
        mark = {'reading': track.at_credits, 'clean': track.at_credits, 'broken': track.at_mask}.get(kind, len(track.coins))
        part, shown = track.coins[track.mark:mark], track.coins[track.mark:track.at_credits]
        posted = fields[-1].split(',') if kind in ('reading', 'broken') and fields[-1] != '-' else []
        lost = int(fields[-3]) if kind in ('reading', 'broken') else 0
        in_order = track.mark <= mark and posted == shown[len(shown) - len(posted):]
        self.holds(in_order, f'{kind}: of the coins {shown} not the last')
        self.holds(kind != 'epoch' or not part, f'the coins {part} were accepted without an epoch')
        self.holds(len(part) == len(posted) + lost, f'{kind}: not {len(posted) + lost} coins, but {part}')
        self.holds(kind != 'broken' or not track.is_set, 'a break, though the mask arrived and no reset came after it')
        track.mark = mark
        track.is_set = track.is_set and kind in ('clean', 'reading')

    def moved(self, addr):
        """A reading has to be made again: a coin was accepted between its two accept counters."""
        track = self.at(addr)
        self.holds(track.at_count_before < track.at_count, 'a reading has to be made again, though no coin came in it')


# ---- The lines

class Judge:
    """Holds a transcript against its script, step by step."""

    def __init__(self, script, refused):
        """A script, and the number and kind of its refused line."""
        self.books, self.laws, self.jobs, self.fault = Books(), Laws(), {}, None
        self.desk = Desk(self.books.devices)
        self.refused = refused
        self.lines = script.split('\n')[:refused[0] - 1] if refused else script.split('\n')
        self.written, self.at, self.place, self.step = [], 0, '', 0

    def hold(self, written):
        """Whether these lines are the transcript; if not, it is Wrong."""
        self.written, self.at, self.place = written, 0, 'transcript'
        for self.step, line in enumerate(self.lines, 1):
            word, *fields = line.split(' ')
            if line:
                getattr(self, 'step_' + word)(*fields)
        if self.refused:
            self.wants(f'refused {self.refused[0]} {self.refused[1]}')
        self.ends()

    def hold_report(self, reported):
        """Whether these lines are the report of the records of that transcript."""
        self.written, self.at, self.place = reported, 0, 'report'
        for line in self.books.report():
            self.wants(line)
        self.ends()

    def ends(self):
        expect(self.at == len(self.written), f'more lines are written: {self.written[self.at:self.at + 3]}')

    def taken(self):
        """The next line that is written."""
        expect(self.at < len(self.written), 'a line is missing at the end')
        self.at += 1
        return self.written[self.at - 1]

    def wants(self, *lines):
        """The next line that is written, which has to be one of these."""
        line = self.taken()
        expect(line in lines, f'written is {line!r}, and not {" or ".join(map(repr, lines))}')
        return line

    def step_acceptor(self, addr, *fields):
        self.books.devices[int(addr)] = Device('acceptor', *fields)

    def step_bills(self, addr, *fields):
        self.books.devices[int(addr)] = Device('bills', *fields)

    def step_hopper(self, addr, *fields):
        self.books.devices[int(addr)] = Device('hopper', *fields)

    def step_value(self, addr, place, value, name):
        self.books.devices[int(addr)].values[int(place)] = int(value)

    def step_texts(self, *fields):
        pass

    step_begin = step_end = step_texts

    def step_coin(self, addr, place):
        line = self.wants(f'inhibited {addr} {place}', *(f'accepted {addr} {place} {path}' for path in range(1, 9)))
        self.laws.object(addr, '/'.join(line.split(' ')[2:]) if line.startswith('accepted') else None)

    def step_bill(self, addr, place):
        line = self.wants(f'held {addr} {place}', f'inhibited {addr} {place}')
        self.laws.bill(addr, place, line.startswith('held'))

    def step_alien(self, addr):
        self.wants(f'alien {addr}')
        self.laws.object(addr, None)

    def step_fall(self, addr):
        if self.wants(f'fell {addr}', f'nofall {addr}').startswith('fell'):
            self.laws.fell(addr)
            worth, amount = self.desk.fell(int(addr))
            self.laws.holds(worth <= amount, f'{worth} fell for a session of change of {amount}')

    def step_jam(self, addr):
        self.wants(f'jammed {addr}', f'nojam {addr}')

    def step_reset(self, addr):
        self.wants(f'reset {addr}')
        self.laws.reset(addr)

    def step_fault(self, where, piece):
        self.wants(f'fault {where} {piece.lower()}')
        self.fault = where, b'' if piece == '-' else bytes.fromhex(piece)

    def running(self):
        """What running jobs have reserved."""
        return sum(job.reserved for job in self.jobs.values())

    def step_balance(self):
        books = self.books
        have = books.available() - self.running()
        self.wants(f'balance {have} {books.reserved() + self.running()} {books.paid} {books.sold}')

    def step_stock(self, addr, count):
        self.wants(f'stock {addr} {count}')
        self.desk.stock[int(addr)] = int(count)

    def step_change(self, first, amount):
        self.wants('change no busy' if self.desk.session else f'change ok {first} {amount}')
        self.desk.session = self.desk.session or Session(int(first), int(amount))

    def step_serve(self):
        """A session waits for its payment, or settles it and goes on, if it has a rest."""
        session, due = self.desk.session, self.desk.due()
        if session is None:
            self.wants('serve idle')
        elif due and due.phase in (BEGUN, OPENED):
            self.wants(f'serve wait {due.addr}')
        elif due and due.phase == ODD:
            self.laws.holds(False, f'the order {due.id} of a session is odd')
            self.session_ends(f'serve odd {due.id}')
        else:
            self.desk.settle()
            self.goes_on(session)

    def goes_on(self, session):
        """A session without a payment is served, ends short, or pays on."""
        paid, next_one = session.amount - session.rest, self.desk.pays() if session.rest else None
        self.laws.holds(paid == session.fell, f'a session of change is told {paid} as paid, and {session.fell} fell')
        if session.rest == 0:
            self.session_ends(f'served {session.amount}')
        elif next_one is None or self.command('pay', *map(str, (next_one.addr, next_one.id, next_one.count))):
            self.session_ends(f'short {paid} {session.rest}')
        else:
            session.due, session.next = next_one, session.next + 1

    def session_ends(self, line):
        self.wants(line)
        self.desk.session = None

    def command(self, word, *fields):
        """A command: it is refused for its first reason, which is given, or it begins its job; a halt is for the job there."""
        addr = {'scan': 0, 'vend': 1}[word] if word in ('scan', 'vend') else int(fields[0])
        reason = self.reason_of_device(addr, word) or self.reason(addr, word, *fields)
        line = ' '.join((word, *fields))
        self.wants(f'no {line} {reason}' if reason else f'ok {line}')
        if not reason and word == 'halt':
            self.jobs[addr].halt()
        elif not reason:
            self.jobs[addr] = Job(self.books, addr, word, *fields)
        return reason

    def step_start(self, addr, mask):
        self.command('start', addr, mask.lower())

    def reason_of_device(self, addr, word):
        """Why a command is refused whatever was done so far, or None."""
        hoppers, takers = ('hopper',), tuple(READS)
        kinds = {'pay': hoppers, 'settle': hoppers, 'halt': hoppers, 'start': takers, 'round': takers, 'stop': takers,
                 'path': ('acceptor',), 'route': ('bills',), 'ident': hoppers + takers}
        device = self.books.devices.get(addr)
        if word not in kinds:
            return None
        return 'nodevice' if device is None else 'wrongkind' if device.kind not in kinds[word] else None

    def reason(self, addr, word, *fields):
        """Why a command is refused by what was done so far, or None."""
        epoch, order, job = self.books.epochs.get(addr), self.books.orders.get(addr), self.jobs.get(addr)
        if word == 'halt':
            return None if job and job.can_halt else 'nopayout'
        if job:
            return 'busy'
        if word == 'start':
            bare = [place for place in places_of(fields[1]) if place not in self.books.devices[addr].values]
            return 'epochruns' if epoch else f'novalue {bare[0]}' if bare else None
        if word in ('round', 'stop', 'route'):
            return None if epoch else 'noepoch'
        if word == 'settle':
            return None if order else 'noorder'
        if word == 'pay':
            cost = int(fields[2]) * self.books.devices[addr].value
            return f'orderopen {order[0]}' if order else self.reason_of_money(int(fields[1]), cost)
        return self.reason_of_money(int(fields[0]), int(fields[1])) if word == 'vend' else None

    def reason_of_money(self, number, cost):
        """Why an order or a sale is refused by its id or its cost, or None."""
        last = max(*self.books.ids, *(job.id for job in self.jobs.values()), 0)
        have = self.books.available() - self.running()
        return f'oldid {last}' if number <= last else f'short {have}' if cost > have else None

    def step_next(self, addr):
        """An attempt: an exchange or a put, the end of the job if it is done, and a line if the exchange was forged."""
        job, forged = self.jobs.get(int(addr)), False
        if job is None:
            self.wants(f'idle {addr}')
            return
        if isinstance(job.row, Ask):
            forged = self.exchange(addr, job)
        else:
            self.wants(f'put {job.row}')
            self.take_in(job.row)
            job.go(None)
        if job.end:
            del self.jobs[int(addr)]
            self.wants(job.end)
            self.desk.ended(int(addr))
            if job.end.startswith('clean'):
                self.laws.item('clean', addr)
            if job.end.startswith('moved'):
                self.laws.moved(addr)
        self.forged_line(addr, forged)

    def forged_line(self, addr, forged):
        """The last line of a step whose exchange had a forged fault tells so. No other step has such a line."""
        if forged:
            self.wants(f'forged {addr}')

    def take_in(self, record):
        """A record was put or kept."""
        self.books.put(record)
        self.laws.record(record)
        self.desk.record(record)

    def exchange(self, addr, job):
        """An exchange of a job; whether its fault is forged."""
        ask, line, fault = job.row, self.taken(), self.fault
        self.fault, forged, (where, piece) = None, is_forged(fault, ask.sent), fault or (None, b'')
        wire = f'wire {addr} {ask.sent.hex()} '
        expect(line.startswith(wire), f'written is {line!r}, and not {wire}..')
        heard = b'' if line == wire + '-' else bytes.fromhex(line[len(wire):])
        told = piece if where == 'whole' else ask.sent + piece if where == 'host' else ask.sent
        # Devices answer what they heard, unless that was damaged or the host hears something else.
        answered = fault is None or (where == 'devices' and forged)
        expect(heard.startswith(told) if answered else heard == told, f'{line!r}: the host hears {hexed(told)}')
        data = ask.wanted(heard)
        expect(data is not None or fault or not ask.again, f'{line!r}: without a fault there is no wanted reply')
        self.laws.honest = self.laws.honest and not forged
        self.laws.exchange(ask, data, where != 'devices')
        job.go(data)
        return forged

    def step_crash(self, *fields):
        """A power cut. The file keeps the record of a put that is cut off after its third call."""
        job = self.jobs.get(int(fields[0])) if len(fields) == 3 else None
        kept = job is not None and isinstance(job.row, str) and int(fields[1]) >= 3
        self.jobs = {}
        self.wants(f'crash {len(self.books.records) + kept}')
        if kept:
            self.wants(f'kept {job.row}')
            self.take_in(job.row)
        self.desk.ended()


for WORD in ('round', 'stop', 'route', 'pay', 'settle', 'halt', 'vend', 'ident', 'path', 'scan'):
    setattr(Judge, 'step_' + WORD, lambda self, *fields, word=WORD: self.command(word, *fields))


def wrong(script, written, reported, refused):
    """What is wrong with the lines of a transcript, and with those of the report after it if there is one; or None."""
    judge = Judge(script, refused)
    try:
        judge.hold(written)
        if reported is not None:
            judge.hold_report(reported)
    except (Wrong, ValueError, LookupError) as why:
        return f'line {judge.step} of the script, line {judge.at} of the {judge.place}: {why}'
    return None
