"""Draws the script of a seed."""
import random

from wire import CHECKS, HOST, POLLS, SIZES, hexed, is_message, spell

# What scripts are drawn from. A row has a weight, where its lines are, and the lines; a row that is drawn is one plan. Its
# lines keep their order, and those of other plans come between. `N* ` is N times the line, `?* ` none to seven times. A is
# one address of the plan; the other words in capitals are fields, drawn as FIELDS says. `put A` is a `next A` that puts a
# record if all goes well: power cuts come there. A new word has a row here, and its step in judge.py.
PLANS = (
    (8, 'taker', 'start A MASK, 3* next A, put A, next A'),
    (16, 'acceptor', '?* coin A PLACE, round A, 4* next A, put A'),
    (8, 'acceptor', 'round A, 4* next A, put A'),
    # A coin comes within a round.
    (3, 'acceptor', 'round A, next A, ?* coin A PLACE, next A, coin A PLACE, 2* next A, put A, round A, 4* next A, put A'),
    (10, 'acceptor', '?* coin A PLACE'),
    (4, 'acceptor', 'alien A'),
    # The event counter goes round: in some readings, and between two of them.
    (0.4, 'acceptor', '247* coin A PLACE, round A, 4* next A, put A, 3* coin A PLACE, round A, 4* next A, put A, '
                      '3* coin A PLACE, round A, 4* next A, put A, 3* coin A PLACE, round A, 4* next A, put A'),
    (0.2, 'acceptor', 'round A, 4* next A, put A, 255* coin A PLACE, round A, 4* next A, put A'),
    (0.2, 'acceptor', 'round A, 4* next A, put A, 300* coin A PLACE, round A, 4* next A, put A'),
    (3, 'acceptor', 'stop A, 5* next A, 2* put A, start A MASK, 3* next A, put A, next A'),
    (2, 'acceptor', 'reset A, round A, 4* next A, put A, start A MASK, 3* next A, put A, next A'),
    (1, 'acceptor', 'round A, 2* next A, reset A, 2* next A, put A, start A MASK, 3* next A, put A, next A'),
    (2, 'acceptor', 'path A WAY PATH, 2* next A'),
    # Of three bills one is held, and stacked or given back.
    (16, 'bills', '3* bill A PLACE, round A, 4* next A, put A, route A TO, next A, round A, 4* next A, put A'),
    (8, 'bills', 'bill A PLACE, route A TO, next A, bill A PLACE, route A TO, next A'),
    (3, 'bills', 'bill A PLACE, route A TO, route A TO, next A, route A TO, next A'),
    (8, 'bills', 'round A, 4* next A, put A'),
    (6, 'bills', '?* bill A PLACE'),
    # A bill is put in within a round.
    (3, 'bills', 'round A, next A, ?* bill A PLACE, 2* next A, bill A PLACE, next A, put A, route A TO, next A'),
    # The event counter goes round, in some readings.
    (0.4, 'bills', '124* bill A PLACE, route A TO, next A, round A, 4* next A, put A, bill A PLACE, route A TO, next A, '
                   'round A, 4* next A, put A, bill A PLACE, route A TO, next A, round A, 4* next A, put A'),
    (3, 'bills', 'bill A PLACE, stop A, 5* next A, route A TO, next A, 2* put A, start A MASK, 3* next A, put A, next A'),
    (2, 'bills', 'bill A PLACE, reset A, route A TO, next A, round A, 4* next A, put A, '
                 'start A MASK, 3* next A, put A, next A'),
    (1, 'bills', 'bill A PLACE, round A, 2* next A, reset A, 2* next A, put A, start A MASK, 3* next A, put A, next A'),
    (14, 'hopper', 'pay A ID COUNT, 2* next A, put A, next A, ?* fall A, 2* next A, put A'),
    (3, 'hopper', 'pay A ID COUNT, 2* next A, put A, next A, fall A, halt A, 3* next A, put A'),
    (3, 'hopper', 'pay A ID COUNT, 2* next A, put A, next A, fall A, jam A, 2* next A, put A'),
    (8, 'hopper', '?* fall A, 2* next A, put A'),
    (4, 'hopper', 'settle A, ?* fall A, 2* next A, put A'),
    (2, 'hopper', 'settle A, halt A, 3* next A, put A'),
    (1, 'hopper', 'halt A, 2* next A'),
    (1, 'hopper', 'jam A'),
    # Sessions of change. A payment is running at the hopper that its plan takes.
    (20, 'hopper', 'each stock, change FIRST AMOUNT, serve, each pays, serve, each pays, serve, each pays, serve'),
    (4, 'hopper', 'each stock, change FIRST AMOUNT, serve, each pays, serve, 2* next A, put A, next A, fall A, jam A, 2* next A, '
                  'put A, serve, each settles, serve, each pays, serve'),
    (3, 'hopper', 'change FIRST AMOUNT, serve, 2* next A, put A, next A, fall A, halt A, 3* next A, put A, each stock, serve, '
                  'each settles, serve, each pays, serve'),
    (4, 'hopper', 'each settles, serve, each pays, serve'),
    (2, 'hopper', 'stock A STOCK'),
    (2, 'device', 'reset A'),
    (4, 'device', '?* next A'),
    (1, 'device', 'ident A, 8* next A, ?* next A, ?* next A, ?* next A'),
    (3, 'all', 'scan, 4* next A, ?* next A'),
    (6, 'sale', 'vend ID PRICE, put A'),
    (4, 'any', 'balance'),
    (2, 'any', 'serve'),
    (1, 'any', 'change FIRST AMOUNT'),
    (2, 'any', 'next A'),
    (2, 'any', 'crash CHOICE'),
    (1, 'any', 'crash A CALLS CHOICE'),
    (1, 'any', 'fault FAULT'),
    (1, 'any', 'start A MASK'),
    (1, 'any', 'round A'),
    (1, 'any', 'stop A'),
    (1, 'any', 'pay A ID COUNT'),
    (1, 'any', 'settle A'),
    (1, 'any', 'halt A'),
    (1, 'any', 'ident A'),
    (1, 'any', 'path A WAY PATH'),
    (1, 'any', 'route A TO'),
)
# What such a plan has of each hopper.
EACH = {'each stock': 'stock A STOCK',
        'each pays': '2* next A, put A, next A, 7* fall A, 2* next A, put A',
        'each settles': 'settle A, 7* fall A, 2* next A, put A'}
# The plan with which a script begins, at each device that takes money.
FIRST = {'acceptor': 'start A MASK, 5* next A, 5* coin A PLACE, round A, 5* next A',
         'bills': 'start A MASK, 5* next A, 5* bill A PLACE, route A TO, next A, round A, 5* next A'}
# How each field is drawn, by a Drawer for an address.
FIELDS = {
    'A': lambda drawer, addr: addr,
    'PLACE': lambda drawer, addr: drawer.rng.randint(1, 16),
    'WAY': lambda drawer, addr: drawer.rng.randint(0, 16),
    'PATH': lambda drawer, addr: drawer.rng.randint(1, 8),
    'TO': lambda drawer, addr: drawer.rng.choice((0, 1, 1, 1)),
    'MASK': lambda drawer, addr: drawer.mask(addr),
    'ID': lambda drawer, addr: drawer.next_id(),
    'COUNT': lambda drawer, addr: drawer.rng.choice((1, 1, 1, 2, 2, 2, 2, 3, 3, 3, 4, 4, 5, 6, 255)),
    'PRICE': lambda drawer, addr: drawer.rng.choice((1, 1, 1, 5, 5, 10, 30, 30, 700, 1000000000)),
    'STOCK': lambda drawer, addr: drawer.rng.choice((0, 1, 2, 10, 10, 10, 300, 300, 300, 4294967295)),
    'FIRST': lambda drawer, addr: min(drawer.next_id() + drawer.rng.choice((0, 0, 50)), 4000000000),
    'AMOUNT': lambda drawer, addr: drawer.amount(),
    'CALLS': lambda drawer, addr: drawer.rng.choice((0, 1, 2, 3, 3, 4)),
    'CHOICE': lambda drawer, addr: drawer.rng.choice((0, 1, 2, 3, drawer.rng.getrandbits(8), drawer.rng.getrandbits(64))),
    'FAULT': lambda drawer, addr: drawer.fault(addr),
}
# How many lines a script has, about, and how often a plan has a fault or a power cut in it.
STEPS = (30, 150, 300, 600)
FAULTS = (0, 0.15, 0.5)
CUTS = (0, 0.1, 0.3)
# How many scripts have forged bytes too, and how many have a line that is refused.
FORGED = 0.3
SPOILED = 0.15
# Lines that are refused wherever they stand after `begin`, with their kinds.
REFUSED = (
    ('', 'word'), ('begin', 'word'), ('COIN 2 5', 'word'), ('hopper 3 simple 1 0 10', 'word'), ('crashes 0', 'word'),
    ('coin 2 17', 'form'), ('coin 02 5', 'form'), ('coin  2 5', 'form'), ('next 256', 'form'), ('start 2 0000', 'form'),
    ('bill 2 17', 'form'), ('route 2 2', 'form'), ('fault host 0', 'form'), ('fault devices ' + 261 * '55', 'form'),
    ('fault whole ' + 521 * '55', 'form'),
    ('stock 3', 'form'), ('stock 3 4294967296', 'form'), ('change 0 10', 'form'), ('change 4000000001 10', 'form'),
    ('change 1 0', 'form'), ('change 1 10001', 'form'), ('serve 3', 'form'), ('stock 1 5', 'device'),
    ('fault clear', 'form'), ('pay 3 0 1', 'form'), ('pay 3 1 256', 'form'), ('vend 1 0', 'form'), ('crash 2 5 0', 'form'),
    ('crash 18446744073709551616', 'form'), ('balance 2', 'form'), ('end ', 'form'), ('coin 1 5', 'device'),
    ('bill 1 5', 'device'), ('fall 0', 'device'), ('jam 1', 'device'), ('reset 1', 'device'), ('alien 0', 'device'), (1201 * 'x', 'long'))
# Requests whose exchanges are damaged or forged, header and data: those of the host to each kind of device, and those that
# change it.
ASKED = {'acceptor': ((1, ''), (225, ''), (229, ''), (230, ''), (225, ''), (229, ''), (230, ''), (228, '00'), (231, '0100')),
         'bills': ((1, ''), (225, ''), (159, ''), (230, ''), (154, '01'), (154, '00'), (228, '00'), (231, '0100')),
         'hopper': ((164, 'a5'), (168, ''), (166, ''), (168, ''), (166, ''), (172, ''), (163, ''), (254, ''))}
CHANGING = {'acceptor': ((1, ''), (231, 'ffff'), (231, '0000'), (228, '00'), (228, '01'), (189, '03'), (210, '0102')),
            'bills': ((1, ''), (231, 'ffff'), (231, '0000'), (228, '00'), (228, '01'), (154, '00'), (154, '01')),
            'hopper': ((1, ''), (164, 'a5'), (164, '00'), (172, ''), (167, '01020303'))}
# The kinds by their letters.
KINDS = {'a': 'acceptor', 'b': 'bills', 'h': 'hopper'}


class Drawer:
    """The script of a seed; how many of its steps are played; number and kind of its refused line, None without one."""

    def __init__(self, seed):
        self.rng = random.Random(seed)
        self.devices, self.setup, self.refused, self.worths = {}, [], None, {}
        self.faults, self.cuts, self.forges = self.rng.choice(FAULTS), self.rng.choice(CUTS), self.chance(FORGED)
        self.last_id = self.rng.choice((0, 0, 0, 4294967000))
        self.draw_setup()
        steps = self.draw_steps(self.rng.choice(STEPS))
        ending = self.spoil(steps) if self.chance(SPOILED) else '\n'
        self.script = '\n'.join(self.setup + ['begin'] + steps) + ending
        self.played = max(self.refused[0] - len(self.setup) - 2, 0) if self.refused else len(steps)

    def chance(self, of):
        return self.rng.random() < of

    def draw_setup(self):
        """One to six devices, mostly at low addresses, with their values and texts."""
        for letter in self.rng.choice(('a', 'b', 'h', 'ah', 'ah', 'bh', 'bh', 'abh', 'aahh', 'ahhh', 'abbhh', 'aabbhh')):
            kind = KINDS[letter]
            addr = self.rng.choice([addr for addr in (*range(2, 12), 151, 159, 254, 255) if addr not in self.devices])
            self.devices[addr] = kind, self.rng.choice(CHECKS)
            serial, count = self.rng.choice((0, 197121, 16777215)), self.rng.choice((0, 100, 16777214))
            value = f' {self.worth(addr)}' if kind == 'hopper' else ''
            self.setup.append(f'{kind} {addr} {self.devices[addr][1]} {serial} {count}{value}')
            rate = self.rng.choice((0.7, 1, 1)) if kind in FIRST else 0
            self.setup += [f'value {addr} {place} {self.rng.choice((5, 10, 100, 200, 1000000))} {self.text(6, 6)}'
                           for place in range(1, 17) if self.chance(rate)]
            if self.chance(0.3):
                self.setup.append(f'texts {addr} ' + ' '.join(self.text(1, 24) for _ in range(4)))

    def worth(self, addr):
        """What a coin of a hopper is worth."""
        self.worths[addr] = self.rng.choice((1, 1, 10, 10, 10, 50, 1000000))
        return self.worths[addr]

    def amount(self):
        """Mostly what some coins of each hopper are worth, if there are any."""
        some = sum(worth * self.rng.randint(0, 4) for worth in self.worths.values() if worth < 1000)
        return self.rng.choice(10 * (some,) + (1, 35, 10000)) or 10

    def text(self, least, most):
        """A row of printing characters."""
        return ''.join(chr(self.rng.randint(0x21, 0x7e)) for _ in range(self.rng.randint(least, most)))

    def draw_steps(self, wanted):
        """So many lines of plans. Up to four plans are under way at a time, mostly at most one with a job at an address."""
        steps, under_way, most = [], [], self.rng.randint(1, 4)
        for kind, plan in FIRST.items():
            for addr in self.those(kind):
                steps += self.lines(addr, plan)
        while len(steps) < wanted:
            addr, lines = self.plan()
            jobs = [there for there, left in under_way if f'next {there}' in left]
            if f'next {addr}' not in lines or addr not in jobs or self.chance(0.1):
                under_way.append((addr, lines))
            while len(under_way) >= most:
                plan = self.rng.choice(under_way)
                steps += plan[1][:1]
                del plan[1][:1]
                # Now and then a plan is given up, so that a job is left running.
                if not plan[1] or self.chance(0.005):
                    under_way.remove(plan)
        return steps + ['end']

    def those(self, *kinds):
        """The addresses of the devices of some kinds."""
        return [addr for addr in self.devices if self.devices[addr][0] in kinds]

    def plan(self):
        """A plan, as its address and its lines. Now and then a fault comes before an attempt, or a power cut in its place."""
        there = {**{kind: self.those(kind) for kind in KINDS.values()}, 'taker': self.those(*FIRST),
                 'device': list(self.devices), 'all': [0], 'sale': [1], 'any': [0, 1, 7, 9, *self.devices]}
        rows = [row for row in PLANS if there[row[1]]]
        _, where, text = self.rng.choices(rows, [weight for weight, _, _ in rows])[0]
        addr = self.rng.choice(there[where])
        lines = self.lines(addr, text)
        puts = [at for at, line in enumerate(lines) if line.startswith('put')]
        attempts = puts + [at for at, line in enumerate(lines) if line.startswith('next')]
        lines = [line.replace('put', 'next') for line in lines]
        if attempts and self.chance(self.cuts):
            at = self.rng.choice(puts or attempts)
            lines[at] = self.lines(int(lines[at].split(' ')[1]), 'crash A CALLS CHOICE')[0]
        elif attempts and self.chance(self.faults):
            at = self.rng.choice(attempts)
            # Three faults in succession end a job.
            lines[at:at] = self.rng.choice((1, 1, 3)) * self.lines(int(lines[at].split(' ')[1]), 'fault FAULT, next A')
        return addr, lines

    def lines(self, addr, text):
        """The lines of a plan at an address, with their fields drawn."""
        lines = []
        for part in text.split(', '):
            if part in EACH:
                lines += [line for hopper in self.those('hopper') for line in self.lines(hopper, EACH[part])]
                continue
            times, _, line = part.rpartition('* ')
            for _ in range(self.rng.randint(0, 7) if times == '?' else int(times or 1)):
                lines.append(' '.join(str(FIELDS[word](self, addr)) if word in FIELDS else word for word in line.split(' ')))
        return lines

    def mask(self, addr):
        """Mostly all places that have a value."""
        valued = [line.split(' ')[2] for line in self.setup if line.startswith(f'value {addr} ')]
        mask = sum(1 << int(place) - 1 for place in valued)
        mask = self.rng.choice((mask, mask, mask, mask & self.rng.getrandbits(16), self.rng.getrandbits(16))) or 1
        return self.rng.choice((f'{mask:04x}', f'{mask:04X}'))

    def next_id(self):
        """Mostly the next id; now and then one that was used, or a greater one."""
        self.last_id = min(self.last_id + self.rng.choice((0, 1, 1, 1, 1, 1, 2, 40)), 4294967295)
        return max(self.last_id - self.rng.choice((0, 0, 0, 0, 0, 3)), 1)

    def fault(self, addr):
        """A fault, mostly one that fits what is sent to the device at an address, or what it answers. At 0 it is a scan."""
        where = self.rng.choice(('devices', 'host', 'host', 'whole'))
        device = addr if addr in self.devices else self.rng.choice(list(self.devices))
        kind, check = self.devices[device]
        forged = self.forges and self.chance(0.5)
        header, data = self.rng.choice((CHANGING if forged and where == 'devices' else ASKED)[kind])
        asked = POLLS[check] if addr == 0 else spell(check, device, HOST, header, bytes.fromhex(data))
        piece = asked if where == 'devices' else self.reply(device, check, header)
        piece = piece if forged else self.damaged(piece)
        if where == 'whole' and self.chance(0.7):
            piece = self.rng.choice((asked, asked, self.damaged(asked))) + piece
        if is_message(piece) and not forged:
            piece = b''
        return f'{where} {self.rng.choice((hexed(piece), hexed(piece).upper()))}'

    def reply(self, addr, check, header):
        """A reply of the size that the request's header asks for, mostly with small numbers; or a refusal."""
        size = self.rng.randint(0, 255) if SIZES[header] is None else SIZES[header]
        data = bytes(self.rng.choice((0, 0, 1, 2, 3, self.rng.getrandbits(8))) for _ in range(size))
        return spell(check, HOST, addr, self.rng.choice((0, 0, 0, 0, 0, 5, 6)), data)

    def damaged(self, piece):
        """What may be left of a message."""
        at = self.rng.randrange(len(piece))
        changed = piece[:at] + bytes([piece[at] ^ self.rng.randint(1, 255)]) + piece[at + 1:]
        some = bytes(self.rng.getrandbits(8) for _ in range(self.rng.choice((1, 3, 6, 20, 260))))
        return self.rng.choice((b'', changed, changed, piece[:at], (piece + some)[:260], some))

    def spoil(self, steps):
        """Makes the script wrong at some line, from which on nothing is played; what it ends with."""
        begun, way = len(self.setup) + 1, self.rng.randrange(6)
        if way == 0:
            self.refused = begun + len(steps), 'cut'
            return ''
        if way == 1:
            self.refused = begun + len(steps) + 1, 'trailing'
            return '\n' + self.rng.choice(('\n', 'end\n', 'more'))
        if way == 2:
            at = self.rng.randrange(len(self.setup))
            self.setup.insert(at, self.setup[at])
            self.refused = at + 2, 'again' if self.setup[at].startswith(('value', 'texts')) else 'device'
            return '\n'
        at = self.rng.randrange(len(steps))
        steps[at], kind = self.rng.choice(REFUSED)
        self.refused = begun + at + 1, kind
        return '\n'
