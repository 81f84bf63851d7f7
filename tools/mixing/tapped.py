"""Captures for an audit: those of a run's transcript, and drawn ones of a host that asks anything."""
import random

from monitor import CREDITS, LIFE, MASK, RESET, SET
from wire import CHECKS, HOST, hexed, spell

# What a drawn host asks of a device, and how often. 225 and 166 are none that an audit looks at.
ASKS = {'acceptor': ((CREDITS, 8), (MASK, 8), (225, 2), (SET, 0.7), (RESET, 0.3)), 'hopper': ((LIFE, 8), (166, 4), (RESET, 1))}
# How many events come between two exchanges, how many coins fall, and what becomes of an exchange.
EVENTS = ((0, 70), (1, 12), (2, 5), (4, 2), (5, 3), (6, 3), (254, 1), (255, 1))
FALLS = (0, 0, 1, 2, 255)
WAYS = (('whole', 20), ('silent', 1), ('bare', 1), ('damaged', 2), ('other source', 1), ('other form', 1))


def drawn(rng, weighed):
    """One of some things, by their weights."""
    things, weights = zip(*weighed)
    return rng.choices(things, weights)[0]


class Capture:
    """The watched devices, each with its address, check and kind, and the taps, each with what was sent and heard."""

    def __init__(self):
        self.watched, self.taps = [], []

    def text(self):
        """Its lines."""
        lines = [f'watch {addr} {check} {kind}' for addr, check, kind in self.watched] + ['begin']
        return '\n'.join(lines + [f'tap {hexed(sent)} {hexed(heard)}' for sent, heard in self.taps] + ['end', ''])


def bytes_of(piece):
    return b'' if piece == '-' else bytes.fromhex(piece)


class Run(Capture):
    """What a run of a script put on the wire, and what it tells of its devices: the coins that an acceptor accepted and those
    that fell out of a hopper, each with the number of taps before it; and whether no message was forged."""

    def __init__(self, script, written):
        super().__init__()
        self.accepted, self.fallen, self.events, self.is_honest = {}, {}, {}, True
        devices = {}
        for line in script.split('begin\n')[0].splitlines():
            word, *fields = line.split(' ')
            if word in ('acceptor', 'hopper'):
                devices.setdefault(int(fields[0]), (fields[1], word))
        self.watched = [(addr, *device) for addr, device in devices.items()]
        for line in written:
            self.line(*line.split(' '))

    def line(self, word, addr='', *fields):
        if word == 'wire':
            self.taps.append(tuple(map(bytes_of, fields)))
        elif word in ('accepted', 'inhibited', 'alien'):
            self.events.setdefault(int(addr), []).append(len(self.taps))
            if word == 'accepted':
                self.accepted.setdefault(int(addr), []).append((len(self.taps), '/'.join(fields)))
        elif word == 'fell':
            self.fallen.setdefault(int(addr), []).append(len(self.taps))
        elif word == 'forged':
            self.is_honest = False

    def is_true(self, said):
        """Whether what is said of a span is so: its sure coins are those that were accepted in it, in their order, and so many
        coins fell in it. A doubt is always true, and so is a span of more events than the counter tells apart."""
        word, addr, first, last, *told = said.split(' ')
        addr, span = int(addr), range(int(first), int(last))
        if word == 'fell':
            return int(told[0]) == sum(at in span for at in self.fallen.get(addr, []))
        coins = ','.join(coin for at, coin in self.accepted.get(addr, []) if at in span)
        return word == 'doubt' or sum(at in span for at in self.events.get(addr, [])) > 254 or told[0] == (coins or '-')


class Simulated:
    """A device of a drawn capture: its events, newest first, its event counter, its mask and its life count."""

    def __init__(self, rng, addr, check, kind):
        self.rng, self.addr, self.check, self.kind = rng, addr, check, kind
        self.counter, self.pairs, self.mask, self.life = 0, [(0, 0)] * 5, 65535, rng.choice((0, 2 ** 24 - 2))

    def moves(self):
        """Events come, or coins fall."""
        for _ in range(drawn(self.rng, EVENTS)):
            self.counter = self.counter % 255 + 1
            self.pairs = [(self.rng.choice((0, 1, 5, 16)), self.rng.randint(1, 8))] + self.pairs[:4]
        self.life = (self.life + self.rng.choice(FALLS)) % 2 ** 24

    def answer(self, header, data):
        """The data of its answer."""
        if header == RESET:
            self.counter, self.pairs, self.mask = 0, [(0, 0)] * 5, 0
        elif header == SET:
            self.mask = int.from_bytes(data, 'little')
        return {CREDITS: bytes([self.counter]) + bytes(sum(self.pairs, ())), MASK: self.mask.to_bytes(2, 'little'),
                LIFE: self.life.to_bytes(3, 'little'), 225: bytes(3), 166: bytes(4)}.get(header, b'')

    def tap(self):
        """An exchange with it, by a way that is drawn."""
        header, way = drawn(self.rng, ASKS[self.kind]), drawn(self.rng, WAYS)
        data = self.rng.choice((b'\xff\xff', b'\xff\xff', b'\0\0')) if header == SET else b''
        if way == 'other form':
            data += b'\0'
        source = 3 if way == 'other source' else HOST
        sent = spell(self.check, self.addr, source, header, data)
        told = spell(self.check, source, self.addr, 0, b'' if way == 'other form' else self.answer(header, data))
        at = self.rng.randrange(len(told))
        damaged = told[:at] + bytes([told[at] ^ self.rng.randint(1, 255)]) + told[at + 1:]
        return sent, {'silent': b'', 'bare': sent, 'damaged': sent + damaged}.get(way, sent + told)


class Drawn(Capture):
    """The capture of a seed: up to 32 watched devices, and taps of them and of one that isn't watched."""

    def __init__(self, seed):
        super().__init__()
        rng = random.Random(seed)
        addrs = rng.sample(range(2, 256), rng.choice((1, 2, 3, 4, 32)))
        self.watched = [(addr, rng.choice(CHECKS), rng.choice(tuple(ASKS))) for addr in addrs]
        other = next(addr for addr in range(2, 256) if addr not in addrs)
        devices = [Simulated(rng, *device) for device in self.watched[:4]] + [Simulated(rng, other, 'simple', 'acceptor')]
        for _ in range(rng.choice((0, 10, 100, 300))):
            device = rng.choice(devices)
            device.moves()
            self.taps.append(device.tap())
