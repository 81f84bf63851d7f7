"""What an audit says of a capture, by the words of docs/AUDIT.md, read off all taps at once: each span by itself."""
from wire import HOST, message

# The credits, the inhibit mask and the life count of a device; what sets a mask, and what resets a device. Each with the sizes
# of the data of its request and of its reply.
CREDITS, MASK, LIFE, SET, RESET = 229, 230, 168, 231, 1
ASKED = {CREDITS: (0, 11), MASK: (0, 2), LIFE: (0, 3), SET: (2, 0), RESET: (0, 0)}
# An acceptor keeps so many events.
KEPT = 5


class Tap:
    """What a tap shows of a watched device: what is asked of it, and the data of its answer to the host, None without one."""

    def __init__(self, addr, check, sent, heard):
        asked = message(check, sent)
        self.asks = asked[2] if asked and asked[0] == addr and len(asked[3]) == ASKED.get(asked[2], (None,))[0] else None
        told = message(check, heard[len(sent):]) if self.asks and heard.startswith(sent) else None
        wanted = told and told[0] == HOST and told[1] in (None, addr) and told[2] == 0 and len(told[3]) == ASKED[self.asks][1]
        self.data = told[3] if wanted else None

    def shows(self, header):
        return self.asks == header and self.data is not None

    def is_setting(self):
        return self.asks in (SET, RESET)


def distance(before, now):
    """How many events came from one event counter to another: after 255 comes 1."""
    return now if before == 0 else 0 if now == 0 else (now - before) % 255


def span(addr, taps, first, last):
    """What is said of the span between two readings, by their places in the list of taps: the tap at which it is said, None
    for the end, and the line."""
    before, now = taps[first].data, taps[last].data
    new = distance(before[0], now[0])
    doubt = f'doubt {addr} {first + 1} {last + 1}'
    if any(tap.is_setting() for tap in taps[first + 1:last]) or (now[0] == 0 and before[0]) or new > KEPT:
        return last, doubt
    for at in range(last + 1, len(taps)):
        if taps[at].is_setting() or taps[at].shows(CREDITS):
            return at, doubt
        if taps[at].shows(MASK) and any(taps[at].data):
            pairs = [now[place:place + 2] for place in range(1, 1 + 2 * new, 2)]
            coins = ','.join(f'{place}/{path}' for place, path in reversed(pairs) if place)
            return at, f'sure {addr} {first + 1} {last + 1} {coins or "-"}'
    return None, doubt


def fallen(addr, taps, first, last):
    """What is said of two life counts."""
    before, now = (int.from_bytes(taps[at].data, 'little') for at in (first, last))
    return last, f'fell {addr} {first + 1} {last + 1} {(now - before) % 2 ** 24}'


def said_of(addr, check, kind, taps):
    """What is said of a watched device, each with the tap at which it is said."""
    taps = [Tap(addr, check, sent, heard) for sent, heard in taps]
    header, says = (CREDITS, span) if kind == 'acceptor' else (LIFE, fallen)
    shown = [at for at, tap in enumerate(taps) if tap.shows(header)]
    return [says(addr, taps, first, last) for first, last in zip(shown, shown[1:])]


def audited(watched, taps):
    """The lines at all taps, and those at the end. A watched device is its address, check and kind; a tap what was sent and
    heard."""
    said = [(at, line) for addr, check, kind in sorted(watched) for at, line in said_of(addr, check, kind, taps)]
    at_taps = [[] for _ in taps]
    for at, line in said:
        if at is not None:
            at_taps[at].append(line)
    return at_taps, [line for at, line in said if at is None]
