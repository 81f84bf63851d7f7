"""A journal that turns: each half of the file takes 32,732 records. Sales fill a half; then each call of the turn fails once, and
of the put after it, and a day's use is played within which the journal turns at one put after another."""
import re

from day import PAYOUTS, ROUNDS, SETUP, STARTS, STOPS, TAIL
from faults import BEGUN
from player import DISK_FAULT, DONE, blank, lines, same

# How many records a half takes, where the second one begins, and where in a half the gate of its first record stands.
RECORDS = 32732
HALF = 1048576
GATE = 1152
OPEN = 0xa5
# How many calls a turn makes, and a put after it. Each time a write is followed by a sync.
TURN, PUT = 6, 4
# A coin of a million is posted, by two records. Each sale puts a record more.
RICH = ('start 7 0001; next 7; next 7; next 7; next 7; next 7; coin 7 1; round 7; next 7; next 7; next 7; next 7; next 7')
RICH_PUTS = 2
ACCEPTOR = 'acceptor 7 simple 7 0; value 7 1 1000000 XX999A'


def sales(count):
    """So many sales at a price of 1, by ids from 1 on."""
    return [step for number in range(1, count + 1) for step in (f'vend {number} 1', 'next 1')]


def filled(*more):
    """A script that fills the first half, and these steps after it."""
    return lines('; '.join([ACCEPTOR, 'begin', 'RICH', *sales(RECORDS - RICH_PUTS), *more, 'end']), globals())


def total(sold):
    """The sums after so many sales."""
    return f'total 1 0 0 0 {sold}'


def stands(journal, sold):
    """How many records a report lists of a journal that was to turn, and its last line, by the gates that are open."""
    if journal[HALF] != OPEN:
        return RECORDS, total(sold)
    if journal[HALF + GATE] != OPEN:
        return 0, total(sold)
    return 1, total(sold + 1)


def fails(play, calls, choices):
    """Each of these calls fails once, a write torn by each choice, and the power is cut by each choice: what stands then. No call
    is made after the put's last one."""
    sold = RECORDS - RICH_PUTS
    before = BEGUN + PUT * RECORDS
    script = filled(f'vend {sold + 1} 1', 'next 1')
    _, written, full = play.call(['run'], filled(f'vend {sold + 1} 1'), blank())
    for call in calls:
        for torn in choices:
            play.wants(['run'], script, DISK_FAULT, written + 'diskfault\n', blank(), failing_call=before + call, torn=torn)
            writes = play.writes
            writes.leave_out(before)
            for choice in choices:
                journal = writes.cut(full, choice)
                _, listed, _ = play.call(['report'], '', journal)
                same((listed.count('record '), listed.splitlines()[-1]), stands(journal, sold),
                     f'call {call}, torn by {torn}, choice {choice}')
            if not writes.made(before + call):
                break
    text = written + lines(f'put sold {sold + 1} 1; sold')
    play.wants(['run'], script, DONE, text, blank(), failing_call=before + TURN + PUT + 1)


def each_call_of_a_turn_fails_once(play):
    """By the last choice the gate of the second half is open where it was being written."""
    fails(play, range(1, TURN + 1), (1, 0, 165))


def each_call_of_the_put_after_a_turn_fails_once(play):
    """By the last choice the gate of its first record is open where it was being written."""
    fails(play, range(TURN + 1, TURN + PUT + 1), (1, 0, 37))


def the_first_half_is_used_again(play):
    """A journal turns from its second half as it does from its first."""
    steps = '; '.join([ACCEPTOR, 'begin', 'RICH', *sales(2 * RECORDS - 1), 'end'])
    status, _, journal = play.call(['run'], lines(steps, globals()))
    same(status, DONE, 'the run')
    wanted = lines(f'record {2 * RECORDS} sold {2 * RECORDS - 1} 1; {total(2 * RECORDS - 1)}')
    play.wants(['report'], '', DONE, wanted, journal)


# The day's orders and its sale have ids above those of the sales that fill the half.
FIRST_ID = 40000


def with_ids(step):
    return re.sub(r'^(pay \d+|vend) (\d+)', lambda found: f'{found[1]} {FIRST_ID + int(found[2])}', step)


DAY = [with_ids(step) for step in STARTS + ROUNDS + PAYOUTS + STOPS]


def script_of(before, steps):
    """A script of these steps after so many sales."""
    return lines('; '.join([SETUP.replace('begin', f'{ACCEPTOR}; begin'), 'RICH', *sales(before), *steps]), globals())


def day_after(play, before, steps):
    """The lines of these steps of a day after so many sales."""
    status, transcript, _ = play.call(['run'], script_of(before, [*steps, *TAIL]))
    same(status, DONE, f'the day after {before}')
    front, _, rest = transcript.partition(f'\nok {DAY[0]}\n')
    same(front.count('\nput '), RICH_PUTS + before, 'what is put before')
    return [counted(line, before) for line in rest.splitlines()]


def counted(line, before):
    """A line without what so many sales before change: how many records a power cut finds, and what is available and sold."""
    word, *numbers = line.split(' ')
    if word == 'crash':
        return f'crash {int(numbers[0]) - before}'
    if word == 'balance':
        available, reserved, paid, sold = map(int, numbers)
        return f'balance {available + before} {reserved} {paid} {sold - before}'
    return line


def places_of_puts(player):
    """The places of the steps of the day that put a record."""
    count = [player.call(['run'], script_of(0, DAY[:place]))[1].count('\nput ') for place in range(len(DAY) + 1)]
    return [place for place in range(len(DAY)) if count[place] < count[place + 1]]


def a_day_goes_on_over_a_turn(play):
    """The journal turns at one put of the day after another."""
    wanted = day_after(play, 0, DAY)
    for number, place in enumerate(places_of_puts(play)):
        same(day_after(play, RECORDS - RICH_PUTS - number, DAY), wanted, f'a turn at step {place}')


def a_day_goes_on_over_a_power_cut_at_a_turn(play):
    """The power is cut in the put for which the journal turned, after each of its calls."""
    for number, place in enumerate(places_of_puts(play)):
        for calls in range(PUT + 1):
            steps = [*DAY[:place], f'crash {DAY[place].split()[1]} {calls} 1', *DAY[place + 1:]]
            found = day_after(play, RECORDS - RICH_PUTS - number, steps)
            same(found, day_after(play, 0, steps), f'{calls} calls at step {place}')


def a_day_goes_on_over_a_power_cut_after_a_turn(play):
    """The journal turns at the first put of the day, and the power is cut before one step of it after another."""
    for place in range(1, len(DAY)):
        steps = [*DAY[:place], 'crash 0', *DAY[place:]]
        same(day_after(play, RECORDS - RICH_PUTS, steps), day_after(play, 0, steps), f'before step {place}')
