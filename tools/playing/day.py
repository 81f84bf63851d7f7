"""A day's use, and the same day with one more power cut: before each step, and in each put after each of its calls. Each run is
judged by its lines and by what is reported after it (mixing/judge.py)."""
import pathlib
import sys

from player import Differs, lines, same

sys.path.insert(0, str(pathlib.Path(__file__).resolve().parent.parent / 'mixing'))
from judge import wrong

# Two acceptors and three hoppers.
SETUP = '; '.join([
    'acceptor 2 simple 1 0', *(f'value 2 {place} 100 XX100A' for place in range(1, 17)), 'hopper 3 simple 197121 16777214 10',
    'acceptor 4 crc 4 0', *(f'value 4 {place} 50 XX050A' for place in range(1, 17)), 'hopper 5 simple 5 0 50',
    'hopper 6 crc 6 7 100', 'begin'])


def steps_of(*parts):
    """Steps, each so many times."""
    return [step for times, step in parts for _ in range(times)]


STARTS = steps_of((1, 'start 2 ffff'), (5, 'next 2'), (1, 'start 4 ffff'), (5, 'next 4'))
# Five coins are posted at each of two acceptors.
ROUNDS = [step for acceptor in (2, 4) for step in
          [*(f'coin {acceptor} {place}' for place in range(1, 6)), f'round {acceptor}', *5 * [f'next {acceptor}']]]
# Six payouts of three hoppers, of which one jams and one is settled after a power cut, and a sale.
PAYOUTS = steps_of(
    (1, 'pay 3 1 10'), (4, 'next 3'), (10, 'fall 3'), (3, 'next 3'), (1, 'pay 5 2 4'), (4, 'next 5'), (4, 'fall 5'),
    (3, 'next 5'), (1, 'pay 6 3 3'), (4, 'next 6'), (3, 'fall 6'), (3, 'next 6'), (1, 'pay 3 4 5'), (4, 'next 3'),
    (2, 'fall 3'), (1, 'jam 3'), (3, 'next 3'), (1, 'pay 5 5 2'), (4, 'next 5'), (1, 'fall 5'), (1, 'crash 1'), (1, 'fall 5'),
    (1, 'settle 5'), (3, 'next 5'), (1, 'pay 6 6 1'), (4, 'next 6'), (1, 'fall 6'), (3, 'next 6'), (1, 'vend 7 150'), (1, 'next 1'))
STOPS = steps_of((1, 'stop 2'), (6, 'next 2'), (1, 'stop 4'), (6, 'next 4'))
DAY = STARTS + 4 * ROUNDS + PAYOUTS + STOPS
# Each open order is settled, and each running epoch is read. Where none is open or runs, the command is refused.
TAIL = steps_of((1, 'settle 3'), (3, 'next 3'), (1, 'settle 5'), (3, 'next 5'), (1, 'settle 6'), (3, 'next 6'), (1, 'round 2'),
                (5, 'next 2'), (1, 'round 4'), (5, 'next 4'), (1, 'balance'), (1, 'end'))


def played(play, place=0, cut=''):
    """Plays the day with a power cut before the step of this place, or none: its transcript."""
    script = lines('; '.join(['SETUP', *DAY[:place], *filter(None, [cut]), *DAY[place:], *TAIL]), globals())
    status, transcript, journal = play.call(['run'], script)
    listed, report, _ = play.call(['report'], '', journal)
    same((status, listed), (0, 0), cut)
    why = wrong(script, transcript.splitlines(), report.splitlines(), None)
    if why:
        raise Differs(f'{cut} before step {place}: {why}')
    return transcript


def fronts(play):
    """What the day writes up to each step, and to its end."""
    return [play.call(['run'], lines('; '.join(['SETUP', *DAY[:place]]), globals()))[1].rpartition('refused ')[0]
            for place in range(len(DAY) + 1)]


def records_in(text):
    """How many records a text reports as put."""
    return sum(line.startswith('put ') for line in text.splitlines())


def a_day_has_what_it_is_to_have(play):
    transcript = played(play)
    for line in ('put closed 4 2 3', 'crash 19', 'put closed 5 2 0', 'put sold 7 150', 'stopped 2', 'stopped 4'):
        same(f'\n{line}\n' in transcript, True, line)
    same((transcript.endswith('\nbalance 2030 0 820 150\n'), records_in(transcript)), (True, 25), 'its end')


def a_day_outlasts_a_power_cut_before_each_step(play):
    for place, front in enumerate(fronts(play)[:-1]):
        after = f'{front}crash {records_in(front)}\n'
        same(played(play, place, 'crash 0').startswith(after), True, f'before step {place}')


def a_day_outlasts_a_power_cut_in_each_put(play):
    """After so many calls of the disk. A file keeps the gate that was written."""
    written = fronts(play)
    for place, (front, more) in enumerate(zip(written, written[1:])):
        put = more[len(front):].partition('\n')[0]
        if put.startswith('put '):
            for calls in range(5):
                kept = f'kept {put[4:]}\n' if calls > 2 else ''
                after = f'{front}crash {records_in(front) + (calls > 2)}\n{kept}'
                cut = f'crash {DAY[place].split()[1]} {calls} 1'
                same(played(play, place, cut).startswith(after), True, f'{cut} before step {place}')
