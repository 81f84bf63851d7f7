"""Coins are posted or reported lost, each once: where more come than a credit buffer keeps, where a counter is at its end,
where a coin comes while a reading is made, and where a reset, a power cut or a lost message comes before any row of a start, a
round or a stop."""
from player import Differs, lines, same

VALUES = '; '.join(f'value 2 {place} 100 XX100A' for place in range(1, 17))
# An acceptor that accepted so many coins before starts.
STARTED = 'acceptor 2 simple 1 {}; ' + VALUES + '; begin; start 2 ffff; next 2; next 2; next 2; next 2; next 2'
FROM_NONE = STARTED.format(0)
ROUND = 'round 2; next 2; next 2; next 2; next 2; next 2'
STARTED_TEXT = ('ok start 2 ffff; wire 2 02000101fc 02000101fc01000200fd; '
                'wire 2 020001e518 020001e518010b02000000000000000000000000f2; wire 2 020001e11c 020001e11c01030200000000fa; '
                'put epoch 2 ffff 0; wire 2 020201e7ffff16 020201e7ffff1601000200fd; started 2')
# A coin comes between the two accept counters of a round, and is posted by the next round.
MOVED = 'round 2; next 2; coin 2 5; next 2; next 2; next 2; round 2; next 2; next 2; next 2; next 2; next 2; end'
MOVED_TEXT = ('ok round 2; wire 2 020001e11c 020001e11c01030200010000f9; accepted 2 5 1; '
              'wire 2 020001e518 020001e518010b02000205010501000000000000e4; '
              'wire 2 020001e617 020001e61701020200fffffd; wire 2 020001e11c 020001e11c01030200020000f8; moved 2; '
              'ok round 2; wire 2 020001e11c 020001e11c01030200020000f8; '
              'wire 2 020001e518 020001e518010b02000205010501000000000000e4; '
              'wire 2 020001e617 020001e61701020200fffffd; wire 2 020001e11c 020001e11c01030200020000f8; '
              'put reading 2 2 0 2 5/1,5/1; posted 2')


def a_coin_within_a_reading_is_posted_by_the_next(play):
    same(play.run(lines('FROM_NONE; coin 2 5; MOVED', globals())),
         (lines('STARTED_TEXT; accepted 2 5 1; MOVED_TEXT', globals()), 'total 2 0 0 0 0'), 'moved')


def counted(play, script):
    """Plays a script: its transcript, and how many coins its records post and report lost. These are all that were accepted."""
    transcript, total = play.run(script)
    posted, lost = map(int, total.split()[1:3])
    same(posted + lost, transcript.count('\naccepted '), total)
    return transcript, posted, lost


# What the acceptor had accepted before its setup, how many coins come between two rounds, and the record of the second one. The
# event counter goes from 255 to 1, and the accept counter from 16,777,215 to 0.
BETWEEN = (
    (0, 255, 'reading 2 1 255 256 -'),
    (0, 256, 'reading 2 2 255 257 1/1'),
    (0, 70000, 'reading 2 131 69995 70001 1/1,1/1,1/1,1/1,1/1'),
    (16777215, 3, 'reading 2 4 0 3 1/1,1/1,1/1'),
    (16777214, 256, 'reading 2 2 255 255 1/1'),
)


def coins_between_two_rounds_are_posted_or_lost(play):
    for before, coins, record in BETWEEN:
        steps = '; '.join([STARTED.format(before), 'coin 2 1', 'ROUND', *coins * ['coin 2 1'], 'ROUND', 'end'])
        transcript, posted, lost = counted(play, lines(steps, globals()))
        same(posted + lost, coins + 1, record)
        if f'\nput epoch 2 ffff {before}\n' not in transcript or not transcript.endswith(f'\nput {record}\nposted 2\n'):
            raise Differs(f'no {record} of\n{transcript[-2000:]}')


# Seven coins: two more than a credit buffer keeps.
SEVEN = '; '.join(7 * ['coin 2 1'])
# A command, how many rows its job has, and what is played before it, in an epoch with seven new coins.
JOBS = (
    ('start 2 ffff', 5, 'stop 2; next 2; next 2; next 2; next 2; next 2; next 2; next 2'),
    ('round 2', 5, ''),
    ('stop 2', 7, ''),
)
# The job goes on, if it is there yet. Seven coins more are read, an epoch begins, if none runs yet, and a last coin is read.
AFTER = ('next 2; next 2; next 2; next 2; next 2; next 2; next 2; next 2; coin 2 1; coin 2 1; coin 2 1; coin 2 1; '
         'coin 2 1; coin 2 1; coin 2 1; round 2; next 2; next 2; next 2; next 2; next 2; next 2; start 2 ffff; '
         'next 2; next 2; next 2; next 2; next 2; next 2; coin 2 3; round 2; next 2; next 2; next 2; next 2; '
         'next 2; end')
# What comes before a row, and how many coins are posted and reported lost by the runs in which it comes before each row of each
# job.
EVENTS = (
    ('reset 2', 102, 69),
    ('crash 0', 71, 101),
    ('crash 2 4 0', 82, 91),
    ('fault host -', 152, 54),
    ('fault devices -', 142, 50),
    ('coin 2 2', 130, 75),
)


def what_comes_before_any_row_loses_no_coin_in_silence(play):
    for event, posted, lost in EVENTS:
        sums = [0, 0]
        for job, rows, before in JOBS:
            for row in range(rows):
                steps = '; '.join(['FROM_NONE', 'SEVEN', *filter(None, [before]), job, *row * ['next 2'], event, 'AFTER'])
                transcript, *found = counted(play, lines(steps, globals()))
                # The last round is completed.
                same(transcript.endswith('\nposted 2\n'), True, steps)
                sums = [one + more for one, more in zip(sums, found)]
        same(sums, [posted, lost], event)
