"""Bills are posted once they are stacked, once."""
from player import Differs, lines, same, said_after

# Two kinds of bills: places 1 and 2. An epoch begins that lets both in.
STARTED = ('bills 4 simple 9 0; value 4 1 500 XX500A; value 4 2 1000 XX1K0A; begin; start 4 0003; next 4; next 4; '
           'next 4; next 4; next 4')
# A bill is held while a round reads, then it is stacked, and the next round posts it.
STACKED = ('bills 4 simple 9 0; value 4 1 500 XX500A; begin; start 4 0001; next 4; next 4; next 4; next 4; next 4; '
           'bill 4 1; round 4; next 4; next 4; next 4; next 4; next 4; route 4 1')
STACKED_TEXT = ('ok start 4 0001; wire 4 04000101fa 04000101fa01000400fb; '
                'wire 4 0400019f5c 0400019f5c010b04000000000000000000000000f0; '
                'wire 4 040001e11a 040001e11a01030400000000f8; put epoch 4 0001 0; '
                'wire 4 040201e7010011 040201e701001101000400fb; started 4; held 4 1; ok round 4; '
                'wire 4 040001e11a 040001e11a01030400000000f8; '
                'wire 4 0400019f5c 0400019f5c010b04000101010000000000000000ed; '
                'wire 4 040001e615 040001e615010204000100f8; wire 4 040001e11a 040001e11a01030400000000f8; '
                'put reading 4 1 0 0 -; posted 4; ok route 4 1')
READ = 'round 4; next 4; next 4; next 4; next 4; next 4'
READ_TEXT = ('ok round 4; wire 4 040001e11a 040001e11a01030400010000f7; '
             'wire 4 0400019f5c 0400019f5c010b04000201000101000000000000eb; '
             'wire 4 040001e615 040001e615010204000100f8; wire 4 040001e11a 040001e11a01030400010000f7; '
             'put reading 4 2 0 1 1/0; posted 4')


def a_stacked_bill_is_posted(play):
    ran = play.run(lines('STACKED; next 4; READ; balance; end', globals()))
    same(ran, (lines('STACKED_TEXT; wire 4 0401019a015f 0401019a015f01000400fb; routed 4; READ_TEXT; balance 500 0 0 0',
                     globals()), 'total 1 0 0 0 0'), 'stacked')


def a_route_is_asked_once_and_its_bill_posted_once(play):
    ran = play.run(lines('STACKED; fault host -; next 4; READ; route 4 1; next 4; end', globals()))
    same(ran, (lines('STACKED_TEXT; fault host -; wire 4 0401019a015f 0401019a015f; routeunsure 4; READ_TEXT; ok route 4 1; '
                     'wire 4 0401019a015f 0401019a015f01000405f6; routeunsure 4', globals()), 'total 1 0 0 0 0'), 'asked once')


# What is played after a bill of place 2 is held; what is written from then on beside exchanges; and the sums. A route and a round
# come after all of these.
HELD = (
    ('route 4 0; next 4',
     'ok route 4 0; routed 4; ok route 4 1; routeunsure 4; ok round 4; put reading 4 2 0 0 -; posted 4; '
     'balance 0 0 0 0',
     'total 0 0 0 0 0'),
    ('route 4 1; reset 4; next 4',
     'ok route 4 1; reset 4; routeunsure 4; ok route 4 1; routeunsure 4; ok round 4; put broken 4 0000 0 0 0 -; '
     'broke 4; balance 0 0 0 0',
     'total 0 0 0 0 0'),
    ('route 4 1; crash 0; next 4',
     'ok route 4 1; crash 1; idle 4; ok route 4 1; routed 4; ok round 4; put reading 4 2 0 1 2/0; posted 4; '
     'balance 1000 0 0 0',
     'total 1 0 0 0 0'),
    ('route 4 1; next 4; crash 0',
     'ok route 4 1; routed 4; crash 1; ok route 4 1; routeunsure 4; ok round 4; put reading 4 2 0 1 2/0; posted 4; '
     'balance 1000 0 0 0',
     'total 1 0 0 0 0'),
    ('route 4 1; fault host -; next 4',
     'ok route 4 1; fault host -; routeunsure 4; ok route 4 1; routeunsure 4; ok round 4; put reading 4 2 0 1 2/0; '
     'posted 4; balance 1000 0 0 0',
     'total 1 0 0 0 0'),
    ('route 4 1; fault devices -; next 4',
     'ok route 4 1; fault devices -; routeunsure 4; ok route 4 1; routed 4; ok round 4; put reading 4 2 0 1 2/0; '
     'posted 4; balance 1000 0 0 0',
     'total 1 0 0 0 0'),
    ('bill 4 1; route 4 1; next 4',
     'inhibited 4 1; ok route 4 1; routed 4; ok route 4 1; routeunsure 4; ok round 4; put reading 4 3 0 1 2/0; '
     'posted 4; balance 1000 0 0 0',
     'total 1 0 0 0 0'),
    ('route 4 1; route 4 0; stop 4; next 4',
     'ok route 4 1; no route 4 0 busy; no stop 4 busy; routed 4; ok route 4 1; routeunsure 4; ok round 4; '
     'put reading 4 2 0 1 2/0; posted 4; balance 1000 0 0 0',
     'total 1 0 0 0 0'),
    ('stop 4; next 4; next 4; next 4; next 4; next 4; next 4; next 4',
     'ok stop 4; put reading 4 1 0 0 -; put epochend 4; stopped 4; no route 4 1 noepoch; idle 4; '
     'no round 4 noepoch; idle 4; idle 4; idle 4; idle 4; idle 4; balance 0 0 0 0',
     'total 0 0 0 0 0'),
)


def a_held_bill_is_routed_as_it_is_reported(play):
    for steps, text, sums in HELD:
        transcript, total = play.run(lines(f'STARTED; bill 4 2; {steps}; route 4 1; next 4; round 4; next 4; next 4; next 4; '
                                           'next 4; next 4; balance; end', globals()))
        same((said_after(transcript, 'held 4 2'), total), (lines(text), sums), steps)


# A bill of place 1 is stacked, which no round has read yet, and one of place 2 is held.
ONE_STACKED_ONE_HELD = 'bill 4 1; route 4 1; next 4; bill 4 2'
# A command, how many rows its job has, and what is played before it. A stop leaves the bill held.
JOBS = (
    ('start 4 0003', 5, 'stop 4; next 4; next 4; next 4; next 4; next 4; next 4; next 4'),
    ('round 4', 5, ''),
    ('stop 4', 7, ''),
    ('route 4 1', 1, ''),
    ('route 4 0', 1, ''),
)
# The job goes on, if it is there yet. What is still held is stacked, a bill is given back and one is stacked, if an epoch runs.
# All is read, an epoch begins, if none runs yet, and a last bill is stacked and posted.
AFTER = ('next 4; next 4; next 4; next 4; next 4; next 4; next 4; next 4; route 4 1; next 4; bill 4 2; route 4 0; '
         'next 4; bill 4 1; route 4 1; next 4; round 4; next 4; next 4; next 4; next 4; next 4; next 4; '
         'start 4 0003; next 4; next 4; next 4; next 4; next 4; next 4; bill 4 2; route 4 1; next 4; round 4; '
         'next 4; next 4; next 4; next 4; next 4; balance; end')
# The host sends: stack the bill that is held (154 with 1), give it back (154 with 0), reset (1).
STACK, RETURN, RESET = '0401019a015f', '0401019a0060', '04000101fa'
WORTH = {'1/0': 500, '2/0': 1000}


def bills_of(transcript):
    """The bills `PLACE/0` that were stacked, and those that are posted, in their order, and how many are reported lost: by the
    lines of what came to the acceptor and of what it heard, and by the records."""
    held, stacked, posted, lost, is_deaf = None, [], [], 0, False
    for word, *fields in map(str.split, transcript.splitlines()):
        if word == 'held':
            held = f'{fields[1]}/0'
        elif word == 'reset':
            held = None
        elif word == 'fault':
            is_deaf = fields[0] == 'devices'
        elif word == 'wire' and is_deaf:
            is_deaf = False
        elif word == 'wire' and fields[1] in (STACK, RETURN, RESET):
            stacked += [held] if fields[1] == STACK and held else []
            held = None
        elif word in ('put', 'kept') and fields[0] in ('reading', 'broken'):
            lost += int(fields[-3])
            posted += [] if fields[-1] == '-' else fields[-1].split(',')
    return stacked, posted, lost


def posts_what_is_stacked(play, event):
    """Plays the runs in which this comes before each row of each job: each stacked bill is posted or reported lost, once, and
    those that are posted are in the order in which they were stacked. No other bill is posted."""
    for job, rows, before in JOBS:
        for row in range(rows):
            rows_before = [*filter(None, [before]), job, *row * ['next 4']]
            steps = '; '.join(['STARTED', 'ONE_STACKED_ONE_HELD', *rows_before, event, 'AFTER'])
            transcript, total = play.run(lines(steps, globals()))
            stacked, posted, lost = bills_of(transcript)
            left = iter(stacked)
            same((all(bill in left for bill in posted), len(posted) + lost), (True, len(stacked)), transcript)
            # The first and the last bill at least, and the last round is completed.
            last = f'\nposted 4\nbalance {sum(WORTH[bill] for bill in posted)} 0 0 0\n'
            if len(stacked) < 2 or not transcript.endswith(last):
                raise Differs(f'{steps}\n{transcript[-2000:]}')
            same(total.split()[1:3], [str(len(posted)), str(lost)], steps)


def a_reset_before_any_row_posts_what_is_stacked(play):
    for event in ('reset 4', 'bill 4 1'):
        posts_what_is_stacked(play, event)


def a_power_cut_before_any_row_posts_what_is_stacked(play):
    for event in ('crash 0', 'crash 4 3 1'):
        posts_what_is_stacked(play, event)


def a_lost_message_before_any_row_posts_what_is_stacked(play):
    for event in ('fault host -', 'fault devices -'):
        posts_what_is_stacked(play, event)
