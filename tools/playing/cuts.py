"""Power cuts within a script: where a record is kept, and what the host knows after them. A file keeps what was written."""
from coins import FROM_NONE, ROUND, STARTED_TEXT, VALUES
from player import DONE, Differs, lines, same

# A coin is read, up to the put of its reading.
READ = 'coin 2 5; round 2; next 2; next 2; next 2; next 2'
READ_TEXT = ('accepted 2 5 1; ok round 2; wire 2 020001e11c 020001e11c01030200010000f9; '
             'wire 2 020001e518 020001e518010b02000105010000000000000000eb; wire 2 020001e617 020001e61701020200fffffd; '
             'wire 2 020001e11c 020001e11c01030200010000f9')
# What is written of a cut and a whole round after it, where the reading is lost, and where it is kept.
PUT_AGAIN = ('crash 1; ok round 2; wire 2 020001e11c 020001e11c01030200010000f9; '
             'wire 2 020001e518 020001e518010b02000105010000000000000000eb; '
             'wire 2 020001e617 020001e61701020200fffffd; wire 2 020001e11c 020001e11c01030200010000f9; '
             'put reading 2 1 0 1 5/1; posted 2')
CLEAN = ('crash 2; kept reading 2 1 0 1 5/1; ok round 2; wire 2 020001e11c 020001e11c01030200010000f9; '
         'wire 2 020001e518 020001e518010b02000105010000000000000000eb; '
         'wire 2 020001e617 020001e61701020200fffffd; wire 2 020001e11c 020001e11c01030200010000f9; clean 2; idle 2')
# Power cuts in the place of that put. Nothing is kept where no put is named, or an address without a job; else the calls of the
# disk that were made decide: a write of the body, a sync, a write of the gate, and a sync.
LOST = ('crash 0', 'crash 1', 'crash 2', 'crash 3', 'crash 5', 'crash 0 4 1', 'crash 1 4 1', 'crash 3 4 1', 'crash 255 4 0',
        'crash 2 0 0', 'crash 2 0 1', 'crash 2 1 0', 'crash 2 1 1', 'crash 2 2 0', 'crash 2 2 1', 'crash 2 2 5')
KEPT = ('crash 2 3 0', 'crash 2 3 1', 'crash 2 3 18446744073709551615', 'crash 2 4 0', 'crash 2 4 1', 'crash 2 4 3')


def a_reading_is_kept_or_posted_again(play):
    for cuts, text in ((LOST, 'PUT_AGAIN'), (KEPT, 'CLEAN')):
        for cut in cuts:
            transcript, _ = play.run(lines(f'FROM_NONE; READ; {cut}; ROUND; end', globals()))
            same(transcript, lines(f'STARTED_TEXT; READ_TEXT; {text}', globals()), cut)


# A coin of value 100 is posted, with a hopper at 3.
POSTED = ('acceptor 2 simple 1 0; ' + VALUES + '; hopper 3 simple 197121 16777214 10; begin; start 2 ffff; next 2; next 2; '
          'next 2; next 2; next 2; coin 2 5; round 2; next 2; next 2; next 2; next 2; next 2')
# What is played after it, and the last lines that it gives.
AFTER = (
    # an order that was opened, and not paid yet: no second dispense is sent
    ('pay 3 41 4; next 3; next 3; next 3; crash 0; settle 3; next 3; next 3; next 3',
     'put opened 41 3 4 16777214; crash 3; ok settle 3; wire 3 030001a656 030001a6560104030000000000f8; '
     'wire 3 030001a854 030001a85401030300fefffffd; put closed 41 0 4; closed 3'),
    ('pay 3 41 4; next 3; next 3; next 3; crash 0; pay 3 43 1; next 3; balance',
     'crash 3; no pay 3 43 1 orderopen 41; idle 3; balance 60 40 0 0'),
    # its record is kept: it is open
    ('pay 3 41 4; next 3; next 3; crash 3 4 0; balance; next 3; settle 3; next 3; next 3; next 3; balance',
     'crash 3; kept opened 41 3 4 16777214; balance 60 40 0 0; idle 3; ok settle 3; '
     'wire 3 030001a656 030001a6560104030000000000f8; wire 3 030001a854 030001a85401030300fefffffd; '
     'put closed 41 0 4; closed 3; balance 100 0 0 0'),
    # its record is lost: what it reserved is free, and its id may be used again
    ('pay 3 41 4; next 3; next 3; balance; crash 3 2 1; balance; settle 3; halt 3; pay 3 41 4',
     'balance 60 40 0 0; crash 2; balance 100 0 0 0; no settle 3 noorder; no halt 3 nopayout; ok pay 3 41 4'),
    # coins fall before and after the crash
    ('pay 3 41 4; next 3; next 3; next 3; next 3; fall 3; crash 3 4 1; fall 3; fall 3; fall 3; fall 3; settle 3; '
     'next 3; next 3; next 3; balance',
     'fell 3; crash 3; fell 3; fell 3; fell 3; nofall 3; ok settle 3; '
     'wire 3 030001a656 030001a6560104030001000400f3; wire 3 030001a854 030001a85401030300020000f7; '
     'put closed 41 4 0; closed 3; balance 60 0 40 0'),
    # what closes it is kept
    ('pay 3 41 4; next 3; next 3; next 3; next 3; fall 3; fall 3; fall 3; fall 3; next 3; next 3; crash 3 3 1; '
     'next 3; settle 3; pay 3 41 1; balance',
     'crash 4; kept closed 41 4 0; idle 3; no settle 3 noorder; no pay 3 41 1 oldid 41; balance 60 0 40 0'),
    # what closes it is lost, and is put again
    ('pay 3 41 4; next 3; next 3; next 3; next 3; fall 3; fall 3; fall 3; fall 3; next 3; next 3; crash 3 2 3; '
     'balance; settle 3; next 3; next 3; next 3; balance',
     'crash 3; balance 60 40 0 0; ok settle 3; wire 3 030001a656 030001a6560104030001000400f3; '
     'wire 3 030001a854 030001a85401030300020000f7; put closed 41 4 0; closed 3; balance 60 0 40 0'),
    # a sale is kept
    ('vend 5 30; crash 1 4 0; balance; vend 5 10; vend 6 70; next 1; balance',
     'ok vend 5 30; crash 3; kept sold 5 30; balance 70 0 0 30; no vend 5 10 oldid 5; ok vend 6 70; put sold 6 70; '
     'sold; balance 0 0 0 100'),
    # a sale is lost
    ('vend 5 30; balance; crash 1 2 0; next 1; balance; vend 5 100; next 1; balance',
     'ok vend 5 30; balance 70 30 0 0; crash 2; idle 1; balance 100 0 0 0; ok vend 5 100; put sold 5 100; sold; '
     'balance 0 0 0 100'),
    # a job that was to put a sale isn't named
    ('vend 5 30; crash 3 4 0; next 1', 'ok vend 5 30; crash 2; idle 1'),
    # the first of a stop's two records is kept: the epoch runs on
    ('coin 2 5; stop 2; next 2; next 2; next 2; next 2; next 2; crash 2 4 0; start 2 ffff; stop 2; balance',
     'crash 3; kept reading 2 2 0 2 5/1; no start 2 ffff epochruns; ok stop 2; balance 200 0 0 0'),
    # the end of an epoch is kept, and is lost
    ('stop 2; next 2; next 2; next 2; next 2; next 2; crash 2 4 0; round 2; start 2 ffff',
     'crash 3; kept epochend 2; no round 2 noepoch; ok start 2 ffff'),
    ('stop 2; next 2; next 2; next 2; next 2; next 2; crash 2 1 1; round 2; start 2 ffff',
     'crash 2; ok round 2; no start 2 ffff busy'),
    # a record that a device's row doesn't put yet
    ('round 2; next 2; crash 2 4 0; next 2; round 2', 'crash 2; idle 2; ok round 2'),
    # a fault of the wire and a device outlast the host
    ('coin 2 6; fault host -; crash 7; crash 7; round 2; next 2; next 2',
     'accepted 2 6 1; fault host -; crash 2; crash 2; ok round 2; wire 2 020001e11c 020001e11c; '
     'wire 2 020001e11c 020001e11c01030200020000f8'),
)


def a_host_goes_on_by_its_records(play):
    for steps, ending in AFTER:
        transcript, _ = play.run(lines(f'POSTED; {steps}; end', globals()))
        if not transcript.endswith('\n' + lines(ending)):
            raise Differs(f'{steps}\n{transcript[-2000:]}')


# An epoch whose record is kept before its mask is sent ends with the first round.
UNSET = ('acceptor 2 simple 1 0; value 2 5 100 XX100A; hopper 3 simple 197121 16777214 10; hopper 5 simple 5 0 10; '
         'begin; start 2 0010; next 2; crash 2 4 0; start 2 0010; next 2; next 2; next 2; crash 2 4 0; coin 2 5; '
         'round 2; next 2; next 2; next 2; next 2; next 2; round 2; start 2 0010; end')
UNSET_TEXT = ('ok start 2 0010; wire 2 02000101fc 02000101fc01000200fd; crash 0; ok start 2 0010; '
              'wire 2 02000101fc 02000101fc01000200fd; '
              'wire 2 020001e518 020001e518010b02000000000000000000000000f2; '
              'wire 2 020001e11c 020001e11c01030200000000fa; crash 1; kept epoch 2 0010 0; inhibited 2 5; '
              'ok round 2; wire 2 020001e11c 020001e11c01030200000000fa; '
              'wire 2 020001e518 020001e518010b02000100020000000000000000ef; '
              'wire 2 020001e617 020001e617010202000000fb; wire 2 020001e11c 020001e11c01030200000000fa; '
              'put broken 2 0000 1 0 0 -; broke 2; no round 2 noepoch; ok start 2 0010')
# Two orders whose ids stand out of order in the journal.
CROSSED = ('acceptor 2 simple 1 0; value 2 5 100 XX100A; hopper 3 simple 197121 16777214 10; '
           'hopper 5 simple 5 0 10; begin; start 2 0010; next 2; next 2; next 2; next 2; next 2; coin 2 5; '
           'round 2; next 2; next 2; next 2; next 2; next 2; pay 3 41 1; pay 5 42 1; next 5; next 5; next 5; '
           'next 3; next 3; next 3; crash 0; pay 3 43 1; vend 42 1; vend 43 81; vend 43 80; end')
CROSSED_TEXT = ('ok start 2 0010; wire 2 02000101fc 02000101fc01000200fd; '
                'wire 2 020001e518 020001e518010b02000000000000000000000000f2; '
                'wire 2 020001e11c 020001e11c01030200000000fa; put epoch 2 0010 0; '
                'wire 2 020201e7100004 020201e710000401000200fd; started 2; accepted 2 5 1; ok round 2; '
                'wire 2 020001e11c 020001e11c01030200010000f9; '
                'wire 2 020001e518 020001e518010b02000105010000000000000000eb; '
                'wire 2 020001e617 020001e617010202001000eb; wire 2 020001e11c 020001e11c01030200010000f9; '
                'put reading 2 1 0 1 5/1; posted 2; ok pay 3 41 1; ok pay 5 42 1; '
                'wire 5 050101a4a5b0 050101a4a5b001000500fa; wire 5 050001a852 050001a85201030500000000f7; '
                'put opened 42 5 1 0; wire 3 030101a4a5b2 030101a4a5b201000300fc; '
                'wire 3 030001a854 030001a85401030300fefffffd; put opened 41 3 1 16777214; crash 4; '
                'no pay 3 43 1 orderopen 41; no vend 42 1 oldid 42; no vend 43 81 short 80; ok vend 43 80')


def a_host_starts_over_any_of_its_records(play):
    for script, text in (('UNSET', 'UNSET_TEXT'), ('CROSSED', 'CROSSED_TEXT')):
        transcript, _ = play.run(lines(script, globals()))
        same(transcript, lines(text, globals()), script)


# How many records a half takes; so many rounds fill it with the record of the epoch, and put one more. The event counter is
# then 92, the number of rounds modulo 255. No event is new to a host that starts again.
ROUNDS = 32732
TURNED_TEXT = ('put reading 2 92 0 32732 1/1; posted 2; crash 32733; ok round 2; '
               'wire 2 020001e11c 020001e11c01030200dc7f009f; '
               'wire 2 020001e518 020001e518010b02005c010101010101010101018c; '
               'wire 2 020001e617 020001e61701020200fffffd; wire 2 020001e11c 020001e11c01030200dc7f009f; clean 2; '
               'idle 2')


def a_full_half_is_followed_by_the_other(play):
    steps = '; '.join(['FROM_NONE', *ROUNDS * ['coin 2 1; ROUND'], 'crash 0', 'ROUND', 'end'])
    _, transcript, journal = play.call(['run'], lines(steps, globals()))
    if not transcript.endswith('\n' + lines(TURNED_TEXT)):
        raise Differs(transcript[-2000:])
    # The carry has the sums of all that were put before.
    play.wants(['report'], '', DONE, lines(f'record {ROUNDS} reading 2 92 0 {ROUNDS} 1/1; total {ROUNDS} 0 0 0 0'), journal)
