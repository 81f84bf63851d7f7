"""Bytes that aren't what they should be: lines of a script that are refused by their kind, and exchanges that a fault of the
wire damages. One whose bytes are a whole message is reported as forged, at the end of its step."""
from coins import FROM_NONE, STARTED_TEXT
from player import REFUSED, lines, same

# 520 bytes that are no message.
MANY = 520 * '55'
# A line of a script after a setup, and the kind of its refusal. 261 bytes are too many for the devices, and 521 for the host.
REFUSALS = (
    ('', 'word'), ('COIN 2 5', 'word'), ('begin', 'word'), ('value 2 1 5 XX005A', 'word'),
    ('coin 2 0', 'form'), ('coin 2 17', 'form'), ('coin 02 5', 'form'), ('coin  2 5', 'form'), ('next 256', 'form'),
    ('start 2 0000', 'form'), ('fault host 0', 'form'), ('fault devices ' + 261 * '55', 'form'),
    ('fault whole ' + 521 * '55', 'form'), ('pay 3 0 1', 'form'), ('vend 1 0', 'form'), ('crash 2 5 0', 'form'),
    ('coin 3 1', 'device'), ('fall 2', 'device'), ('reset 9', 'device'),
)


def a_line_is_refused_by_its_kind(play):
    front = lines('acceptor 2 simple 1 0; hopper 3 simple 1 0 10; begin')
    for line, kind in REFUSALS:
        play.wants(['run'], f'{front}{line}\n', REFUSED, f'refused 4 {kind}\n')


# What is played after an acceptor at 2 is started, and what is written.
DAMAGED = (
    # a coin that never fell is posted
    ('round 2; next 2; fault host 010b02000105010000000000000000eb; next 2; next 2; next 2; next 2',
     'ok round 2; wire 2 020001e11c 020001e11c01030200000000fa; fault host 010b02000105010000000000000000eb; '
     'wire 2 020001e518 020001e518010b02000105010000000000000000eb; forged 2; '
     'wire 2 020001e617 020001e61701020200fffffd; wire 2 020001e11c 020001e11c01030200000000fa; '
     'put reading 2 1 0 0 5/1; posted 2'),
    # its sum is wrong, and the credits are asked for again
    ('round 2; next 2; fault host 010b02000105010000000000000000ec; next 2; next 2',
     'ok round 2; wire 2 020001e11c 020001e11c01030200000000fa; fault host 010b02000105010000000000000000ec; '
     'wire 2 020001e518 020001e518010b02000105010000000000000000ec; '
     'wire 2 020001e518 020001e518010b02000000000000000000000000f2'),
    # 520 bytes that are no message
    (f'round 2; fault whole {MANY}; next 2; next 2; next 2; next 2; next 2',
     f'ok round 2; fault whole {MANY}; wire 2 020001e11c {MANY}; wire 2 020001e11c 020001e11c01030200000000fa; '
     'wire 2 020001e518 020001e518010b02000000000000000000000000f2; wire 2 020001e617 020001e61701020200fffffd; '
     'wire 2 020001e11c 020001e11c01030200000000fa; clean 2'),
    # the end of a job comes before
    ('round 2; next 2; next 2; next 2; fault host 01030200000000fa; next 2',
     'ok round 2; wire 2 020001e11c 020001e11c01030200000000fa; '
     'wire 2 020001e518 020001e518010b02000000000000000000000000f2; wire 2 020001e617 020001e61701020200fffffd; '
     'fault host 01030200000000fa; wire 2 020001e11c 020001e11c01030200000000fa; clean 2; forged 2'),
    # coins that never fell make the reading be made again
    ('round 2; next 2; next 2; next 2; fault host 01030200050000f5; next 2',
     'ok round 2; wire 2 020001e11c 020001e11c01030200000000fa; '
     'wire 2 020001e518 020001e518010b02000000000000000000000000f2; wire 2 020001e617 020001e61701020200fffffd; '
     'fault host 01030200050000f5; wire 2 020001e11c 020001e11c01030200050000f5; moved 2; forged 2'),
    # a message under the CRC
    ('round 2; fault host 0200b1fe60; next 2',
     'ok round 2; fault host 0200b1fe60; wire 2 020001e11c 020001e11c0200b1fe60; forged 2'),
    # all that is heard: a message after the echo, one in its place, and the echo alone
    ('round 2; fault whole 020001e11c01030200010000f9; next 2',
     'ok round 2; fault whole 020001e11c01030200010000f9; wire 2 020001e11c 020001e11c01030200010000f9; forged 2'),
    ('round 2; fault whole 01030200010000f9; next 2; next 2',
     'ok round 2; fault whole 01030200010000f9; wire 2 020001e11c 01030200010000f9; forged 2; '
     'wire 2 020001e11c 020001e11c01030200000000fa'),
    ('round 2; fault whole 020001e11c; next 2',
     'ok round 2; fault whole 020001e11c; wire 2 020001e11c 020001e11c; forged 2'),
    # what the devices hear: another request, and one whose sum is wrong
    ('round 2; fault devices 020001e617; next 2; next 2',
     'ok round 2; fault devices 020001e617; wire 2 020001e11c 020001e11c01020200fffffd; forged 2; '
     'wire 2 020001e11c 020001e11c01030200000000fa'),
    ('round 2; fault devices 020001e618; next 2',
     'ok round 2; fault devices 020001e618; wire 2 020001e11c 020001e11c'),
    # a fault that another one replaces before an exchange, and one that waits for it
    ('round 2; fault host 01030200010000f9; fault host -; next 2',
     'ok round 2; fault host 01030200010000f9; fault host -; wire 2 020001e11c 020001e11c'),
    ('fault host 01030200010000f9; next 2; balance; round 2; next 2',
     'fault host 01030200010000f9; idle 2; balance 0 0 0 0; ok round 2; '
     'wire 2 020001e11c 020001e11c01030200010000f9; forged 2'),
    # after an address poll the host may hear anything, but the devices may not
    ('scan; fault host 01000200fd; next 0; fault whole 0200b1fe60; next 0',
     'ok scan; fault host 01000200fd; wire 0 000001fd02 000001fd0201000200fd; fault whole 0200b1fe60; '
     'wire 0 0000b2fd3e 0200b1fe60'),
    ('scan; fault devices 000001fd02; next 0',
     'ok scan; fault devices 000001fd02; wire 0 000001fd02 000001fd0202; forged 0'),
    ('scan; next 0; next 0; fault host 01000200fd; next 0',
     'ok scan; wire 0 000001fd02 000001fd0202; wire 0 0000b2fd3e 0000b2fd3e; fault host 01000200fd; '
     'wire 0 020001feff 020001feff01000200fd; listed 2/simple; forged 0'),
)


def a_message_in_place_of_another_is_reported(play):
    for steps, text in DAMAGED:
        transcript, _ = play.run(lines(f'FROM_NONE; {steps}; end', globals()))
        same(transcript, lines(f'STARTED_TEXT; {text}', globals()), steps)
