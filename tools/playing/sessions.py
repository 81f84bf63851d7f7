"""Sessions of change: they pay what their amount asks for, and say as paid what fell."""
from player import REFUSED, lines, same, said_after

# 100 are posted. Hopper 3 pays coins of 10, and hopper 5 coins of 50.
FUNDED = ('acceptor 2 simple 1 0; value 2 5 100 XX100A; hopper 3 simple 197121 16777214 10; '
          'hopper 5 simple 5 0 50; begin; start 2 0010; next 2; next 2; next 2; next 2; next 2; coin 2 5; round 2; '
          'next 2; next 2; next 2; next 2; next 2')
# Ten coins are in hopper 3, and two in hopper 5.
STOCKED = 'stock 3 10; stock 5 2'
# A session for 70 begins, and hopper 3 is to pay two coins. Its order is opened; both coins fall; and it is closed.
BEGUN = 'change 60 70; serve'
OPENED = 'next 3; next 3; next 3'
FALLEN = 'next 3; fall 3; fall 3'
CLOSED = 'next 3; next 3; next 3'
# An exchange of hopper 3 is lost, three times in succession.
LOST = 'fault host -; next 3; fault host -; next 3; fault host -; next 3'
# The operator pays a coin of 50.
PAID_FIFTY = 'pay 5 61 1; next 5; next 5; next 5; next 5; fall 5; next 5; next 5; next 5'
# The coin of 50 isn't paid, so hopper 3 is to pay five of 10.
NO_FIFTY = 'serve; next 5; crash 0; serve'


def reports(play, cases):
    """Plays steps after the stocks were given, and compares what is written then beside exchanges."""
    for steps, text in cases:
        transcript, _ = play.run(lines(f'FUNDED; STOCKED; {steps}; end', globals()))
        same(said_after(transcript, 'stock 5 2'), lines(text), steps)


def a_session_begins_once_and_waits(play):
    reports(play, (
        ('serve', 'serve idle'),
        ('change 4000000000 10000; change 60 70; serve; serve',
         'change ok 4000000000 10000; change no busy; short 0 10000; serve idle'),
        ('BEGUN; serve; change 1 1; OPENED; serve; FALLEN; CLOSED; serve; serve',
         'change ok 60 70; ok pay 3 60 2; serve wait 3; change no busy; put opened 60 3 2 16777214; serve wait 3; '
         'fell 3; fell 3; put closed 60 2 0; closed 3; ok pay 5 61 1; serve wait 5'),
        # A session without a payment outlives a power cut.
        ('change 60 70; crash 0; serve', 'change ok 60 70; crash 2; ok pay 3 60 2'),
    ))


def a_session_ends_short_without_a_plan_or_without_money(play):
    reports(play, (
        ('change 60 35; serve', 'change ok 60 35; short 0 35'),
        ('stock 3 1; stock 5 4294967295; change 60 70; serve; stock 3 2; change 60 70; serve',
         'stock 3 1; stock 5 4294967295; change ok 60 70; short 0 70; stock 3 2; change ok 60 70; ok pay 3 60 2'),
        # With a sale of 40 there is no money for a payment of 50 after one of 20.
        ('vend 1 40; next 1; BEGUN; OPENED; FALLEN; CLOSED; serve; serve; change 61 40; serve',
         'ok vend 1 40; put sold 1 40; sold; change ok 60 70; ok pay 3 60 2; put opened 60 3 2 16777214; fell 3; '
         'fell 3; put closed 60 2 0; closed 3; no pay 5 61 1 short 40; short 20 50; serve idle; change ok 61 40; '
         'ok pay 3 61 4'),
    ))


def a_session_goes_on_once_its_open_order_is_settled(play):
    reports(play, (
        # No answer comes after the order is opened.
        ('BEGUN; OPENED; FALLEN; LOST; serve; settle 3; serve; CLOSED; serve',
         'change ok 60 70; ok pay 3 60 2; put opened 60 3 2 16777214; fell 3; fell 3; fault host -; fault host -; '
         'fault host -; noanswer 3; serve wait 3; ok settle 3; serve wait 3; put closed 60 2 0; closed 3; '
         'ok pay 5 61 1'),
        # A power cut comes then.
        ('BEGUN; OPENED; FALLEN; crash 0; serve; settle 3; CLOSED; serve',
         'change ok 60 70; ok pay 3 60 2; put opened 60 3 2 16777214; fell 3; fell 3; crash 3; serve wait 3; '
         'ok settle 3; put closed 60 2 0; closed 3; ok pay 5 61 1'),
        # The order is kept over a power cut within its put, and is settled without a coin.
        ('BEGUN; next 3; next 3; crash 3 4 0; serve; settle 3; CLOSED; serve',
         'change ok 60 70; ok pay 3 60 2; crash 3; kept opened 60 3 2 16777214; serve wait 3; ok settle 3; '
         'put closed 60 0 2; closed 3; short 0 70'),
        # Life counts that don't fit the order, of a forged reply.
        ('BEGUN; OPENED; FALLEN; next 3; fault host 0103030068000091; next 3; next 3; serve; serve',
         'change ok 60 70; ok pay 3 60 2; put opened 60 3 2 16777214; fell 3; fell 3; fault host 0103030068000091; '
         'forged 3; put odd 60 16777214 104; oddlife 3; serve odd 60; serve idle'),
    ))


def a_hopper_whose_order_was_never_opened_is_empty(play):
    reports(play, (
        # No answer comes before the order is opened. Its id stays unused.
        ('BEGUN; LOST; serve; pay 3 60 1',
         'change ok 60 70; ok pay 3 60 2; fault host -; fault host -; fault host -; noanswer 3; short 0 70; '
         'ok pay 3 60 1'),
        ('BEGUN; next 3; crash 0; serve; serve', 'change ok 60 70; ok pay 3 60 2; crash 2; short 0 70; serve idle'),
        # The other hopper pays on: five coins of 10 in place of one of 50.
        ('change 60 50; serve; next 5; crash 0; serve', 'change ok 60 50; ok pay 5 60 1; crash 2; ok pay 3 61 5'),
    ))


def an_id_or_a_hopper_is_taken_before_the_session_comes_to_it(play):
    reports(play, (
        # The same line comes of the operator's `pay` as of a `serve`, and then the two differ.
        ('change 60 70; pay 3 60 2; serve; serve',
         'change ok 60 70; ok pay 3 60 2; no pay 3 60 2 busy; short 0 70; serve idle'),
        # The session's second id is used, and no coins are counted as its own.
        ('BEGUN; PAID_FIFTY; OPENED; FALLEN; CLOSED; serve',
         'change ok 60 70; ok pay 3 60 2; ok pay 5 61 1; put opened 61 5 1 0; fell 5; put closed 61 1 0; closed 5; '
         'put opened 60 3 2 16777214; fell 3; fell 3; put closed 60 2 0; closed 3; no pay 5 61 1 oldid 61; '
         'short 20 50'),
        # Its first id is used.
        ('vend 60 1; next 1; change 60 10; serve',
         'ok vend 60 1; put sold 60 1; sold; change ok 60 10; no pay 3 60 1 oldid 60; short 0 10'),
        # Its second hopper is running for the operator.
        ('BEGUN; OPENED; FALLEN; CLOSED; pay 5 70 1; serve; serve',
         'change ok 60 70; ok pay 3 60 2; put opened 60 3 2 16777214; fell 3; fell 3; put closed 60 2 0; closed 3; '
         'ok pay 5 70 1; no pay 5 61 1 busy; short 20 50; serve idle'),
    ))


def an_order_that_the_operator_opens_is_none_of_the_session(play):
    reports(play, (
        # It has the id, the hopper and the count of the session's, which was never opened.
        ('BEGUN; next 3; next 3; crash 0; pay 3 60 2; OPENED; serve',
         'change ok 60 70; ok pay 3 60 2; crash 2; ok pay 3 60 2; put opened 60 3 2 16777214; short 0 70'),
        ('BEGUN; next 3; next 3; crash 0; pay 3 60 2; OPENED; FALLEN; CLOSED; serve',
         'change ok 60 70; ok pay 3 60 2; crash 2; ok pay 3 60 2; put opened 60 3 2 16777214; fell 3; fell 3; '
         'put closed 60 2 0; closed 3; short 0 70'),
        # Its record is kept over a power cut.
        ('BEGUN; next 3; next 3; crash 0; pay 3 60 2; next 3; next 3; crash 3 4 0; serve',
         'change ok 60 70; ok pay 3 60 2; crash 2; ok pay 3 60 2; crash 3; kept opened 60 3 2 16777214; short 0 70'),
    ))


def the_operator_stops_a_payment_or_settles_too_early(play):
    reports(play, (
        # One of two coins fell, so hopper 3 isn't trusted any more.
        ('BEGUN; OPENED; next 3; fall 3; halt 3; next 3; CLOSED; fall 3; serve',
         'change ok 60 70; ok pay 3 60 2; put opened 60 3 2 16777214; fell 3; ok halt 3; put closed 60 1 1; '
         'closed 3; nofall 3; short 10 60'),
        # What is left is paid by it, once its stock is given again.
        ('BEGUN; OPENED; next 3; fall 3; jam 3; CLOSED; stock 3 9; serve; change 61 60; stock 3 9; serve',
         'change ok 60 70; ok pay 3 60 2; put opened 60 3 2 16777214; fell 3; jammed 3; put closed 60 1 1; '
         'closed 3; stock 3 9; short 10 60; change ok 61 60; stock 3 9; ok pay 3 61 1'),
        ('BEGUN; settle 3; OPENED; settle 3; pay 3 62 1; serve',
         'change ok 60 70; ok pay 3 60 2; no settle 3 busy; put opened 60 3 2 16777214; no settle 3 busy; '
         'no pay 3 62 1 busy; serve wait 3'),
    ))


def a_stock_that_is_given_before_a_payment_is_settled_is_reduced(play):
    reports(play, (
        ('BEGUN; stock 3 7; OPENED; FALLEN; CLOSED; NO_FIFTY',
         'change ok 60 70; ok pay 3 60 2; stock 3 7; put opened 60 3 2 16777214; fell 3; fell 3; '
         'put closed 60 2 0; closed 3; ok pay 5 61 1; crash 4; ok pay 3 62 5'),
        ('BEGUN; OPENED; FALLEN; CLOSED; stock 3 6; NO_FIFTY',
         'change ok 60 70; ok pay 3 60 2; put opened 60 3 2 16777214; fell 3; fell 3; put closed 60 2 0; closed 3; '
         'stock 3 6; ok pay 5 61 1; crash 4; short 20 50'),
        # It is no less than 0, and what is given after the payment is settled stands.
        ('BEGUN; OPENED; FALLEN; CLOSED; stock 3 1; serve; stock 3 5; next 5; crash 0; serve',
         'change ok 60 70; ok pay 3 60 2; put opened 60 3 2 16777214; fell 3; fell 3; put closed 60 2 0; closed 3; '
         'stock 3 1; ok pay 5 61 1; stock 3 5; crash 4; ok pay 3 62 5'),
    ))


# A coin of 100 is posted. The session has its first order dispensed, and one coin fell.
VALUES = '; '.join(f'value 2 {place} 100 XX100A' for place in range(1, 17))
FRONT = (f'acceptor 2 simple 1 0; {VALUES}; '
         'hopper 3 simple 197121 16777214 10; hopper 5 simple 5 0 50; begin; start 2 ffff; next 2; next 2; next 2; next 2; '
         'next 2; coin 2 5; round 2; next 2; next 2; next 2; next 2; next 2; stock 3 10; stock 5 2; change 60 70; serve; '
         'next 3; next 3; next 3; next 3; fall 3')
FRONT_TEXT = ('ok start 2 ffff; wire 2 02000101fc 02000101fc01000200fd; '
              'wire 2 020001e518 020001e518010b02000000000000000000000000f2; '
              'wire 2 020001e11c 020001e11c01030200000000fa; put epoch 2 ffff 0; '
              'wire 2 020201e7ffff16 020201e7ffff1601000200fd; started 2; accepted 2 5 1; ok round 2; '
              'wire 2 020001e11c 020001e11c01030200010000f9; '
              'wire 2 020001e518 020001e518010b02000105010000000000000000eb; '
              'wire 2 020001e617 020001e61701020200fffffd; wire 2 020001e11c 020001e11c01030200010000f9; '
              'put reading 2 1 0 1 5/1; posted 2; stock 3 10; stock 5 2; change ok 60 70; ok pay 3 60 2; '
              'wire 3 030101a4a5b2 030101a4a5b201000300fc; wire 3 030001a854 030001a85401030300fefffffd; '
              'put opened 60 3 2 16777214; wire 3 030401a70102030249 030401a7010203024901000300fc; fell 3')
# The second coin falls, and the other hopper pays the rest.
SERVED = ('fall 3; next 3; next 3; next 3; serve; next 5; next 5; next 5; next 5; fall 5; next 5; next 5; next 5; '
          'serve; balance; end')
SERVED_TEXT = ('fell 3; wire 3 030001a656 030001a6560104030001000200f5; '
               'wire 3 030001a854 030001a85401030300000000f9; put closed 60 2 0; closed 3; ok pay 5 61 1; '
               'wire 5 050101a4a5b0 050101a4a5b001000500fa; wire 5 050001a852 050001a85201030500000000f7; '
               'put opened 61 5 1 0; wire 5 050401a70500000149 050401a7050000014901000500fa; fell 5; '
               'wire 5 050001a654 050001a6540104050001000100f4; wire 5 050001a852 050001a85201030500010000f6; '
               'put closed 61 1 0; closed 5; served 70; balance 30 0 70 0')
# The hopper jams, so what is left isn't paid.
JAMMED = 'jam 3; next 3; next 3; next 3; serve; end'
JAMMED_TEXT = ('jammed 3; wire 3 030001a656 030001a6560104030001000101f5; '
               'wire 3 030001a854 030001a85401030300fffffffc; put closed 60 1 1; closed 3; short 10 60')


def a_session_is_worked_out_by_hand(play):
    for steps, text in (('SERVED', 'SERVED_TEXT'), ('JAMMED', 'JAMMED_TEXT')):
        transcript, _ = play.run(lines(f'FRONT; {steps}', globals()))
        same(transcript, lines(f'FRONT_TEXT; {text}', globals()), steps)


# A whole session: two coins of 10 and one of 50 are paid.
SESSION = ('change 60 70', 'serve', 'next 3', 'next 3', 'next 3', 'next 3', 'fall 3', 'fall 3', 'next 3', 'next 3', 'next 3',
           'serve', 'next 5', 'next 5', 'next 5', 'next 5', 'fall 5', 'next 5', 'next 5', 'next 5', 'serve')
# A payment that is running is brought to its end. Else an open order is settled. Then the session goes on.
ON = ('next 3; next 3; next 3; next 3; fall 3; fall 3; fall 3; fall 3; fall 3; next 3; next 3; next 3; settle 3; '
      'next 3; next 3; next 3; next 5; next 5; next 5; next 5; fall 5; next 5; next 5; next 5; settle 5; next 5; '
      'next 5; next 5; serve')
# What falls in all, with a power cut before the line at each place. Where the first order wasn't opened, or was opened and not
# dispensed, hopper 3 isn't trusted any more, and 50 alone don't pay 70. Where the second one wasn't, hopper 3 pays the 50.
FELL = (70, 70, 0, 0, 0, 0, 70, 70, 70, 70, 70, 70, 70, 70, 70, 70, 70, 70, 70, 70, 70)
# How a power cut comes in a put of a hopper, by the calls of the disk that were made, and whether the record is kept. A file
# keeps what was written.
IN_A_PUT = (('crash {} 0 1', 0), ('crash {} 1 1', 0), ('crash {} 2 1', 0), ('crash {} 3 0', 1), ('crash {} 3 1', 1),
            ('crash {} 4 0', 1))
# Where in the session an order is opened and closed, at which hopper, and what falls in all then.
PUTS = ((4, 3, 0), (10, 3, 70), (14, 5, 70), (19, 5, 70))
WORTH = {'3': 10, '5': 50}


def paid_once(transcript):
    """What fell and how many records were kept. At no moment did more fall than the amount, the session ended once, what it
    said as paid fell, and each order had an id above those before it."""
    amount, fell, last, kept, ends = 0, 0, 0, 0, 0
    for word, *fields in map(str.split, transcript.splitlines()):
        if word == 'change':
            amount = int(fields[2])
        elif word == 'fell':
            fell += WORTH[fields[0]]
            same(fell <= amount, True, transcript)
        elif word in ('served', 'short'):
            ends += 1
            paid, rest = int(fields[0]), int(fields[1]) if word == 'short' else 0
            same((paid, paid + rest), (fell, amount), transcript)
        elif word in ('put', 'kept'):
            kept += word == 'kept'
            if fields[0] == 'opened':
                same(last < int(fields[1]), True, transcript)
                last = int(fields[1])
    same(ends, 1, transcript)
    return fell, kept


def falls(play, line, start, end):
    """Plays the session with a line in the place of some of its own: what fell, and how many records were kept."""
    steps = '; '.join((*SESSION[:start], line, *SESSION[end:]))
    return paid_once(play.run(lines(f'FUNDED; STOCKED; {steps}; ON; ON; end', globals()))[0])


def a_power_cut_comes_before_any_line_of_a_session(play):
    for place, wanted in enumerate(FELL):
        same(falls(play, 'crash 0', place, place), (wanted, 0), f'before {place}')


def a_power_cut_comes_in_any_put_of_a_session(play):
    for place, hopper, wanted in PUTS:
        for line, kept in IN_A_PUT:
            same(falls(play, line.format(hopper), place, place + 1), (wanted, kept), f'{line} at {place}')


# Where a line stands first after `begin`, it is the sixth.
BEGIN = 'acceptor 2 simple 1 0; value 2 5 100 XX100A; hopper 3 simple 197121 0 10; bills 4 crc 1 0; begin'


def refuses(play, cases, before='BEGIN; ', after='; end'):
    """Plays scripts that are refused, and compares what is written."""
    for steps, text in cases:
        play.wants(['run'], lines(before + steps + after, globals()), REFUSED, lines(text))


def a_stock_is_that_of_a_hopper(play):
    refuses(play, ((line, 'refused 6 device') for line in
                   ('stock 2 1', 'stock 4 1', 'stock 5 1', 'stock 0 0', 'stock 255 1')))
    # What was played before it stands.
    refuses(play, (('stock 3 4294967295; stock 3 0; serve; stock 2 1',
                    'stock 3 4294967295; stock 3 0; serve idle; refused 9 device'),))


def a_line_of_change_has_its_form(play):
    refuses(play, ((line, 'refused 6 form') for line in (
        'stock',
        'stock 3',
        'stock 3 -1',
        'stock 3 01',
        'stock 3 4294967296',
        'stock 256 1',
        'stock 3 1 1',
        'stock  3 1',
        'change 60',
        'change 0 10',
        'change 4000000001 10',
        'change 60 0',
        'change 60 10001',
        'change 060 10',
        'serve 3',
        'serve ',
    )))


def a_word_of_change_is_none_of_the_setup(play):
    refuses(play, ((line, 'refused 1 word') for line in ('stock 3 1', 'change 60 10', 'serve')), '', '; BEGIN; end')
    refuses(play, ((line, 'refused 6 word') for line in ('SERVE', 'changes 60 10')))


def a_script_ends_within_a_line_of_change(play):
    begun = lines(BEGIN)
    for front, text in (('stock 3 1', 'refused 6 cut'), ('stock 3 10\nchange 60 1', 'stock 3 10; refused 7 cut'),
                        ('stock 3 10\nchange 60 70\nserve', 'stock 3 10; change ok 60 70; refused 8 cut')):
        play.wants(['run'], begun + front, REFUSED, lines(text))
    # The session's payment is taken before the next line is refused.
    status, written, _ = play.call(['run'], lines('FUNDED; stock 3 10; change 60 70; serve; serve it; end', globals()))
    same(status, REFUSED, written)
    same(written[-60:].partition('change ')[2], lines('ok 60 70; ok pay 3 60 7; refused 22 form'), written)
