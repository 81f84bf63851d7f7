"""Captures worked out by hand, and what an audit says of them."""
from player import DONE, REFUSED, WORDS, lines, same

# A reading of acceptor 2 under the simple check: no event since its reset.
NO_EVENT = 'tap 020001e518 020001e518010b02000000000000000000000000f2'
# The first event: a coin of place 5 fell by path 1.
ONE_COIN = 'tap 020001e518 020001e518010b02000105010000000000000000eb'
# Its inhibit mask lets all places in, none, and the first one alone.
ALL_PLACES = 'tap 020001e617 020001e61701020200fffffd'
NO_PLACE = 'tap 020001e617 020001e617010202000000fb'
ONE_PLACE = 'tap 020001e617 020001e617010202000100fa'
# A second event: an object that was no coin.
NO_COIN = 'tap 020001e518 020001e518010b02000200010501000000000000e9'
# Five events more: 2/1, 1/8, 3/1, an error, and 16/2; and six.
FIVE_MORE = 'tap 020001e518 020001e518010b0200071002000e030101080201bb'
SIX_MORE = 'tap 020001e518 020001e518010b02000809011002000e03010108b3'
# The event counter is 254, and after three coins more it is 2.
NEAR_LAST = 'tap 020001e518 020001e518010b0200fe09010901090109010901c2'
PAST_LAST = 'tap 020001e518 020001e518010b02000204010501060107010801cd'
# A reading that isn't answered, one whose echo is damaged, and one that another host asked for.
NO_ANSWER = 'tap 020001e518 020001e518'
BAD_ECHO = 'tap 020001e518 020001e519010b02000000000000000000000000f2'
NOT_FOR_US = 'tap 020003e516 020003e516030b02000000000000000000000000f0'
# The inhibit mask is set: and is answered, is not, by another host, in a wrong form, and at acceptor 9.
SET = 'tap 020201e7ffff16 020201e7ffff1601000200fd'
SET_UNSURE = 'tap 020201e7ffff16 -'
SET_BY_OTHER = 'tap 020203e7ffff14 020203e7ffff1403000200fb'
SET_SHORT = 'tap 020101e7ff16 020101e7ff16'
SET_NINE = 'tap 090201e7ffff0f 090201e7ffff0f01000900f6'
# The acceptor is reset.
RESET = 'tap 02000101fc 02000101fc01000200fd'
# Event counter 0, and a coin of place 5 in the buffer.
COIN_AT_ZERO = 'tap 020001e518 020001e518010b02000005010000000000000000ec'
# Two events that are no credits.
NO_CREDITS = 'tap 020001e518 020001e518010b02000200020001000000000000ed'
# A mask is set, and a reset is sent, and the device is silent.
SET_SILENT = 'tap 020201e7ffff16 020201e7ffff16'
RESET_UNSURE = 'tap 02000101fc 02000101fc'
# It is asked for its mask, or to reset, and device 3 answers.
MASK_OF_OTHER = 'tap 020001e617 020001e61701020300fffffc'
RESET_OF_OTHER = 'tap 02000101fc 02000101fc01000300fc'
# The same with a refusal, with a damaged message, to another than the host, and with its echo damaged.
NO_OF_OTHER = 'tap 02000101fc 02000101fc01000305f7'
DAMAGED = 'tap 02000101fc 02000101fc01000300fb'
TO_OTHER = 'tap 02000101fc 02000101fc05000300f8'
ECHO_DAMAGED = 'tap 02000101fc 02000102fc01000300fc'
# After a reset without a reply the host asks device 3 for its mask.
NEXT_MESSAGE = 'tap 02000101fc 02000101fc030001e616'
# Device 3 is asked to reset, and acknowledges.
OF_OTHER = 'tap 03000101fb 03000101fb01000300fc'
# Under the CRC bill acceptor 40 is reset, and some device acknowledges that; under the simple check device 3 answers 159.
CRC_ANSWER = 'tap 280046013f 280046013f0100300037'
BILLS_OF_OTHER = 'tap 2800019f38 2800019f38010b03000000000000000000000000f1'
# The life counts 16,777,214 and 2 of hopper 3, and no answer of it.
LIFE_BEFORE = 'tap 030001a854 030001a85401030300fefffffd'
LIFE_AFTER = 'tap 030001a854 030001a85401030300020000f7'
NO_LIFE = 'tap 030001a854 030001a854'
# Acceptor 9 had no event.
NINE_NO_EVENT = 'tap 090001e511 090001e511010b09000000000000000000000000eb'
# Acceptor 2 is watched.
WATCHED = 'watch 2 simple acceptor; begin'


def say(play, cases, before='', after='', status=DONE, names=globals()):
    """Audits captures between two texts, and compares what is said of each."""
    for capture, text in cases:
        play.wants(['audit'], lines(before + capture + after, names), status, lines(text))


def spans(play, watch, cases, names=globals()):
    """Audits the taps of one watched device."""
    say(play, cases, f'watch {watch}; begin; ', '; end', names=names)


def a_mask_makes_a_span_sure(play):
    spans(play, '2 simple acceptor', (
        ('NO_EVENT; ONE_COIN; ALL_PLACES', 'sure 2 1 2 5/1'),
        # It is said once.
        ('NO_EVENT; ONE_COIN; ALL_PLACES; ALL_PLACES; SET', 'sure 2 1 2 5/1'),
        # A mask that lets nothing in leaves it open.
        ('NO_EVENT; ONE_COIN; NO_PLACE; ALL_PLACES', 'sure 2 1 2 5/1'),
        ('NO_EVENT; ONE_COIN; NO_PLACE', 'doubt 2 1 2'),
        ('ONE_COIN; ONE_COIN; ALL_PLACES', 'sure 2 1 2 -'),
        ('NO_EVENT; NO_COIN; ALL_PLACES', 'sure 2 1 2 5/1'),
        ('ONE_COIN; NO_COIN; ALL_PLACES', 'sure 2 1 2 -'),
        # A mask before the second reading is none of its window.
        ('NO_EVENT; ALL_PLACES; ONE_COIN', 'doubt 2 1 3'),
        ('ALL_PLACES; NO_EVENT; ALL_PLACES', ''),
    ))


def five_events_are_kept_and_not_six(play):
    spans(play, '2 simple acceptor', (
        ('NO_COIN; FIVE_MORE; ALL_PLACES', 'sure 2 1 2 2/1,1/8,3/1,16/2'),
        ('NO_COIN; SIX_MORE; ALL_PLACES', 'doubt 2 1 2'),
        ('FIVE_MORE; SIX_MORE; ALL_PLACES', 'sure 2 1 2 9/1'),
        ('NEAR_LAST; PAST_LAST; ALL_PLACES', 'sure 2 1 2 6/1,5/1,4/1'),
        ('ONE_COIN; NO_EVENT; ALL_PLACES', 'doubt 2 1 2'),
    ))


def a_setting_leaves_a_doubt(play):
    spans(play, '2 simple acceptor', (
        ('NO_EVENT; SET; ONE_COIN; ALL_PLACES', 'doubt 2 1 3'),
        ('NO_EVENT; ONE_COIN; SET; ALL_PLACES', 'doubt 2 1 2'),
        ('NO_EVENT; SET_UNSURE; ONE_COIN; ALL_PLACES', 'doubt 2 1 3'),
        ('NO_EVENT; SET_BY_OTHER; ONE_COIN; ALL_PLACES', 'doubt 2 1 3'),
        ('NO_EVENT; RESET; NO_EVENT; ALL_PLACES', 'doubt 2 1 3'),
        ('NO_EVENT; ONE_COIN; RESET; ALL_PLACES', 'doubt 2 1 2'),
        # The next span has no setting in it.
        ('NO_EVENT; SET; NO_EVENT; ONE_COIN; ALL_PLACES', 'doubt 2 1 3; sure 2 3 4 5/1'),
        # What isn't in the form of a setting, or is one of another device, is none.
        ('NO_EVENT; SET_SHORT; ONE_COIN; ALL_PLACES', 'sure 2 1 3 5/1'),
        ('NO_EVENT; SET_NINE; ONE_COIN; ALL_PLACES', 'sure 2 1 3 5/1'),
    ))


def a_tap_that_shows_no_credits_is_no_reading(play):
    spans(play, '2 simple acceptor', (
        (f'NO_EVENT; {tap}; ONE_COIN; {tap}; ALL_PLACES', 'sure 2 1 3 5/1') for tap in ('NO_ANSWER', 'BAD_ECHO', 'NOT_FOR_US')
    ))


def the_older_span_is_said_first(play):
    spans(play, '2 simple acceptor', (
        ('NO_EVENT; ONE_COIN; NO_EVENT', 'doubt 2 1 2; doubt 2 2 3'),
        ('NO_EVENT; ONE_COIN; NO_COIN; ALL_PLACES', 'doubt 2 1 2; sure 2 2 3 -'),
    ))


def a_quiet_span_is_said_at_its_last_reading(play):
    spans(play, '2 simple acceptor quiet', (
        ('NO_EVENT; ONE_COIN; ONE_COIN', 'quiet 2 1 2 5/1; quiet 2 2 3 -'),
        ('NO_COIN; FIVE_MORE', 'quiet 2 1 2 2/1,1/8,3/1,16/2'),
        # A mask says it no second time, and one that is set ends nothing.
        ('NO_EVENT; ONE_COIN; ALL_PLACES', 'quiet 2 1 2 5/1'),
        ('NO_EVENT; SET; ONE_COIN', 'quiet 2 1 3 5/1'),
        # What shows a reset does, and too many events.
        ('NO_EVENT; RESET; ONE_COIN', 'doubt 2 1 3'),
        ('ONE_COIN; NO_EVENT', 'doubt 2 1 2'),
        ('ONE_COIN; SIX_MORE', 'doubt 2 1 2'),
        # A reset after the last reading is none of the span's.
        ('NO_EVENT; ONE_COIN; RESET', 'quiet 2 1 2 5/1'),
    ))


def exchanges_are_counted(play):
    say(play, (
        ('watch 9 simple hopper; watch 2 simple acceptor; begin; NO_EVENT; SET; ONE_COIN; ALL_PLACES; end', 'doubt 2 1 3'),
    ))
    same(play.said.splitlines(), [
        'acceptor 2: 4 of 4 exchanges, 2 replies to 229, 1 to 230',
        'hopper 9: none of 4 exchanges was a message to it under simple. Is that its address and its check?',
    ], 'standard error')


def a_broken_premise_of_an_acceptor_is_said(play):
    spans(play, '2 simple acceptor premises', (
        # All is kept: also where a mask is gone, since a reset may have come.
        ('RESET; NO_CREDITS; NO_PLACE; SET; ONE_COIN; ALL_PLACES; NO_COIN; NO_PLACE', ''),
        ('ONE_COIN; COIN_AT_ZERO', 'broken 2 buffer 2 2'),
        # A mask outlives a reset, isn't the one that was acknowledged, and changes by itself.
        ('RESET; ALL_PLACES', 'broken 2 mask 1 2'),
        ('SET; NO_EVENT; ONE_PLACE', 'broken 2 mask 1 3'),
        ('ONE_PLACE; ONE_PLACE; ALL_PLACES; ALL_PLACES', 'broken 2 mask 1 3'),
        # Of a request that wasn't acknowledged nothing is known.
        ('RESET_UNSURE; ALL_PLACES', ''),
        ('ONE_PLACE; SET_SILENT; ALL_PLACES', ''),
        # Coins outlive a reset, up to the next mask that is set.
        ('FIVE_MORE; RESET; FIVE_MORE; SET; FIVE_MORE', 'broken 2 reset 2 3'),
        ('RESET; COIN_AT_ZERO', 'broken 2 buffer 2 2; broken 2 reset 1 2'),
    ))


def an_answer_of_another_device_is_said(play):
    spans(play, '2 simple acceptor premises', (
        ('RESET; RESET_OF_OTHER', 'broken 2 alone 2 2'),
        ('NO_EVENT; NO_OF_OTHER', 'broken 2 alone 2 2'),
        ('MASK_OF_OTHER; MASK_OF_OTHER', 'broken 2 alone 1 1; broken 2 alone 2 2'),
        # What it heard isn't known: neither its mask nor a reset is held against it.
        ('ONE_PLACE; RESET_OF_OTHER; ALL_PLACES', 'broken 2 alone 2 2'),
        ('RESET; MASK_OF_OTHER; FIVE_MORE', 'broken 2 alone 2 2'),
        # No whole answer, or none to the host; the next message of the host; and an exchange of another device.
        ('DAMAGED; TO_OTHER; ECHO_DAMAGED; NEXT_MESSAGE; OF_OTHER', ''),
    ))
    # Under the CRC an answer names nobody.
    say(play, (
        ('watch 40 crc bills premises; begin; CRC_ANSWER; end', ''),
        ('watch 40 simple bills premises; begin; BILLS_OF_OTHER; end', 'broken 40 alone 1 1'),
    ))


def a_coin_is_sure_once_and_then_in_doubt(play):
    say(play, (
        ('WATCHED; NO_EVENT; ALL_PLACES; ONE_COIN; ALL_PLACES; ONE_COIN; end', 'sure 2 1 3 5/1; doubt 2 3 5'),
        ('WATCHED; end', ''),
        ('begin; end', ''),
    ))


def nothing_is_said_of_other_devices(play):
    """Of what isn't watched, or is watched under another check or as another device."""
    say(play, (
        ('begin; NO_EVENT; ONE_COIN; ALL_PLACES; end', ''),
        ('watch 2 crc acceptor; begin; NO_EVENT; ONE_COIN; ALL_PLACES; end', ''),
        ('watch 2 simple hopper; begin; NO_EVENT; ONE_COIN; ALL_PLACES; end', ''),
        ('watch 3 simple acceptor; begin; LIFE_BEFORE; LIFE_AFTER; end', ''),
    ))


def coins_fell_between_two_life_counts(play):
    spans(play, '3 simple hopper', (
        ('LIFE_BEFORE; LIFE_AFTER', 'fell 3 1 2 4'),
        ('LIFE_BEFORE', ''),
        ('LIFE_BEFORE; NO_LIFE; LIFE_AFTER; LIFE_AFTER', 'fell 3 1 3 4; fell 3 3 4 0'),
    ))


def devices_under_the_crc_are_watched(play):
    say(play, (
        ('watch 40 crc acceptor; watch 41 crc hopper; begin; '
         'tap 2800ece582 2800ece582010b9e000000000000000000000000bf; tap 2900b5a82c 2900b5a82c01037200000000ab; '
         'tap 2800ece582 2800ece582010b7c0003100801010202000000004a; tap 2900b5a82c 2900b5a82c0103d20009010006; '
         'tap 28008fe6b2 28008fe6b201020800010074; end',
         'fell 41 2 4 265; sure 40 1 3 2/2,1/1,16/8'),
    ))


def the_end_is_said_in_rising_order_of_address(play):
    say(play, (
        ('watch 9 simple acceptor; watch 2 simple acceptor; begin; NINE_NO_EVENT; NO_EVENT; NINE_NO_EVENT; '
         'NO_EVENT; end',
         'doubt 2 2 4; doubt 9 1 3'),
    ))


def an_audit_has_no_other_word(play):
    for words in (['audit', 'now'], ['Audit'], ['run', 'audit']):
        play.wants(words, '', WORDS, 'words\n')


def a_device_is_watched_once(play):
    say(play, (
        ('watch 3 simple hopper; watch 3 simple hopper', 'refused 2 device'),
        ('watch 3 simple hopper; watch 3 crc acceptor; begin', 'refused 2 device'),
        ('watch 3 simple hopper; watch 2 simple acceptor; watch 3 simple hopper', 'refused 3 device'),
    ), status=REFUSED)


def thirty_two_devices_are_watched(play):
    watched = '; '.join(f'watch {address} crc hopper' for address in range(2, 34))
    say(play, ((f'{watched}; begin; end', ''),))
    say(play, ((f'{watched}; watch 34 crc hopper; begin; end', 'refused 33 device'),), status=REFUSED)


def a_line_has_a_word_of_its_part(play):
    play.wants(['audit'], '\n', REFUSED, lines('refused 1 word'))
    say(play, (
        ('tap 02 -', 'refused 1 word'),
        ('end', 'refused 1 word'),
        ('Watch 2 simple acceptor', 'refused 1 word'),
        ('acceptor 2 simple 1 0', 'refused 1 word'),
        ('begin; ', 'refused 2 word'),
        ('begin; begin', 'refused 2 word'),
        ('begin; watch 2 simple acceptor', 'refused 2 word'),
        ('begin; taps 02 -', 'refused 2 word'),
        ('begin; coin 2 5', 'refused 2 word'),
    ), status=REFUSED)


def a_line_has_its_form(play):
    for line in (
        'watch',
        'watch 2 simple',
        'watch 1 simple acceptor',
        'watch 0 simple hopper',
        'watch 256 simple acceptor',
        'watch 02 simple acceptor',
        'watch 2 both acceptor',
        'watch 2 simple bills',
        'watch 2 simple Acceptor',
        'watch 2 acceptor simple',
        'watch 2 simple acceptor ',
        'begin 2',
    ):
        say(play, ((line, 'refused 1 form'),), after='; begin; end', status=REFUSED)
    for line in (
        'tap',
        'tap 02',
        'tap  02',
        'tap - 02',
        'tap 020 02',
        'tap 02 0',
        'tap 02 0x',
        'tap 02 -02',
        'tap 02 02 02',
        'end ',
    ):
        say(play, ((line, 'refused 2 form'),), 'begin; ', status=REFUSED)


def each_kind_is_watched_in_its_form(play):
    say(play, (
        ('watch 3 simple hopper quiet', 'refused 1 form'),
        ('watch 2 simple quiet', 'refused 1 form'),
        ('watch 2 simple acceptor quiet quiet', 'refused 1 form'),
        ('watch 2 simple acceptor loud', 'refused 1 form'),
        ('begin quiet', 'refused 1 form'),
        ('quiet', 'refused 1 word'),
        ('watch 2 crc acceptor; watch 2 crc acceptor quiet', 'refused 2 device'),
        ('watch 40 simple bills', 'refused 1 form'),
        ('watch 40 simple bills loud', 'refused 1 form'),
        ('watch 40 simple bills quiet quiet', 'refused 1 form'),
        ('watch 40 simple crc bills quiet', 'refused 1 form'),
        ('watch 1 simple bills quiet', 'refused 1 form'),
        ('watch 256 crc bills quiet', 'refused 1 form'),
        ('watch 40  simple bills quiet', 'refused 1 form'),
        ('watch 40 bills quiet', 'refused 1 form'),
        ('watch simple bills quiet', 'refused 1 form'),
        ('begin bills quiet', 'refused 1 form'),
        ('watches 40 simple bills quiet', 'refused 1 word'),
        (' bills quiet', 'refused 1 word'),
        ('watch 40 crc bills quiet; watch 40 simple acceptor', 'refused 2 device'),
        ('watch 3 simple hopper quiet', 'refused 1 form'),
        ('watch 2 simple acceptor quiet premises', 'refused 1 form'),
        ('watch 2 simple premises', 'refused 1 form'),
    ), status=REFUSED)
    say(play, (
        ('watch 255 crc bills quiet; watch 2 simple bills quiet; begin; end', ''),
        ('watch 40 crc bills premises; begin; end', ''),
        ('watch 3 crc hopper premises; begin; end', ''),
    ))


def the_bytes_of_a_tap_are_limited(play):
    # A line has 1,200 bytes at most.
    say(play, (
        (f'begin; tap {"02" * 261} 0A; end', 'refused 2 form'),
        (f'begin; tap 02 {"0A" * 521}; end', 'refused 2 form'),
        (f'begin; tap {"02" * 260} {"0A" * 338}; end', 'refused 2 long'),
        (f'begin; tap {"02" * 300} {"0A" * 338}; end', 'refused 2 long'),
    ), status=REFUSED)
    say(play, (
        (f'begin; tap {"Ff" * 260} {"0a" * 337}; end', ''),
        (f'begin; tap Ff {"0a" * 520}; end', ''),
    ))


def a_long_line_is_none_that_is_cut(play):
    for front, length, text in (('', 1200, 'refused 1 cut'), ('', 1201, 'refused 1 long'),
                                ('begin\n', 1200, 'refused 2 cut'), ('begin\n', 1201, 'refused 2 long')):
        play.wants(['audit'], front + 'x' * length, REFUSED, lines(text))


def nothing_comes_after_the_end(play):
    # The span that is open at the end isn't said.
    front = lines('watch 2 simple acceptor; begin; NO_EVENT; ONE_COIN; ALL_PLACES; ONE_COIN; end', globals())
    for after in ('\n', 'x', 'end\n'):
        play.wants(['audit'], front + after, REFUSED, lines('sure 2 1 2 5/1; refused 8 trailing'))
