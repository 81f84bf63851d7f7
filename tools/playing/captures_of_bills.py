"""A bill acceptor that is watched as `bills quiet`: a bill counts once stacked, and a span is said at its last reading."""
from captures import RESET as RESET_TWO
from captures import spans
from player import same

# A reading of bill acceptor 40 under the simple check: no event since its reset.
NO_EVENT = 'tap 2800019f38 2800019f38010b28000000000000000000000000cc'
# A bill of place 5 is held; it was stacked; one of place 3 was held, and given back.
HELD = 'tap 2800019f38 2800019f38010b28000105010000000000000000c5'
STACKED = 'tap 2800019f38 2800019f38010b28000205000501000000000000bf'
RETURNED = 'tap 2800019f38 2800019f38010b28000400010301050005010000b8'
# Four events more: bills of places 1 and 7 were held and stacked; and ten more.
TWO_MORE = 'tap 2800019f38 2800019f38010b28000807000701010001010001b1'
TEN_MORE = 'tap 2800019f38 2800019f38010b28000e07000701010001010001ab'
# The bill acceptor is reset, it is asked for its mask, and to take another one; a held bill is to be stacked.
RESET = 'tap 28000101d6 28000101d601002800d7'
ALL_PLACES = 'tap 280001e6f1 280001e6f101022800ffffd7'
SET = 'tap 280201e7fffff0 280201e7fffff001002800d7'
ROUTE = 'tap 2801019a013b 2801019a013b01002800d7'
# It replies to 229, as no bill acceptor does.
CREDITS = 'tap 280001e5f2 280001e5f2010b28000305000000000000000000c4'


def a_bill_counts_when_it_is_stacked(play):
    spans(play, '40 simple bills quiet', (
        ('NO_EVENT; HELD; ROUTE; STACKED; RETURNED; TWO_MORE; TEN_MORE',
         'quiet 40 1 2 -; quiet 40 2 4 5/0; quiet 40 4 5 -; quiet 40 5 6 1/0,7/0; doubt 40 6 7'),
        ('NO_EVENT; STACKED', 'quiet 40 1 2 5/0'),
        # A mask, a setting of one, and a reset of another device end nothing. A reply to 229 is no reading.
        ('NO_EVENT; ALL_PLACES; SET; RESET_TWO; CREDITS; STACKED', 'quiet 40 1 6 5/0'),
        # What shows a reset does.
        ('NO_EVENT; RESET; STACKED', 'doubt 40 1 3'),
        ('STACKED; NO_EVENT', 'doubt 40 1 2'),
        # A reset after the last reading is none of the span's.
        ('NO_EVENT; STACKED; RESET', 'quiet 40 1 2 5/0'),
    ), globals())


def exchanges_of_bills_are_counted(play):
    spans(play, '40 simple bills quiet', (
        ('NO_EVENT; SET; ROUTE; ALL_PLACES; CREDITS; STACKED', 'quiet 40 1 6 5/0'),
    ), globals())
    same(play.said, 'bill acceptor 40: 6 of 6 exchanges, 2 replies to 159, 1 to 230\n', 'standard error')
