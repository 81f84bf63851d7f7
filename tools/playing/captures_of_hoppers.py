"""A hopper that is watched for premises: which of them its taps show broken."""
from captures import spans

# It says its serial number, 12345; and another one.
SERIAL_NUMBER = 'tap 030001f20a 030001f20a0103030039300090'
OTHER_NUMBER = 'tap 030001f20a 030001f20a010303003a30008f'
# It is enabled, and acknowledges that or not; and is disabled.
ENABLE = 'tap 030101a4a5b2 030101a4a5b201000300fc'
ENABLE_UNSURE = 'tap 030101a4a5b2 030101a4a5b2'
DISABLE = 'tap 030101a40057 030101a4005701000300fc'
# It is reset, and acknowledges that or not.
RESET = 'tap 03000101fb 03000101fb01000300fc'
RESET_UNSURE = 'tap 03000101fb 03000101fb'
# It is to pay three coins, and acknowledges that, is silent, or refuses; and under another serial number.
PAY_THREE = 'tap 030401a739300003e5 030401a739300003e501000300fc'
PAY_UNSURE = 'tap 030401a739300003e5 030401a739300003e5'
PAY_REFUSED = 'tap 030401a739300003e5 030401a739300003e501000305f7'
PAY_OTHER = 'tap 030401a73a300003e4 030401a73a300003e401000300fc'
# It is to pay three coins, or is enabled, and device 2 answers.
PAY_OF_OTHER = 'tap 030401a739300003e5 030401a739300003e501000200fd'
ENABLE_OF_OTHER = 'tap 030101a4a5b2 030101a4a5b201000200fd'
# It has no coin left to pay. Of three coins it paid two, or all.
IDLE = 'tap 030001a656 030001a6560104030000000000f8'
PAID_TWO = 'tap 030001a656 030001a6560104030001010200f4'
PAID_THREE = 'tap 030001a656 030001a6560104030001000300f4'
# It took two dispense requests since its last reset, or as many as come before the first one again.
COUNTED_TWO = 'tap 030001a656 030001a6560104030002000000f6'
COUNTED_LAST = 'tap 030001a656 030001a65601040300ff000000f9'
# Its life count.
LIFE_99 = 'tap 030001a854 030001a8540103030063000096'
LIFE_100 = 'tap 030001a854 030001a8540103030064000095'
LIFE_102 = 'tap 030001a854 030001a8540103030066000093'
LIFE_103 = 'tap 030001a854 030001a8540103030067000092'
LIFE_104 = 'tap 030001a854 030001a8540103030068000091'
LIFE_LAST = 'tap 030001a854 030001a85401030300fffffffc'
LIFE_2 = 'tap 030001a854 030001a85401030300020000f7'


def a_right_hopper_breaks_nothing(play):
    spans(play, '3 simple hopper premises', ((taps, '') for taps in (
        # Three coins are paid, and a reset leaves the life count.
        'SERIAL_NUMBER; IDLE; LIFE_100; ENABLE; PAY_THREE; PAID_TWO; LIFE_102; PAID_THREE; LIFE_103; RESET; '
        'LIFE_103',
        # A payout of before may still go on, and one may be taken whose acknowledgement is lost.
        'LIFE_100; LIFE_103',
        'IDLE; LIFE_100; PAY_UNSURE; LIFE_103',
        'LIFE_100; PAY_UNSURE; PAID_THREE; LIFE_100',
        # From its last number the life count goes to 0.
        'IDLE; LIFE_LAST; PAY_THREE; LIFE_2',
        # A request that is refused pays nothing, and one to enable or to reset may be heard or not.
        'SERIAL_NUMBER; RESET; PAY_REFUSED',
        'RESET; ENABLE_UNSURE; PAY_THREE',
        'RESET_UNSURE; PAY_THREE',
        # The event counter goes from 255 to 1, counts a request that may have been taken or not, and is 0 after a
        # reset that nobody saw.
        'COUNTED_LAST; PAY_THREE; PAID_THREE',
        'PAID_THREE; PAY_UNSURE; COUNTED_TWO',
        'COUNTED_TWO; PAY_UNSURE; COUNTED_TWO',
        'COUNTED_TWO; IDLE; PAY_THREE; PAID_THREE',
        'COUNTED_TWO; PAY_THREE; IDLE',
        'COUNTED_TWO; PAY_THREE; PAID_THREE',
        'COUNTED_TWO; PAY_REFUSED; COUNTED_TWO',
        'COUNTED_TWO; RESET; PAY_UNSURE; PAY_UNSURE; COUNTED_TWO',
    )), globals())


def what_a_hopper_breaks_is_said(play):
    spans(play, '3 simple hopper premises', (
        ('SERIAL_NUMBER; IDLE; OTHER_NUMBER', 'broken 3 serial 1 3'),
        ('SERIAL_NUMBER; PAY_OTHER', 'broken 3 serial 1 2'),
        ('PAY_OTHER; PAY_THREE', 'broken 3 serial 1 2'),
        ('RESET; IDLE; PAY_THREE', 'broken 3 enable 1 3'),
        ('ENABLE; DISABLE; PAY_THREE', 'broken 3 enable 2 3'),
        ('SERIAL_NUMBER; RESET; PAY_OTHER', 'broken 3 serial 1 3; broken 3 enable 2 3'),
        # It falls; it rises while nothing was to be paid, or by one coin too many; and it stays though coins were paid.
        ('LIFE_100; LIFE_99', 'broken 3 life 1 2'),
        ('RESET; LIFE_100; LIFE_102', 'broken 3 life 2 3'),
        ('IDLE; LIFE_100; PAY_THREE; LIFE_104', 'broken 3 life 2 4'),
        ('LIFE_100; PAY_THREE; PAID_THREE; LIFE_102', 'broken 3 life 1 4'),
        # The event counter rises while nothing was to be paid, stays though a request was taken, or outlives a reset.
        ('IDLE; PAID_THREE', 'broken 3 counter 1 2'),
        ('COUNTED_TWO; PAY_THREE; COUNTED_TWO', 'broken 3 counter 1 3'),
        ('COUNTED_TWO; RESET; COUNTED_TWO', 'broken 3 counter 2 3'),
        ('COUNTED_LAST; PAY_UNSURE; COUNTED_TWO', 'broken 3 counter 1 3'),
        # Another device answers: what the hopper heard isn't known, but for its serial number.
        ('RESET; LIFE_100; PAY_OF_OTHER; LIFE_103; LIFE_104', 'broken 3 alone 3 3'),
        ('DISABLE; ENABLE_OF_OTHER; PAY_THREE', 'broken 3 alone 2 2'),
        ('SERIAL_NUMBER; PAY_OF_OTHER; OTHER_NUMBER', 'broken 3 alone 2 2; broken 3 serial 1 3'),
    ), globals())
