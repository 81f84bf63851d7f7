"""Journals of versions 1 and 2, laid byte by byte: which an upgrade finds, and what it brings forward."""
from coins import VALUES
from player import DONE, JOURNAL_LOST, LENGTH, NOT_UPGRADED, lines, same

# Where the second half begins, and where in a half its records do.
SECOND = LENGTH // 2
RECORDS = 1152
SETUP = 'acceptor 2 simple 1 0; ' + VALUES + '; begin; end'
# The header of version 1, and those of version 2: of a first half without records before it, and of a second half with two of
# them. The header of today's first half without records before it.
FIRST = b'\xa5CCTALK JOURNAL\x01' + bytes(16)
OLD_FIRST = b'\xa5CCTALK JOURNAL\x02' + bytes(8) + b'\x03' + bytes(7)
OLD_SECOND = b'\xa5CCTALK JOURNAL\x02\x01\0\0\0\x02\0\0\0\x04' + bytes(7)
TODAY = b'\xa5CCTALK JOURNAL\x03' + bytes(8) + b'\x03' + bytes(7)
BLANK = bytes(LENGTH)
ALIEN, CURRENT = (JOURNAL_LOST, 'journal alien'), (NOT_UPGRADED, 'upgrade current')
THREE, NONE, EPOCH_RUNS = (DONE, 'upgraded 3'), (DONE, 'upgraded 0'), (NOT_UPGRADED, 'upgrade epoch 2')


def laid(image, *changes):
    """The image with other bytes from these places on."""
    image = bytearray(image)
    for at, these in changes:
        image[at:at + len(these)] = these
    return bytes(image)


def half(image, start, header):
    """A half that begins so, with the bodies of a carry without a sum."""
    return laid(image, (start, header), (start + 33, b'\x09'), (start + 65, b'\x0a'), (start + 97, b'\x0b'))


# A journal of version 1: an epoch begins, a coin is posted, and the epoch ends.
VERSION_1 = laid(BLANK, (0, FIRST), (32, b'\xa5\x01\x02\xff\xff'), (64, b'\xa5\x02\x02\x01\x00\x01\x05\x01'),
                 (96, b'\xa5\x04\x02'))
# One of version 2 that turned once: the epoch and its coin stand in its carry, and then the epoch ends. Its first half is left
# as it was.
VERSION_2_NEW = half(BLANK, 0, OLD_FIRST)
VERSION_2 = laid(half(VERSION_2_NEW, SECOND, OLD_SECOND), (SECOND + 38, b'\x64'), (SECOND + 66, b'\x01'),
                 (SECOND + 129, b'\x0c\x02\xff\xff\x01'), (SECOND + RECORDS, b'\xa5\x04\x02'))


def finds(play, image, wanted, what):
    """An upgrade of a journal ends so. One that isn't brought forward is left as it was, and none is one of today."""
    status, text = wanted
    left = play.wants(['upgrade'], lines(SETUP), status, lines(text), image)
    if status != DONE:
        same(left == image, True, what)
    if wanted != CURRENT:
        play.wants(['report'], '', JOURNAL_LOST, 'journal alien\n', image)
    return left


def both_versions_are_brought_forward(play):
    for image in (VERSION_1, VERSION_2):
        play.wants(['report'], '', DONE, 'total 1 0 0 0 0\n', finds(play, image, THREE, 'whole'))


def open_slots_are_counted(play):
    """An open slot counts, whatever its body is; a shut gate ends the records."""
    finds(play, laid(VERSION_1, (33, b'\x09')), (JOURNAL_LOST, 'journal bad 0'), 'version 1, first record')
    finds(play, laid(VERSION_2, (SECOND + RECORDS + 1, b'\x09')), (JOURNAL_LOST, 'journal bad 2'), 'version 2, last record')
    finds(play, laid(VERSION_1, (64, b'\0')), EPOCH_RUNS, 'version 1, second gate')
    finds(play, laid(VERSION_2, (SECOND + RECORDS, b'\0')), EPOCH_RUNS, 'version 2, last gate')


def a_damaged_header_is_alien(play):
    """Each byte of the header of version 1 is damaged, and each of that of version 2 but for those of the base."""
    finds(play, VERSION_2_NEW, NONE, 'version 2')
    for at in range(32):
        finds(play, laid(VERSION_1, (at, bytes([FIRST[at] ^ 0x40]))), ALIEN, f'version 1, byte {at}')
        if at not in range(20, 24):
            finds(play, laid(VERSION_2_NEW, (at, bytes([OLD_FIRST[at] ^ 0x40]))), ALIEN, f'version 2, byte {at}')


def torn(image, start, many):
    """So many bytes of a header at a place were written, and the others weren't; and the other way round."""
    return laid(image, (start + many, bytes(32 - many))), laid(image, (start, bytes(many)))


def a_torn_header_is_alien(play):
    """One of version 1 has only bytes 0 from byte 16 on, and one of version 2 from byte 25 on."""
    for image, whole, wanted in ((VERSION_1, 16, THREE), (VERSION_2_NEW, 25, NONE)):
        for many in range(32):
            front, back = torn(image, 0, many)
            finds(play, front, ALIEN if many < whole else wanted, f'{many} bytes')
            if many:
                finds(play, back, ALIEN, f'all but {many} bytes')


def a_torn_second_header_has_no_records_of_its_own(play):
    """Without its version or its generation the first half counts, as it stood before the turn; with them it counts itself, and
    is right only if it is whole."""
    for many in range(32):
        front, back = torn(VERSION_2, SECOND, many)
        finds(play, front, NONE if many < 17 else ALIEN if many < 25 else THREE, f'{many} bytes')
        if many:
            finds(play, back, NONE, f'all but {many} bytes')


def version_2_is_stricter(play):
    """It didn't allow a generation above the base, a base of 4,294,967,295, and an accept counter."""
    high = laid(VERSION_2_NEW, (16, b'\x02\0\0\0\x01'))
    full = laid(VERSION_2_NEW, (20, 4 * b'\xff'))
    counted = laid(VERSION_2, (SECOND + 134, b'\x01'))
    for image, version in ((high, 15), (full, 15), (counted, SECOND + 15)):
        finds(play, image, ALIEN, version)
        finds(play, laid(image, (version, b'\x03')), CURRENT, version)
    finds(play, laid(full, (20, b'\xfe')), (DONE, 'upgraded 4294967294'), 'the last base')


def the_current_half_is_found_whatever_its_version(play):
    # Version 1 has generation 0, whatever stands in its header.
    both = half(VERSION_1, SECOND, TODAY)
    newer = laid(both, (SECOND + 16, b'\x01\0\0\0\x01'))
    finds(play, both, THREE, 'both')
    finds(play, newer, CURRENT, 'newer')
    finds(play, laid(newer, (16, b'\x09')), CURRENT, 'a byte in the header of version 1')
    # It never counts in the second half.
    second = laid(BLANK, (SECOND, FIRST))
    finds(play, second, ALIEN, 'version 1 in the second half')
    finds(play, half(second, 0, TODAY), CURRENT, 'beside a half of today')
    # The other half never takes the place of a current one that is damaged.
    finds(play, laid(VERSION_2, (SECOND + 20, b'\0')), ALIEN, 'a base of none')
