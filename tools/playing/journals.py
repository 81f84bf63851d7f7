"""Journals that a report lists, an upgrade brings forward, or neither; and loads, whose sums the generator's rule gives."""
from coins import FROM_NONE, ROUND, VALUES
from player import (DISK_SIZE, DONE, JOURNAL_LOST, LENGTH, NOT_BLANK, NOT_UPGRADED, REFUSED, WORDS, blank, lines, same)

# A coin is posted. What a report lists then.
POSTED = 'FROM_NONE; coin 2 5; ROUND; end'
LISTED = 'record 0 epoch 2 ffff 0; record 1 reading 2 1 0 1 5/1; total 1 0 0 0 0'


def reports(play, journal, status, text):
    """A report of a journal ends so, and changes nothing."""
    same(play.wants(['report'], '', status, lines(text, globals()), journal) == journal, True, text)


def a_report_lists_what_a_run_put(play):
    journal = play.call(['run'], lines(POSTED, globals()))[2]
    reports(play, journal, DONE, 'LISTED')
    # A run finds the journal used.
    play.wants(['run'], lines(POSTED, globals()), NOT_BLANK, 'notblank 0\n', journal)


def a_report_of_a_blank_file_finds_no_journal(play):
    reports(play, blank(), JOURNAL_LOST, 'journal alien')
    for length in (0, 64, LENGTH - 1, LENGTH + 1, 2 * LENGTH):
        reports(play, blank(length), DISK_SIZE, f'disksize {length}')


# A byte that is set on the disk after the run of a posted coin, and how a report then ends. Slots have 32 bytes. Of the first
# half the first slot is the header, three have the carry of no record, and after 32 blank ones come those of the epoch, at
# place 1152, and of the reading. The second half begins at place 1,048,576, and is blank.
WRITTEN = (
    # the header
    (0, 0, JOURNAL_LOST, 'journal alien'),
    (0, 164, JOURNAL_LOST, 'journal alien'),
    (1, 99, JOURNAL_LOST, 'journal alien'),
    (14, 108, JOURNAL_LOST, 'journal alien'),
    (15, 1, JOURNAL_LOST, 'journal alien'),
    (15, 2, JOURNAL_LOST, 'journal alien'),
    (15, 4, JOURNAL_LOST, 'journal alien'),
    # a generation of the other half, and one above the base
    (16, 1, JOURNAL_LOST, 'journal alien'),
    (16, 2, JOURNAL_LOST, 'journal alien'),
    (19, 2, JOURNAL_LOST, 'journal alien'),
    # how many bodies the carry has, and the bytes after that
    (24, 2, JOURNAL_LOST, 'journal alien'),
    (24, 4, JOURNAL_LOST, 'journal alien'),
    (24, 36, JOURNAL_LOST, 'journal alien'),
    (25, 1, JOURNAL_LOST, 'journal alien'),
    (31, 1, JOURNAL_LOST, 'journal alien'),
    # another base, whose records have the empty carry
    (20, 7, DONE, 'record 7 epoch 2 ffff 0; record 8 reading 2 1 0 1 5/1; total 1 0 0 0 0'),
    # the carry: the first byte of a slot, a kind, an id and a sum that no record has, the bytes after the sums, and a slot that
    # isn't used
    (32, 1, JOURNAL_LOST, 'journal alien'),
    (32, 165, JOURNAL_LOST, 'journal alien'),
    (33, 0, JOURNAL_LOST, 'journal alien'),
    (33, 10, JOURNAL_LOST, 'journal alien'),
    (34, 1, JOURNAL_LOST, 'journal alien'),
    (38, 1, JOURNAL_LOST, 'journal alien'),
    (62, 1, JOURNAL_LOST, 'journal alien'),
    (63, 1, JOURNAL_LOST, 'journal alien'),
    (64, 1, JOURNAL_LOST, 'journal alien'),
    (65, 11, JOURNAL_LOST, 'journal alien'),
    (66, 1, JOURNAL_LOST, 'journal alien'),
    (97, 0, JOURNAL_LOST, 'journal alien'),
    (97, 12, JOURNAL_LOST, 'journal alien'),
    (114, 1, JOURNAL_LOST, 'journal alien'),
    (128, 1, JOURNAL_LOST, 'journal alien'),
    (1151, 1, JOURNAL_LOST, 'journal alien'),
    # the body of the epoch
    (1153, 0, JOURNAL_LOST, 'journal bad 0'),
    (1153, 9, JOURNAL_LOST, 'journal bad 0'),
    (1160, 1, JOURNAL_LOST, 'journal bad 0'),
    (1183, 1, JOURNAL_LOST, 'journal bad 0'),
    (1154, 255, DONE, 'record 0 epoch 255 ffff 0; record 1 reading 2 1 0 1 5/1; total 1 0 0 0 0'),
    (1155, 0, DONE, 'record 0 epoch 2 ff00 0; record 1 reading 2 1 0 1 5/1; total 1 0 0 0 0'),
    (1159, 255, DONE, 'record 0 epoch 2 ffff 16711680; record 1 reading 2 1 0 1 5/1; total 1 0 0 0 0'),
    # the body of the reading
    (1185, 0, JOURNAL_LOST, 'journal bad 1'),
    (1194, 0, JOURNAL_LOST, 'journal bad 1'),
    (1194, 2, JOURNAL_LOST, 'journal bad 1'),
    (1194, 6, JOURNAL_LOST, 'journal bad 1'),
    (1195, 0, JOURNAL_LOST, 'journal bad 1'),
    (1197, 1, JOURNAL_LOST, 'journal bad 1'),
    (1215, 1, JOURNAL_LOST, 'journal bad 1'),
    (1188, 249, DONE, 'record 0 epoch 2 ffff 0; record 1 reading 2 1 249 1 5/1; total 1 249 0 0 0'),
    (1190, 1, DONE, 'record 0 epoch 2 ffff 0; record 1 reading 2 1 65536 1 5/1; total 1 65536 0 0 0'),
    (1191, 0, DONE, 'record 0 epoch 2 ffff 0; record 1 reading 2 1 0 0 5/1; total 1 0 0 0 0'),
    (1193, 255, DONE, 'record 0 epoch 2 ffff 0; record 1 reading 2 1 0 16711681 5/1; total 1 0 0 0 0'),
    (1195, 255, DONE, 'record 0 epoch 2 ffff 0; record 1 reading 2 1 0 1 255/1; total 1 0 0 0 0'),
    (1196, 0, DONE, 'record 0 epoch 2 ffff 0; record 1 reading 2 1 0 1 5/0; total 1 0 0 0 0'),
    # their gates
    (1152, 0, DONE, 'total 0 0 0 0 0'),
    (1184, 0, DONE, 'record 0 epoch 2 ffff 0; total 0 0 0 0 0'),
    # after the end
    (1216, 165, JOURNAL_LOST, 'journal bad 2'),
    (1216, 164, DONE, 'LISTED'),
    (1217, 1, DONE, 'LISTED'),
    (1248, 165, DONE, 'LISTED'),
    # the last slot of the half, and the other half: its gate alone, its title, and its last slot
    (1048544, 165, DONE, 'LISTED'),
    (1048576, 165, DONE, 'LISTED'),
    (1048577, 67, DONE, 'LISTED'),
    (LENGTH - 32, 165, DONE, 'LISTED'),
)


def a_report_looks_at_each_byte_of_the_records(play):
    journal = play.call(['run'], lines(POSTED, globals()))[2]
    for place, byte, status, text in WRITTEN:
        reports(play, journal[:place] + bytes([byte]) + journal[place + 1:], status, text)


# The headers of a first half without records before it, and of a second half with two of them. A carry has three bodies, and one
# for each epoch and each order.
HEADER = b'\xa5CCTALK JOURNAL\x03' + bytes(8) + b'\x03'
SECOND = LENGTH // 2
SECOND_HEADER = b'\xa5CCTALK JOURNAL\x03\x01\0\0\0\x02\0\0\0\x05'
# A new journal, and one that turned once: its carry says what two records did, and one more is put, the end of an epoch.
NEW = ((0, HEADER), (33, b'\x09'), (65, b'\x0a'), (97, b'\x0b'))
TURNED = (*NEW, (SECOND, SECOND_HEADER),
          (SECOND + 33, bytes([9, 7, 0, 0, 0, 44, 1, 0, 0, 0, 0, 0, 0, 100, 0, 0, 0, 0, 0, 0, 0, 50])),
          (SECOND + 65, bytes([10, 6, 0, 0, 0, 0, 0, 0, 0, 1, 0, 0, 0, 0, 0, 0, 0, 2])),
          (SECOND + 97, bytes([11, 3, 0, 0, 0, 0, 0, 0, 0, 150])), (SECOND + 129, bytes([12, 2, 2, 1, 5, 7, 8, 9])),
          (SECOND + 161, bytes([5, 3, 7, 0, 0, 0, 4, 232, 3, 0])), (SECOND + 1152, b'\xa5\x04\x09'))
NOTHING = 'total 0 0 0 0 0'
LATE = 'record 2 epochend 9; total 6 1 2 3 150'
MOST = (20, b'\xfe\xff\xff\xff')
# What changes such a journal, and how a report then ends.
HALVES = (
    (TURNED, DONE, 'LATE'),
    # the gate of either half
    ((*TURNED, (SECOND, b'\0')), DONE, 'NOTHING'),
    ((*TURNED, (0, b'\0')), DONE, 'LATE'),
    # generations that are equal, and a first half that turned back
    ((*TURNED, (SECOND + 16, b'\0')), DONE, 'NOTHING'),
    ((*TURNED, (16, b'\x02'), (20, b'\x02')), DONE, 'NOTHING'),
    # one turn more than there are records, and two
    ((*TURNED, (16, b'\x02'), (20, b'\x01')), DONE, 'NOTHING'),
    ((*TURNED, (16, b'\x04'), (20, b'\x02')), JOURNAL_LOST, 'journal alien'),
    # an older half never is in for a current one that begins with no header and carry
    ((*TURNED, (SECOND + 161, b'\x06')), JOURNAL_LOST, 'journal alien'),
    ((*TURNED, (SECOND + 129, b'\x0d')), JOURNAL_LOST, 'journal alien'),
    ((*TURNED, (SECOND + 20, b'\x01')), JOURNAL_LOST, 'journal alien'),
    ((*TURNED, (16, b'\x01'), (20, b'\x01')), JOURNAL_LOST, 'journal alien'),
    ((*TURNED, (16, b'\x03'), (20, b'\x03')), JOURNAL_LOST, 'journal alien'),
    # the value of one record is at most 2^32
    ((*NEW, (20, b'\x01'), (42, b'\x01')), DONE, 'NOTHING'),
    ((*NEW, (20, b'\x01'), (42, b'\x01'), (38, b'\x01')), JOURNAL_LOST, 'journal alien'),
    # after 4,294,967,294 records one more is the last, whatever is after it; after so many none is
    ((*NEW, MOST), DONE, 'NOTHING'),
    ((*NEW, MOST, (1152, b'\xa5\x04'), (1184, b'\xa5')), DONE, f'record {2**32 - 2} epochend 0; NOTHING'),
    ((*NEW, MOST, (20, b'\xff'), (1152, b'\xa5\x04')), DONE, 'NOTHING'),
    # the index of a bad record counts those before the half, and none counts after a shut gate
    ((*TURNED, (SECOND + 1153, b'\0')), JOURNAL_LOST, 'journal bad 2'),
    ((*TURNED, (SECOND + 1184, b'\xa5')), JOURNAL_LOST, 'journal bad 3'),
    ((*TURNED, (SECOND + 1216, b'\xa5')), DONE, 'LATE'),
)


def the_current_half_counts(play):
    for written, status, text in HALVES:
        reports(play, blank(LENGTH, written), status, text)


# Words, what else stands beside them, and how a run or a load ends. What comes first of these decides: the words, the length of
# the disk, a byte that isn't blank.
BEFORE_A_SCRIPT = (
    (['run', 'now'], blank(), WORDS, 'words'),
    (['now'], blank(64, [(0, b'\1')]), WORDS, 'words'),
    (['run'], blank(64), DISK_SIZE, 'disksize 64'),
    (['run'], blank(64, [(0, b'\1')]), DISK_SIZE, 'disksize 64'),
    (['run'], blank(0), DISK_SIZE, 'disksize 0'),
    (['run'], blank(LENGTH, [(100, b'\1')]), NOT_BLANK, 'notblank 100'),
    (['run'], blank(LENGTH, [(LENGTH - 1, b'\1')]), NOT_BLANK, 'notblank 2097151'),
    (['load', '0', '10001'], blank(LENGTH, [(100, b'\1')]), WORDS, 'words'),
    (['load', '0', '10000'], blank(64, [(0, b'\1')]), DISK_SIZE, 'disksize 64'),
    (['load', '0', '10000'], blank(LENGTH, [(100, b'\1')]), NOT_BLANK, 'notblank 100'),
    (['load', '0', '1'], blank(LENGTH, [(LENGTH - 1, b'\1')]), NOT_BLANK, 'notblank 2097151'),
)


def words_and_disk_come_before_the_script(play):
    for words, journal, status, text in BEFORE_A_SCRIPT:
        same(play.wants(words, 'no script', status, lines(text), journal) == journal, True, text)


# Words that are in no grammar, beside those that ask for help.
NO_WORDS = (
    [], [''], ['', 'run'], ['run', ''], ['run', 'run'], ['run', 'report'], ['report', 'now'], ['report', 'report'],
    ['upgrade', 'now'], ['upgrade', 'run'], ['upgrades'], ['r'], ['ru'], ['rep'], ['runs'], ['RUN'], ['Run'],
    [' run'], ['run '], ['run\n'], ['cct_main'], ['cct_main', 'run'], ['run', 'help'], ['run', '--help'],
    ['load', '--help'], ['load', '1', '2', '--help'], ['-V'], ['--version'], ['-'], ['--'], ['--', 'run'],
    ['run', '--'], ['load'], ['load', '1'], ['load', '1', '2', '3'], ['load', '1 2'], ['lo', '1', '2'],
    ['load', '', '1'], ['load', '1', ''], ['load', '+1', '1'], ['load', '1', '+1'], ['load', '-1', '1'],
    ['load', '1', '-1'], ['load', '01', '1'], ['load', '1', '01'], ['load', '00', '1'], ['load', '1', '0'],
    ['load', '0', '4294967297'], ['load', '18446744073709551616', '1'], ['load', '0', '18446744073709551617'],
    ['load', '0x1', '1'], ['load', '1_0', '1'], ['load', 'a', '1'], ['load', '\u0661', '1'],
)


def refused_words_take_nothing(play):
    for words in NO_WORDS:
        same(play.wants(words, lines(POSTED, globals()), WORDS, 'words\n'), None, words)


# Loads and their sums: every coin is accepted and posted, and each round pays one. The second has 3 crashes, the longest 159.
LOADS = (
    ('0', '1', 26, 2, 1, 10),
    ('42', '300', 6006, 786, 300, 4860),
    ('9223372036854775808', '40', 806, 108, 40, 680),
    ('18446744073709551615', '50', 1006, 132, 50, 820),
    ('7', '10000', 200006, 26247, 10000, 162470),
)


def a_load_gives_its_sums(play):
    for seed, rounds, steps, coins, paid, available in LOADS:
        play.wants(['load', seed, rounds], '', DONE, lines(
            f'load {seed} {rounds}; steps {steps}; accepted {coins}; posted {coins}; lost 0; fell {paid}; closed {paid}; '
            f'balance {available} 0 {10 * paid} 0'))


# The setup of an acceptor, each of whose coins has a value, and no step.
SETUP = 'acceptor 2 simple 1 0; ' + VALUES + '; begin; end'
# What a journal of version 1 begins with; an epoch of the acceptor, a coin of place 5 by path 1, and the end of the epoch, one
# slot after the other.
TITLE = (0, b'\xa5CCTALK JOURNAL\x01')
EPOCH = (32, b'\xa5\x01\x02\xff\xff')
READING = (64, b'\xa5\x02\x02\x01\x00\x01\x05\x01')
EPOCH_END = (96, b'\xa5\x04\x02')
# A journal of version 1 with three records, in which no epoch runs.
STOPPED = blank(LENGTH, (TITLE, EPOCH, READING, EPOCH_END))


def upgrades(play, script, status, text, journal):
    """An upgrade for the devices of a script ends so; the journal that it leaves."""
    return play.wants(['upgrade'], lines(script, globals()), status, lines(text), journal)


def a_journal_is_brought_forward_once(play):
    reports(play, STOPPED, JOURNAL_LOST, 'journal alien')
    brought = upgrades(play, 'SETUP', DONE, 'upgraded 3', STOPPED)
    same(upgrades(play, 'SETUP', NOT_UPGRADED, 'upgrade current', brought) == brought, True, 'twice')
    reports(play, brought, DONE, 'total 1 0 0 0 0')


def records_of_another_machine_are_refused(play):
    """They don't follow where the acceptor isn't there, or a coin of the mask has no value."""
    for script in ('begin; end', 'acceptor 3 simple 1 0; value 3 5 100 XX100A; begin; end',
                   'acceptor 2 simple 1 0; value 2 5 100 XX100A; begin; end'):
        same(upgrades(play, script, JOURNAL_LOST, 'journal bad 0', STOPPED) == STOPPED, True, script)


# What stands on a disk, and how an upgrade for that setup ends. It leaves the disk as it was.
LEFT = (
    ((), JOURNAL_LOST, 'journal alien'),
    # an epoch runs
    ((TITLE, EPOCH, READING), NOT_UPGRADED, 'upgrade epoch 2'),
    ((TITLE, EPOCH), NOT_UPGRADED, 'upgrade epoch 2'),
    # its end stands after a shut gate, and doesn't count
    ((TITLE, EPOCH, EPOCH_END), NOT_UPGRADED, 'upgrade epoch 2'),
    # a byte after the title and the version
    ((TITLE, (20, b'\x07'), EPOCH, READING, EPOCH_END), JOURNAL_LOST, 'journal alien'),
    # a kind that no record has, and a record that doesn't follow
    ((TITLE, EPOCH, (64, b'\xa5\x09'), EPOCH_END), JOURNAL_LOST, 'journal bad 1'),
    ((TITLE, (32, b'\xa5\x04\x02')), JOURNAL_LOST, 'journal bad 0'),
)


def a_journal_that_is_refused_stays_as_it_was(play):
    for written, status, text in LEFT:
        journal = blank(LENGTH, written)
        same(upgrades(play, 'SETUP', status, text, journal) == journal, True, text)


def too_many_records_leave_no_half_free(play):
    """The second half begins with slot 32,768, and is free where the slots before the last one of the first half are."""
    for used, status, text in ((32766, JOURNAL_LOST, 'journal bad 0'), (32767, NOT_UPGRADED, 'upgrade room 32767'),
                               (32768, NOT_UPGRADED, 'upgrade room 32768'), (65535, NOT_UPGRADED, 'upgrade room 65535')):
        journal = blank(LENGTH, (TITLE, (32, used * 32 * b'\xa5')))
        same(upgrades(play, 'SETUP', status, text, journal) == journal, True, text)


# Scripts of an upgrade, and the line that is refused.
SCRIPTS = (
    ('', 'refused 1 cut'),
    ('acceptor 2 simple 1 0\nbegin\n', 'refused 3 cut'),
    ('begin\nend', 'refused 2 cut'),
    ('begin\nend\n\n', 'refused 3 trailing'),
    ('begin\nend\nmore', 'refused 3 trailing'),
    ('begin\nbegin\nend\n', 'refused 2 word'),
    ('begin\nnext 2\nend\n', 'refused 2 word'),
    ('begin\ncoin 2\n', 'refused 2 word'),
    ('begin\nend now\n', 'refused 2 form'),
    ('begin\nend \n', 'refused 2 form'),
    ('acceptor 1 simple 1 0\nbegin\nend\n', 'refused 1 form'),
    ('acceptor 2 simple 1 0\nacceptor 2 crc 4 0\nbegin\nend\n', 'refused 2 device'),
    (1201 * 'a', 'refused 1 long'),
)


def a_refused_script_of_an_upgrade_changes_nothing(play):
    for script, text in SCRIPTS:
        same(play.wants(['upgrade'], script, REFUSED, lines(text), STOPPED) == STOPPED, True, text)


def the_length_of_the_disk_comes_before_the_script_of_an_upgrade(play):
    for length in (0, 64, LENGTH - 1, LENGTH + 1):
        upgrades(play, 'no script', DISK_SIZE, f'disksize {length}', blank(length))
