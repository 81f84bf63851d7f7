"""The file of a journal: how it is made, opened, locked and measured, and what fails of that. Its calls move as many bytes as they
are asked to, or few."""
import errno

from coins import FROM_NONE
from faults import POSTED, POSTED_TEXT, READ, UP_TO_PUT
from player import DISK_FAULT, DONE, LENGTH, WRITE_FAULT, blank, lines, same

IN_USE = 11
SCRIPT = lines('POSTED', globals())
TEXT = lines('POSTED_TEXT', globals())
FAULT = (DISK_FAULT, 'diskfault\n')
USED = (IN_USE, 'inuse journal\n')
# A new file is filled by so many writes, and synced.
FILLING = 128


def a_file_is_made_whole(play):
    made = play.wants(['run'], SCRIPT, DONE, TEXT)
    same(len(made), LENGTH, 'its length')
    same(play.wants(['run'], SCRIPT, DONE, TEXT, blank()), made, 'a blank file')


# What fails of a file that is there, or of one that is made; how a run ends, and what it leaves of the file.
FAILING = (
    (True, {'failing_open': 1}, FAULT, blank()),
    (True, {'failing_lock': errno.ENOLCK}, FAULT, blank()),
    (True, {'failing_lock': errno.EWOULDBLOCK}, USED, blank()),
    (True, {'failing_size': 1}, FAULT, blank()),
    (True, {'failing_place': 1}, FAULT, blank()),
    (True, {'failing_call': 1, 'empty': 1}, FAULT, blank()),
    (False, {'failing_open': 2}, FAULT, None),
    (False, {'failing_lock': errno.ENOLCK}, FAULT, None),
    (False, {'failing_lock': errno.EWOULDBLOCK}, USED, b''),
    (False, {'failing_call': 1}, FAULT, None),
    (False, {'failing_call': FILLING}, FAULT, None),
    (False, {'failing_call': FILLING, 'empty': 1}, FAULT, None),
    (False, {'failing_call': FILLING + 1}, FAULT, None),
    (False, {'failing_size': 1}, FAULT, blank()),
    (False, {'failing_place': 1}, FAULT, blank()),
    (False, {'failing_call': FILLING + 2, 'empty': 1}, FAULT, blank()),
)


def what_fails_of_a_file_is_told(play):
    for is_there, fails, (status, text), left in FAILING:
        found = play.wants(['run'], SCRIPT, status, text, blank() if is_there else None, **fails)
        same(found == left, True, fails)


def a_write_that_takes_nothing_fails(play):
    # The first write begins the journal, after the 512 reads of a blank file.
    play.wants(['run'], SCRIPT, DISK_FAULT, 'diskfault\n', blank(), failing_call=513, empty=1)
    play.wants(['run'], SCRIPT, WRITE_FAULT, TEXT.splitlines()[0] + '\n', blank(), failing_put=2, empty=1)


def who_only_reads_needs_no_lock(play):
    _, _, journal = play.call(['run'], SCRIPT)
    for lock in (errno.ENOLCK, errno.EWOULDBLOCK):
        status, text, _ = play.call(['report'], '', journal, failing_lock=lock)
        same((status, text.splitlines()[-1]), (DONE, 'total 1 0 0 0 0'), lock)


def a_file_that_another_process_makes_is_opened(play):
    left = play.wants(['run'], SCRIPT, DONE, TEXT, made_first=LENGTH)
    same(left, play.call(['run'], SCRIPT)[2], 'its bytes')


def a_folder_is_no_file(play):
    play.wants(['report', '--journal', '.'], '', DISK_FAULT, 'diskfault\n')


def few_bytes_move_at_a_time(play):
    whole = play.call(['run'], SCRIPT)[2]
    same(play.wants(['run'], SCRIPT, DONE, TEXT, blank(), little=7), whole, 'a blank file')
    same(play.wants(['run'], SCRIPT, DONE, TEXT, little=1000), whole, 'a new file')
