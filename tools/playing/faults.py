"""A script or a capture that comes in little by little or is cut, and calls of standard input, standard output and the journal
each of which fails once. What fails before a line of a transcript is written leaves the lines before it."""
from coins import FROM_NONE, VALUES
from journals import SETUP, STOPPED
from old_journals import SECOND, VERSION_2, laid
from player import DISK_FAULT, DONE, READ_FAULT, REFUSED, WRITE_FAULT, blank, lines, same

# Each word of a script that is played, once at least, and how many lines its transcript has for each line.
WORDS = ('acceptor 2 simple 1 0; value 2 5 100 XX100A; texts 2 A B C D; hopper 3 simple 7 10 20; begin; start 2 0010; next 2; '
         'next 2; next 2; next 2; next 2; coin 2 5; alien 2; round 2; next 2; next 2; next 2; next 2; next 2; '
         'fault devices -; fault host -; fault whole -; path 2 5 3; next 2; stop 2; ident 2; scan; next 0; pay 3 1 2; '
         'halt 3; fall 3; jam 3; settle 3; next 3; balance; reset 2; end')
WORDS_LINES = (0, 0, 0, 0, 0, 1, 1, 1, 1, 1, 2, 1, 1, 1, 1, 1, 1, 1, 2, 1, 1, 1, 1, 1, 1, 1, 1, 1, 1, 1, 1, 1, 1, 1, 1, 1, 0)
WORDS_TEXT = ('ok start 2 0010; wire 2 02000101fc 02000101fc01000200fd; '
              'wire 2 020001e518 020001e518010b02000000000000000000000000f2; '
              'wire 2 020001e11c 020001e11c01030200000000fa; put epoch 2 0010 0; '
              'wire 2 020201e7100004 020201e710000401000200fd; started 2; accepted 2 5 1; alien 2; ok round 2; '
              'wire 2 020001e11c 020001e11c01030200010000f9; '
              'wire 2 020001e518 020001e518010b02000200010501000000000000e9; '
              'wire 2 020001e617 020001e617010202001000eb; wire 2 020001e11c 020001e11c01030200010000f9; '
              'put reading 2 2 0 1 5/1; posted 2; fault devices -; fault host -; fault whole -; ok path 2 5 3; '
              'wire 2 020201d2050321 -; no stop 2 busy; no ident 2 busy; ok scan; wire 0 000001fd02 000001fd020203; '
              'ok pay 3 1 2; ok halt 3; nofall 3; nojam 3; no settle 3 busy; '
              'wire 3 030101a4a5b2 030101a4a5b201000300fc; balance 60 40 0 0; reset 2')
# A coin is posted, and a second round finds nothing to post.
POSTED = 'FROM_NONE; coin 2 5; round 2; next 2; next 2; next 2; next 2; next 2; round 2; next 2; next 2; next 2; next 2; end'
POSTED_LINES = (*18 * [0], 1, 1, 1, 1, 1, 2, 1, 1, 1, 1, 1, 1, 2, 1, 1, 1, 1, 2, 0)
READ = ('ok round 2; wire 2 020001e11c 020001e11c01030200010000f9; '
        'wire 2 020001e518 020001e518010b02000105010000000000000000eb; wire 2 020001e617 020001e61701020200fffffd; '
        'wire 2 020001e11c 020001e11c01030200010000f9')
UP_TO_PUT = ('ok start 2 ffff; wire 2 02000101fc 02000101fc01000200fd; '
             'wire 2 020001e518 020001e518010b02000000000000000000000000f2; wire 2 020001e11c 020001e11c01030200000000fa; '
             'put epoch 2 ffff 0; wire 2 020201e7ffff16 020201e7ffff1601000200fd; started 2; accepted 2 5 1; READ')
POSTED_TEXT = 'UP_TO_PUT; put reading 2 1 0 1 5/1; posted 2; READ; clean 2'
# A capture of an acceptor and a hopper: sure coins, coins that fell, a reset between two readings, and a span that is open at
# the end.
CAPTURE = ('watch 2 simple acceptor; watch 3 simple hopper; begin; '
           'tap 020001e518 020001e518010b02000000000000000000000000f2; tap 030001a854 030001a85401030300fefffffd; '
           'tap 020001e518 020001e518010b02000105010000000000000000eb; tap 020001e617 020001e61701020200fffffd; '
           'tap 030001a854 030001a85401030300020000f7; tap 02000101fc 02000101fc01000200fd; '
           'tap 020001e518 020001e518010b02000000000000000000000000f2; '
           'tap 020001e518 020001e518010b02000105010000000000000000eb; end')
# The last line is written at the end.
CAPTURE_LINES = (0, 0, 0, 0, 0, 0, 1, 1, 0, 1, 0, 0)
CAPTURE_TEXT = 'sure 2 1 3 5/1; fell 3 2 5 4; doubt 2 3 7; doubt 2 7 8'
# What is given to a word, how many lines are written for each of its lines, and these.
PLAYED = (('run', 'WORDS', WORDS_LINES, 'WORDS_TEXT'), ('run', 'POSTED', POSTED_LINES, 'POSTED_TEXT'),
          ('audit', 'CAPTURE', CAPTURE_LINES, 'CAPTURE_TEXT'))


def cases():
    """A word, what is given to it, how many lines are written for each of its lines, and these."""
    for word, given, counts, text in PLAYED:
        yield word, lines(given, globals()), counts, lines(text, globals())


def first(text, many):
    """The first so many lines of a text."""
    return ''.join(text.splitlines(keepends=True)[:many])


def places(given):
    """Places in what is given: before each line, after its first byte, in its middle, and before its line feed."""
    start = 0
    for line in given.splitlines(keepends=True):
        yield from sorted({start, start + 1, start + len(line) // 2, start + len(line) - 1})
        start += len(line)


def on(word):
    """A blank journal, which an audit doesn't use."""
    return None if word == 'audit' else blank()


def it_comes_in_by_any_amount(play):
    for word, given, _, text in cases():
        for most in (1, 7, 4096):
            play.wants([word], given, DONE, text, on(word), most=most)


def each_write_fails_once(play):
    for word, given, _, text in cases():
        for line in range(text.count('\n')):
            play.wants([word], given, WRITE_FAULT, first(text, line), on(word), failing_put=line + 1)


def each_read_fails_once(play):
    """Each read gives a byte. The last one gives none: it shows the end."""
    for word, given, counts, text in cases():
        for taken in (*places(given), len(given)):
            written = first(text, sum(counts[:given[:taken].count('\n')])) + 'readfault\n'
            play.wants([word], given, READ_FAULT, written, on(word), most=1, failing_take=taken + 1)


def it_is_cut(play):
    for word, given, counts, text in cases():
        for taken in places(given):
            whole = given[:taken].count('\n')
            written = first(text, sum(counts[:whole])) + f'refused {whole + 1} cut\n'
            play.wants([word], given[:taken], REFUSED, written, on(word))


# What a report lists of none, one and two records of that script.
LISTS = ('total 0 0 0 0 0\n', 'record 0 epoch 2 ffff 0\ntotal 0 0 0 0 0\n',
         'record 0 epoch 2 ffff 0\nrecord 1 reading 2 1 0 1 5/1\ntotal 1 0 0 0 0\n')
# A report looks at both halves, and reads the start of the current one and the slot of each record, and the one after them.
# Then it reads each record.
OPENING = 6
LISTING = OPENING + 2


def a_report_stops_at_each_fault(play):
    _, _, journal = play.call(['run'], lines(POSTED, globals()))
    for line in range(3):
        play.wants(['report'], '', WRITE_FAULT, first(LISTS[2], line), journal, failing_put=line + 1)
    for call in range(1, LISTING + 1):
        listed = first(LISTS[2], max(0, call - OPENING - 1)) + 'diskfault\n'
        play.wants(['report'], '', DISK_FAULT, listed, journal, failing_call=call)
    play.wants(['report'], '', DONE, LISTS[2], journal, failing_call=LISTING + 1, failing_put=4)


# The calls on a blank journal before a script is read: its bytes are read in 512 pieces, and four calls begin its first half.
BLANK_READS = 512
BEGUN = BLANK_READS + 4
# The shortest load, with two coins and one object that is no coin. It puts four records, of four calls each.
LOAD = 'load 0 1\nsteps 26\naccepted 2\nposted 2\nlost 0\nfell 1\nclosed 1\nbalance 10 0 10 0\n'
LOADED = BEGUN + 4 * 4


def a_load_stops_at_each_fault(play):
    for line in range(8):
        play.wants(['load', '0', '1'], '', WRITE_FAULT, first(LOAD, line), blank(), failing_put=line + 1)
    for call in (1, 2, *range(BLANK_READS, LOADED + 1)):
        written = ('load 0 1\n' if call > BEGUN else '') + 'diskfault\n'
        play.wants(['load', '0', '1'], '', DISK_FAULT, written, blank(), failing_call=call)
    play.wants(['load', '0', '1'], '', DONE, LOAD, blank(), failing_call=LOADED + 1)


# What is played in the place of the put of the reading, how many calls on the journal it makes, how many a whole round after
# it, and what both write. A power cut makes so many calls of the put; it looks at both halves, and reads the start of the
# current one, the slot of each record, and the slot after them. Where the reading is lost, the round puts it again.
PUT_AGAIN = 'crash 1; READ; put reading 2 1 0 1 5/1; posted 2'
KEPT = 'crash 2; kept reading 2 1 0 1 5/1; READ; clean 2; idle 2'
PUT = 'put reading 2 1 0 1 5/1; posted 2; READ; clean 2; idle 2'
IN_PLACE = (('crash 2 4 0', 10, 0, KEPT), ('crash 2 3 1', 9, 0, KEPT), ('crash 2 2 1', 7, 4, PUT_AGAIN),
            ('crash 2 1 1', 6, 4, PUT_AGAIN), ('crash 2 0 1', 5, 4, PUT_AGAIN), ('crash 1', 5, 4, PUT_AGAIN), ('next 2', 4, 0, PUT))
# The record of the epoch takes four calls.
BEFORE = BEGUN + 4
CHOICES = range(4)


def left_by(call, calls, again):
    """How many lines a run has written before a call on its journal, and how many records may be left if it fails: those that
    are reported, or one more where its gate may be written."""
    if call <= BEGUN:
        return 0, (0, 1)
    if call <= BEFORE:
        return 4, (0, 1)
    if call <= BEFORE + calls:
        return 13, (1, 1 if again else 2)
    return 19, (1, 2)


def report_after_cuts(play, what, call, few, many):
    """The power is cut after the last run, by each choice: a report lists so many records, or the journal wasn't begun yet."""
    writes = play.writes
    for choice in CHOICES:
        status, listed, _ = play.call(['report'], '', writes.cut(blank(), choice))
        if call > BEGUN or status == DONE:
            same(listed in LISTS[few:many + 1], True, f'{what}, choice {choice}: {listed}')
        else:
            same(listed, 'journal alien\n', f'{what}, choice {choice}')


def each_call_of_a_run_fails_once(play):
    """A write that fails is torn by each choice."""
    for line, calls, again, text in IN_PLACE:
        script = lines(f'FROM_NONE; coin 2 5; round 2; next 2; next 2; next 2; next 2; {line}; '
                       'round 2; next 2; next 2; next 2; next 2; next 2; end', globals())
        text = lines(f'UP_TO_PUT; {text}', globals())
        last = BEFORE + calls + again
        for call in (1, 2, *range(BLANK_READS, last + 1)) if line == 'next 2' else range(BEFORE + 1, last + 1):
            written, (few, many) = left_by(call, calls, again)
            for torn in CHOICES:
                play.wants(['run'], script, DISK_FAULT, first(text, written) + 'diskfault\n', blank(), failing_call=call, torn=torn)
                is_write = play.writes.made(call)
                report_after_cuts(play, f'{line}, call {call}, torn by {torn}', call, few, many)
                if torn == 0 and not is_write:
                    break
        play.wants(['run'], script, DONE, text, blank(), failing_call=last + 1)


# What an upgrade finds: a journal of version 1, the same over a second half with an open gate, and one of version 2 that turned
# once.
OLD = (STOPPED, laid(STOPPED, (SECOND, 200 * b'\xa5')), VERSION_2)
# The writes and syncs of a turn.
TURN = 6
MOST_CALLS = 64


def an_upgrade_stops_at_each_fault(play):
    script = lines(SETUP, globals())
    play.wants(['upgrade'], script, READ_FAULT, 'readfault\n', STOPPED, most=7, failing_take=3)
    play.wants(['upgrade'], script, WRITE_FAULT, '', STOPPED, failing_put=1)
    play.wants(['upgrade'], script, DISK_FAULT, 'diskfault\n', STOPPED, failing_call=1)


def brought_forward_after_cuts(play, journal, what):
    """The power is cut after the last upgrade, by each choice: the journal is the old one or the new one, and the next upgrade
    says which. The sums of that one are right."""
    writes = play.writes
    for choice in CHOICES:
        status, text, left = play.call(['upgrade'], lines(SETUP, globals()), writes.cut(journal, choice))
        same(text, 'upgraded 3\n' if status == DONE else 'upgrade current\n', f'{what}, choice {choice}')
        play.wants(['report'], '', DONE, 'total 1 0 0 0 0\n', left)


def an_upgrade_that_is_cut_off_is_made_again(play):
    script = lines(SETUP, globals())
    for journal in OLD:
        for call in range(1, MOST_CALLS):
            for torn in CHOICES:
                status, text, _ = play.call(['upgrade'], script, journal, failing_call=call, torn=torn)
                if status == DONE:
                    break
                is_write = play.writes.made(call)
                brought_forward_after_cuts(play, journal, f'call {call}, torn by {torn}')
                if torn == 0 and not is_write:
                    break
            if status == DONE:
                break
        # The old journal is read before the turn.
        same(text, 'upgraded 3\n', 'no call fails')
        same(TURN < call < MOST_CALLS - 1, True, f'{call} calls')
