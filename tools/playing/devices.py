"""As many devices as a setup takes, and one more: 32 acceptors running at a time, and 31 hoppers beside an acceptor."""
from player import DONE, REFUSED, Differs, lines, same

ALL = range(2, 34)
# After an acceptor.
HOPPERS = range(3, 34)


def of_each(addresses, form):
    """The lines of a form for each address, with the address in the place of `@` and a check in that of `#`: every second
    device is under the CRC."""
    return ''.join(lines(form.replace('@', str(it)).replace('#', 'crc' if it % 2 else 'simple')) for it in addresses)


def without_exchanges(transcript):
    """The lines of a transcript but those of exchanges."""
    return ''.join(line + '\n' for line in transcript.splitlines() if not line.startswith('wire '))


def a_setup_has_32_devices_at_most(play):
    most = of_each(ALL, 'acceptor @ # 1 0')
    play.wants(['run'], most + lines('begin; end'), DONE, '')
    for last in ('acceptor 34 simple 1 0', 'hopper 34 crc 1 0 10'):
        play.wants(['run'], most + lines(last), REFUSED, 'refused 33 device\n')


def thirty_two_acceptors_post_a_coin_each(play):
    """All start at a time, take a coin each, and are read at a time. Then a scan looks for them: it sends an address poll under
    each check, a simple poll to each of the 32, and one under the CRC to the 16 that don't answer that."""
    nexts = 5 * of_each(ALL, 'next @')
    transcript, total = play.run(
        of_each(ALL, 'acceptor @ # 1 0; value @ 5 100 XX100A') + lines('begin') + of_each(ALL, 'start @ 0010') + nexts
        + of_each(ALL, 'coin @ 5') + of_each(ALL, 'round @') + nexts + lines('balance; scan') + 50 * lines('next 0')
        + of_each(ALL, 'round @') + of_each(ALL, 'next @; next @; next @; next @') + of_each(ALL, 'next @') + lines('end'))
    # The credits of the acceptor at 32, under the simple check, and of that at 33, under the CRC, after a coin of place 5.
    for line in ('wire 32 200001e5fa 200001e5fa010b20000105010000000000000000cd',
                 'wire 33 21007de51c 21007de51c010b840001050100000000000000004e'):
        if f'\n{line}\n' not in transcript:
            raise Differs(f'no {line}')
    # The record of an epoch is put by the fourth `next` of a start, and its end is reported by the fifth.
    listed = ','.join(f'{it}/{"crc" if it % 2 else "simple"}' for it in ALL)
    same(without_exchanges(transcript),
         of_each(ALL, 'ok start @ 0010') + of_each(ALL, 'put epoch @ 0010 0') + of_each(ALL, 'started @')
         + of_each(ALL, 'accepted @ 5 1') + of_each(ALL, 'ok round @') + of_each(ALL, 'put reading @ 1 0 1 5/1; posted @')
         + lines(f'balance 3200 0 0 0; ok scan; listed {listed}') + of_each(ALL, 'ok round @') + of_each(ALL, 'clean @')
         + of_each(ALL, 'idle @'), 'beside exchanges')
    same(total, 'total 32 0 0 0 0', 'report')


def thirty_one_hoppers_pay_a_coin_each(play):
    """A coin of 1,000 is posted. Each hopper then gets an order of one coin of 10, with its address as the id; all are running
    at a time. No coin is left to fall then, and no job is running."""
    nexts = of_each(HOPPERS, 'next @')
    five = 5 * lines('next 2')
    transcript, total = play.run(
        lines('acceptor 2 simple 1 0; value 2 5 1000 XX1K0A') + of_each(HOPPERS, 'hopper @ # 7 0 10')
        + lines('begin; start 2 0010') + five + lines('coin 2 5; round 2') + five + of_each(HOPPERS, 'pay @ @ 1') + 4 * nexts
        + lines('balance') + of_each(HOPPERS, 'fall @') + 3 * nexts + lines('balance') + of_each(HOPPERS, 'fall @') + nexts
        + lines('end'))
    same(without_exchanges(transcript),
         lines('ok start 2 0010; put epoch 2 0010 0; started 2; accepted 2 5 1; ok round 2; put reading 2 1 0 1 5/1; posted 2')
         + of_each(HOPPERS, 'ok pay @ @ 1') + of_each(HOPPERS, 'put opened @ @ 1 0') + lines('balance 690 310 0 0')
         + of_each(HOPPERS, 'fell @') + of_each(HOPPERS, 'put closed @ 1 0; closed @') + lines('balance 690 0 310 0')
         + of_each(HOPPERS, 'nofall @') + of_each(HOPPERS, 'idle @'), 'beside exchanges')
    same(total, 'total 1 0 31 0 0', 'report')
