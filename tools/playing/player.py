"""Plays the built program over a journal of its own, and compares what it writes with what is wanted.

A script, a capture and what is written are texts of lines, with '; ' in the place of each line feed. A part that is the name
of a text of the module which plays it is that text. One call on standard input, standard output or the journal may fail
(failing.c), and the power be cut after the last one.
"""
import os
import pathlib
import struct
import subprocess
import tempfile

HERE = pathlib.Path(__file__).resolve().parent

IN_MEMORY = '/dev/shm' if os.path.isdir('/dev/shm') else None
JOURNAL = 'cctalk.jnl'
LENGTH = 2097152
MOST_SECONDS = 120

# Exit statuses.
DONE, REFUSED, WORDS, READ_FAULT, WRITE_FAULT, DISK_FAULT, NOT_BLANK, DISK_SIZE, JOURNAL_LOST, NOT_UPGRADED = (
    0, 1, 2, 3, 4, 5, 6, 7, 9, 10)


class Differs(Exception):
    """The program wrote something else, or ended otherwise."""


def lines(text, names=()):
    """The lines of such a text, one after the other."""
    parts = text.split('; ') if text else []
    return ''.join(lines(names[part], names) if part in names else part + '\n' for part in parts)


def blank(length=LENGTH, written=()):
    """The bytes of a journal that has these at their places, and else zeros."""
    journal = bytearray(length)
    for place, these in written:
        journal[place:place + len(these)] = these
    return bytes(journal)


def failing(folder):
    """Builds the functions of failing.c in a folder, by the compiler of the kit, and gives the library's path."""
    first_page = subprocess.run(['rt', 'doc'], stdout=subprocess.PIPE, text=True, check=True).stdout.split()[0]
    compiler = pathlib.Path(first_page).parent / 'toolchain' / 'bin' / 'clang'
    path = os.path.join(folder, 'failing.so')
    subprocess.run([compiler, '--target=x86_64-unknown-linux-gnu', '-fuse-ld=lld', '-shared', '-nostdlib', '-fPIC', '-O1',
                    HERE / 'failing.c', '-o', path], check=True)
    return path


class Writes:
    """What a program wrote on a journal: each write by its place, its bytes and the number of its call. A sync is a write of no
    byte."""

    def __init__(self, notes):
        self.writes = []
        at = 0
        while at < len(notes):
            place, size, call = struct.unpack_from('3q', notes, at)
            at += 24 + size
            self.writes.append((place, notes[at - size:at], call))

    def leave_out(self, calls):
        """Takes away what the first so many calls wrote."""
        self.writes = [each for each in self.writes if each[2] > calls]

    def made(self, call):
        """Whether a call wrote bytes, whole or torn."""
        return any(number == call and these for _, these, number in self.writes)

    def cut(self, journal, choice):
        """What a power cut leaves of the journal that the program found. Each byte that was written since the last sync is set
        by a choice: 0 leaves the byte before, 1 the one that was written, 2 the latter at even places and the former at odd
        ones, and any other the sum of choice and place, modulo 256."""
        journal, written = bytearray(journal), {}
        for place, these, _ in self.writes:
            written.update(enumerate(these, place))
            if not these:
                for at, byte in written.items():
                    journal[at] = byte
                written = {}
        for at, byte in written.items():
            if choice == 1 or choice == 2 and at % 2 == 0:
                journal[at] = byte
            elif choice > 2:
                journal[at] = (choice + at) % 256
        return bytes(journal)


class Player:
    """Runs one built program, with the functions of failing.c where one of its calls is to fail."""

    def __init__(self, program, functions):
        self.program = os.path.abspath(program)
        self.functions = functions
        # What the last call said on standard error, and what it wrote on its journal, where this was noted.
        self.said = ''
        self.writes = None

    def call(self, words, given='', journal=None, **fails):
        """Runs the program in a new folder, in which this journal stands, or none: its exit status, what it wrote, and the
        journal that it leaves, or None. Variables of failing.c, in small letters, say what fails."""
        with tempfile.TemporaryDirectory(dir=IN_MEMORY) as folder:
            path, notes = os.path.join(folder, JOURNAL), os.path.join(folder, 'notes')
            if journal is not None:
                with open(path, 'wb') as file:
                    file.write(journal)
            environment = None
            if fails:
                environment = {**os.environ, 'LD_PRELOAD': self.functions, 'CALLS': notes,
                               **{name.upper(): str(value) for name, value in fails.items()}}
            done = subprocess.run([self.program, *words], input=given.encode(), capture_output=True, cwd=folder,
                                  timeout=MOST_SECONDS, env=environment)
            left = read(path)
            self.writes = Writes(read(notes) or b'')
        self.said = done.stderr.decode(errors='replace')
        return done.returncode, done.stdout.decode(errors='replace'), left

    def wants(self, words, given, status, text, journal=None, **fails):
        """Runs it, and compares how it ends and what it writes; the journal that it leaves."""
        ended, written, left = self.call(words, given, journal, **fails)
        if (ended, written) != (status, text):
            raise Differs(f'{" ".join(words)!r} of\n{given[-2000:]}ends with {ended} and\n{written[-2000:]}'
                          f'and not with {status} and\n{text[-2000:]}{fails or ""}')
        return left

    def run(self, script):
        """Plays a script to its end, and gives its transcript and the last line of the report after it."""
        status, transcript, journal = self.call(['run'], script)
        listed, report, _ = self.call(['report'], '', journal)
        if (status, listed) != (DONE, DONE):
            raise Differs(f'a run ends with {status}, and a report with {listed}, of\n{script[-2000:]}')
        return transcript, report.splitlines()[-1]


def read(path):
    """The bytes of a file, or None where there is none."""
    if not os.path.exists(path):
        return None
    with open(path, 'rb') as file:
        return file.read()


def same(found, wanted, what):
    """Compares two values."""
    if found != wanted:
        raise Differs(f'{what}: {found!r}, and not {wanted!r}')


def said_after(transcript, after):
    """The lines of a transcript after this one, but those of exchanges."""
    _, _, rest = transcript.partition(f'\n{after}\n')
    return ''.join(line + '\n' for line in rest.splitlines() if not line.startswith('wire '))
