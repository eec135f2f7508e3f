"""Runs ./shear as a user does: the examples, a sheet that arrives byte by byte, one typed at a terminal, input without end, every refusal.
Compared are what it prints, what it says on standard error and its exit status.

usage: python3 -m tests.compares.run_program
"""

import array
import fcntl
import itertools
import os
import pathlib
import pty
import subprocess
import sys
import termios
import threading
import time

from tests.compares.said import meaning
from tests.model import sheet

ROOT = pathlib.Path(__file__).resolve().parents[2]
SECONDS = 60
END = b'\x04'          # what Ctrl-D sends
TWO_PAIRS = b'site\t80\t45\t100\t55\t120\t150\t110\t130\t1\n'


def run(pieces, name='shear'):
    """What the program prints and says, and its status, for input that arrives in pieces, each read before the next comes; it may end before
    it has read them all, and is ended where it does not end."""
    program = subprocess.Popen([ROOT / name], stdin=subprocess.PIPE, stdout=subprocess.PIPE, stderr=subprocess.PIPE)
    deadline = threading.Timer(SECONDS, program.kill)
    deadline.start()
    try:
        for piece in pieces:
            program.stdin.write(piece)
            program.stdin.flush()
            while unread(program.stdin) and program.poll() is None:
                time.sleep(0.0002)
        program.stdin.close()
    except BrokenPipeError:
        pass
    return ended(program, deadline)


def ended(program, deadline):
    """What a program has printed and said, and its status."""
    printed, said = program.stdout.read(), program.stderr.read()
    program.wait()
    deadline.cancel()
    return printed, said, program.returncode


def run_typed(data, name='shear'):
    """The same for lines typed at a terminal, whose end is said once; it is ended where it waits for more."""
    keyboard, terminal = pty.openpty()
    program = subprocess.Popen([ROOT / name], stdin=terminal, stdout=subprocess.PIPE, stderr=subprocess.PIPE)
    deadline = threading.Timer(SECONDS, program.kill)
    deadline.start()
    for line in [*data.splitlines(keepends=True), END]:
        os.write(keyboard, line)
    answer = ended(program, deadline)
    os.close(keyboard)
    os.close(terminal)
    return answer


def run_with(words, name='shear', **files):
    """The same for arguments, and files in place of the three."""
    run_once = subprocess.run([ROOT / name, *words], **{'stdin': subprocess.DEVNULL, 'stdout': subprocess.PIPE, **files}, check=False,
                              stderr=subprocess.PIPE)
    return run_once.stdout, run_once.stderr, run_once.returncode


def unread(pipe):
    """How many bytes of it lie unread."""
    count = array.array('i', [0])
    fcntl.ioctl(pipe, termios.FIONREAD, count)
    return count[0]


def bytes_of(data):
    """Each byte as a piece of its own."""
    return (data[place:place + 1] for place in range(len(data)))


def answer(listing, seen=''):
    """What is printed, said and returned where a listing is printed; seen is what can be seen of a line that is refused."""
    if not listing.startswith(b'refused'):
        return listing, b'', 0
    number, place = map(int, listing.split()[1:])
    return listing, f'shear: {meaning(number, place, seen)}\n'.encode(), 1


def bad_lines(worked):
    """Sheets with a line that is not as laid out, and what can be seen of it."""
    lines = worked.splitlines(keepends=True)
    yield 'lines that end in CR LF', worked.replace(b'\n', b'\r\n'), 'a CR stands at its end'
    yield 'a byte order mark', b'\xef\xbb\xbf' + worked, 'a byte order mark stands before it'
    yield 'blanks for tabs', worked.replace(b'\t', b' '), 'a blank stands in it: fields are separated by one tab'
    yield 'no LF at the end', worked[:-1], 'no LF ends it'
    yield 'no LF after a NUL', worked + b'\0', 'no LF ends it'
    yield 'eight numbers on line 1', worked.replace(b'\t100\t1\n', b'\t100\t100\t1\n', 1), 'a site line has 7 or 9 numbers, this one has 8 fields'
    yield 'ten numbers and a CR on line 1', worked.replace(b'\t100\t1\n', b'\t100\t100\t100\t100\t1\r\n', 1), \
        'a CR stands at its end, a site line has 7 or 9 numbers, this one has 10 fields'
    yield 'a byte order mark, blanks and CR', b'\xef\xbb\xbf' + worked.replace(b'\t', b' ').replace(b'\n', b'\r\n'), \
        'a byte order mark stands before it, a CR stands at its end, a blank stands in it: fields are separated by one tab'
    yield 'a blank at the end of the last line, and no LF', worked[:-1] + b' ', \
        'a blank stands in it: fields are separated by one tab, no LF ends it'
    yield 'a site line alone', lines[0], 'the sheet ends before it'
    yield 'another word', worked.replace(b'frame', b'Frame'), ''
    yield 'an empty line', b''.join([*lines[:3], b'\n', *lines[3:]]), 'it is empty'


def refused(worked):
    """A sheet for each refusal of a job that a sheet can get, at each place; of a site's sheet or the Basin's."""
    lines = [line.split(b'\t') for line in worked.splitlines()]
    for line, place in [*((0, place) for place in range(1, len(lines[0]))), *((1, place) for place in range(1, 6)), (3, 1), (3, 2)]:
        changed = [list(each) for each in lines]
        changed[line][place] = b'99999'
        yield f'line {line + 1}, number {place}', b''.join(b'\t'.join(each) + b'\n' for each in changed)
    yield 'no level', b''.join(b'\t'.join(each) + b'\n' for each in lines[:2])


def cases():
    """What is tried: name, how it is run, on what, what must come back."""
    for path in sorted((ROOT / 'examples').glob('*.sheet')):
        data = path.read_bytes()
        yield path.name, run, [data], answer(path.with_suffix('.listing').read_bytes())
        yield f'{path.name} byte by byte', run, bytes_of(data), answer(sheet.shear(data))
        yield f'{path.name} typed', run_typed, data, answer(sheet.shear(data))
    worked = (ROOT / 'examples' / 'office.sheet').read_bytes()
    yield 'a sheet cut off, byte by byte', run, bytes_of(worked[:-1]), answer(sheet.shear(worked[:-1]), 'no LF ends it')
    for name, data, seen in bad_lines(worked):
        yield name, run, [data], answer(sheet.shear(data), seen)
    basin = b'basin\t3\n' + worked.split(b'\n', 1)[1]
    yield 'a sheet of the Basin', run, [basin], answer(sheet.shear(basin))
    yield 'a sheet of the Basin byte by byte', run, bytes_of(basin), answer(sheet.shear(basin))
    yield 'a basin line alone', run, [b'basin\t3\n'], answer(b'refused\t16\t2\n', 'the sheet ends before it')
    near = TWO_PAIRS + worked.split(b'\n', 1)[1]
    yield 'a sheet with two pairs', run, [near], answer(sheet.shear(near))
    yield 'a sheet with two pairs byte by byte', run, bytes_of(near), answer(sheet.shear(near))
    for before, good in (('', worked), ('Basin, ', basin), ('two pairs, ', near)):
        for name, data in refused(good):
            yield f'refused: {before}{name}', run, [data], answer(sheet.shear(data))
    endless = itertools.chain([worked], itertools.repeat(b'level\t1\t1\n'))
    yield 'a sheet, then level lines without end', run, endless, answer(b'refused\t17\t0\n')
    yield 'zero bytes without end', run, itertools.repeat(b'\0' * 512), answer(b'refused\t17\t0\n')
    yield 'no input', run, [], answer(b'refused\t16\t1\n', 'the sheet ends before it')
    yield 'no input typed', run_typed, b'', answer(b'refused\t16\t1\n', 'the sheet ends before it')
    yield 'an argument', run_with, ['examples/office.sheet'], (b'', b'usage: ./shear < SHEET\n', 2)
    with open(ROOT / 'examples' / 'office.sheet', 'rb') as given, open('/dev/full', 'wb') as full:
        yield 'a listing that cannot be written', lambda words: run_with(words, stdin=given, stdout=full), [], \
            (None, b'shear: the listing could not be written\n', 2)
    folder = os.open(ROOT / 'examples', os.O_RDONLY)
    yield 'input that cannot be read', lambda words: run_with(words, stdin=folder), [], \
        (b'', b'shear: standard input could not be read to its end\n', 2)
    os.close(folder)


def compared(every, program='shear'):
    """Try all, say how each went; 1 where one differs."""
    run_with([], program)       # what is to be built is built, and said, here
    wrong = 0
    for name, tried, given, expected in every:
        got = tried(given)
        wrong += got != expected
        print('same' if got == expected else f'DIFFERS, {got}, wanted {expected}:', name)
    print(wrong, 'differences')
    return 1 if wrong else 0


if __name__ == '__main__':
    sys.exit(compared(cases()))
