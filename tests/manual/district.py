"""The page on districts: its loop, run by the shell, and what it says of sheets that are not as laid out; the stored file and its listing."""

import pathlib
import re
import subprocess
import sys
import tempfile

from tests.manual.pages import MANUAL, OFFICE, ROOT, page
from tests.model import sheet, sheets
from tests.writes import hundred_sheets as hundred

NAME = 'docs/manual/district.md'
LINES = OFFICE.splitlines(keepends=True)
# a sheet of the table: its words on the page, the sheet, what ./shear alone prints, and the rows in the joined file
ODD = (
    ('has no LF at the end', OFFICE[:-1], (16, 5), [(0, 0)]), ('has no byte', b'', (16, 1), [(16, 1)]),
    ('has an empty line in it, or one at its end', b''.join([*LINES[:4], b'\n', *LINES[4:]]), (16, 5), [(0, 0), (16, 1)]),
    ('has an empty line in it, or one at its end', OFFICE + b'\n', (16, 6), [(0, 0), (16, 1)]),
    ('has Windows line ends', OFFICE.replace(b'\n', b'\r\n'), (16, 1), [(16, 1)]),
)


def loop(leave_out=''):
    """The loop of the page, or the loop without a line of it."""
    lines = re.search(r'```\n(for sheet in \*\.sheet; do\n.*?> (\S+)\n)```', page('district.md'), re.S)
    return ''.join(line for line in lines[1].splitlines(keepends=True) if not leave_out or leave_out not in line), lines[2]


def run(script, made, every):
    """The file that a script makes of a folder of sheets, and what it prints."""
    with tempfile.TemporaryDirectory() as folder:
        for number, data in enumerate(every, 1):
            with open(f'{folder}/{number:03}.sheet', 'wb') as file:
                file.write(data)
        printed = subprocess.run(['sh', '-eu'], input=script.encode(), cwd=folder, stdout=subprocess.PIPE, check=True).stdout
        with open(f'{folder}/{made}', 'rb') as file:
            return file.read(), printed.decode()


def rows(data):
    """Number and place of each row of a file."""
    return [tuple(sheets.answer(part).row[:2]) for part in sheets.parts(data)]


def odd_sheets():
    """Each sheet of the table between two sound ones: what it gets alone and in the joined file, and that it is on the page."""
    script, made = loop()
    for words, data, alone, wanted in ODD:
        yield f'| {words} | refused with 16' in page('district.md'), f'{NAME}: no row: {words}'
        yield sheet.shear(data) == sheet.refused(*alone), f'{NAME}: {words}: alone'
        joined_file, _ = run(script, made, [OFFICE, data, OFFICE])
        yield rows(joined_file) == [(0, 0), *wanted, (0, 0)], f'{NAME}: {words}: {rows(joined_file)}'


def by_awk():
    """The commands that find one sheet and that split a file: each sheet of the stored file; a file of 300 sheets."""
    found = re.search(r"^    (awk -v k=)(\d+)( '.*') examples/district\.sheets \| \./shear$", page('district.md'), re.M)
    for number, wanted in enumerate(hundred.hundred(), 1):
        got = subprocess.run(['sh', '-eu', '-c', f'{found[1]}{number}{found[3]}'], input=hundred.SHEETS.read_bytes(), stdout=subprocess.PIPE, check=True).stdout
        yield got == wanted, f'{NAME}: one sheet of the file: {number}'
    split = re.search(r"```\n(awk '\{ part = .*? city\.sheets\n)```", page('district.md'), re.S)[1]
    every = [OFFICE.replace(b'\t150\n', b'\t%d\n' % (100 + number % 101)) for number in range(300)]
    with tempfile.TemporaryDirectory() as folder:
        path = pathlib.Path(folder)
        (path / 'city.sheets').write_bytes(sheets.write(every))
        subprocess.run(['sh', '-eu'], input=split.encode(), cwd=folder, check=True)
        parts = [each.read_bytes() for each in sorted(path.glob('part*.sheets'))]
        names = [each.name for each in sorted(path.glob('part*'))]
    most = sheets.MOST_SHEETS
    yield names == ['part0000.sheets', 'part0001.sheets'], f'{NAME}: the parts of a file: {names}'
    yield [sheets.parts(part) for part in parts] == [every[:most], every[most:]], f'{NAME}: the sheets of the parts'


def joined():
    """The loop on the hundred sheets and on odd ones; its names; without its third line; the limits of a file that the page names."""
    script, made = loop()
    every = hundred.hundred()
    names = re.search(r"^    (printf '%s\\n' \*\.sheet \| cat -n)$", page('district.md'), re.M)[1]
    data, printed = run(f'{script}{names}\n', made, every)
    yield data == hundred.SHEETS.read_bytes() == hundred.file_of_sheets(), f'{NAME}: the loop does not make examples/district.sheets'
    yield hundred.LISTING.read_bytes() == sheets.listing(data), 'examples/district.listing: not what its sheets get'
    yield printed.split() == [word for number in range(1, len(every) + 1) for word in (str(number), f'{number:03}.sheet')], f'{NAME}: names: {printed}'
    yield from odd_sheets()
    yield from by_awk()
    command = re.search(r'^    python3 (-m tests\.compares\.run_model district) < examples/district\.sheets$', page('district.md'), re.M)[1]
    by_model = subprocess.run([sys.executable, *command.split()], input=hundred.SHEETS.read_bytes(), cwd=ROOT, stdout=subprocess.PIPE, check=True).stdout
    yield by_model == hundred.LISTING.read_bytes(), f'{NAME}: {command}'
    data, _ = run(loop('tail -c 1')[0], made, [OFFICE, OFFICE[:-1], OFFICE])
    yield rows(data) == [(0, 0), (16, 6)], f'{NAME}: without the third line: {rows(data)}'
    yield (MANUAL / 'pictures' / 'district.svg').exists(), f'{NAME}: no picture'
