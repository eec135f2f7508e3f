"""The programs of examples/, built and run as their heads say."""

import re
import subprocess

from tests.examples.places import EXAMPLES, GIVEN, ROOT
from tests.model import soil
from tests.writes.by_hand.worked import read
from tests.writes.five_jobs import district_lines
from tests.writes.logs import BORING
from tests.writes.moves import moves_lines
from tests.writes.scaling import scaling_lines
from tests.writes.six_storeys import drift_lines
from tests.writes.towers import podium_lines

ARCHIVE = 'target/lib/librukeshomaji.a'
STRICT = {'cc ': 'cc -std=c99 -Wall -Wextra -pedantic -Werror ', 'c++ ': 'c++ -std=c++11 -Wall -Wextra -pedantic -Werror '}


def command(path):
    """The command that the head of an example says, made strict, with the library that was named."""
    said = re.search(r'^(?: \*|#)?\s{4,5}(\S.*target/.*|python3 .*)$', path.read_text(), re.M)[1]
    for plain, strict in STRICT.items():
        said = re.sub(rf'^{re.escape(plain)}', strict, said)
    return said.replace(ARCHIVE, GIVEN) if GIVEN else said


def printed(path):
    """What it prints."""
    return subprocess.run(command(path), shell=True, cwd=ROOT, check=True, stdout=subprocess.PIPE).stdout


def run_programs():
    """Three examples print the listing of the worked sheet, two what the manual has of a scaled analysis, two its towers, two
    which way its figures move, two its district of five jobs, two its frame, floors and moments, two the class of its boring in soft clay; that in
    C++ prints every listing."""
    expected = (EXAMPLES / 'office.listing').read_bytes()
    for name in ('office.c', 'listing.cpp', 'rukeshomaji.py'):
        yield name, printed(EXAMPLES / name) == expected
    office = read((EXAMPLES / 'office.sheet').read_bytes())
    for example, lines in (('scaling', scaling_lines(office)), ('podium', podium_lines(office)), ('moves', moves_lines(office)),
                           ('district', district_lines()), ('drift', drift_lines(office))):
        expected = ''.join(f'{line}\n' for line in lines).encode()
        for name in (f'{example}.c', f'{example}.py'):
            yield name, printed(EXAMPLES / name) == expected
    expected = b'class\t%d\n' % soil.log(*BORING).cls
    for name in ('boring.c', 'boring.py'):
        yield name, printed(EXAMPLES / name) == expected
    for sheet in sorted(EXAMPLES.glob('*.sheet')):
        run = subprocess.run([ROOT / 'target' / 'lib' / 'listing'], input=sheet.read_bytes(), capture_output=True, check=False)
        listing = sheet.with_suffix('.listing').read_bytes()
        refused = listing.split()[1:] if listing.startswith(b'refused') else ()
        wanted = (1, b'', b'refused %s at %s\n' % tuple(refused)) if refused else (0, listing, b'')
        yield f'listing.cpp on {sheet.name}', (run.returncode, run.stdout, run.stderr) == wanted
