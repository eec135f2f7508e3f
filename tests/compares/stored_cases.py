"""The stored cases of the gate's programs: the numbers of each, every refusal that applies to it by the model, and the one that is given.

The numbers are read from the files that the programs read, what is given from those that the programs are held to.
"""

import itertools
import pathlib
import re
from typing import NamedTuple

from tests.model import limits, sheet, soil
from tests.writes import log_cases, refusal_cases

CRATES = pathlib.Path(__file__).resolve().parents[2] / 'crates'
NINE, FRAME, BUFFERS = len(limits.Site._fields), len(limits.Frame._fields), 3
SITE_GROUND, DISTRIBUTION = 0, 2        # what the first number of a row says; 1 is the Basin
REFUSED = re.compile(r'refused(?: |\t)(\d+)(?: at |\t)(\d+)$')


class Case(NamedTuple):
    """A stored case: its ground by name, all values of each of its numbers, what applies to it, in order, as (refusal, place)."""

    ground: str
    numbers: dict
    applies: list

    def names(self):
        """The refusals that apply."""
        return frozenset(name for name, _ in self.applies)

    def twice(self):
        """The refusals that apply at two places or more."""
        names = [name for name, _ in self.applies]
        return {name for name in names if names.count(name) > 1}


def made(ground, numbers, applies, said):
    """A case, of which its file says what the model says: the first that applies is given."""
    applies, match = list(applies), REFUSED.search(said)
    first = [(re.match(r'\d+', name)[0], str(place)) for name, place in applies[:1]]
    assert ([match.groups()] if match else []) == first, (said, applies)
    return Case(ground, numbers, applies)


def rows(crate):
    """The rows of numbers that a program reads, after the count of its cases."""
    count, *lines = (CRATES / crate / 'stdin').read_text().splitlines()
    return int(count), [[int(word) for word in line.split()] for line in lines]


def pairs_of(row):
    """The changes of a row, each a field and its value."""
    return zip(row[::2], row[1::2])


def said_by(crate):
    """The lines that a program is held to."""
    return (CRATES / crate / 'stdout').read_text().splitlines()


def level_refusals(weights, heights, buffers):
    """Refusals 1 to 4, 1 and 2 with their reason."""
    for number, place in limits.level_refusals(weights, heights, buffers):
        if number == 1:
            yield '1, over 50' if weights else '1, no level', place
        elif number == 2:
            yield from [('2, lists', place)] * (len(heights) != len(weights))
            yield from [('2, a buffer', place)] * any(length < len(weights) for length in buffers)
        else:
            yield str(number), place


def named(refusals):
    """Other refusals: 5 and 6 with their place, which says what number is wrong."""
    return [(f'{number} at {place}' if number in (5, 6) else str(number), place) for number, place in refusals]


def level_numbers(weights, heights, buffers=()):
    """The numbers of levels; of lists and buffers how much longer they are than the list of weights."""
    rises = {above - below for below, above in itertools.pairwise(heights)}
    numbers = {'weight': {*weights}, 'height': {*heights}, 'rise': rises, 'levels': {len(weights)}, 'lists': {len(heights) - len(weights)}}
    return numbers | {f'buffer {place}': {length - len(weights)} for place, length in enumerate(buffers, 1)}


def plain_numbers(*parts):
    """The numbers of grounds and frames by their names."""
    return {name: {value} for part in parts for name, value in part._asdict().items()}


def job_case(ground, frame, weights, heights, buffers, said):
    """A job on a site or in the Basin."""
    ground, frame = limits.ground_of(ground), limits.Frame(*frame)
    applies = [*level_refusals(weights, heights, buffers), *named(limits.ground_refusals(ground)), *named(limits.frame_refusals(frame))]
    return made(type(ground).__name__, level_numbers(weights, heights, buffers) | plain_numbers(ground, frame), applies, said)


def judged_jobs():
    """The changed jobs of `run_refusals`."""
    count, (good, *changed) = rows('run_refusals')
    assert len(changed) == count
    for row, said in zip(changed, said_by('run_refusals'), strict=True):
        yield job_case(*refusal_cases.inputs({**dict(enumerate(good)), **dict(pairs_of(row))}), said)


def ground_in(kind, row):
    """The ground that a row's first nine numbers are."""
    return limits.Site(*row[:NINE]) if kind == SITE_GROUND else limits.Basin(row[0])


def job_calls():
    """The calls of `run_jobs`, each with five lines said of it."""
    count, jobs = rows('run_jobs')
    answers = said_by('run_jobs')[::BUFFERS + 2]
    assert len(jobs) == count
    for (kind, *row), said in zip(jobs, answers, strict=True):
        frame, (weights, heights, *buffers) = row[NINE:NINE + FRAME], row[NINE + FRAME:NINE + FRAME + 2 + BUFFERS]
        lists = row[NINE + FRAME + 2 + 2 * BUFFERS:]
        assert len(lists) == weights + heights
        yield job_case(ground_in(kind, row), frame, lists[:weights], lists[weights:], buffers, said)


def shear_case(kind, row, said):
    """A shear call."""
    ground, frame, (weight, height) = ground_in(kind, row), limits.Frame(*row[NINE:NINE + FRAME]), row[NINE + FRAME:]
    numbers = plain_numbers(ground, frame) | {'weight': {weight}, 'height': {height}}
    return made(type(ground).__name__, numbers, named(limits.shear_call_refusals(ground, frame, weight, height)), said)


def distribution_case(row, said):
    """A distribution."""
    base_shear, period, weights, heights, *buffers = row[:4 + BUFFERS]
    lists = row[4 + 2 * BUFFERS:]
    assert len(lists) == weights + heights
    lists = lists[:weights], lists[weights:], buffers
    applies = [*level_refusals(*lists), *named(limits.handed_in_refusals(base_shear, period))]
    return made('', level_numbers(*lists) | {'base shear': {base_shear}, 'period': {period}}, applies, said)


def calls():
    """The shear calls and the distributions of `run_calls`: one line is said of a shear call, four of a distribution."""
    count, all_rows = rows('run_calls')
    lines = iter(said_by('run_calls'))
    assert len(all_rows) == count
    for kind, *row in all_rows:
        said = next(lines)
        if kind == DISTRIBUTION:
            assert len(list(itertools.islice(lines, BUFFERS))) == BUFFERS
        yield distribution_case(row, said) if kind == DISTRIBUTION else shear_case(kind, row, said)
    assert next(lines, None) is None


def log_refusals(thicknesses, kinds, values):
    """Refusals of a log, 13, 14 and 15 with their reason."""
    for number, place in soil.refusals(thicknesses, kinds, values):
        if number == 13:
            yield '13, over 40' if thicknesses else '13, no layer', place
        elif number == 14:
            yield '14, a layer' if place else '14, the sum', place
        elif number == 15:
            yield '15, value' if kinds[place - 1] in soil.VALUE else '15, kind', place
        else:
            yield str(number), place


def logs():
    """The soil logs of `run_logs`."""
    count, all_rows = rows('run_logs')
    for row, said in zip(all_rows, said_by('run_logs')[:count], strict=True):
        changes = [change for change in pairs_of(row[3:]) if change[0] != log_cases.NONE]
        thicknesses, kinds, values = log_cases.lists(row[:3], changes)
        numbers = {'layers': {len(thicknesses)}, 'thickness': {*thicknesses}, 'sum': {sum(thicknesses)}, 'kind': {*kinds}}
        numbers |= {f'{name} list': {len(listed) - len(thicknesses)} for name, listed in (('kinds', kinds), ('values', values))}
        numbers |= {f'value of kind {each}': {value for kind, value in zip(kinds, values) if kind == each} for each in soil.VALUE}
        yield made('', numbers, log_refusals(thicknesses, kinds, values), said)


def line_1(line, ground):
    """Numbers and refusals of line 1. Where it has one pair for both levels, the pair stands there once and is judged at places 1 and 2."""
    numbers, refusals = plain_numbers(ground), named(limits.ground_refusals(ground))
    if sheet.SITE.fullmatch(line):
        numbers = {name: values for name, values in numbers.items() if name not in ('NAM', 'NVM')}
        refusals = [refusal for refusal in refusals if refusal[0] not in ('6 at 3', '6 at 4')]
    return numbers, refusals


def line_2(frame):
    """Numbers and refusals of line 2."""
    return plain_numbers(limits.Frame(*frame)), named(limits.frame_refusals(limits.Frame(*frame)))


def sheet_case(data, said):
    """A sheet. Where a line is not as laid out, the others are judged all the same."""
    *lines, rest = data.split(b'\n')
    read = [sheet.numbers_of(number, line) for number, line in enumerate(lines, 1)]
    applies = [('17', 0)] * (len(data) > sheet.MOST_BYTES)
    applies += [('16', number) for number, found in enumerate(read, 1) if found is None]
    applies += [('16', len(lines) + 1)] * (rest != b'' or len(lines) < 2)
    levels = [level for level in read[2:] if level is not None]
    weights, heights = ([level[place] for level in levels] for place in (0, 1))
    numbers = {'bytes': {len(data)}} | level_numbers(weights, heights)
    applies += level_refusals(weights, heights, ())
    for line, found in enumerate(read[:2], 1):
        if found is not None:
            more, refusals = line_1(lines[0], found) if line == 1 else line_2(found)
            numbers, applies = numbers | more, applies + refusals
    return made('Basin' if data.startswith(b'basin') else 'Site', numbers, applies, said)


def sheets():
    """The sheets of `run_sheets`, each with the first line of its listing, which follows its name."""
    folder = CRATES / 'run_sheets' / 'data'
    names = (folder / 'names').read_text().splitlines()
    assert {path.name for path in folder.iterdir()} == {'names', *names}
    said = {name: first for name, first in itertools.pairwise(said_by('run_sheets')) if name in {*names}}
    yield from (sheet_case((folder / name).read_bytes(), said[name]) for name in names)
